package rbacclient

import (
	"context"
	"encoding/json"
	"testing"
	"time"
)

// TestWatch reads what a front writes, and nothing else: clients/conformance/watches.json.
func TestWatch(t *testing.T) {
	var cases []struct {
		Name, Text string
		Events     [][]interface{}
	}
	shared(t, "watches.json", &cases)
	s := serve(t)
	office, err := New(Config{Addresses: []string{s.address()}})
	if err != nil {
		t.Fatal(err)
	}
	for _, test := range cases {
		t.Run(test.Name, func(t *testing.T) {
			s.set("HTTP/1.1 200 OK\r\nContent-Type: text/event-stream\r\nConnection: close\r\n\r\n"+test.Text, false)
			watch, err := office.Watch(context.Background(), 0, 7, time.Minute)
			if err != nil {
				t.Fatal(err)
			}
			defer watch.Close()
			for i, event := range test.Events {
				got, err := watch.Next()
				number, _ := json.Marshal(got.Number)
				wanted, _ := json.Marshal(uint64(event[0].(float64)))
				line, hasLine := event[1].(string)
				if err != nil || len(number) < 18 && string(number) != string(wanted) || string(got.Line) != line || (got.Line != nil) != hasLine {
					t.Errorf("event %d: %d, %q, %v", i, got.Number, got.Line, err)
				}
				if got.HasRevision != (len(event) > 2) || got.HasRevision && event[2] != float64(got.Revision) {
					t.Errorf("event %d: the revision %d", i, got.Revision)
				}
			}
			want := Unanswered
			if test.Events == nil {
				want = Unexpected
			}
			if _, err := watch.Next(); err == nil || asError(err).Reason != want {
				t.Errorf("the end: %v", err)
			}
		})
	}
}

// TestSnapshot reads the numbers of a snapshot strictly.
func TestSnapshot(t *testing.T) {
	s := serve(t)
	office, err := New(Config{Addresses: []string{s.address()}})
	if err != nil {
		t.Fatal(err)
	}
	for fields, isGood := range map[string]bool{
		"Office-Number: 7\r\nPolicy-Revision: 5\r\n":                      true,
		"office-number: 7\r\npolicy-revision: 5\r\n":                      true,
		"Office-Number: 7\r\n":                                            false,
		"Policy-Revision: 5\r\n":                                          false,
		"Office-Number: -1\r\nPolicy-Revision: 5\r\n":                     false,
		"Office-Number: 1e2\r\nPolicy-Revision: 5\r\n":                    false,
		"Office-Number: 7\r\nOffice-Number: 7\r\nPolicy-Revision: 5\r\n":  false,
		"Office-Number: 7\r\nPolicy-Revision: +5\r\n":                     false,
		"Office-Number: 7\r\nPolicy-Revision: 9999999999999999999999\r\n": false,
	} {
		s.set("HTTP/1.1 200 OK\r\nContent-Length: 2\r\n"+fields+"\r\n{\n", false)
		snapshot, err := office.Snapshot(context.Background(), 0)
		if isGood && (err != nil || snapshot.Number != 7 || snapshot.Revision != 5) || !isGood && (err == nil || asError(err).Reason != Unexpected) {
			t.Errorf("%q: %v, %v", fields, snapshot, err)
		}
	}
}
