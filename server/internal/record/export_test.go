package record

import (
	"bufio"
	"context"
	"encoding/json"
	"fmt"
	"io"
	"net"
	"os"
	"path/filepath"
	"regexp"
	"strings"
	"testing"
	"time"
)

// A receiver gets datagrams of syslog.
type receiver struct {
	*testing.T
	net.PacketConn
	path string
}

func newReceiver(t *testing.T) *receiver {
	t.Helper()
	path := filepath.Join(t.TempDir(), "log")
	listened, err := net.ListenPacket("unixgram", path)
	if err != nil {
		t.Fatal(err)
	}
	t.Cleanup(func() { listened.Close() })
	return &receiver{t, listened, path}
}

// An exported entry is what a receiver gets of one.
type exported struct {
	Number                    int64
	Office, At, Reason, Chain string
	Request                   json.RawMessage
	Answer                    map[string]any
}

var header = regexp.MustCompile(`^<(110|108)>1 \d{4}-\d\d-\d\dT\d\d:\d\d:\d\d\.\d{3}Z \S+ rbac-node - record - (\{[ -~]*\})$`)

// next returns the next entry, or an empty one if none comes.
func (r *receiver) next() (priority string, e exported) {
	r.Helper()
	text := make([]byte, 1<<16)
	if err := r.SetReadDeadline(time.Now().Add(300 * time.Millisecond)); err != nil {
		r.Fatal(err)
	}
	n, _, err := r.ReadFrom(text)
	if err != nil {
		return "", e
	}
	return parsed(r.T, string(text[:n]))
}

func parsed(t *testing.T, text string) (priority string, e exported) {
	t.Helper()
	parts := header.FindStringSubmatch(text)
	if parts == nil {
		t.Fatalf("%q has another form", text)
	}
	if err := json.Unmarshal([]byte(parts[2]), &e); err != nil {
		t.Fatal(err)
	}
	return parts[1], e
}

// export exports, and returns the numbers of what came.
func (r *receiver) export(tool *Tool, place string) (numbers string, err error) {
	r.Helper()
	err = tool.Export(context.Background(), Export{To: "unix:" + r.path, Place: place})
	for {
		_, e := r.next()
		if e.Number == 0 {
			return strings.TrimSpace(numbers), err
		}
		numbers += fmt.Sprint(e.Number, " ")
	}
}

// TestExport sends each entry once, with its number and its link, and goes on where it was, also in another part.
func TestExport(t *testing.T) {
	b, r := open(t), newReceiver(t)
	place := filepath.Join(t.TempDir(), "place")
	long := `{"fn":"importAssignments","csv":"user,role\n` + strings.Repeat(`nobody,clerk\n`, 3000) + `"}`
	b.answered("{\"fn\":\"addUser\",\"user\":\"ä\u202e😀\"}", addAnn, addAnn, long)
	head := b.Head()
	tool, _ := b.tool()
	if err := tool.Export(context.Background(), Export{To: "unix:" + r.path, Place: place}); err != nil {
		t.Fatal(err)
	}
	for _, want := range []string{"begins", `\u00e4\u202e\ud83d\ude00`, "ann", "ann", `"bytes":`} {
		priority, e := r.next()
		if !strings.Contains(string(e.Request), want) {
			t.Errorf("entry %d has %s", e.Number, e.Request)
		}
		if isRefused := e.Answer["error"] != nil; (priority == "108") != isRefused || isRefused != (e.Number == 4) {
			t.Errorf("entry %d has the priority %s", e.Number, priority)
		}
		if e.Number == 5 && e.Chain != head.Chain || e.Office != "office" || e.Number > 1 && e.Reason != "a reason" {
			t.Errorf("%+v", e)
		}
	}
	if text, err := os.ReadFile(place); err != nil || string(text) != head.String()+"\n" {
		t.Errorf("the place is %q, %v", text, err)
	}
	if numbers, err := r.export(tool, place); numbers != "" || err != nil {
		t.Errorf("again: %s, %v", numbers, err)
	}
	if err := tool.Cut(context.Background()); err != nil {
		t.Fatal(err)
	}
	b.reopen(b.Office)
	b.answered(deleteAnn)
	tool, _ = b.tool()
	if numbers, err := r.export(tool, place); numbers != "6 7" || err != nil {
		t.Errorf("in another part: %s, %v", numbers, err)
	}
	if numbers, err := r.export(tool, filepath.Join(t.TempDir(), "other")); numbers != "1 2 3 4 5 6 7" || err != nil {
		t.Errorf("from the beginning: %s, %v", numbers, err)
	}
}

// TestExportLost has a receiver that isn't there at first: nothing is left out.
func TestExportLost(t *testing.T) {
	b := open(t)
	b.answered(addAnn, addRole)
	tool, _ := b.tool()
	path, place := filepath.Join(t.TempDir(), "late"), filepath.Join(t.TempDir(), "place")
	if err := tool.Export(context.Background(), Export{To: "unix:" + path, Place: place}); err == nil {
		t.Error("nobody listens, and it succeeds")
	}
	ctx, stop := context.WithCancel(context.Background())
	ended := make(chan error)
	go func() { ended <- tool.Export(ctx, Export{To: "unix:" + path, Place: place, IsFollowing: true}) }()
	time.Sleep(1500 * time.Millisecond)
	listened, err := net.ListenPacket("unixgram", path)
	if err != nil {
		t.Fatal(err)
	}
	defer listened.Close()
	r := &receiver{t, listened, path}
	var numbers []int64
	for deadline := time.Now().Add(time.Minute); len(numbers) < 3 && time.Now().Before(deadline); {
		if _, e := r.next(); e.Number > 0 {
			numbers = append(numbers, e.Number)
		}
	}
	stop()
	if err := <-ended; err != nil || fmt.Sprint(numbers) != "[1 2 3]" {
		t.Errorf("%v, %v", numbers, err)
	}
}

// TestExportStream has the length of each message before it.
func TestExportStream(t *testing.T) {
	b := open(t)
	b.answered(addAnn)
	tool, _ := b.tool()
	listened, err := net.Listen("tcp", "127.0.0.1:0")
	if err != nil {
		t.Fatal(err)
	}
	defer listened.Close()
	if err := tool.Export(context.Background(), Export{To: "tcp:" + listened.Addr().String(), Place: filepath.Join(t.TempDir(), "place")}); err != nil {
		t.Fatal(err)
	}
	connection, err := listened.Accept()
	if err != nil {
		t.Fatal(err)
	}
	defer connection.Close()
	in := bufio.NewReader(connection)
	for n := int64(1); n <= 2; n++ {
		var length int
		if _, err := fmt.Fscanf(in, "%d ", &length); err != nil {
			t.Fatal(err)
		}
		text := make([]byte, length)
		if _, err := io.ReadFull(in, text); err != nil {
			t.Fatal(err)
		}
		if _, e := parsed(t, string(text)); e.Number != n {
			t.Errorf("%d comes as entry %d", e.Number, n)
		}
	}
}

// TestExportChanged has records that somebody has written after some of it was sent.
func TestExportChanged(t *testing.T) {
	for _, test := range []struct {
		name, statement string
		isAnew          bool
		says            string
	}{
		{"the last entry that was sent", "UPDATE entry SET caller = 'x' WHERE n = 3", true, "entry 3 has another link than the one that was sent"},
		{"it was removed", "DELETE FROM entry WHERE n >= 3", false, ""},
		{"it is missing", "DELETE FROM entry WHERE n = 3", false, "entry 3, which was sent, is not here"},
		{"a later one", "UPDATE entry SET caller = 'x' WHERE n = 4", false, "the chain breaks at entry 4"},
		{"a later one is missing", "DELETE FROM entry WHERE n = 4", false, "the chain breaks at entry 4"},
	} {
		t.Run(test.name, func(t *testing.T) {
			b, r := open(t), newReceiver(t)
			b.answered(addAnn, addRole)
			place := filepath.Join(t.TempDir(), "place")
			tool, _ := b.tool()
			if numbers, err := r.export(tool, place); numbers != "1 2 3" || err != nil {
				t.Fatalf("%s, %v", numbers, err)
			}
			b.reopen(b.Office)
			b.answered(assign, login)
			tool, _ = b.tool()
			path := filepath.Join(b.dir, fileName)
			change(t, path, test.statement)
			if test.isAnew {
				chainAnew(t, path, "")
			}
			numbers, err := r.export(tool, place)
			if numbers != "" || (err == nil) != (test.says == "") || err != nil && !strings.Contains(err.Error(), test.says) {
				t.Errorf("%s, %v", numbers, err)
			}
		})
	}
}
