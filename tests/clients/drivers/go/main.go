// Command driver does with the client in Go what each line of its input says, and prints what came of it. tests/clients/driving.py
// has what the lines say.
package main

import (
	"bufio"
	"context"
	"crypto/tls"
	"crypto/x509"
	"encoding/json"
	"errors"
	"log"
	"os"
	"reflect"
	"strings"
	"sync"
	"time"

	"rbac/clients/go/rbacclient"
)

// line is what a line of the input says.
type line struct {
	Do                          string
	Addresses                   []string
	Token, CA, Certificate, Key string
	Timeout, Pause              float64
	Session, Operation, Object  string
	Digest                      string
	User                        string
	Roles                       []string
	Renews                      bool
	Times                       int
	Repeats                     *bool
	Function                    string
	Arguments                   map[string]interface{}
}

// keys are those of each method, in the order of its parameters.
var keys = map[string][]string{}

// driver has the client that is driven, and its last session.
type driver struct {
	client  *rbacclient.Client
	session *rbacclient.Session
}

// answer is what a line of the output has.
type answer map[string]interface{}

// do does what a line says.
func (d *driver) do(l line) (answer, error) {
	ctx := context.Background()
	switch l.Do {
	case "open":
		config, err := config(l)
		if err != nil {
			return nil, err
		}
		d.client, err = rbacclient.New(config)
		return answer{}, err
	case "call":
		return d.call(ctx, l)
	case "check":
		return shown(d.client.Check(ctx, l.Session, l.Operation, l.Object)), nil
	case "decide":
		return shown(d.client.DecideByUser(ctx, l.User, l.Operation, l.Object)), nil
	case "login":
		session, err := d.client.OpenSession(ctx, rbacclient.SessionConfig{User: l.User, Roles: l.Roles, Renew: l.Renews})
		if err != nil {
			return failure(err), nil
		}
		d.session = session
		return answer{"value": session.Name()}, nil
	case "opened":
		left := [][]interface{}{}
		for _, one := range d.session.Left() {
			row := []interface{}{one.Role, one.Code}
			for _, value := range one.Details {
				row = append(row, value)
			}
			left = append(left, row)
		}
		return answer{"roles": d.session.Roles(), "left": left}, nil
	case "end":
		if l.Digest == "" {
			l.Digest = rbacclient.SessionDigest(d.session.Name())
		}
		if err := d.client.EndSession(ctx, l.Digest); err != nil {
			return failure(err), nil
		}
		return answer{"value": nil}, nil
	case "logout":
		if err := d.session.Close(ctx); err != nil {
			return failure(err), nil
		}
		return answer{"value": nil}, nil
	case "ask":
		found := shown(d.session.Check(ctx, l.Operation, l.Object))
		found["name"] = d.session.Name()
		return found, nil
	case "asks":
		return answer{"reasons": d.asks(ctx, l)}, nil
	}
	found := answer{}
	for reason, count := range d.client.Counts() {
		found[string(reason)] = count
	}
	return found, nil
}

// asks returns the reasons of decisions at once.
func (d *driver) asks(ctx context.Context, l line) []rbacclient.Reason {
	reasons := make([]rbacclient.Reason, l.Times)
	var all sync.WaitGroup
	for i := range reasons {
		all.Add(1)
		go func(i int) {
			defer all.Done()
			reasons[i] = d.session.Check(ctx, l.Operation, l.Object).Reason
		}(i)
	}
	all.Wait()
	return reasons
}

// config is that of the client.
func config(l line) (rbacclient.Config, error) {
	made := rbacclient.Config{
		Addresses: l.Addresses,
		Token:     l.Token,
		Timeout:   time.Duration(l.Timeout * float64(time.Second)),
		Pause:     time.Duration(l.Pause * float64(time.Second)),
		NoRepeats: l.Repeats != nil && !*l.Repeats,
		Log:       log.New(os.Stderr, "", 0),
	}
	if l.CA == "" {
		return made, nil
	}
	text, err := os.ReadFile(l.CA)
	if err != nil {
		return made, err
	}
	made.TLS = &tls.Config{RootCAs: x509.NewCertPool()}
	made.TLS.RootCAs.AppendCertsFromPEM(text)
	if l.Certificate != "" {
		pair, err := tls.LoadX509KeyPair(l.Certificate, l.Key)
		if err != nil {
			return made, err
		}
		made.TLS.Certificates = []tls.Certificate{pair}
	}
	return made, nil
}

// call calls the method of a function. Its arguments are in the order of the keys of the line.
func (d *driver) call(ctx context.Context, l line) (answer, error) {
	method := reflect.ValueOf(d.client).MethodByName(strings.ToUpper(l.Function[:1]) + l.Function[1:])
	values := []reflect.Value{reflect.ValueOf(ctx)}
	for _, key := range keys[l.Function] {
		text, err := json.Marshal(l.Arguments[key])
		if err != nil {
			return nil, err
		}
		value := reflect.New(method.Type().In(len(values)))
		if err := json.Unmarshal(text, value.Interface()); err != nil {
			return answer{"reason": rbacclient.InvalidRequest, "may_be_done": false}, nil
		}
		values = append(values, value.Elem())
	}
	results := method.Call(values)
	if err, _ := results[len(results)-1].Interface().(error); err != nil {
		return failure(err), nil
	}
	if len(results) == 1 {
		return answer{"value": nil}, nil
	}
	return answer{"value": plain(results[0].Interface())}, nil
}

// plain is a value as rbac has it.
func plain(value interface{}) interface{} {
	switch value := value.(type) {
	case []rbacclient.Permission:
		pairs := [][]string{}
		for _, one := range value {
			pairs = append(pairs, []string{one.Object, one.Operation})
		}
		return pairs
	case rbacclient.ImportReport:
		refused := []answer{}
		for _, one := range value.Refused {
			refused = append(refused, answer{"code": one.Code, "record": one.Record})
		}
		return answer{"already": value.Already, "assigned": value.Assigned, "refused": refused}
	}
	return value
}

// failure is why a call has no value.
func failure(err error) answer {
	var own *rbacclient.Error
	if !errors.As(err, &own) {
		return answer{"reason": err.Error()}
	}
	shown := answer{"reason": own.Reason, "may_be_done": own.MayBeDone}
	if own.Code != 0 {
		refusal := answer{"code": own.Code, "error": own.Name}
		for key, value := range own.Details {
			refusal[key] = value
		}
		shown["refusal"] = refusal
	}
	return shown
}

// shown is a decision.
func shown(decision rbacclient.Decision) answer {
	return answer{"allowed": decision.Allowed(), "reason": decision.Reason, "code": decision.Code}
}

func main() {
	log.SetFlags(0)
	if err := json.Unmarshal([]byte(os.Args[1]), &keys); err != nil {
		log.Fatal(err)
	}
	d := &driver{}
	lines := bufio.NewScanner(os.Stdin)
	lines.Buffer(nil, 8<<20)
	out := json.NewEncoder(os.Stdout)
	for lines.Scan() {
		var l line
		if err := json.Unmarshal(lines.Bytes(), &l); err != nil {
			log.Fatal(err)
		}
		found, err := d.do(l)
		if err != nil {
			found = answer{"refused": err.Error()}
		}
		if err := out.Encode(found); err != nil {
			log.Fatal(err)
		}
	}
}
