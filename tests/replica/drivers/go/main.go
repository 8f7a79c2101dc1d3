// driver does with the replica in Go what each line of its input says, and prints what came of it. replica/driving.py has the lines.
package main

import (
	"bufio"
	"context"
	"crypto/tls"
	"crypto/x509"
	"encoding/json"
	"fmt"
	"log"
	"os"
	"sync"
	"time"

	"rbac/clients/go/rbacclient"
	"rbac/clients/go/rbacreplica"
)

// request is a line of the input.
type request struct {
	Do                         string
	Addresses                  []string
	Token, Otherwise, CA       string
	Oldest, Limit, Silence     float64
	Session, Operation, Object string
	AtLeast                    uint64 `json:"at_least"`
	Seconds                    float64
	User                       string
	Roles                      []string
	Renews                     bool
	Questions                  [][3]string
	File                       string
}

type answer map[string]interface{}

// driver has the replica, its client and its last session.
type driver struct {
	client  *rbacclient.Client
	replica *rbacreplica.Replica
	session *rbacclient.Session
}

var ctx = context.Background()

func seconds(given float64) time.Duration {
	return time.Duration(given * float64(time.Second))
}

// age returns a duration in seconds, of which no text is too long.
func age(given time.Duration) float64 {
	if given == rbacreplica.Never {
		return 1e9
	}
	return given.Seconds()
}

func (d *driver) do(r request) (answer, error) {
	switch r.Do {
	case "open":
		return d.open(r)
	case "ready":
		within, cancel := context.WithTimeout(ctx, seconds(r.Seconds))
		defer cancel()
		return answer{"ready": d.replica.Ready(within) == nil}, nil
	case "check":
		made := d.replica.CheckAt(ctx, r.AtLeast, r.Session, r.Operation, r.Object)
		return answer{"allowed": made.Allowed(), "reason": made.Reason, "code": made.Code, "age": age(made.Age), "number": made.Number}, nil
	case "user":
		made := d.replica.DecideByUserAt(ctx, 0, r.User, r.Operation, r.Object)
		return answer{"allowed": made.Allowed(), "reason": made.Reason, "number": made.Number}, nil
	case "status":
		return d.status(), nil
	case "call":
		err := d.client.AddUser(ctx, r.User)
		return answer{"revision": d.client.PolicyRevision()}, err
	case "login":
		config := rbacclient.SessionConfig{User: r.User, Roles: r.Roles, Renew: r.Renews, Check: d.replica.Decide}
		session, err := d.client.OpenSession(ctx, config)
		if err != nil {
			return nil, err
		}
		d.session = session
		return answer{"name": session.Name()}, nil
	case "ask":
		decision := d.session.Check(ctx, r.Operation, r.Object)
		return answer{"reason": decision.Reason, "name": d.session.Name()}, nil
	case "decide":
		return d.decide(r)
	case "close":
		d.replica.Close()
		return d.status(), nil
	}
	return nil, fmt.Errorf("what is %q?", r.Do)
}

func (d *driver) open(r request) (answer, error) {
	config := rbacclient.Config{Addresses: r.Addresses, Token: r.Token}
	if r.CA != "" {
		text, err := os.ReadFile(r.CA)
		if err != nil {
			return nil, err
		}
		pool := x509.NewCertPool()
		pool.AppendCertsFromPEM(text)
		config.TLS = &tls.Config{RootCAs: pool}
	}
	var err error
	if d.client, err = rbacclient.New(config); err != nil {
		return nil, err
	}
	d.replica, err = rbacreplica.Open(rbacreplica.Config{
		Client:    d.client,
		Oldest:    seconds(r.Oldest),
		Otherwise: map[string]rbacreplica.Otherwise{"ask": rbacreplica.Ask, "wait": rbacreplica.Wait, "deny": rbacreplica.Deny}[r.Otherwise],
		Limit:     seconds(r.Limit),
		Silence:   seconds(r.Silence),
	})
	return answer{}, err
}

func (d *driver) status() answer {
	status := d.replica.Status()
	var reason rbacclient.Reason
	if err, isOwn := status.Err.(*rbacclient.Error); isOwn {
		reason = err.Reason
	}
	seen := d.client.PolicyRevision()
	return answer{"number": status.Number, "revision": status.Revision, "age": age(status.Age), "reason": reason, "seen": seen}
}

// decide decides in two goroutines, a thousand times a second or so in each.
func (d *driver) decide(r request) (answer, error) {
	var found [2][]string
	var group sync.WaitGroup
	for at := range found {
		at := at
		group.Add(1)
		go func() {
			defer group.Done()
			end := time.Now().Add(seconds(r.Seconds))
			for i := 7 * at; ; i++ {
				start := time.Now()
				if start.After(end) {
					return
				}
				number := i % len(r.Questions)
				question := r.Questions[number]
				made := d.replica.Check(ctx, question[0], question[1], question[2])
				line, _ := json.Marshal([]interface{}{float64(start.UnixNano()) / 1e9, age(made.Age), made.Number, made.Reason, number})
				found[at] = append(found[at], string(line))
				time.Sleep(time.Millisecond)
			}
		}()
	}
	group.Wait()
	file, err := os.Create(r.File)
	if err != nil {
		return nil, err
	}
	defer file.Close()
	lines := bufio.NewWriter(file)
	for _, line := range append(found[0], found[1]...) {
		_, _ = lines.WriteString(line + "\n")
	}
	return answer{"count": len(found[0]) + len(found[1])}, lines.Flush()
}

func main() {
	log.SetFlags(0)
	d := &driver{}
	lines := bufio.NewScanner(os.Stdin)
	lines.Buffer(nil, 1<<20)
	for lines.Scan() {
		var r request
		err := json.Unmarshal(lines.Bytes(), &r)
		var found answer
		if err == nil {
			found, err = d.do(r)
		}
		if err != nil {
			found = answer{"error": err.Error(), "reason": rbacclient.DecisionOf(false, err).Reason}
		}
		text, _ := json.Marshal(found)
		fmt.Printf("%s\n", text)
	}
}
