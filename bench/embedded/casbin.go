// Times decisions and commands of Casbin, as quick.go does of the library: casbin plain|cached, with the policy on standard
// input. The cached enforcer is asked what it has answered before. Casbin has no users: a command gives a user a role, or
// removes it.
package main

import (
	"bufio"
	"fmt"
	"log"
	"os"
	"sort"
	"strings"
	"time"

	"github.com/casbin/casbin/v2"
	"github.com/casbin/casbin/v2/model"
)

// A role has what its juniors have, and a user what the user's role has.
const rules = `
[request_definition]
r = user, object, operation

[policy_definition]
p = role, object, operation

[role_definition]
g = _, _

[policy_effect]
e = some(where (p.eft == allow))

[matchers]
m = g(r.user, p.role) && r.object == p.object && r.operation == p.operation
`

const (
	decisions = 2048
	commands  = 256
)

// perCall returns the median time of a call, over some rounds.
func perCall(rounds, count int, work func() error) time.Duration {
	took := make([]time.Duration, rounds)
	for i := range took {
		start := time.Now()
		if err := work(); err != nil {
			log.Fatal(err)
		}
		took[i] = time.Since(start) / time.Duration(count)
	}
	sort.Slice(took, func(i, j int) bool { return took[i] < took[j] })
	return took[rounds/2]
}

// readPolicy adds the lines of standard input, such as "p,r1,o1,read" and "g,u1,r1".
func readPolicy(enforcer *casbin.Enforcer) error {
	for lines := bufio.NewScanner(os.Stdin); lines.Scan(); {
		words := strings.Split(lines.Text(), ",")
		add := enforcer.AddPolicy
		if words[0] == "g" {
			add = enforcer.AddGroupingPolicy
		}
		if _, err := add(words[1:]); err != nil {
			return err
		}
	}
	return nil
}

func run(way string) error {
	made, err := model.NewModelFromString(rules)
	if err != nil {
		return err
	}
	cached, err := casbin.NewCachedEnforcer(made)
	if err != nil {
		return err
	}
	enforcer := cached.Enforcer
	if err := readPolicy(enforcer); err != nil {
		return err
	}
	enforce, rounds := enforcer.Enforce, 1
	if way == "cached" {
		enforce, rounds = cached.Enforce, 51
	}
	var users, objects [decisions]string
	for i := range users {
		users[i], objects[i] = fmt.Sprintf("u%d", i*37%1000), fmt.Sprintf("o%d", i*91%1000)
	}
	granted := 0
	ask := func() error {
		granted = 0
		for i := range users {
			allowed, err := enforce(users[i], objects[i], "read")
			if err != nil {
				return err
			}
			if allowed {
				granted++
			}
		}
		return nil
	}
	decision := perCall(rounds, decisions, ask)
	command := perCall(21, commands, func() error {
		for i := 0; i < commands; i++ {
			change := enforcer.AddGroupingPolicy
			if i%2 == 1 {
				change = enforcer.RemoveGroupingPolicy
			}
			if _, err := change("extra", "r1"); err != nil {
				return err
			}
		}
		return nil
	})
	fmt.Println(decision.Nanoseconds(), command.Nanoseconds(), granted)
	return nil
}

func main() {
	if err := run(os.Args[1]); err != nil {
		log.Fatal(err)
	}
}
