// Package trial tries commands over a clone of an office, by librbac, and says what they would change: who could do what, and which
// sessions would end. Nothing of the office itself changes.
package trial

import (
	"context"
	"encoding/json"
	"fmt"
	"math/big"
	"math/bits"
	"net/http"
	"runtime/debug"
	"sort"
	"strings"
	"time"

	"rbac-node/internal/api"
	"rbac-node/internal/state"
)

// A Result is what has come of commands over the clone.
type Result struct {
	// Answers has the answer to each command.
	Answers []json.RawMessage `json:"answers"`
	// Ended has the sessions of before that there would be no more, by their digests.
	Ended []Session `json:"ended"`
	// Gained and Lost have what users could do in some session after the commands and not before, and the other way round.
	Gained Changes `json:"gained"`
	Lost   Changes `json:"lost"`
	// Revision is that of the policy that was cloned.
	Revision int64 `json:"revision"`
}

// A Session is one that would end.
type Session struct {
	Session string `json:"session"`
	User    string `json:"user"`
}

// timeout is how long commands may be tried, with the time until those before are.
const timeout = 20 * time.Second

// errOld refuses to try commands on an office of version 1, whose limits librbac doesn't have.
var errOld = api.Refusal{Status: http.StatusConflict, Code: 51, Name: "Version"}

// A Turn is held by whoever tries commands.
type Turn chan struct{}

// NewTurn returns a turn that nobody has.
func NewTurn() Turn { return make(Turn, 1) }

// Try does commands over a clone of an office, and returns what they would change. It calls a function when there is the clone. One who
// tries waits for the one before.
func (t Turn) Try(ctx context.Context, office *state.State, cloned func(), commands []*api.Call) (*Result, error) {
	within, cancel := context.WithTimeout(ctx, timeout)
	defer cancel()
	select {
	case t <- struct{}{}:
		defer func() { <-t }()
	case <-within.Done():
		return nil, within.Err()
	}
	if !office.HasLocks() {
		return nil, errOld
	}
	defer debug.FreeOSMemory() // At the limits the rows and the clone take more than the office.
	clone, err := office.Clone()
	if err != nil {
		return nil, err
	}
	defer clone.Forget()
	cloned()
	return try(within, clone, commands)
}

func try(ctx context.Context, clone *state.State, commands []*api.Call) (*Result, error) {
	users, result := usersOf(commands), &Result{Ended: []Session{}, Revision: clone.Numbers().Policy}
	permissions := &places{of: map[state.Row]int{}}
	before, err := look(ctx, clone, users, permissions)
	if err != nil {
		return nil, fmt.Errorf("before the commands: %w", err)
	}
	answers, err := clone.Try(commands)
	if err != nil {
		return nil, fmt.Errorf("the commands: %w", err)
	}
	for _, answer := range answers {
		result.Answers = append(result.Answers, answer)
	}
	after, err := look(ctx, clone, users, permissions)
	if err != nil {
		return nil, fmt.Errorf("after the commands: %w", err)
	}
	for _, one := range before.sessions {
		if !after.isThere[one.Name] {
			result.Ended = append(result.Ended, Session{one.Digest, one.User})
		}
	}
	result.Gained, result.Lost = changes(before, after, permissions.all)
	return result, nil
}

// usersOf returns the only users that commands can give something or take it away, or nil if that can be any.
func usersOf(commands []*api.Call) []string {
	users, has := []string{}, map[string]bool{}
	for _, call := range commands {
		switch call.Function {
		case "addUser", "deleteUser", "lockUserAccount", "unlockUserAccount", "assignUser", "deassignUser",
			"createSession", "deleteSession", "addActiveRole", "dropActiveRole":
			if user := call.User; !has[user] {
				has[user] = true
				users = append(users, user)
			}
		default:
			return nil
		}
	}
	return users
}

// mostRows is how many changes of each kind are listed. The others are counted.
const mostRows = 1000

// A Change is that a user could do an operation on an object, or no longer.
type Change struct {
	Object    string `json:"object"`
	Operation string `json:"operation"`
	User      string `json:"user"`
}

// Changes have the first changes, and how many there are in all.
type Changes struct {
	Count int64    `json:"count"`
	Rows  []Change `json:"rows"`
}

// A view is what users can do in some session, as decideByUser decides it: by the roles that they are authorized for and that can be
// activated, unless they are locked.
type view struct {
	// users has the permissions of each user, as bits for their places.
	users map[string]*big.Int
	// sessions are those that there are, and isThere has their names.
	sessions []state.Session
	isThere  map[string]bool
}

// Places are those of permissions, the same in all views of a trial.
type places struct {
	all []state.Row
	of  map[state.Row]int
}

func (p *places) place(permission state.Row) int {
	place, isThere := p.of[permission]
	if !isThere {
		place = len(p.all)
		p.of[permission], p.all = place, append(p.all, permission)
	}
	return place
}

// look asks the clone what users can do, or all users if none are named, and which sessions there are. The grants are its rows, and the
// roles of each user its answers.
func look(ctx context.Context, clone *state.State, users []string, places *places) (seen *view, err error) {
	failed := clone.Look(func(v *state.View) {
		seen = &view{users: map[string]*big.Int{}, sessions: v.Sessions(), isThere: map[string]bool{}}
		for _, one := range seen.sessions {
			seen.isThere[one.Name] = true
		}
		granted := grants(v, places)
		if users == nil {
			users = v.Users()
		}
		same := map[string]*big.Int{} // Many users have the same roles.
		for _, user := range users {
			if err = ctx.Err(); err != nil {
				return
			}
			if v.IsLocked(user) {
				continue
			}
			roles := v.Names("authorizedRoles", "user", user) // A user that isn't there has none.
			has, isKnown := same[strings.Join(roles, separator)]
			if !isKnown {
				has = new(big.Int)
				for _, role := range roles {
					if own := granted[role]; own != nil {
						has.Or(has, own)
					}
				}
				same[strings.Join(roles, separator)] = has
			}
			seen.users[user] = has
		}
	})
	if failed != nil {
		return nil, failed
	}
	return seen, err
}

// separator is in no name.
const separator = "\t"

// grants returns the permissions that are granted to each role itself, except the roles that no session can have.
func grants(v *state.View, places *places) map[string]*big.Int {
	granted := map[string]*big.Int{}
	for _, one := range v.Grants() {
		permission, role := state.Row{one[0], one[1]}, one[2]
		if granted[role] == nil {
			granted[role] = new(big.Int)
		}
		granted[role].SetBit(granted[role], places.place(permission), 1)
	}
	for role := range granted {
		if set, _ := v.Blocked(role); set != "" {
			delete(granted, role)
		}
	}
	return granted
}

// changes returns what users can do in the second view and not in the first, and the other way round.
func changes(before, after *view, permissions []state.Row) (gained, lost Changes) {
	gained.Rows, lost.Rows = []Change{}, []Change{}
	for _, user := range usersIn(before, after) {
		had, has := orNone(before.users[user]), orNone(after.users[user])
		gained.add(user, new(big.Int).AndNot(has, had), permissions)
		lost.add(user, new(big.Int).AndNot(had, has), permissions)
	}
	return gained, lost
}

func usersIn(views ...*view) (users []string) {
	isIn := map[string]bool{}
	for _, v := range views {
		for user := range v.users {
			if !isIn[user] {
				isIn[user] = true
				users = append(users, user)
			}
		}
	}
	sort.Strings(users)
	return users
}

func orNone(permissions *big.Int) *big.Int {
	if permissions == nil {
		return new(big.Int)
	}
	return permissions
}

// add counts what a user has gained or lost, and lists it if there is room.
func (c *Changes) add(user string, found *big.Int, permissions []state.Row) {
	var own []state.Row
	for _, word := range found.Bits() {
		c.Count += int64(bits.OnesCount(uint(word)))
	}
	for i := 0; i < found.BitLen() && len(c.Rows) < mostRows; i++ {
		if found.Bit(i) == 1 {
			own = append(own, permissions[i])
		}
	}
	sort.Slice(own, func(i, k int) bool { return own[i].IsBefore(own[k]) })
	for _, one := range own {
		if len(c.Rows) < mostRows {
			c.Rows = append(c.Rows, Change{Object: one[0], Operation: one[1], User: user})
		}
	}
}
