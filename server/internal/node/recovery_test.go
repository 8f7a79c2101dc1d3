package node

import (
	"context"
	"errors"
	"fmt"
	"os"
	"testing"
	"time"

	"rbac-node/internal/ledger"
	"rbac-node/internal/office"
	"rbac-node/internal/programtest"
)

// A node starts without writing anything to etcd.
func TestResumeWithFullLog(t *testing.T) {
	n, log := newNode(t)
	log.setFull(true)
	n.options.Program = programtest.Path(t)
	within, cancel := context.WithTimeout(context.Background(), 20*time.Second)
	defer cancel()
	if err := n.recoverOffice(within); err != nil {
		t.Fatal(err)
	}
	if log.registrations() > 0 {
		t.Error("it was registered")
	}
}

// A node starts from the newest snapshot that is good. It sets those aside that are not, and leaves no file of the office.
func TestDamagedSnapshot(t *testing.T) {
	for _, damaged := range []int{0, 1, 2} {
		t.Run(fmt.Sprint(damaged), func(t *testing.T) {
			n, log := newNode(t)
			store, err := office.Open(n.options.Data, programtest.Path(t))
			if err != nil {
				t.Fatal(err)
			}
			n.store, n.options.Program, log.state.Revision = store, programtest.Path(t), 9
			for i, name := range []string{"a", "b"} {
				n.apply(entry(int64(i+1), name))
				one, err := n.freeze()
				if err == nil {
					err = n.finish(context.Background(), one)
				}
				if err != nil {
					t.Fatal(err)
				}
			}
			found, err := store.List()
			if err != nil || len(found) != 2 {
				t.Fatalf("%v, %v", found, err)
			}
			for i, text := range []string{"no office", ""} {
				if i < damaged {
					if err := os.WriteFile(store.Path(found[i]), []byte(text), 0o600); err != nil {
						t.Fatal(err)
					}
				}
			}
			if err := n.recoverOffice(context.Background()); err != nil {
				t.Fatal(err)
			}
			wanted := []string{"a b", "a", ""}[damaged]
			if given := usersOf(t, n); given != wanted || n.revision != int64(2-damaged) {
				t.Errorf("the users are %q at %d", given, n.revision)
			}
			if left, err := store.List(); err != nil || len(left) != 2-damaged {
				t.Errorf("%v, %v", left, err)
			}
			if _, err := os.Stat(n.options.File()); !errors.Is(err, os.ErrNotExist) {
				t.Errorf("the file of the office: %v", err)
			}
			n.leaveOffice()
			if err := office.Run(context.Background(), n.options.Program, "check", n.options.File()); err != nil {
				t.Error(err)
			}
		})
	}
}

// A snapshot of another node is accepted only if etcd has it and nobody contests it.
func TestAccept(t *testing.T) {
	for _, one := range []struct {
		name    string
		floor   int64
		members []ledger.Member
		offered office.Snapshot
		accepts bool
	}{
		{"it is registered", 5, members(member("b", at(9), at(7))), at(9), true},
		{"others agree", 5, members(member("b", at(9)), member("c", at(9))), at(9), true},
		{"others have other places", 5, members(member("b", at(9)), member("c", at(7))), at(9), true},
		{"it was fetched", 5, members(member("b", fetched(at(9)))), at(9), true},
		{"another node contests it", 5, members(member("b", at(9)), member("c", other(at(9)))), at(9), false},
		{"this node contested it before it lost its folder", 5, members(member("a", other(at(9))), member("b", at(9))), at(9), false},
		{"another digest is registered", 5, members(member("b", other(at(9)))), at(9), false},
		{"another number of commands is registered", 5, members(member("b", office.Snapshot{Revision: 9, Digest: "d", Count: 1})), at(9), false},
		{"only another node has registered it", 5, members(member("b", at(7)), member("c", at(9))), at(9), false},
		{"nobody has registered it", 5, members(member("b", at(7))), at(9), false},
		{"others contest an earlier one of it", 5, members(member("a", at(7)), member("b", at(9), other(at(7))), member("c", at(7))), at(9), false},
		{"one node contests an earlier one of it", 5, members(member("a", at(7)), member("b", at(9), at(7)), member("c", other(at(7)))), at(9), true},
		{"those that differ later have it", 5, members(member("b", other(at(9)), at(7)), member("c", at(9), at(7))), at(7), true},
		{"one of those that differ later has it", 5, members(member("b", other(at(9)), at(7)), member("c", at(9))), at(7), false},
		{"one of those that differ later has fetched it", 5, members(member("b", other(at(9)), at(7)), member("c", at(9), fetched(at(7)))), at(7), true},
		{"those that differ later differ there too", 5, members(member("b", other(at(9)), at(7)), member("c", at(9), other(at(7)))), at(7), false},
		{"a third one has it", 5, members(member("b", other(at(9)), at(7)), member("c", at(9)), member("d", at(7))), at(7), false},
		{"the log begins later", 10, members(member("b", at(9))), at(9), false},
	} {
		t.Run(one.name, func(t *testing.T) {
			n, log := newNode(t)
			log.state = ledger.State{Floor: one.floor, Members: one.members}
			if err := n.accept(context.Background(), "b", one.offered); (err == nil) != one.accepts {
				t.Errorf("%v", err)
			}
		})
	}
}

// Other nodes are asked for their newest snapshots, and then for earlier ones after which the log continues.
func TestOffers(t *testing.T) {
	n, _ := newNode(t)
	state := ledger.State{Floor: 5, Members: members(member("a", at(9)), member("b", at(9), at(7), at(3)), member("c", at(8), at(5)), member("d"))}
	said := ""
	for _, one := range n.offers(state) {
		said += fmt.Sprintf(" %s %d", one.from.Name, one.revision)
	}
	if said != " b 0 c 0 d 0 b 7 c 5" {
		t.Errorf("asked for are%s", said)
	}
}
