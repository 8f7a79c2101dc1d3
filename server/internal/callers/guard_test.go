package callers

import (
	"context"
	"errors"
	"net/http"
	"net/http/httptest"
	"strings"
	"sync"
	"testing"
	"time"

	"rbac/clients/go/rbacoffice"

	"rbac-node/internal/api"
)

// requestOf returns a request with a token.
func requestOf(token string) *http.Request {
	r := httptest.NewRequest("POST", "/v1/addUser", nil)
	r.Header.Set("Authorization", "Bearer "+token)
	return r
}

// twoSets returns two sets: in the first the caller a may add users, in the second b.
func twoSets(t *testing.T) (sets [2]*Set) {
	for i, name := range []string{"a", "b"} {
		options := optionsOf(t, policy(map[string][]right{"token:" + name: {{"addUser", "office"}}})...)
		options.Tokens = write(t, "tokens", sumOf("a")+" a\n"+sumOf("b")+" b\n")
		sets[i] = load(t, options)
	}
	return sets
}

func TestReplace(t *testing.T) {
	sets := twoSets(t)
	g := NewGuard(sets[0], 64)
	call := callOf(t, `{"fn":"addUser","user":"ann"}`)
	old, _, err := g.Enter(requestOf("a"))
	if err != nil {
		t.Fatal(err)
	}
	var mutex sync.Mutex
	var order []string
	note := func(what string) {
		mutex.Lock()
		defer mutex.Unlock()
		order = append(order, what)
	}
	done := make(chan error, 1)
	go func() {
		err := g.Replace(context.Background(), sets[1], func(context.Context) error { note("asked"); return nil })
		note("in force")
		done <- err
	}()
	for g.current() == sets[0] {
		time.Sleep(time.Millisecond)
	}
	for token, want := range map[string]error{"a": api.Forbidden, "b": nil} {
		visit, _, err := g.Enter(requestOf(token))
		if err != nil {
			t.Fatal(err)
		}
		if err := visit.May(call); err != want {
			t.Errorf("%s, by the new callers: %v", token, err)
		}
		visit.Leave()
	}
	if err := old.May(call); err != nil {
		t.Errorf("a visit of the old callers: %v", err)
	}
	note("left")
	old.Done()
	if g.atOnce["token:a"] != 1 {
		t.Errorf("before it is answered: %v", g.atOnce)
	}
	old.Leave()
	old.Leave() // It changes nothing.
	if err := <-done; err != nil {
		t.Error(err)
	}
	if given := strings.Join(order, ", "); given != "left, asked, in force" {
		t.Error(given)
	}
	if len(g.atOnce) != 0 || !sets[1].using.TryLock() {
		t.Errorf("%v, or the set is in use", g.atOnce)
	}
}

// current returns the set that is in force.
func (g *Guard) current() *Set {
	g.mutex.Lock()
	defer g.mutex.Unlock()
	return g.set
}

func TestReplaceThatTakesTooLong(t *testing.T) {
	sets := twoSets(t)
	g := NewGuard(sets[0], 64)
	visit, _, err := g.Enter(requestOf("a"))
	if err != nil {
		t.Fatal(err)
	}
	soon, cancel := context.WithTimeout(context.Background(), 20*time.Millisecond)
	defer cancel()
	never := func(context.Context) error { t.Error("the office was asked"); return nil }
	if err := g.Replace(soon, sets[1], never); !errors.Is(err, context.DeadlineExceeded) {
		t.Error(err)
	}
	visit.Leave()
	for end := time.Now().Add(20 * time.Second); ; time.Sleep(time.Millisecond) {
		if _, err := sets[0].office.Revision(); errors.Is(err, rbacoffice.ErrClosed) {
			return
		}
		if time.Now().After(end) {
			t.Fatal("the office of the earlier callers isn't freed")
		}
	}
}

func TestAtOnce(t *testing.T) {
	g := NewGuard(twoSets(t)[0], 3)
	var visits []*Visit
	for i := 0; i < 3; i++ {
		visit, _, err := g.Enter(requestOf("a"))
		if err != nil {
			t.Fatal(i, err)
		}
		visits = append(visits, visit)
	}
	if _, _, err := g.Enter(requestOf("a")); err != error(api.TooManyRequests) {
		t.Errorf("one more: %v", err)
	}
	other, _, err := g.Enter(requestOf("b"))
	if err != nil {
		t.Errorf("another caller: %v", err)
	}
	other.Leave()
	visits[0].Leave()
	if visit, _, err := g.Enter(requestOf("a")); err != nil {
		t.Errorf("after one has left: %v", err)
	} else {
		visit.Leave()
	}
	for _, visit := range visits[1:] {
		visit.Leave()
	}
	if !g.current().using.TryLock() {
		t.Error("some are left")
	}
}

func TestEnterWithoutIdentity(t *testing.T) {
	g := NewGuard(twoSets(t)[0], 3)
	visit, why, err := g.Enter(requestOf("c"))
	if visit != nil || why == nil || err != error(api.Unauthorized) || !g.current().using.TryLock() {
		t.Errorf("%v, %v, %v", visit, why, err)
	}
}

// TestManyReplaces has clients ask all the time while sets replace one another.
func TestManyReplaces(t *testing.T) {
	options := optionsOf(t, policy(map[string][]right{"token:a": {{"addUser", "office"}}})...)
	options.Tokens = write(t, "tokens", sumOf("a")+" a\n")
	g := NewGuard(load(t, options), 64)
	call := callOf(t, `{"fn":"addUser","user":"ann"}`)
	stop := make(chan struct{})
	var clients sync.WaitGroup
	for i := 0; i < 8; i++ {
		clients.Add(1)
		go func() {
			defer clients.Done()
			for {
				select {
				case <-stop:
					return
				default:
				}
				visit, _, err := g.Enter(requestOf("a"))
				if err == nil {
					err = visit.May(call)
					visit.Leave()
				}
				if err != nil {
					t.Error(err)
					return
				}
			}
		}()
	}
	for i := 0; i < 10; i++ {
		set, err := Load(context.Background(), options)
		if err != nil {
			t.Fatal(err)
		}
		if err := g.Replace(context.Background(), set, func(context.Context) error { return nil }); err != nil {
			t.Fatal(err)
		}
	}
	close(stop)
	clients.Wait()
	g.Close()
}
