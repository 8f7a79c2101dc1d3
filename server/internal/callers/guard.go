package callers

import (
	"context"
	"crypto/x509"
	"fmt"
	"net/http"
	"sync"

	"rbac-node/internal/api"
)

// A Guard has the set of callers that is in force.
type Guard struct {
	mutex sync.Mutex
	set   *Set
	// atOnce counts the requests in flight of each caller, of which it has at most as many as this.
	atOnce map[string]int
	most   int
}

// NewGuard returns a guard with a set that is in force at once. A caller may have at most this many requests in flight.
func NewGuard(set *Set, most int) *Guard {
	return &Guard{set: set, atOnce: map[string]int{}, most: most}
}

// use returns the set that is in force, which has to be left.
func (g *Guard) use() *Set {
	g.mutex.Lock()
	defer g.mutex.Unlock()
	g.set.using.RLock()
	return g.set
}

// A Visit is a request of a caller. A nil one is that of anybody, if there are no callers: everything may be done.
type Visit struct {
	Caller string
	guard  *Guard
	set    *Set
	// isJudged says that the set has nothing more to judge, and isLeft that the request has been answered.
	isJudged, isLeft bool
}

// Enter finds out who asks. The visit has to be left when the request has been done. Why a request is refused is for the log only.
func (g *Guard) Enter(r *http.Request) (visit *Visit, why, refused error) {
	set := g.use()
	caller, why := set.identify(r)
	if why != nil {
		set.using.RUnlock()
		return nil, why, api.Unauthorized
	}
	g.mutex.Lock()
	defer g.mutex.Unlock()
	if g.atOnce[caller] == g.most {
		set.using.RUnlock()
		return nil, nil, api.TooManyRequests
	}
	g.atOnce[caller]++
	return &Visit{Caller: caller, guard: g, set: set}, nil, nil
}

// Name returns the name of the caller, which is empty if there are no callers.
func (v *Visit) Name() string {
	if v == nil {
		return ""
	}
	return v.Caller
}

// May refuses the caller if it may not do all of some calls.
func (v *Visit) May(calls ...*api.Call) error {
	if v == nil {
		return nil
	}
	return v.set.May(v.Caller, calls...)
}

// MayAny refuses the caller if it has none of some operations, in no scope.
func (v *Visit) MayAny(operations ...string) error {
	if v == nil {
		return nil
	}
	return v.set.MayAny(v.Caller, operations...)
}

// Rights returns what the caller may do, a grant for each scope.
func (v *Visit) Rights() ([]Grant, error) {
	if v == nil || !v.set.names[v.Caller] {
		return nil, nil
	}
	return v.set.grantsOf(v.Caller)
}

// Again does something while the caller of a request that is still being answered may do an operation, by the callers that are in
// force now. A caller who is no longer known, or is another one, is refused.
func (v *Visit) Again(r *http.Request, operation string, do func()) error {
	if v == nil {
		do()
		return nil
	}
	set := v.guard.use()
	defer set.using.RUnlock()
	caller, err := set.identify(r)
	if err != nil || caller != v.Caller {
		return api.Unauthorized
	}
	if err := set.MayRead(caller, operation); err != nil {
		return err
	}
	do()
	return nil
}

// Done says that the office has nothing more to do for the request. Other callers may then come into force.
func (v *Visit) Done() {
	if v != nil && !v.isJudged {
		v.isJudged = true
		v.set.using.RUnlock()
	}
}

// Leave says that the request has been answered.
func (v *Visit) Leave() {
	v.Done()
	v.guard.mutex.Lock()
	defer v.guard.mutex.Unlock()
	if v.isLeft {
		return
	}
	v.isLeft = true
	if v.guard.atOnce[v.Caller]--; v.guard.atOnce[v.Caller] == 0 {
		delete(v.guard.atOnce, v.Caller)
	}
}

// Replace puts a set in force. It returns when all requests that the earlier set has judged are done: when each has been left, and
// when the office has answered a question that was asked after that.
func (g *Guard) Replace(ctx context.Context, set *Set, ask func(context.Context) error) error {
	g.mutex.Lock()
	old := g.set
	g.set = set
	g.mutex.Unlock()
	closed := make(chan struct{})
	go func() {
		defer close(closed)
		old.using.Lock() // Nobody gets it any more.
		old.Close()
	}()
	select {
	case <-closed:
		return ask(ctx)
	case <-ctx.Done():
		return fmt.Errorf("requests that the earlier callers sent are still at hand: %w", ctx.Err())
	}
}

// Knows reports whether a request shows who asks.
func (g *Guard) Knows(r *http.Request) bool {
	set := g.use()
	defer set.using.RUnlock()
	_, err := set.identify(r)
	return err == nil
}

// Authority returns the authority of the certificates of callers.
func (g *Guard) Authority() *x509.CertPool {
	g.mutex.Lock()
	defer g.mutex.Unlock()
	return g.set.authority
}

// Close ends the set that is in force. No request may come any more.
func (g *Guard) Close() {
	g.mutex.Lock()
	defer g.mutex.Unlock()
	g.set.Close()
}
