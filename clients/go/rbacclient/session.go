package rbacclient

import (
	"context"
	"crypto/rand"
	"encoding/hex"
	"errors"
	"fmt"
	"sync"
	"time"
)

// What only the front does: opening a session, and ending one that is known by its digest.
const (
	opensSession = "POST /sessions"
	endsSession  = "DELETE /sessions/"
)

// The codes of NoUser, NoSession, SessionExists, NotAuthorized and UnknownFunction. rbac serve answers the last one, since it has no
// /sessions.
const (
	noUser, noSession, sessionExists, notAuthorized, noSuchPath = 2, 26, 27, 29, 35
)

// creates is for how long a server that opens no sessions isn't asked for one again.
const creates = time.Minute

// SessionConfig is what a session is made from.
type SessionConfig struct {
	User string
	// Roles are those to activate, or nil for all that the user is assigned to. The front activates as many of them in their order as
	// it can, and rbac serve all of them, or it refuses.
	Roles []string
	// Renew makes the session again when a decision finds that it has ended, with those of its roles that are left, and never with others.
	Renew bool
	// Check decides instead of the client, such as Decide of a replica.
	Check Check
}

// LeftOut is a role that wasn't activated in a session, and the refusal of docs/reference/api.md that says why.
type LeftOut struct {
	Role    string
	Code    int
	Name    string
	Details map[string]interface{} // the refusal's further key, if any
}

// Session is a session of a user. Goroutines may share it.
type Session struct {
	client *Client

	mu      sync.Mutex // It is held for moments, never while something is asked.
	config  SessionConfig
	name    string
	roles   []string
	left    []LeftOut
	renewal *renewal // what makes the session again at the moment
}

// NewSessionName returns a new name for a session, which nobody can guess and no other session has.
func NewSessionName() (string, error) {
	var name [16]byte
	if _, err := rand.Read(name[:]); err != nil {
		return "", err
	}
	return hex.EncodeToString(name[:]), nil
}

// OpenSession makes a session under a new name, which nobody can guess.
func (c *Client) OpenSession(ctx context.Context, config SessionConfig) (*Session, error) {
	s := &Session{client: c, config: config}
	if err := s.open(ctx); err != nil {
		return nil, err
	}
	return s, nil
}

// String and GoString show a session without its name.
func (s *Session) String() string {
	return fmt.Sprintf("a session of %q", s.config.User)
}

// GoString is String.
func (s *Session) GoString() string {
	return s.String()
}

// Name is the present name of the session. Whoever knows it can ask.
func (s *Session) Name() string {
	s.mu.Lock()
	defer s.mu.Unlock()
	return s.name
}

// Roles are those that were activated when the session was made.
func (s *Session) Roles() []string {
	s.mu.Lock()
	defer s.mu.Unlock()
	return append([]string{}, s.roles...)
}

// Left are those of the wanted roles that the front has left out.
func (s *Session) Left() []LeftOut {
	s.mu.Lock()
	defer s.mu.Unlock()
	return append([]LeftOut{}, s.left...)
}

// EndSession ends the session that has this digest, as lists and records of the front show it.
func (c *Client) EndSession(ctx context.Context, digest string) error {
	if text, err := hex.DecodeString(digest); err != nil || len(text) != 16 || hex.EncodeToString(text) != digest {
		return failed(InvalidRequest, false, errors.New("this is not the digest of a session"))
	}
	return c.doneAgain(ctx, noSession, endsSession+digest)
}

// Check says whether the session may do the operation on the object, and why. Without an answer it denies.
func (s *Session) Check(ctx context.Context, operation, object string) Decision {
	if s.config.Check != nil {
		return s.check(ctx, s.config.Check, operation, object)
	}
	return s.client.keep(ctx, s.check(ctx, s.client.decide, operation, object), operation, object)
}

// check returns a decision, for which the session is made again if that is wanted.
func (s *Session) check(ctx context.Context, decide Check, operation, object string) Decision {
	began, name := time.Now(), s.Name()
	decision := decide(ctx, name, operation, object)
	if decision.Reason != EndedSession {
		return decision
	}
	ctx, cancel := context.WithDeadline(ctx, s.client.deadline(ctx, began))
	defer cancel()
	isRenewed, err := s.renew(ctx, name)
	switch {
	case err != nil && asError(err).Reason != Refused:
		return undecided(err)
	case isRenewed:
		return decide(ctx, s.Name(), operation, object)
	}
	return decision
}

// May reports whether to let the session do the operation on the object.
func (s *Session) May(ctx context.Context, operation, object string) bool {
	return s.Check(ctx, operation, object).Allowed()
}

// Close ends the session, for good. It is no error if it has ended before.
func (s *Session) Close(ctx context.Context) error {
	s.mu.Lock()
	s.config.Renew = false
	own := s.renewal
	s.mu.Unlock()
	if own != nil {
		select {
		case <-own.over:
		case <-ctx.Done():
		}
	}
	err := s.client.doneAgain(ctx, noSession, "deleteSession", argument{"user", s.config.User}, argument{"session", s.Name()})
	// The user may be gone as well.
	if IsRefused(err, noSession) || IsRefused(err, noUser) {
		return nil
	}
	return err
}

// open makes the session.
func (s *Session) open(ctx context.Context) error {
	if time.Now().UnixNano() >= s.client.createsUntil.Load() {
		arguments := []argument{{"user", s.config.User}}
		if wanted := s.wanted(); wanted != nil {
			arguments = append(arguments, argument{"roles", wanted})
		}
		opened, err := ask[sessionText](ctx, s.client, opensSession, arguments...)
		if err == nil && !opened.isRight() {
			err = failed(Unexpected, true, errors.New("no answer of rbac: no session"))
		}
		if err == nil {
			s.became(opened.Session, opened.Roles, opened.left())
		}
		if !IsRefused(err, noSuchPath) {
			return err
		}
		s.client.createsUntil.Store(time.Now().Add(creates).UnixNano())
	}
	return s.create(ctx)
}

// create makes the session by createSession. If the answer is lost it is sent again: nobody else has that name.
func (s *Session) create(ctx context.Context) error {
	name, err := NewSessionName()
	if err != nil {
		return err
	}
	roles, err := s.present(ctx)
	if err != nil {
		return err
	}
	err = s.client.doneAgain(ctx, sessionExists, "createSession",
		argument{"user", s.config.User}, argument{"roles", roles}, argument{"session", name})
	if err == nil {
		s.became(name, roles, nil)
	}
	return err
}

// became notes the session that was made. If it is made again it gets no role that it hasn't had.
func (s *Session) became(name string, roles []string, left []LeftOut) {
	s.mu.Lock()
	defer s.mu.Unlock()
	s.name, s.roles, s.left = name, roles, left
}

// wanted returns the roles that are asked for: those that it has had if it is made again. It is nil for all of the user.
func (s *Session) wanted() []string {
	if s.Name() != "" {
		return s.Roles()
	}
	return s.config.Roles
}

// present returns the roles for createSession: those that are wanted, and after the first time that the user is still authorized for.
func (s *Session) present(ctx context.Context) ([]string, error) {
	wanted := s.wanted()
	if wanted == nil {
		return s.client.AssignedRoles(ctx, s.config.User)
	}
	if s.Name() == "" {
		return append([]string{}, wanted...), nil
	}
	authorized, err := s.client.AuthorizedRoles(ctx, s.config.User)
	if err != nil {
		return nil, err
	}
	isLeft := map[string]bool{}
	for _, role := range authorized {
		isLeft[role] = true
	}
	roles := []string{}
	for _, role := range wanted {
		if isLeft[role] {
			roles = append(roles, role)
		}
	}
	if len(roles) == 0 && len(wanted) > 0 {
		return nil, RefusedError(notAuthorized, refusals[notAuthorized].name) // Without a role there is no session to be made again.
	}
	return roles, nil
}

// A renewal makes a session again. Others wait until it is over, and get its error.
type renewal struct {
	over chan struct{}
	err  error
}

// renew makes the session again if that is wanted, or waits for the goroutine that does. It reports whether there is a new one.
func (s *Session) renew(ctx context.Context, name string) (bool, error) {
	s.mu.Lock()
	if !s.config.Renew || s.name != name {
		defer s.mu.Unlock()
		return s.name != name, nil
	}
	own := s.renewal
	if own == nil {
		own = &renewal{over: make(chan struct{})}
		s.renewal = own
		go s.makeAgain(own)
	}
	s.mu.Unlock()
	select {
	case <-own.over:
		return own.err == nil, own.err
	case <-ctx.Done():
		return false, failed(Unanswered, true, fmt.Errorf("the session wasn't made again in time: %w", ctx.Err()))
	}
}

// makeAgain makes the session again for all who wait, whose contexts may end before that of another one.
func (s *Session) makeAgain(own *renewal) {
	ctx, cancel := context.WithTimeout(context.Background(), s.client.timeout)
	defer cancel()
	own.err = s.open(ctx)
	s.mu.Lock()
	s.renewal = nil
	s.mu.Unlock()
	close(own.over)
}
