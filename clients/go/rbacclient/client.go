// Package rbacclient is a client of the role administration server rbac and of its front.
//
// A Client has a method for each of the functions of docs/reference/api.md, Check, May and DecideByUser for decisions, OpenSession
// for sessions, and Guard and GuardByUser for handlers of net/http. docs/howto/integrate.md shows how an application uses them. It
// needs nothing but Go's own library.
package rbacclient

import (
	"context"
	"crypto/tls"
	"errors"
	"fmt"
	"log"
	"net/http"
	"strings"
	"sync/atomic"
	"time"
)

// Config is what a client is made from. Addresses is required.
type Config struct {
	// Addresses are one or more of http://HOST:PORT, https://HOST:PORT and unix:PATH. One answers for all.
	Addresses []string
	// Token shows who asks, and TokenFunc returns the present one. At most one of them is given. The end of a line after it is ignored.
	Token     string
	TokenFunc func() string
	// TokenOverHTTP says that the token is sent to other machines without TLS too, over a network that encrypts by itself.
	TokenOverHTTP bool
	// Timeout limits a call as a whole, with all of its attempts, and a check with the renewal of its session. The default is 10 seconds.
	Timeout time.Duration
	// TLS has the authorities that are trusted and the client's own certificate. The default trusts those of the system.
	TLS *tls.Config
	// Pause passes before a command is sent again, or a question at the same addresses, which is done while half of the time is left. Each
	// further pause is twice as long. The default is 100 milliseconds.
	Pause time.Duration
	// NoRepeats says that a command whose answer was lost is never sent again, even if docs/howto/integrate.md, section 3, allows it.
	NoRepeats bool
	// Log gets lines about decisions that the office hasn't made: one for each change of the reason, and otherwise one a second, which
	// counts the others. The default is the standard logger.
	Log *log.Logger
}

// String and GoString show a configuration without its token.
func (c Config) String() string {
	return fmt.Sprintf("a client of %q", c.Addresses)
}

// GoString is String.
func (c Config) GoString() string {
	return c.String()
}

// Client asks a server, or several servers of one office. Goroutines may share it.
type Client struct {
	addresses []*address
	token     func() (string, error)
	timeout   time.Duration
	pause     time.Duration
	noRepeats bool
	log       *log.Logger
	first     atomic.Int64 // the address that answered last
	revision  atomic.Uint64
	// createsUntil is until when sessions are made by createSession, in nanoseconds, since the server opens none.
	createsUntil atomic.Int64

	tally Tally
}

// New makes a client. It connects when it is first used.
func New(config Config) (*Client, error) {
	if len(config.Addresses) == 0 {
		return nil, errors.New("rbacclient: there is no address")
	}
	token, err := tokenOf(config)
	if err != nil {
		return nil, err
	}
	c := &Client{
		token:     token,
		timeout:   config.Timeout,
		pause:     config.Pause,
		noRepeats: config.NoRepeats,
		log:       config.Log,
	}
	for _, text := range config.Addresses {
		read, err := readAddress(text, config.TLS)
		if err != nil {
			return nil, err
		}
		if token != nil && !read.hides && !config.TokenOverHTTP {
			return nil, errNoTLS
		}
		c.addresses = append(c.addresses, read)
	}
	if c.timeout <= 0 {
		c.timeout = 10 * time.Second
	}
	if c.pause <= 0 {
		c.pause = 100 * time.Millisecond
	}
	if c.log == nil {
		c.log = log.Default()
	}
	return c, nil
}

// errToken and errNoTLS are why a token can't be sent, or isn't. They don't show it.
var (
	errToken = errors.New("rbacclient: a token is a text of visible ASCII characters without spaces")
	errNoTLS = errors.New("rbacclient: a token is sent over TLS alone, or to this machine: give an address that begins with https://, " +
		"or TokenOverHTTP if the network encrypts by itself")
)

// tokenOf returns what returns the present token, or nil if there is none.
func tokenOf(config Config) (func() (string, error), error) {
	if config.Token == "" && config.TokenFunc != nil {
		return func() (string, error) { return judged(config.TokenFunc()) }, nil
	}
	if config.Token == "" {
		return nil, nil
	}
	if config.TokenFunc != nil {
		return nil, errors.New("rbacclient: there is a Token and a TokenFunc")
	}
	token, err := judged(config.Token)
	if err != nil {
		return nil, err
	}
	return func() (string, error) { return token, nil }, nil
}

// judged returns a token without the end of the line that it may have, if it can be sent.
func judged(token string) (string, error) {
	if strings.HasSuffix(token, "\n") {
		token = strings.TrimSuffix(token[:len(token)-1], "\r")
	}
	for i := 0; i < len(token); i++ {
		if token[i] <= ' ' || token[i] > '~' {
			return "", errToken
		}
	}
	if token == "" {
		return "", errToken
	}
	return token, nil
}

// present returns the token that shows who asks, or nothing.
func (c *Client) present() (string, *Error) {
	if c.token == nil {
		return "", nil
	}
	token, err := c.token()
	if err != nil {
		return "", failed(InvalidRequest, false, err)
	}
	return token, nil
}

// Close closes the connections that are kept. A further call opens a new one.
func (c *Client) Close() {
	for _, one := range c.addresses {
		one.closeIdle()
	}
}

// Check says whether the session may do the operation on the object, and why. Without an answer it denies.
func (c *Client) Check(ctx context.Context, session, operation, object string) Decision {
	return c.keep(ctx, c.decide(ctx, session, operation, object), operation, object)
}

// DecideByUser says whether the user may do the operation on the object in some session, and why: for applications without sessions. The
// front decides; rbac serve can't. Without an answer it denies.
func (c *Client) DecideByUser(ctx context.Context, user, operation, object string) Decision {
	return c.keep(ctx, DecisionOf(c.AskByUser(ctx, user, operation, object)), operation, object)
}

// AskByUser is DecideByUser as CheckAccess is Check: it returns the answer or an error, and counts nothing.
func (c *Client) AskByUser(ctx context.Context, user, operation, object string) (bool, error) {
	return c.access(ctx, byUser, argument{"user", user}, argument{"operation", operation}, argument{"object", object})
}

// May reports whether to let the session do the operation on the object.
func (c *Client) May(ctx context.Context, session, operation, object string) bool {
	return c.Check(ctx, session, operation, object).Allowed()
}

// Counts returns how many decisions there were, by their reasons.
func (c *Client) Counts() map[Reason]uint64 { return c.tally.Counts() }

// decide returns a decision that isn't counted yet.
func (c *Client) decide(ctx context.Context, session, operation, object string) Decision {
	return DecisionOf(c.CheckAccess(ctx, session, operation, object))
}

// keep counts a decision, and logs it if the office hasn't made it. One that the caller has cancelled says nothing about the office.
func (c *Client) keep(ctx context.Context, decision Decision, operation, object string) Decision {
	if decision.IsDecided() || !errors.Is(ctx.Err(), context.Canceled) {
		c.tally.Keep(c.log, decision, operation, object)
	}
	return decision
}

// done calls a command without a value.
func (c *Client) done(ctx context.Context, function string, arguments ...argument) error {
	return c.doneAgain(ctx, 0, function, arguments...)
}

// doneAgain calls a command that a refusal with the code again means to have been done, if an answer was lost before.
func (c *Client) doneAgain(ctx context.Context, again int, function string, arguments ...argument) error {
	return c.call(ctx, function, again, arguments, func(status int, text []byte) *Error {
		if status == http.StatusOK && string(text) == doneText {
			return nil
		}
		return readRefusal(status, text)
	})
}

// permissions calls a question whose value is a list of permissions.
func (c *Client) permissions(ctx context.Context, function string, arguments ...argument) ([]Permission, error) {
	pairs, err := ask[[][2]string](ctx, c, function, arguments...)
	found := make([]Permission, len(pairs))
	for i, pair := range pairs {
		found[i] = Permission{pair[0], pair[1]}
	}
	return found, err
}

// imported calls importAssignments.
func (c *Client) imported(ctx context.Context, function string, arguments ...argument) (ImportReport, error) {
	text, err := ask[reportText](ctx, c, function, arguments...)
	found := ImportReport{Already: int(text.Already), Assigned: int(text.Assigned)}
	for _, one := range text.Refused {
		found.Refused = append(found.Refused, RefusedRecord{Record: int(one.Record), Code: int(one.Code)})
	}
	return found, err
}

// byUser is the question about a user that only the front answers.
const byUser = "decideByUser"

// access calls a question that decides. It is true only after the one answer that allows.
func (c *Client) access(ctx context.Context, function string, arguments ...argument) (isAllowed bool, err error) {
	err = c.call(ctx, function, 0, arguments, func(status int, text []byte) *Error {
		isAllowed = status == http.StatusOK && string(text) == allowedText
		if isAllowed || status == http.StatusOK && string(text) == deniedText {
			return nil
		}
		return readRefusal(status, text)
	})
	return isAllowed && err == nil, err
}

// call sends a request until it is answered, as often as its course wants.
func (c *Client) call(ctx context.Context, function string, again int, arguments []argument,
	read func(status int, text []byte) *Error) error {
	text, err := body(function, arguments)
	if err != nil {
		return err
	}
	course := newCourse(ctx, c, function, again)
	for {
		failure := c.attempt(course, function, text, read)
		if failure == nil {
			course.answered()
			return nil
		}
		if failure = course.after(failure); failure != nil {
			return failure
		}
		if course.isDone {
			return nil
		}
	}
}

// attempt sends a request once. A question is sent over a kept connection if there is one, and once more if that was closed meanwhile.
func (c *Client) attempt(course *course, function string, text []byte, read func(status int, text []byte) *Error) *Error {
	token, err := c.present()
	if err != nil {
		return err
	}
	method, path := targetOf(function)
	address, limit := course.address(), course.limit()
	request := address.request(method, path, token, text, course.isQuestion)
	if course.isQuestion {
		if kept := address.kept(); kept != nil {
			err := c.exchange(course.ctx, address, kept, limit, request, read)
			if err == nil || err.Reason != Unanswered || course.ctx.Err() != nil || !time.Now().Before(limit) {
				return err
			}
		}
	}
	ctx, cancel := context.WithDeadline(course.ctx, limit)
	defer cancel()
	made, err := address.dial(ctx)
	if err != nil {
		return err
	}
	return c.exchange(course.ctx, address, made, limit, request, read)
}

// exchange sends a request, and reads its answer. The connection is kept only after an answer of the server: what comes on it after
// another one would be taken for the next answer.
func (c *Client) exchange(ctx context.Context, address *address, conn *conn, limit time.Time, request []byte,
	read func(status int, text []byte) *Error) *Error {
	response, answer, keeps, err := conn.exchange(ctx, limit, request)
	if err != nil {
		conn.Close()
		return err
	}
	err = read(response.StatusCode, answer)
	if keeps && (err == nil || err.Code != 0) {
		address.keep(conn)
	} else {
		conn.Close()
	}
	if err != nil {
		return err
	}
	if revision, isThere := numberOf(response.Header, "Policy-Revision"); isThere {
		c.saw(revision)
	}
	return nil
}

// targetOf returns the method and the path of a function, or of what only the front does.
func targetOf(function string) (method, path string) {
	if method, path, isOfFront := strings.Cut(function, " "); isOfFront {
		return method, path
	}
	return http.MethodPost, "/v1/" + function
}

// PolicyRevision returns the newest revision of the policy that an answer has had: Policy-Revision of docs/reference/requests.md, or 0. It begins
// anew if a replica of this client finds that the office may have been restored.
func (c *Client) PolicyRevision() uint64 {
	return c.revision.Load()
}

// ForgetRevision lets PolicyRevision begin anew: the revisions that come next may be smaller if the office was restored.
func (c *Client) ForgetRevision() {
	c.revision.Store(0)
}

// saw notes the revision of the policy that an answer had.
func (c *Client) saw(revision uint64) {
	for {
		seen := c.revision.Load()
		if revision <= seen || c.revision.CompareAndSwap(seen, revision) {
			return
		}
	}
}
