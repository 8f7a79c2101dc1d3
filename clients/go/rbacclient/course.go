package rbacclient

import (
	"context"
	"fmt"
	"strings"
	"time"
)

// never is in place of a code for a command that may not be repeated.
const never = -1

// mostAttempts is how often a command is sent at most.
const mostAttempts = 4

// course is that of one call: which address is asked next, for how long, and after which pause.
type course struct {
	client     *Client
	ctx        context.Context
	deadline   time.Time
	latest     time.Time // until when a question is asked again at the same addresses
	isQuestion bool
	again      int // the code that means that a repeated command was done; 0 if none does
	left       int // attempts
	unreached  int // further addresses for a command; one that can't be reached costs no attempt, since nothing was sent
	at         int
	sent       int
	isLost     bool
	isDone     bool
}

// newCourse begins a call. again is the code that means that the command was done, if the function alone doesn't say it.
func newCourse(ctx context.Context, c *Client, function string, again int) *course {
	began := time.Now()
	deadline := c.deadline(ctx, began)
	code, isKnown := commands[function]
	if again != 0 {
		code, isKnown = again, true
	}
	r := &course{client: c, ctx: ctx, deadline: deadline, isQuestion: !isCommand(function), again: code, left: 1}
	r.latest = began.Add(deadline.Sub(began) / 2)
	r.unreached, r.at = len(c.addresses)-1, int(c.first.Load())
	switch {
	case r.isQuestion:
		r.left = len(c.addresses)
	case isKnown && code != never && !c.noRepeats:
		r.left = mostAttempts
	}
	return r
}

// deadline returns when a call that begins now has to have ended.
func (c *Client) deadline(ctx context.Context, now time.Time) time.Time {
	own := now.Add(c.timeout)
	if deadline, hasDeadline := ctx.Deadline(); hasDeadline && deadline.Before(own) {
		return deadline
	}
	return own
}

// isCommand reports whether a function changes the office, as all do that only the front does.
func isCommand(function string) bool {
	_, isCommand := commands[function]
	return isCommand || strings.Contains(function, " ")
}

// address is the one that is asked now.
func (r *course) address() *address {
	return r.client.addresses[r.at%len(r.client.addresses)]
}

// limit is when the attempt has to have ended: a share of the time is left for each further attempt.
func (r *course) limit() time.Time {
	share := r.left
	if !r.isQuestion {
		share = 1 + r.unreached
		if r.left > 1 {
			share++
		}
	}
	now := time.Now()
	return now.Add(r.deadline.Sub(now) / time.Duration(share))
}

// answered notes that the address has answered: the next call begins with it.
func (r *course) answered() {
	r.client.first.Store(int64(r.at % len(r.client.addresses)))
}

// after returns the error of the call, or nil if there is another attempt or the command was done.
func (r *course) after(err *Error) *Error {
	isRefused := err.Code != 0 && err.Reason != Unavailable
	if isRefused {
		r.answered()
		if r.isLost && r.again != 0 && err.Code == r.again {
			r.isDone = true
			return nil
		}
	}
	err.MayBeDone = !r.isQuestion && (err.MayBeDone || r.isLost)
	if isRefused || !isOfOneAddress(err.Reason) || r.ctx.Err() != nil || !time.Now().Before(r.deadline) {
		return r.last(err)
	}
	r.at++
	if r.isQuestion {
		return r.askedAgain(err)
	}
	if isUnsent(err) {
		if r.unreached > 0 {
			r.unreached--
			return nil
		}
		if !r.isLost {
			return err
		}
		return r.pause(err) // The command waits for a server.
	}
	r.left--
	if r.left == 0 || err.Reason == Unexpected {
		return err
	}
	r.isLost = r.isLost || err.MayBeDone
	return r.pause(err)
}

// askedAgain returns nil if the next address is asked: at once, or all of them again after a pause, while half of the time is left.
func (r *course) askedAgain(err *Error) *Error {
	r.left--
	if r.left > 0 {
		return nil
	}
	if !isOfTheMoment(err.Reason) || time.Now().Add(r.nextPause()).After(r.latest) {
		return err
	}
	r.left = len(r.client.addresses)
	return r.pause(err)
}

// last is what the call returns at its end: a command that was sent is unanswered, though nobody could be reached after that.
func (r *course) last(err *Error) *Error {
	if r.isLost && isUnsent(err) {
		return failed(Unanswered, true, fmt.Errorf("the answer was lost, and then: %w", err))
	}
	return err
}

// isUnsent reports whether nothing was sent before an error.
func isUnsent(err *Error) bool {
	return err.Reason == Unreachable || err.Reason == Untrusted
}

// nextPause is that before the next attempt: each time twice as long.
func (r *course) nextPause() time.Duration {
	return r.client.pause << r.sent
}

// pause waits, and returns the error if the call ends meanwhile.
func (r *course) pause(err *Error) *Error {
	timer := time.NewTimer(r.nextPause())
	defer timer.Stop()
	r.sent++
	select {
	case <-timer.C:
		return nil
	case <-r.ctx.Done():
		return r.last(err)
	}
}

// isOfTheMoment reports whether the same address may have an answer soon: a server that is restarted or too busy.
func isOfTheMoment(reason Reason) bool {
	return reason == Unavailable || reason == Unreachable || reason == Unanswered
}

// isOfOneAddress reports whether another address may have an answer.
func isOfOneAddress(reason Reason) bool {
	switch reason {
	case Unavailable, Unreachable, Untrusted, Unanswered, Unexpected:
		return true
	}
	return false
}
