// Package pause waits.
package pause

import (
	"context"
	"time"
)

// For waits for some time, unless the context ends before.
func For(ctx context.Context, length time.Duration) error {
	timer := time.NewTimer(length)
	defer timer.Stop()
	select {
	case <-timer.C:
		return nil
	case <-ctx.Done():
		return ctx.Err()
	}
}
