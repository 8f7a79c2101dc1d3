package single

import (
	"sync"
	"time"

	"github.com/prometheus/client_golang/prometheus"
	"github.com/prometheus/client_golang/prometheus/promauto"
)

const (
	// Pauses grow from firstPause to longestPause if the office differs from its file again within calmInterval.
	firstPause, longestPause = time.Second, 15 * time.Second
	calmInterval             = 5 * time.Minute
)

// A rereading says when the office in this process wasn't that of its file, and has to begin with it again.
type rereading struct {
	count prometheus.Counter
	mutex sync.Mutex // for what follows
	// last is when the office last differed, and pause how long nobody reads it since then. isDue says that it hasn't been read since.
	last  time.Time
	pause time.Duration
	isDue bool
}

func newRereading(registry prometheus.Registerer) *rereading {
	return &rereading{count: promauto.With(registry).NewCounter(prometheus.CounterOpts{
		Name: "rbac_node_office_differed_total", Help: "How often the office in this process was not that of its file, and began with it again.",
	})}
}

// differs notes that the office isn't that of the file, and returns how long nobody is to read it. It is counted once until it is read.
func (r *rereading) differs(now time.Time) time.Duration {
	r.mutex.Lock()
	defer r.mutex.Unlock()
	if r.isDue {
		return r.pause
	}
	switch {
	case now.Sub(r.last) > calmInterval:
		r.pause = 0
	case r.pause == 0:
		r.pause = firstPause
	case r.pause < longestPause/2:
		r.pause *= 2
	default:
		r.pause = longestPause
	}
	r.last, r.isDue = now, true
	r.count.Inc()
	return r.pause
}

// rest returns what is left of the pause.
func (r *rereading) rest(now time.Time) time.Duration {
	r.mutex.Lock()
	defer r.mutex.Unlock()
	if !r.isDue {
		return 0
	}
	return r.last.Add(r.pause).Sub(now)
}

// isOver says that the office was read.
func (r *rereading) isOver() {
	r.mutex.Lock()
	defer r.mutex.Unlock()
	r.isDue = false
}

// has reports whether the office has to begin again.
func (r *rereading) has() bool {
	r.mutex.Lock()
	defer r.mutex.Unlock()
	return r.isDue
}
