package front

import (
	"context"
	"time"

	"github.com/prometheus/client_golang/prometheus"

	"rbac-node/internal/endpoints"
	"rbac-node/internal/logs"
	"rbac-node/internal/state"
)

const (
	// roomInterval is how often the log may say that little room is left.
	roomInterval = 2 * time.Second
	// A kind is nearly full at one share of its limit, in percent. The log says so again only after it fell below the other one.
	nearlyFull, calm = 80, 70
)

// rooms reports how much room the office has left, in the metrics and in the log.
type rooms struct {
	office      endpoints.Office
	log         *logs.Logger
	room, limit *prometheus.Desc
	// said has for each kind how full it was when the log last said so.
	said map[string]fullness
}

// A fullness is how much of a limit is used.
type fullness int

const (
	isCalm fullness = iota
	isBetween
	isNearlyFull
	isFull
)

// fullnessOf returns how full a kind is.
func fullnessOf(r state.Room) fullness {
	switch {
	case r.Count >= r.Limit:
		return isFull
	case 100*r.Count >= nearlyFull*r.Limit:
		return isNearlyFull
	case 100*r.Count >= calm*r.Limit:
		return isBetween
	}
	return isCalm
}

func newRooms(office endpoints.Office, log *logs.Logger) *rooms {
	desc := func(name, help string) *prometheus.Desc { return prometheus.NewDesc(name, help, []string{"kind"}, nil) }
	return &rooms{
		office: office, log: log, said: map[string]fullness{},
		room:  desc("rbac_node_room", "How many more there may be of a kind in the office."),
		limit: desc("rbac_node_limit", "How many there may be of a kind in the office."),
	}
}

// now returns how many there are of each kind, or nothing if that isn't known.
func (r *rooms) now() (found []state.Room) {
	s := r.office.State()
	if s == nil {
		return nil
	}
	if err := s.Look(func(v *state.View) { found = v.Rooms() }); err != nil {
		return nil
	}
	return found
}

// Describe names the metrics.
func (r *rooms) Describe(to chan<- *prometheus.Desc) {
	to <- r.room
	to <- r.limit
}

// Collect reports the metrics, unless it isn't known what is in the office.
func (r *rooms) Collect(to chan<- prometheus.Metric) {
	for _, one := range r.now() {
		to <- prometheus.MustNewConstMetric(r.room, prometheus.GaugeValue, float64(one.Limit-one.Count), one.Kind)
		to <- prometheus.MustNewConstMetric(r.limit, prometheus.GaugeValue, float64(one.Limit), one.Kind)
	}
}

// watch says in the log that little room is left, until the context ends.
func (r *rooms) watch(ctx context.Context) {
	ticker := time.NewTicker(roomInterval)
	defer ticker.Stop()
	for seen := int64(-1); ; {
		select {
		case <-ticker.C:
		case <-ctx.Done():
			return
		}
		s := r.office.State()
		if s == nil {
			continue
		}
		if number := s.Numbers().All; number != seen {
			seen = number
			r.say(r.now())
		}
	}
}

// say says which kinds are nearly full, or full, once until there is more room. A single set or session may well be full for good.
func (r *rooms) say(all []state.Room) {
	for _, one := range all {
		is := fullnessOf(one)
		if is == isCalm {
			delete(r.said, one.Kind)
		}
		if is < isNearlyFull || is <= r.said[one.Kind] || one.IsOfOne() {
			continue
		}
		r.said[one.Kind] = is
		fields := []any{"kind", one.Kind, "count", one.Count, "limit", one.Limit}
		if one.IsOfSessions() {
			fields = append(fields, "do", endpoints.EndsSessions)
		}
		if is == isFull {
			r.log.Error("the office is full: there is no room for another one of this kind", fields...)
			continue
		}
		r.log.Warn("the office is nearly full: there is little room for more of this kind", fields...)
	}
}
