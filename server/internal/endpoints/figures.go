package endpoints

import (
	"net/http"
	"strconv"
	"time"

	"github.com/prometheus/client_golang/prometheus"
	"github.com/prometheus/client_golang/prometheus/promauto"

	"rbac-node/internal/api"
)

// Figures are what is measured of requests.
type figures struct {
	answers         *prometheus.CounterVec
	seconds         *prometheus.HistogramVec
	denied, allowed prometheus.Counter
}

func newFigures(registry prometheus.Registerer) figures {
	make := promauto.With(registry)
	decisions := make.NewCounterVec(prometheus.CounterOpts{Name: "rbac_node_decisions_total", Help: "Decisions about access."}, []string{"decision"})
	f := figures{
		answers: make.NewCounterVec(prometheus.CounterOpts{
			Name: "rbac_node_answers_total", Help: "Requests that were answered.",
		}, []string{"kind", "status"}),
		seconds: make.NewHistogramVec(prometheus.HistogramOpts{
			Name: "rbac_node_answer_seconds", Help: "How long requests took.", Buckets: prometheus.ExponentialBuckets(0.0005, 2, 15),
		}, []string{"kind"}),
		denied: decisions.WithLabelValues("denied"), allowed: decisions.WithLabelValues("allowed"),
	}
	for _, kind := range []api.Kind{api.Command, api.Question} { // They are reported from the start.
		f.answers.WithLabelValues(string(kind), strconv.Itoa(http.StatusOK))
		f.seconds.WithLabelValues(string(kind))
	}
	return f
}

// Note counts a request that was answered, and how long that took.
func (f *figures) Note(kind api.Kind, status int, start time.Time) {
	f.answers.WithLabelValues(string(kind), strconv.Itoa(status)).Inc()
	f.seconds.WithLabelValues(string(kind)).Observe(time.Since(start).Seconds())
}

// decided counts the decision that an answer to a call is, and passes it on if decisions are logged.
func (e *Endpoints) decided(r *request, call *api.Call, answer []byte) {
	d := api.DecisionOf(call, answer)
	if d.IsAllowed {
		e.allowed.Inc()
	} else {
		e.denied.Inc()
	}
	if e.LogDecision != nil {
		d.Caller = r.caller()
		e.LogDecision(d)
	}
}
