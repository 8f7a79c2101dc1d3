// Package metrics makes the registry of a program, and gauges whose values are read when they are asked for.
package metrics

import (
	"net/http"
	"runtime"

	"github.com/prometheus/client_golang/prometheus"
	"github.com/prometheus/client_golang/prometheus/collectors"
	"github.com/prometheus/client_golang/prometheus/promauto"
	"github.com/prometheus/client_golang/prometheus/promhttp"
)

// New returns a registry with what is known of the process, of Go, and of what the program was built: its version, its sources and
// the proved program beside them.
func New(version, sources, program string) *prometheus.Registry {
	registry := prometheus.NewRegistry()
	registry.MustRegister(collectors.NewProcessCollector(collectors.ProcessCollectorOpts{}), collectors.NewGoCollector())
	promauto.With(registry).NewGaugeVec(prometheus.GaugeOpts{
		Name: "rbac_node_build_info", Help: "1, with of what the program was built.",
	}, []string{"version", "goversion", "sources", "program"}).WithLabelValues(version, runtime.Version(), sources, program).Set(1)
	return registry
}

// Handler returns what answers with all metrics of a registry.
func Handler(registry prometheus.Gatherer) http.Handler {
	return promhttp.HandlerFor(registry, promhttp.HandlerOpts{})
}

// Gauge registers a gauge whose value is read when it is asked for.
func Gauge(registry prometheus.Registerer, name, help string, value func() float64) {
	promauto.With(registry).NewGaugeFunc(prometheus.GaugeOpts{Name: name, Help: help}, value)
}

// Flag registers a gauge that is 1 while something is so, and 0 otherwise.
func Flag(registry prometheus.Registerer, name, help string, is func() bool) {
	Gauge(registry, name, help, func() float64 {
		if is() {
			return 1
		}
		return 0
	})
}
