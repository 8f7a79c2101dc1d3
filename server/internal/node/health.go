package node

import (
	"context"
	"fmt"
	"time"

	"github.com/prometheus/client_golang/prometheus"

	"rbac-node/internal/api"
	"rbac-node/internal/boottime"
	"rbac-node/internal/metrics"
)

// maxReadyAge is how old the state of a ready node may be.
const maxReadyAge = 3 * time.Second

// Health returns the condition of the node. It is ready if it has done what the log had a short time ago.
func (n *Node) Health() api.Health {
	age, at := boottime.Since(n.newest()), n.applied.Load()
	s := api.Health{Open: n.options.IsOpen, Record: n.options.Record.Why(), Progress: &api.Progress{
		Revision: at.Revision, Count: at.count, Snapshot: n.snapshot.Load(), Age: age.Seconds(), Newest: n.seen.Load(),
	}}
	switch s.Why, _ = n.differs.Load().(string); {
	case s.Why != "":
	case n.heard.Load() < 0:
		stage, _ := n.stage.Load().(string)
		s.Why = "starting: " + stage
	case !n.state.IsKnown():
		s.Why = "the office in this process has failed"
	case age > maxReadyAge:
		s.Why = fmt.Sprintf("the state may be %.1f s old", s.Age)
	default:
		s.Ready = true
	}
	return s
}

// IsAlive reports whether the goroutine that does entries goes on, before the context ends.
func (n *Node) IsAlive(ctx context.Context) bool {
	if !n.isFed.Load() {
		return true // It has not been started yet.
	}
	done := make(chan struct{})
	if err := n.submit(ctx, task{0, func() { close(done) }}); err != nil {
		return false
	}
	select {
	case <-done:
		return true
	case <-ctx.Done():
		return false
	}
}

func (n *Node) addMetrics(registry prometheus.Registerer) {
	gauge := func(name, help string, value func(api.Health) float64) {
		metrics.Gauge(registry, "rbac_node_"+name, help, func() float64 { return value(n.Health()) })
	}
	metrics.Flag(registry, "rbac_node_ready", "1 if the node has applied what the log had a short time ago.", func() bool { return n.Health().Ready })
	gauge("revision", "Revision of the last entry that was applied.", func(s api.Health) float64 { return float64(s.Revision) })
	gauge("commands", "Commands of the log that were applied.", func(s api.Health) float64 { return float64(s.Count) })
	gauge("snapshot_revision", "Revision of the newest snapshot.", func(s api.Health) float64 { return float64(s.Snapshot) })
	metrics.Flag(registry, "rbac_node_snapshot_failing", "1 if the last snapshot could not be made.", n.isFailing.Load)
	gauge("age_seconds", "How old the state may be.", func(s api.Health) float64 { return s.Age })
}
