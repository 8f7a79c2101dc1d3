package record

import (
	"fmt"
	"io"
	"strings"
	"sync"
	"testing"

	"github.com/prometheus/client_golang/prometheus"

	"rbac-node/internal/logs"
)

// TestHeadGauge logs later and later heads by several goroutines. Each scrape has a head, none an earlier one than the scrape before, and
// the last one the last head alone.
func TestHeadGauge(t *testing.T) {
	dir, registry := t.TempDir(), prometheus.NewRegistry()
	if err := makeFile(dir, part{first: 1, why: beginning, rows: ""}, now(), "/dev/null"); err != nil {
		t.Fatal(err)
	}
	r := newRecord(Options{Dir: dir, Log: logs.New(io.Discard), Metrics: registry})
	r.addMetrics()
	const last = 400
	r.logHead()
	var group sync.WaitGroup
	for i := 0; i < 4; i++ {
		group.Add(1)
		go func() {
			defer group.Done()
			for n := int64(2); n <= last; n++ {
				r.mutex.Lock()
				if r.head.n < n {
					r.head.n, r.head.ch = n, fmt.Sprint(n)
				}
				r.mutex.Unlock()
				r.logHead()
			}
		}()
	}
	ended := make(chan struct{})
	go func() {
		group.Wait()
		close(ended)
	}()
	heads := func() (found []float64) {
		families, err := registry.Gather()
		if err != nil {
			t.Fatal(err)
		}
		for _, family := range families {
			for _, metric := range family.Metric {
				if family.GetName() == "rbac_node_record_head" {
					found = append(found, metric.Gauge.GetValue())
				}
			}
		}
		return found
	}
	before := 0.0
	for isEnded := false; !isEnded; {
		select {
		case <-ended:
			isEnded = true
		default:
		}
		found := heads()
		most := 0.0
		for _, n := range found {
			if n > most {
				most = n
			}
		}
		if most < before || most == 0 && before > 0 {
			t.Fatalf("%v after %v", found, before)
		}
		before = most
	}
	if found := heads(); len(found) != 1 || found[0] != last {
		t.Errorf("at the end: %v", found)
	}
}

// A head of after a restore shows which heads that were noted later can't be of what the restore gave up. The same ones again change nothing.
func TestOrderOfHeads(t *testing.T) {
	link := func(text string) string { return strings.Repeat(text, linkBytes) }
	gone, since, newest := Head{7, link("a")}, Head{6, link("b")}, Head{9, link("c")}
	for what, one := range map[string]struct {
		heads []Head
		isBad bool
	}{
		"as they were noted":           {[]Head{gone, since, newest}, false},
		"the same ones twice":          {[]Head{gone, since, newest, gone, since, newest}, false},
		"of what came since":           {[]Head{since, gone, newest}, true},
		"of what came since, twice":    {[]Head{since, gone, newest, since}, true},
		"of what came since and later": {[]Head{since, newest, gone}, true},
	} {
		k, err := newKnownLinks(known(one.heads...))
		if err != nil {
			t.Fatal(err)
		}
		k.restored = 5
		if err := k.compare(since.N, since.Chain); err != nil {
			t.Errorf("%s: %v", what, err)
		}
		if err := k.compare(7, link("d")); (err != nil) != one.isBad {
			t.Errorf("%s: %v", what, err)
		}
	}
}
