package record

import (
	"bufio"
	"encoding/json"
	"errors"
	"fmt"
	"io"
	"os"
	"path/filepath"
	"strconv"
	"strings"
	"syscall"
	"time"

	"rbac-node/internal/disk"
	"rbac-node/internal/metrics"
)

// A Head is the number and the link of the last entry with an answer.
type Head struct {
	N     int64
	Chain string
}

func (h Head) String() string { return fmt.Sprintf("%d:%s", h.N, h.Chain) }

// A KnownHead is a head that is known from elsewhere. If the record was restored before it was signed, After is the newest earlier head
// that the record still had: the restore gave up what the heads between the two have signed.
type KnownHead struct {
	Head
	After Head
}

// standing returns the heads that stand, in the order in which they were noted, and how many don't since a restore gave them up.
func standing(known []KnownHead) (heads []Head, givenUp int) {
	for _, one := range known {
		if one.After.N > 0 {
			var kept []Head
			for _, head := range heads {
				if head.N <= one.After.N {
					kept = append(kept, head)
				}
			}
			givenUp += len(heads) - len(kept)
			heads = append(kept, one.After)
		}
		heads = append(heads, one.Head)
	}
	return heads, givenUp
}

// linkBytes is how long a link is as text.
const linkBytes = 64

// ParseHead reads what String writes.
func ParseHead(text string) (Head, error) {
	number, chain, _ := strings.Cut(text, ":")
	n, err := strconv.ParseInt(number, 10, 64)
	head := Head{n, chain}
	if err != nil || n < 1 || head.String() != text || len(chain) != linkBytes || strings.Trim(chain, "0123456789abcdef") != "" {
		return Head{}, errors.New("a head is N:HASH, as `rbac-node record head` prints it")
	}
	return head, nil
}

// ReadHeads reads heads from a file, one in a line. A line may also be one of the log of a front: those without a head are passed over.
// A signed head is refused, since its signature would count for nothing.
func ReadHeads(file io.Reader) (heads []KnownHead, err error) {
	lines := bufio.NewScanner(file)
	for number := 1; lines.Scan(); number++ {
		line := strings.TrimSpace(lines.Text())
		if strings.HasPrefix(line, "{") {
			var said struct {
				Entry     int64
				Chain     string
				Signature *string
			}
			if json.Unmarshal([]byte(line), &said) != nil || said.Chain == "" {
				continue
			}
			if said.Signature != nil {
				return nil, fmt.Errorf("line %d: %w", number, errSigned)
			}
			line = Head{said.Entry, said.Chain}.String()
		}
		if line == "" {
			continue
		}
		head, err := ParseHead(line)
		if err != nil {
			return nil, fmt.Errorf("line %d: %w", number, err)
		}
		heads = append(heads, KnownHead{Head: head})
	}
	if len(heads) == 0 && lines.Err() == nil {
		return nil, errNoHead
	}
	return heads, lines.Err()
}

var errSigned = errors.New("it is a signed head: name those who may have signed it with --signers")

// Head returns the head.
func (r *Record) Head() Head {
	r.mutex.Lock()
	defer r.mutex.Unlock()
	return r.head.head()
}

// DurableHead returns the head, and makes the entries up to it durable. Otherwise the answers that a power loss takes would be found
// again with other links, and a head that was given out would refute them.
func (r *Record) DurableHead() (Head, error) {
	head := r.Head()
	r.mutex.Lock()
	isDurable := head == r.durable
	r.mutex.Unlock()
	if isDurable {
		return head, nil
	}
	if err := syncLog(filepath.Join(r.dir, fileName)); err != nil {
		return Head{}, err
	}
	r.mutex.Lock()
	defer r.mutex.Unlock()
	r.durable = head
	return head, nil
}

// syncLog makes durable what was written to the log of a file of a record. SQLite syncs the file itself when it merges the log. The file
// is not opened here: when it is closed, this process would lose the locks that SQLite has on it.
func syncLog(path string) error {
	err := disk.Sync(path + walSuffix)
	if err != nil && !errors.Is(err, os.ErrNotExist) && !errors.Is(err, syscall.EROFS) {
		return fmt.Errorf("record: %w", err)
	}
	return nil
}

// announce logs the head each minute if it has changed.
func (r *Record) announce() {
	r.logHead()
	ticker := time.NewTicker(announcing)
	defer ticker.Stop()
	for {
		select {
		case <-ticker.C:
			r.logHead()
		case <-r.life.Done():
			return
		}
	}
}

func (r *Record) logHead() {
	head, err := r.DurableHead()
	if err != nil {
		r.Log.Error("the head of the record isn't logged, since the record can't be synced", "why", err)
		return
	}
	r.mutex.Lock()
	last := r.announced
	isNewer := head.N > last.N // Another goroutine may have logged a later one meanwhile.
	if isNewer {
		r.announced = head
		r.headGauge.WithLabelValues(head.Chain).Set(float64(head.N))
		r.headGauge.DeleteLabelValues(last.Chain) // After it: each scrape has a head.
	}
	r.mutex.Unlock()
	if isNewer {
		r.Log.Info("the head of the record", "entry", head.N, "chain", head.Chain)
	}
}

// addMetrics reports the head that was last logged, and whether entries can be written.
func (r *Record) addMetrics() {
	if r.Metrics == nil {
		return
	}
	r.Metrics.MustRegister(r.headGauge)
	metrics.Gauge(r.Metrics, "rbac_node_record_first", "The number of the first entry of the record that is here.", func() float64 {
		return float64(r.firstHere())
	})
	metrics.Flag(r.Metrics, "rbac_node_record_failing", "1 if the record can't be written: one machine refuses commands then.", func() bool {
		return r.Why() != ""
	})
	if r.VerifyEvery <= 0 {
		return
	}
	metrics.Flag(r.Metrics, "rbac_node_record_broken", "1 if the chain of the record was broken, or a base copy was another one, when they were last verified.", func() bool {
		r.mutex.Lock()
		defer r.mutex.Unlock()
		return r.isBroken
	})
}
