package node

import (
	"context"
	"crypto/rand"
	"encoding/hex"
	"errors"
	"fmt"
	"os"
	"path/filepath"
	"strconv"
	"strings"
	"time"

	"rbac-node/internal/disk"
	"rbac-node/internal/ledger"
	"rbac-node/internal/pause"
)

const (
	// identityName is the file in the folder of a node that tells the folder from all others.
	identityName = "identity"
	// takenTimeout is how long a start waits for the end of a node with its name, which may have lost its folder a moment ago. Each new
	// leader of etcd prolongs what it has said of itself.
	takenTimeout = 6 * ledger.LifeSeconds * time.Second
	// leaveTimeout is how long it may take to say that the node ends.
	leaveTimeout = time.Second
)

// beginLife makes what this run says of itself. A folder gets a name of its own when it is first used.
func (n *Node) beginLife() error {
	path := filepath.Join(n.options.Data, identityName)
	text, err := os.ReadFile(path)
	// A crash of the machine may have left it empty.
	if errors.Is(err, os.ErrNotExist) || err == nil && len(text) == 0 {
		random := make([]byte, 16)
		if _, err := rand.Read(random); err != nil {
			return fmt.Errorf("identity: %w", err)
		}
		text = []byte(hex.EncodeToString(random) + "\n")
		err = disk.Write(path, string(text))
	}
	if err != nil {
		return fmt.Errorf("identity: %w", err)
	}
	n.life = ledger.Life{
		Name: n.options.Name, Run: strconv.FormatInt(n.start.UnixNano(), 36), Folder: strings.TrimSpace(string(text)),
		Settings:   ledger.Settings{Every: n.options.SnapshotCommands, EveryBytes: n.options.SnapshotBytes},
		HasReviews: true,
	}
	return nil
}

// enter waits until no other node runs under the name of this one, and most that run have its settings. Until then the node takes no part.
func (n *Node) enter(ctx context.Context) error {
	n.stage.Store("etcd is asked who runs")
	for began := time.Now(); ; {
		why, err := n.hindrance(ctx)
		switch {
		case err == nil && why == "":
			return nil
		case errors.Is(err, ledger.ErrFull):
			n.log.Warn("it is not known whether another node has this name", "error", err)
			return nil
		case errors.Is(err, ledger.ErrDenied), errors.Is(err, ledger.ErrNameTaken) && time.Since(began) > takenTimeout:
			return err
		case err != nil:
			why = err.Error()
		}
		if last, _ := n.stage.Load().(string); last != why {
			n.log.Warn("waiting before it takes part", "why", why)
		}
		n.stage.Store(why)
		if err := pause.For(ctx, lookInterval); err != nil {
			return err
		}
	}
}

// hindrance says that this node runs, and returns how its settings differ from those of most that run, if they do.
func (n *Node) hindrance(ctx context.Context) (string, error) {
	if err := n.renewLife(ctx); err != nil {
		return "", err
	}
	state, err := n.shared.State(ctx)
	if err != nil {
		return "", err
	}
	return otherSettings(n.life, state.Lives), nil
}

func (n *Node) renewLife(ctx context.Context) error {
	within, cancel := context.WithTimeout(ctx, lookTimeout)
	defer cancel()
	return n.shared.Live(within, n.life)
}

// live says again and again that this node runs, until the context ends or another one has its name.
func (n *Node) live(ctx context.Context) error {
	ticker := time.NewTicker(lookInterval)
	defer ticker.Stop()
	for {
		select {
		case <-ticker.C:
		case <-ctx.Done():
			return nil
		}
		err := n.renewLife(ctx)
		if errors.Is(err, ledger.ErrNameTaken) {
			return err
		}
		if err != nil && ctx.Err() == nil {
			n.log.Warn("etcd may not know that this node runs", "error", err)
		}
	}
}

// leave says that this node ends, so that another one of its name needn't wait.
func (n *Node) leave() {
	within, cancel := context.WithTimeout(context.Background(), leaveTimeout)
	defer cancel()
	n.shared.Leave(within)
}
