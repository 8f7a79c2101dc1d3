package main

import (
	"context"
	"fmt"
	"os"
	"path/filepath"
	"time"

	"github.com/prometheus/client_golang/prometheus"

	"rbac-node/internal/logs"
	"rbac-node/internal/record"
	"rbac-node/internal/recorded"
)

// recordSettings are what the command line chooses for the record of an office.
type recordSettings struct {
	isOff       bool
	every       int64
	verifyEvery time.Duration
}

// recording says how the record of an office is kept, or nothing if the command line says that it shouldn't.
func (s *settings) recording() (*record.Options, error) {
	if !s.record.isOff {
		return &record.Options{Every: s.record.every, VerifyEvery: s.record.verifyEvery}, nil
	}
	folder := record.DirOf(s.office)
	if _, err := os.Stat(filepath.Join(folder, "record.db")); err == nil {
		return nil, fmt.Errorf("--no-record would part the office from its record %s: move that folder away first", folder)
	}
	return nil, nil
}

// followRecord returns the record of a node, with its folder, the file of the office at a start and the entries of a part.
func (s *settings) followRecord(data, office string, partEntries int64, log *logs.Logger, registry prometheus.Registerer) recorded.Follower {
	return record.NewFollower(record.Options{
		Office: office, Program: s.program, Dir: record.DirIn(data), PartEntries: partEntries, Log: log,
		Metrics: registry,
	})
}

// carryRecord begins the record of a node with that of a backup of a node, and returns with what the node begins. What it returns last takes
// that back.
func (s *settings) carryRecord(ctx context.Context, backup, data string, leavesOut bool) (c record.Carried, undo func(), err error) {
	dir := record.DirIn(data)
	c, err = record.Carry(ctx, record.Options{Program: s.program, Dir: dir, Log: logs.New(os.Stderr)}, backup, leavesOut)
	return c, func() { _ = os.RemoveAll(dir) }, err
}
