package main

import (
	"context"
	"errors"
	"os"

	"rbac-node/internal/front"
	"rbac-node/internal/logs"
	"rbac-node/internal/metrics"
	"rbac-node/internal/single"
)

var errNotLocal = errors.New("an address that other machines can reach needs --tls-cert and --callers")

// serveOne serves the office of a file until the context ends or something fails.
func (s *settings) serveOne(ctx context.Context) error {
	addresses, err := s.listenOr(socketOf(s.office))
	if err != nil {
		return err
	}
	for _, address := range addresses {
		if !address.IsLocal() && (s.front.TLS.Cert == "" || s.front.IsOpen()) {
			return errNotLocal
		}
	}
	if err := single.CheckFile(ctx, s.program, s.office); err != nil {
		return err
	}
	if s.front.Refused == "" {
		s.front.Refused = s.office + ".refused"
	}
	log, registry := logs.New(os.Stderr), metrics.New(version, sources, proved)
	options := s.frontOptions(addresses, log, registry)
	options.IsHostChecked, options.HasMetrics = true, true
	f, err := front.New(ctx, options)
	if err != nil {
		return err
	}
	defer f.Close()
	recording, err := s.recording()
	if err != nil {
		return err
	}
	failed := make(chan error, 1)
	office, err := single.Open(ctx, single.Options{
		File: s.office, Program: s.program, AnswerTimeout: s.front.AnswerTimeout, HangTimeout: s.hangTimeout, Reads: single.MostReads,
		Log: log, Metrics: registry, IsOpen: options.IsOpen(), SessionAge: s.sessionAge, SessionIdle: s.sessionIdle,
		Recording: recording, Say: f.Say,
		Locked: func() error {
			if err := f.Listen(); err != nil {
				return err
			}
			f.Begin(reportingTo(failed))
			return nil
		},
	})
	if err != nil {
		return err
	}
	metrics.Flag(registry, "rbac_node_ready", "1 if the office answers.", office.IsReady)
	s.saySessions(log)
	return answer(ctx, f, office, failed, log, func(context.Context) {})
}
