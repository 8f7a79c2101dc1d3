package main

import (
	"context"
	"errors"
	"flag"
	"fmt"
	"io"
	"os"
	"os/exec"
	"path/filepath"

	"rbac-node/internal/logs"
	"rbac-node/internal/record"
	"rbac-node/internal/restoring"
)

// restoreCommand is what `restore` needs.
type restoreCommand struct {
	restoring.Options
	known                     knownHeads
	program, by, reason, unit string
	isUnrecorded              bool
}

func (c *restoreCommand) define(flags *flag.FlagSet) {
	flags.StringVar(&c.Office, "office", "", "`file` of the office")
	flags.StringVar(&c.by, "by", "", "`who` restores the office")
	flags.StringVar(&c.reason, "reason", "", "`why`, such as the number of a ticket")
	flags.BoolVar(&c.Replaces, "replace", false, "move away the office that is there, with its record, and keep them beside it")
	flags.StringVar(&c.unit, "unit", "", "`unit` of systemd that is stopped before and started after that, such as rbac-node@office")
	flags.BoolVar(&c.isUnrecorded, "no-record", false, "the backup has no record, and none is begun")
	c.known.define(flags)
	flags.StringVar(&c.program, "program", "rbac", "the proved `program`, a path or a name that is looked up in PATH")
}

// prepareRestore defines the flags of `restore`, and returns what does it.
func prepareRestore(flags *flag.FlagSet) func([]string) error {
	c := &restoreCommand{}
	c.define(flags)
	return withArguments(1, func(arguments []string) error {
		c.Backup = arguments[0]
		return untilSignal(c.restore)
	})
}

func (c *restoreCommand) restore(ctx context.Context) error {
	if c.Office == "" {
		return errors.New("give --office the file of the office")
	}
	known, err := c.known.read(ctx)
	if err != nil {
		return err
	}
	c.Out = stdout
	reason := fmt.Sprintf("restore of %s: %s", filepath.Base(c.Backup), c.reason)
	if c.reason == "" {
		reason = ""
	}
	c.Prepare = func(ctx context.Context, office string) (string, error) {
		t := record.Tool{Office: office, Program: c.program, Out: io.Discard, Err: os.Stderr, Log: logs.New(os.Stderr)}
		return t.Restore(ctx, filepath.Base(c.Backup), c.by, reason, !c.isUnrecorded, known)
	}
	if c.unit == "" {
		return restoring.Run(ctx, c.Options)
	}
	wasActive := exec.Command("systemctl", "is-active", "--quiet", c.unit).Run() == nil
	if err := systemctl("stop", c.unit); err != nil {
		return err
	}
	err = restoring.Run(ctx, c.Options)
	if err != nil && !wasActive {
		return err
	}
	if failed := systemctl("start", c.unit); err == nil {
		err = failed
	}
	return err
}

func systemctl(verb, unit string) error {
	command := exec.Command("systemctl", verb, "--", unit)
	command.Stdout, command.Stderr = os.Stderr, os.Stderr
	if err := command.Run(); err != nil {
		return fmt.Errorf("systemctl %s %s: %w", verb, unit, err)
	}
	return nil
}
