package main

import (
	"context"
	"errors"
	"flag"
	"fmt"
	"os"
	"strings"

	"rbac-node/internal/logs"
	"rbac-node/internal/record"
	"rbac-node/internal/recorded"
)

// missingStatus is the status of verify if all that is here is good, but entries are missing.
const missingStatus = 2

// recordCommand is what a command about a record needs.
type recordCommand struct {
	record.Tool
	known      knownHeads
	by, reason string
	filter     record.Filter
	access     record.AccessQuery
	format     record.Format
	export     record.Export
}

// ofRecords are those that work with a record here.
var ofRecords = []struct{ name, arguments, summary string }{
	{"record verify", "--office FILE", "verifies a record, and the office by it"},
	{"record show", "--office FILE", "prints entries of a record"},
	{"record access", "--office FILE --at TIME", "prints who had access at a time"},
	{"record export", "--office FILE --syslog RECEIVER", "sends the entries of a record to syslog"},
	{"record head", "--office FILE", "prints the number and the link of the last entry"},
	{"record cut", "--office FILE", "closes the file of a record, and begins another one"},
	{"record adopt", "--office FILE --by WHO --reason WHY", "begins a record over an office that was written behind it, or never had one"},
	{"backup", "--office FILE FOLDER", "copies an office and its record into a new folder of a folder"},
}

// recordCommands returns the commands about records and backups.
func recordCommands() (all []command) {
	for _, one := range ofRecords {
		name := strings.TrimPrefix(one.name, "record ")
		all = append(all, command{one.name, one.arguments, one.summary, func(flags *flag.FlagSet) func([]string) error {
			return prepareRecord(flags, name)
		}})
	}
	return append(all,
		command{"record sign", "--url URL --key FILE --heads FILE", "signs the head of a record that a front on another machine keeps", prepareSign},
		command{"restore", "--office FILE --by WHO --reason WHY BACKUP", "puts a backup in place of an office and its record", prepareRestore})
}

// prepareRecord defines the flags of a command about a record, and returns what does it.
func prepareRecord(flags *flag.FlagSet, name string) func([]string) error {
	c := &recordCommand{format: record.Text, Tool: record.Tool{Out: stdout, Err: os.Stderr, Log: logs.New(os.Stderr)}}
	c.define(flags, name)
	count := 0
	if name == "backup" {
		count = 1
	}
	return withArguments(count, func(arguments []string) error {
		given := 0
		for _, path := range []string{c.Office, c.Data, c.Part} {
			if path != "" {
				given++
			}
		}
		if given != 1 {
			return fmt.Errorf("give one of --office, --data and --part: %w", errUsage)
		}
		return untilSignal(func(ctx context.Context) error {
			return c.do(ctx, name, arguments)
		})
	})
}

func (c *recordCommand) define(flags *flag.FlagSet, name string) {
	is := func(names string) bool { return strings.Contains(" "+names+" ", " "+name+" ") }
	flags.StringVar(&c.Office, "office", "", "`file` of the office")
	if is("verify show access export head cut backup") {
		flags.StringVar(&c.Data, "data", "", "`folder` of a node of several machines, in place of --office")
	}
	if is("verify show access export head") {
		flags.StringVar(&c.Part, "part", "", "`file` of an earlier part alone, in place of --office")
	}
	if is("verify access cut adopt backup") {
		flags.StringVar(&c.Program, "program", "rbac", "the proved `program`, a path or a name that is looked up in PATH")
	}
	if is("verify access") {
		c.known.define(flags)
	}
	if is("show access") {
		flags.Var(&c.format, "format", "`format` of the lines: text, csv or json")
	}
	switch name {
	case "adopt":
		flags.StringVar(&c.by, "by", "", "`who` adopts the office")
		flags.StringVar(&c.reason, "reason", "", "`why`, such as the number of a ticket")
	case "export":
		flags.StringVar(&c.export.To, "syslog", "", "`receiver`: unix:PATH, udp:HOST:PORT or tcp:HOST:PORT")
		flags.StringVar(&c.export.Place, "place", "", "`file` that has up to where was sent")
		flags.BoolVar(&c.export.IsFollowing, "follow", false, "send new entries too, until SIGTERM")
	case "access":
		flags.Func("at", "at this `time`, such as 2026-11-27T09:30, in UTC", timeOf(&c.access.At))
		flags.Int64Var(&c.access.Entry, "entry", 0, "after the entry with this `number`, in place of --at")
		flags.StringVar(&c.access.User, "user", "", "only this `user`")
		flags.StringVar(&c.access.Operation, "operation", "", "only this `operation`")
		flags.StringVar(&c.access.Object, "object", "", "only this `object`")
	case "show":
		c.defineFilter(flags)
	}
}

func (c *recordCommand) defineFilter(flags *flag.FlagSet) {
	flags.StringVar(&c.filter.User, "user", "", "only commands that name this `user`")
	flags.StringVar(&c.filter.Role, "role", "", "only commands that name this `role`")
	flags.StringVar(&c.filter.Object, "object", "", "only commands that name this `object`")
	flags.StringVar(&c.filter.Operation, "operation", "", "only commands that name this `operation`")
	flags.StringVar(&c.filter.Set, "set", "", "only commands that name this separation of duty `set`")
	flags.StringVar(&c.filter.Session, "session", "", "only commands that name the session with this `digest`")
	flags.StringVar(&c.filter.Reason, "reason", "", "only commands with this `text` in their reason")
	flags.StringVar(&c.filter.Function, "function", "", "only commands of this `function`")
	flags.StringVar(&c.filter.Caller, "caller", "", "only commands of this `caller`")
	flags.Func("since", "only commands from this `time` on, such as 2026-11-27T09", timeOf(&c.filter.Since))
	flags.Func("until", "only commands before this `time`", timeOf(&c.filter.Until))
	flags.BoolVar(&c.filter.IsRefused, "refused", false, "only commands that were refused")
}

// timeOf returns a function that reads a time of a filter into a place.
func timeOf(place *string) func(text string) error {
	return func(text string) (err error) {
		*place, err = recorded.ParseTime(text)
		return err
	}
}

func (c *recordCommand) do(ctx context.Context, name string, arguments []string) error {
	switch name {
	case "verify":
		return c.withHeads(ctx, c.Verify)
	case "show":
		return c.Show(ctx, c.filter, c.format)
	case "access":
		return c.withHeads(ctx, func(ctx context.Context, heads []record.KnownHead) error {
			c.access.Heads, c.access.Format = heads, c.format
			return c.Access(ctx, c.access)
		})
	case "export":
		return c.Export(ctx, c.export)
	case "head":
		return c.PrintHead(ctx)
	case "cut":
		return c.Cut(ctx)
	case "adopt":
		return c.Adopt(ctx, c.by, c.reason)
	case "backup":
		return c.Backup(ctx, arguments[0])
	}
	return errUsage
}

// withHeads does something with the heads that the command line may have. The error of a record that is good, but from which entries are
// missing, gets a status of its own.
func (c *recordCommand) withHeads(ctx context.Context, do func(ctx context.Context, heads []record.KnownHead) error) error {
	heads, err := c.known.read(ctx)
	if err == nil {
		err = do(ctx, heads)
	}
	if errors.Is(err, record.ErrMissing) {
		return statusError{missingStatus, err}
	}
	return err
}
