package main

import (
	"context"
	"errors"
	"flag"
	"fmt"
	"io"
	"os"
	"os/signal"
	"strings"
	"syscall"
)

// A command is what the program does for one or two words of the command line.
type command struct {
	// name is those words, and arguments what has to follow them.
	name, arguments, summary string
	// prepare defines the flags, and returns what is done with the arguments behind them.
	prepare func(flags *flag.FlagSet) func(arguments []string) error
}

// errUsage means that the arguments of a command are others than it needs.
var errUsage = errors.New("usage")

// usageStatus is the status if the words are no command.
const usageStatus = 2

// commands returns all commands, in the order of the help.
func commands() []command {
	all := []command{
		{"serve", "--office FILE | --etcd URL,..", "serves an office of this machine, which is made if it doesn't exist, or one of several machines", prepareServe},
		{"setup", "OFFICE", "makes the files of the callers of an office, two tokens, a key and a certificate", prepareSetup},
		{"adopt", "--etcd URL,.. FILE", "makes an office the beginning of one of several machines", prepareAdopt},
		{"callers", "FILE | --check", "prints who may do what by a file of callers, or checks the files that the options of serve name", prepareCallers},
		{"health", "SOCKET", "asks whether the front at a socket is ready", prepareHealth},
		{"limits", "[--version N] [--json]", "prints how many of each kind an office may have", prepareLimits},
	}
	return append(all, recordCommands()...)
}

// find returns the command that the words begin with, and the words behind it.
func find(words []string) (*command, []string) {
	for _, one := range commands() {
		one, count := one, len(strings.Fields(one.name))
		if len(words) >= count && strings.Join(words[:count], " ") == one.name {
			return &one, words[count:]
		}
	}
	return nil, nil
}

// run does what the command line asks for.
func run(words []string) error {
	if len(words) == 0 {
		return statusError{usageStatus, errors.New("give a command: rbac-node --help lists them")}
	}
	switch words[0] {
	case "--version", "-version", "version":
		fmt.Fprint(stdout, versionText())
		return nil
	case "--help", "-help", "-h", "help":
		fmt.Fprint(stdout, helpText(""))
		return nil
	}
	c, rest := find(words)
	if c == nil {
		return unknown(words)
	}
	flags := flag.NewFlagSet(c.name, flag.ContinueOnError)
	flags.SetOutput(io.Discard) // One line is enough for what is wrong.
	do := c.prepare(flags)
	err := flags.Parse(rest)
	if errors.Is(err, flag.ErrHelp) {
		fmt.Fprint(stdout, c.help(flags))
		return nil
	}
	// What is made is for the user of the program alone.
	syscall.Umask(0o077)
	if err == nil {
		err = do(flags.Args())
	} else {
		err = fmt.Errorf("%w: rbac-node %s --help lists the options", err, c.name)
	}
	if errors.Is(err, errUsage) {
		return fmt.Errorf("%w: rbac-node %s %s; see rbac-node %s --help", err, c.name, c.arguments, c.name)
	}
	return err
}

// unknown prints the help of words with which commands begin, if that is asked for, or says that they are no command.
func unknown(words []string) error {
	listed := helpText(words[0] + " ")
	if listed != "" && len(words) > 1 && (words[1] == "--help" || words[1] == "-h") {
		fmt.Fprint(stdout, listed)
		return nil
	}
	name := words[0]
	if listed != "" && len(words) > 1 {
		name += " " + words[1]
	}
	return statusError{usageStatus, fmt.Errorf("%q is no command: rbac-node --help lists them", name)}
}

// withArguments returns what does something with exactly so many arguments.
func withArguments(count int, do func(arguments []string) error) func([]string) error {
	return func(arguments []string) error {
		if len(arguments) != count {
			return errUsage
		}
		return do(arguments)
	}
}

func newSettings(flags *flag.FlagSet) *settings {
	s := &settings{}
	s.define(flags)
	s.cluster.define(flags)
	return s
}

func prepareServe(flags *flag.FlagSet) func([]string) error {
	s := newSettings(flags)
	hangups := make(chan os.Signal, 1)
	signal.Notify(hangups, syscall.SIGHUP)
	s.front.Hangups = hangups
	return withArguments(0, func([]string) error {
		if given := clusterFlag(flags); given != "" && s.office != "" && !s.cluster.isChosen() {
			return fmt.Errorf("--%s is for an office on several machines, over --etcd", given)
		}
		return serve(s)
	})
}

// clusterFlag returns the name of a flag that was given, and that is for a node of several machines alone.
func clusterFlag(flags *flag.FlagSet) string {
	all, given := flag.NewFlagSet("", flag.ContinueOnError), ""
	new(clusterSettings).define(all)
	flags.Visit(func(f *flag.Flag) {
		if all.Lookup(f.Name) != nil {
			given = f.Name
		}
	})
	return given
}

func prepareAdopt(flags *flag.FlagSet) func([]string) error {
	s := newSettings(flags)
	flags.BoolVar(&s.cluster.leavesOut, "without-later-commands", false, "leave out the commands that the record of a backup has after its snapshot")
	return withArguments(1, func(arguments []string) error { return s.cluster.adopt(s, arguments[0]) })
}

func prepareCallers(flags *flag.FlagSet) func([]string) error {
	s := newSettings(flags)
	flags.BoolVar(&s.isCheck, "check", false, "only check the files of the callers")
	return func(arguments []string) error {
		switch {
		case s.isCheck && len(arguments) == 0:
			return untilSignal(s.checkCallers)
		case !s.isCheck && len(arguments) == 1:
			s.front.Callers.Callers = arguments[0]
			return untilSignal(s.printGrants)
		}
		return errUsage
	}
}

func prepareHealth(*flag.FlagSet) func([]string) error {
	return withArguments(1, func(arguments []string) error { return askHealth(arguments[0]) })
}

// untilSignal does something with a context that SIGTERM and SIGINT end.
func untilSignal(work func(context.Context) error) error {
	ctx, stop := signal.NotifyContext(context.Background(), syscall.SIGTERM, syscall.SIGINT)
	defer stop()
	return work(ctx)
}

// helpText lists the commands whose names begin with a text.
func helpText(prefix string) string {
	var out strings.Builder
	for _, one := range commands() {
		if strings.HasPrefix(one.name, prefix) {
			fmt.Fprintf(&out, "  rbac-node %s %s\n        %s\n", one.name, one.arguments, one.summary)
		}
	}
	if out.Len() == 0 {
		return ""
	}
	return "rbac-node answers clients from an office.\n\n" + out.String() + "  rbac-node --version\n        prints of what this program was built\n\n" +
		"rbac-node COMMAND --help prints the options of a command. The pages explain them.\n"
}

// A subject is what some flags are about.
type subject struct {
	title string
	// flags has their names. If a command has another flag of that name, the one of the command has the name of the command before it.
	flags []string
}

// subjects has each flag once.
var subjects = []subject{
	{"The office", []string{"office", "data", "part", "program", "hang-timeout", "timeout"}},
	{"Where clients connect", []string{"listen", "dns", "csr", "tls-cert", "tls-key", "tls-ca", "public-url", "origin", "connections", "caller-requests"}},
	{"Who asks, and what they may do", []string{
		"callers", "tokens", "oidc-keys", "oidc-issuer", "oidc-audience", "oidc-claim", "refused", "check", "folder", "group",
	}},
	{"What is logged", []string{"log-decisions", "decisions-file"}},
	{"Sessions", []string{"session-age", "session-idle"}},
	{"The record", []string{"no-record", "record-verify", "record-base", "record-part"}},
	{"Heads of the record", []string{
		"head", "heads", "signers", "url", "ca", "token", "key", "begin", "restored", "record sign tls-cert", "record sign tls-key",
	}},
	{"Which entries, or what access", []string{
		"at", "entry", "user", "role", "object", "operation", "set", "session", "record show reason", "function", "caller", "since", "until",
		"record show refused",
	}},
	{"What is printed or sent", []string{"format", "syslog", "place", "follow", "version", "json"}},
	{"Who does this, why, and how", []string{"by", "reason", "replace", "unit"}},
	{"Several machines, over etcd", []string{
		"etcd", "etcd-user", "etcd-password-file", "etcd-cert", "etcd-key", "etcd-ca", "etcd-open", "name", "scratch", "prefix",
		"every", "every-bytes", "peer", "advertise", "peer-cert", "peer-key", "peer-ca", "peer-open", "without-later-commands",
	}},
}

// subjectOf returns what a flag of a command is about, or nothing.
func subjectOf(command, name string) (title string) {
	for _, about := range subjects {
		for _, one := range about.flags {
			if one == command+" "+name {
				return about.title
			}
			if one == name {
				title = about.title
			}
		}
	}
	return title
}

// valueNames are what values are called in the help, by what the library calls them.
var valueNames = map[string]string{"": "", "string": " TEXT", "int": " N", "duration": " TIME", "value": " VALUE"}

// help describes a command and its flags, by their subjects.
func (c *command) help(flags *flag.FlagSet) string {
	var out strings.Builder
	fmt.Fprintf(&out, "rbac-node %s %s\n\n%s%s.\n", c.name, c.arguments, strings.ToUpper(c.summary[:1]), c.summary[1:])
	lines := map[string]string{}
	flags.VisitAll(func(f *flag.Flag) { lines[subjectOf(c.name, f.Name)] += describe(f) })
	for _, about := range subjects {
		if text := lines[about.title]; text != "" {
			fmt.Fprintf(&out, "\n%s:\n%s", about.title, text)
		}
	}
	return out.String()
}

// describe describes a flag. What has a name between backquotes in its text is called so.
func describe(f *flag.Flag) string {
	name, usage := flag.UnquoteUsage(f)
	called, known := valueNames[name]
	if !known {
		called = " " + strings.ToUpper(name)
	}
	text := fmt.Sprintf("  --%s%s\n        %s", f.Name, called, usage)
	if f.DefValue != "" && f.DefValue != "false" && f.DefValue != "0" && f.DefValue != "0s" && !strings.Contains(usage, "(default") {
		text += fmt.Sprintf(" (default: %s)", f.DefValue)
	}
	return text + "\n"
}
