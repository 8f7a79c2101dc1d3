package record

import (
	"context"
	"fmt"
	"net"
	"os"
	"strconv"
	"strings"
	"time"
)

const (
	// auditInfo and auditWarning are priorities: of the log audit, for a command that was accepted, and for one that was refused.
	auditInfo, auditWarning = 13*8 + 6, 13*8 + 4
	// mostSyslog is how many bytes a message has, since receivers cut off longer ones.
	mostSyslog = 7500
	// syslogTimeout is how long a receiver may take.
	syslogTimeout = 10 * time.Second
)

// A sendError says that a receiver doesn't get messages.
type sendError struct{ error }

// A syslogSender sends messages after RFC 5424. A stream has the length of each message before it (RFC 6587).
type syslogSender struct {
	network, address, host string
	// connection is nil if there is none.
	connection net.Conn
}

// newSyslogSender returns a sender to a receiver such as unix:/dev/log.
func newSyslogSender(to string) (*syslogSender, error) {
	network, address, _ := strings.Cut(to, ":")
	s := &syslogSender{network: network, address: address}
	switch {
	case address == "":
		return nil, errExportUsage
	case network == "unix":
		s.network = "unixgram"
	case network != "udp" && network != "tcp":
		return nil, errExportUsage
	}
	var err error
	if s.host, err = os.Hostname(); err != nil || s.host == "" {
		s.host = "-"
	}
	return s, nil
}

// connect returns the connection, and makes it if there is none.
func (s *syslogSender) connect(ctx context.Context) (net.Conn, error) {
	if s.connection != nil {
		return s.connection, nil
	}
	dialer := net.Dialer{Timeout: syslogTimeout}
	connection, err := dialer.DialContext(ctx, s.network, s.address)
	if err != nil {
		return nil, &sendError{fmt.Errorf("syslog: %w", err)}
	}
	s.connection = connection
	return connection, nil
}

func (s *syslogSender) close() {
	if s.connection != nil {
		_ = s.connection.Close() // What was lost is sent again.
		s.connection = nil
	}
}

func (s *syslogSender) send(ctx context.Context, office string, e *entry) error {
	connection, err := s.connect(ctx)
	if err != nil {
		return err
	}
	text := s.message(office, e)
	if s.network == "tcp" {
		text = strconv.Itoa(len(text)) + " " + text
	}
	if err = connection.SetWriteDeadline(time.Now().Add(syslogTimeout)); err == nil {
		_, err = connection.Write([]byte(text))
	}
	if err != nil {
		return &sendError{fmt.Errorf("syslog: %w", err)}
	}
	return nil
}

// message writes an entry as JSON behind the head of a message.
func (s *syslogSender) message(office string, e *entry) string {
	priority := auditInfo
	if isRefusal(e.answer) {
		priority = auditWarning
	}
	at := e.at
	if _, err := time.Parse(time.RFC3339, at); err != nil {
		at = "-"
	}
	head := fmt.Sprintf("<%d>1 %s %s rbac-node - record - ", priority, at, s.host)
	text := messageOf(office, e)
	if len(head)+len(text) > mostSyslog {
		short := *e
		if short.shorten(); len(short.answer) > mostRefused {
			short.answer = "{" + shownStart(short.answer) + "}"
		}
		text = messageOf(office, &short)
	}
	return head + text
}

func messageOf(office string, e *entry) string {
	return inASCII(objectOf(append([]string{"office"}, entryColumns...), append([]cell{{text: office}}, cellsOf(e, JSON)...)))
}

// inASCII returns a text of JSON in which all other letters are escaped.
func inASCII(text string) string {
	return escaped(text, func(letter rune) bool { return letter >= ' ' && letter < 0x7f })
}
