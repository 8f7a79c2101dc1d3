package main

import (
	"bufio"
	"fmt"
	"io"
	"math/rand"
	"net"
	"strconv"
	"strings"
	"time"
)

const question = `{"session":"s1","operation":"open","object":"safe"}`

// A connection sends requests and reads their answers as plainly as HTTP/1.1 allows, so that a client costs little.
type connection struct {
	target string
	conn   net.Conn
	reader *bufio.Reader
}

// requests returns an asker that sends the requests of one client to one of the targets.
func requests(o options, client int) (asker, error) {
	c := &connection{target: o.targets[client%len(o.targets)]}
	if !o.close {
		if err := c.open(); err != nil {
			return nil, err
		}
	}
	user := fmt.Sprintf(`{"user":"u%016x"}`, rand.New(rand.NewSource(time.Now().UnixNano()+int64(client))).Uint64())
	return func(number int) error {
		if o.close {
			if err := c.open(); err != nil {
				return err
			}
			defer c.conn.Close()
		}
		path, fields, body := "checkAccess", "", question
		switch o.ask {
		case "command":
			path, body = []string{"addUser", "deleteUser"}[number%2], user
		case "local":
			fields = "Consistency: local\r\n"
		}
		if token := o.tokens[client%len(o.tokens)]; token != "" {
			fields += "Authorization: Bearer " + token + "\r\n"
		}
		status, answer, err := c.ask(path, fields, body)
		if err == nil && status != 200 {
			err = fmt.Errorf("status %d: %s", status, answer)
		}
		return err
	}, nil
}

func (c *connection) open() error {
	conn, err := net.Dial("tcp", c.target)
	if err != nil {
		return err
	}
	c.conn, c.reader = conn, bufio.NewReader(conn)
	return nil
}

// ask sends one request and returns the status and the body of its answer.
func (c *connection) ask(function, fields, body string) (int, string, error) {
	_, err := fmt.Fprintf(c.conn, "POST /v1/%s HTTP/1.1\r\nHost: localhost\r\n%sContent-Length: %d\r\n\r\n%s",
		function, fields, len(body), body)
	if err != nil {
		return 0, "", err
	}
	line, err := c.reader.ReadString('\n')
	if err != nil {
		return 0, "", err
	}
	words := strings.SplitN(line, " ", 3)
	if len(words) < 3 {
		return 0, "", fmt.Errorf("no status: %q", line)
	}
	status, err := strconv.Atoi(words[1])
	if err != nil {
		return 0, "", err
	}
	length := 0
	for {
		line, err := c.reader.ReadString('\n')
		if err != nil {
			return 0, "", err
		}
		line = strings.TrimSpace(line)
		if line == "" {
			break
		}
		if value := strings.TrimPrefix(line, "Content-Length: "); value != line {
			if length, err = strconv.Atoi(value); err != nil {
				return 0, "", err
			}
		}
	}
	answer := make([]byte, length)
	_, err = io.ReadFull(c.reader, answer)
	return status, string(answer), err
}
