package front

import (
	"errors"
	"fmt"
	"net"
	"os"
	"path/filepath"
	"strings"
	"syscall"
)

const unix = "unix"

// An Address is where clients connect: "tcp" with HOST:PORT, or "unix" with a path.
type Address struct {
	Network, Place string
	// tcp is the address that HOST:PORT means.
	tcp *net.TCPAddr
}

// ParseAddresses reads addresses that are separated by commas: HOST:PORT or unix:PATH.
func ParseAddresses(text string) (found []Address, err error) {
	for _, one := range strings.Split(text, ",") {
		if path := strings.TrimPrefix(one, unix+":"); path != one {
			if path == "" {
				return nil, fmt.Errorf("listen: %q has no path", one)
			}
			found = append(found, Address{Network: unix, Place: path})
			continue
		}
		// It is resolved once, so that what is judged is where the front listens.
		address, err := net.ResolveTCPAddr("tcp", one)
		if err != nil {
			return nil, fmt.Errorf("listen: %w", err)
		}
		found = append(found, Address{"tcp", one, address})
	}
	return found, nil
}

func (a Address) String() string {
	if a.Network == unix {
		return unix + ":" + a.Place
	}
	return a.Place
}

// IsLocal reports whether only this machine can connect.
func (a Address) IsLocal() bool { return a.Network == unix || a.tcp.IP.IsLoopback() }

// listen begins to listen. The folder of a socket and the socket are for the user and the group of the front.
func (a Address) listen() (net.Listener, error) {
	listener, err := a.open()
	if err != nil {
		return nil, fmt.Errorf("listen: %w", err)
	}
	return listener, nil
}

func (a Address) open() (net.Listener, error) {
	if a.Network != unix {
		return net.Listen("tcp", a.tcp.String())
	}
	if err := makeFolder(filepath.Dir(a.Place)); err != nil {
		return nil, err
	}
	if err := removeOld(a.Place); err != nil {
		return nil, err
	}
	// The socket never has more rights than it is to have, not even for a moment.
	old := syscall.Umask(0o117)
	defer syscall.Umask(old)
	return net.Listen(unix, a.Place)
}

// makeFolder makes a folder with mode 0750, whatever the umask is, unless there is one.
func makeFolder(path string) error {
	if _, err := os.Stat(path); !errors.Is(err, os.ErrNotExist) {
		return err
	}
	old := syscall.Umask(0o027)
	defer syscall.Umask(old)
	return os.Mkdir(path, 0o750)
}

// removeOld removes the socket of a program that has ended.
func removeOld(path string) error {
	about, err := os.Lstat(path)
	if errors.Is(err, os.ErrNotExist) {
		return nil
	}
	if err != nil {
		return err
	}
	if about.Mode()&os.ModeSocket == 0 {
		return fmt.Errorf("%s is no socket", path)
	}
	conn, err := net.Dial(unix, path)
	if err == nil {
		_ = conn.Close()
		return fmt.Errorf("another program listens on %s", path)
	}
	if !errors.Is(err, syscall.ECONNREFUSED) {
		return err
	}
	return os.Remove(path)
}
