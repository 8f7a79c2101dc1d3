// Package boottime has a clock that goes on while the machine is suspended, unlike that of package time.
package boottime

import (
	"syscall"
	"time"
	"unsafe"
)

// clock is CLOCK_BOOTTIME of Linux.
const clock = 7

// A Moment is a time since the machine was started. The zero Moment is none.
type Moment time.Duration

// Now returns the moment of now.
func Now() Moment {
	var at syscall.Timespec
	if _, _, failed := syscall.Syscall(syscall.SYS_CLOCK_GETTIME, clock, uintptr(unsafe.Pointer(&at)), 0); failed != 0 {
		panic("boottime: " + failed.Error()) // Each kernel since 2.6.39 has the clock.
	}
	return Moment(at.Nano())
}

// Since returns how long ago a moment was.
func Since(m Moment) time.Duration { return time.Duration(Now() - m) }
