package main

import (
	"fmt"
	"io"
	"os"
)

// stdout is where commands print.
var stdout = &output{to: os.Stdout}

// An output keeps the first error of its writes: who prints need not look at each of them.
type output struct {
	to  io.Writer
	err error
}

func (o *output) Write(text []byte) (int, error) {
	size, err := o.to.Write(text)
	if err != nil && o.err == nil {
		o.err = fmt.Errorf("not all was printed: %w", err)
	}
	return size, err
}
