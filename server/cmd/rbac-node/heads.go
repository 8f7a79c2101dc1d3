package main

import (
	"context"
	"errors"
	"flag"
	"fmt"
	"os"

	"rbac-node/internal/record"
)

// knownHeads are what the command line says of heads that are known from elsewhere.
type knownHeads struct{ head, file, signers string }

func (k *knownHeads) define(flags *flag.FlagSet) {
	flags.StringVar(&k.head, "head", "", "a `head` N:HASH that is known from elsewhere")
	flags.StringVar(&k.file, "heads", "", "`file` of such heads, one in a line, or the log of a front")
	flags.StringVar(&k.signers, "signers", "", "`file` of who may have signed these heads: as ssh-keygen(1) describes it, or public keys of minisign")
}

// read returns the heads of the file and the one of the command line, if there are any.
func (k *knownHeads) read(ctx context.Context) (heads []record.KnownHead, err error) {
	if k.file == "" && k.signers != "" {
		return nil, errors.New("--signers needs --heads")
	}
	if k.file != "" {
		if heads, err = k.readFile(ctx); err != nil {
			return nil, fmt.Errorf("%s: %w", k.file, err)
		}
	}
	if k.head == "" {
		return heads, nil
	}
	head, err := record.ParseHead(k.head)
	return append(heads, record.KnownHead{Head: head}), err
}

func (k *knownHeads) readFile(ctx context.Context) ([]record.KnownHead, error) {
	file, err := os.Open(k.file)
	if err != nil {
		return nil, err
	}
	defer file.Close()
	if k.signers == "" {
		return record.ReadHeads(file)
	}
	return record.ReadSignedHeads(ctx, file, k.signers)
}
