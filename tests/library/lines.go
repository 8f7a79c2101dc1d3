// Answers the lines of standard input by the Go package, as lines.c does by the library.
package main

import (
	"bufio"
	"errors"
	"fmt"
	"io"
	"log"
	"os"
	"strings"

	"rbac/clients/go/rbacoffice"
)

// decide returns what rbac_check or rbac_check_user returns for three names, between which there are tabs.
func decide(decisionAbout func(holder, operation, object string) (bool, error), line string) (int, error) {
	names := strings.Split(line, "\t")
	allowed, err := decisionAbout(names[0], names[1], names[2])
	var refused *rbacoffice.RefusedError
	switch {
	case errors.As(err, &refused):
		return -refused.Code, nil
	case allowed:
		return 1, err
	default:
		return 0, err
	}
}

// conflicts returns the sets that a command would violate, each with those who would violate it or with its roles, or minus a code.
func conflicts(office *rbacoffice.Office, line string) (string, error) {
	words := strings.Split(line, "\t")
	var rows, sets []string
	var found []rbacoffice.Conflict
	var violated []rbacoffice.ViolatedSet
	var err error
	switch names := words[1:]; words[0] {
	case "assignment":
		sets, err = office.AssignmentConflicts(names[0], names[1])
	case "activation":
		sets, err = office.ActivationConflicts(names[0], names[1], names[2])
	case "creation":
		violated, err = office.CreationConflicts(names[0], names[1:])
	case "users":
		found, err = office.StaticConflicts(names[0], names[1])
	default:
		found, err = office.DynamicConflicts(names[0], names[1])
	}
	var refused *rbacoffice.RefusedError
	if errors.As(err, &refused) {
		return fmt.Sprint(-refused.Code), nil
	}
	rows = append(rows, sets...)
	for _, one := range found {
		rows = append(rows, one.Set+","+one.Holder)
	}
	for _, one := range violated {
		rows = append(rows, one.Set+","+strings.Join(one.Roles, ","))
	}
	return strings.Join(rows, ";"), err
}

// reload saves the office and returns one with the same rows, and how many rows there are.
func reload(office *rbacoffice.Office) (*rbacoffice.Office, int, error) {
	rows, err := office.Rows()
	if err != nil {
		return nil, 0, err
	}
	revision, err := office.Revision()
	if err != nil {
		return nil, 0, err
	}
	office.Close()
	for i, j := 0, len(rows)-1; i < j; i, j = i+1, j-1 {
		rows[i], rows[j] = rows[j], rows[i]
	}
	office, err = rbacoffice.Load(rows, revision)
	return office, len(rows), err
}

func run(in *bufio.Reader, out *bufio.Writer) error {
	office, err := rbacoffice.Open()
	if err != nil {
		return err
	}
	defer func() { office.Close() }()
	for {
		line, err := in.ReadBytes('\n')
		if err == io.EOF && len(line) == 0 {
			return nil
		}
		if err != nil && err != io.EOF {
			return err
		}
		text := strings.TrimSuffix(string(line), "\n")
		var said interface{}
		switch {
		case strings.HasPrefix(text, "?"):
			said, err = decide(office.Check, text[1:])
		case strings.HasPrefix(text, "!"):
			said, err = decide(office.CheckUser, text[1:])
		case strings.HasPrefix(text, "%"):
			said, err = conflicts(office, text[1:])
		case text == "#":
			said, err = office.Revision()
		case text == "=":
			var count int
			office, count, err = reload(office)
			said = count
		default:
			var answer []byte
			answer, err = office.Answer([]byte(text))
			said = string(answer)
		}
		if err != nil {
			return err
		}
		fmt.Fprintln(out, said)
	}
}

func main() {
	out := bufio.NewWriter(os.Stdout)
	if err := run(bufio.NewReader(os.Stdin), out); err != nil {
		log.Fatal(err)
	}
	if err := out.Flush(); err != nil {
		log.Fatal(err)
	}
}
