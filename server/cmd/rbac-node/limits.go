package main

import (
	"encoding/json"
	"flag"
	"fmt"
	"io"
	"strconv"

	"rbac-node/internal/limits"
)

func prepareLimits(flags *flag.FlagSet) func([]string) error {
	versions := allVersions()
	flags.Func("version", "print only the limits of an office of version `N`", func(text string) error {
		one, err := strconv.Atoi(text)
		if err != nil || one < 1 || one > limits.Newest() {
			return fmt.Errorf("the versions are 1 to %d", limits.Newest())
		}
		versions = []int{one}
		return nil
	})
	asJSON := flags.Bool("json", false, "print them as JSON, for programs")
	return withArguments(0, func([]string) error {
		if *asJSON {
			return json.NewEncoder(stdout).Encode(limitsOf(versions))
		}
		printLimits(stdout, versions)
		return nil
	})
}

// allVersions returns the versions of an office, the first one first.
func allVersions() (all []int) {
	for one := 1; one <= limits.Newest(); one++ {
		all = append(all, one)
	}
	return all
}

// A limit is what programs read of a kind. Its keys are in the order in which answers have them.
type limit struct {
	Counted string         `json:"counted"`
	Kind    string         `json:"kind"`
	Limits  map[string]int `json:"limits"`
}

// limitsOf returns the limits of each kind in some versions, by the numbers of these.
func limitsOf(versions []int) (found []limit) {
	for _, kind := range limits.Kinds() {
		one := limit{kind.Counted, kind.Name, map[string]int{}}
		for _, number := range versions {
			one.Limits[strconv.Itoa(number)] = kind.In(number)
		}
		found = append(found, one)
	}
	return found
}

// printLimits prints a line for each kind, with a column for each of some versions.
func printLimits(out io.Writer, versions []int) {
	fmt.Fprintf(out, "%-10s", "kind")
	for _, one := range versions {
		fmt.Fprintf(out, "  version %d", one)
	}
	fmt.Fprintln(out, "  counted")
	for _, kind := range limits.Kinds() {
		fmt.Fprintf(out, "%-10s", kind.Name)
		for _, one := range versions {
			fmt.Fprintf(out, "%11d", kind.In(one))
		}
		fmt.Fprintf(out, "  %s\n", kind.Counted)
	}
}
