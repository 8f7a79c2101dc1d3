//go:build !faults

package faults

// Has reports whether this program has a fault.
func Has(string) bool { return false }
