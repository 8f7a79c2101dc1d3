//go:build faults

package faults

import "os"

// Has reports whether this program has a fault.
func Has(fault string) bool { return os.Getenv("RBAC_NODE_FAULT") == fault }
