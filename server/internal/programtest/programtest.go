// Package programtest gives tests the proved program.
package programtest

import (
	"os"
	"testing"
)

// Path returns the program that RBAC_PROGRAM names, and skips the test if that is not set.
func Path(t *testing.T) string {
	t.Helper()
	path := os.Getenv("RBAC_PROGRAM")
	if path == "" {
		t.Skip("RBAC_PROGRAM is not set")
	}
	return path
}
