package disk

import (
	"path/filepath"
	"testing"
)

func TestFree(t *testing.T) {
	dir := t.TempDir()
	free, err := Free(dir)
	if err != nil || free <= 0 {
		t.Errorf("%d, %v", free, err)
	}
	if IsShort(dir) != (free < Reserve) {
		t.Errorf("%d bytes are free, and it is short: %v", free, IsShort(dir))
	}
	nothing := filepath.Join(dir, "nothing")
	if _, err := Free(nothing); err == nil || IsShort(nothing) {
		t.Errorf("a folder that isn't there: %v", err)
	}
}
