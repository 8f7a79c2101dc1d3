package record

import "testing"

// TestNamesOfParts takes only the name that a part gets for the name of one: what comes after it may be a log or a journal of SQLite.
func TestNamesOfParts(t *testing.T) {
	if first, last, is := namesOf("/office.record/record-3-17.db"); first != 3 || last != 17 || !is {
		t.Errorf("%d to %d, %v", first, last, is)
	}
	for _, name := range []string{
		"record.db", "record-3-17.db-journal", "record-3-17.db-wal", "record-3-17.db.db", "record-03-17.db", "record-+3-17.db", "record-3-17.db\n",
	} {
		if _, _, is := namesOf(name); is {
			t.Errorf("%q is taken for a part", name)
		}
	}
}
