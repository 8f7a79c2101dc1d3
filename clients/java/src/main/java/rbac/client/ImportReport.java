package rbac.client;

import java.util.List;

/** What an import did. If its answer was lost and the client repeated it, what it had done before counts as already. */
public final class ImportReport {
    private final long already;
    private final long assigned;
    private final List<RefusedRecord> refused;

    ImportReport(long already, long assigned, List<RefusedRecord> refused) {
        this.already = already;
        this.assigned = assigned;
        this.refused = List.copyOf(refused);
    }

    /** How many pairs were assigned already. */
    public long already() {
        return already;
    }

    /** How many pairs the import assigned. */
    public long assigned() {
        return assigned;
    }

    /** The other records, in their order. */
    public List<RefusedRecord> refused() {
        return refused;
    }

    /** A record that was refused. */
    public static final class RefusedRecord {
        private final long record;
        private final int code;

        RefusedRecord(long record, int code) {
            this.record = record;
            this.code = code;
        }

        /** The number of the record, counted from 1. */
        public long record() {
            return record;
        }

        /** The code of the refusal. */
        public int code() {
            return code;
        }
    }
}
