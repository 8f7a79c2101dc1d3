package rbac.client;

/** Whether a session may do something, and why. */
public final class Decision {
    private static final int NO_USER = 2;

    private final Reason reason;
    private final String detail;
    private final int code;

    Decision(Reason reason, String detail, int code) {
        this.reason = reason;
        this.detail = detail;
        this.code = code;
    }

    /** The decision of the office. */
    static Decision of(boolean isAllowed) {
        return new Decision(isAllowed ? Reason.ALLOWED : Reason.DENIED, "", 0);
    }

    /** The decision if the question has no answer: it denies. No other refusal is an answer to it. */
    static Decision undecided(RuntimeException error) {
        if (!(error instanceof OfficeException)) {
            // What other errors say isn't shown: it may have a name or a token.
            return new Decision(Reason.INVALID_REQUEST, error.getClass().getSimpleName(), 0);
        }
        var own = (OfficeException) error;
        // But that of a user who isn't known.
        var refused = own.code() == NO_USER ? Reason.UNKNOWN_NAME : Reason.UNEXPECTED;
        var reason = own.reason() == Reason.REFUSED ? refused : own.reason();
        return new Decision(reason, own.getMessage(), own.code());
    }

    /** Whether to allow: only after the one answer that allows. */
    public boolean isAllowed() {
        return reason == Reason.ALLOWED;
    }

    /** Whether the office has decided. If not, the reason is to be reported. */
    public boolean isDecided() {
        return reason == Reason.ALLOWED || reason == Reason.DENIED;
    }

    /** Why. */
    public Reason reason() {
        return reason;
    }

    /** What the log has about it. */
    public String detail() {
        return detail;
    }

    /** The code of the refusal, or 0. */
    public int code() {
        return code;
    }

    @Override
    public String toString() {
        return detail.isEmpty() ? reason.toString() : reason + ": " + detail;
    }
}
