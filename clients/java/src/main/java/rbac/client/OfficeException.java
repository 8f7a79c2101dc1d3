package rbac.client;

import java.util.Map;

/**
 * A call has no result. A command wasn't done unless {@link #mayBeDone}: after a lost answer that is unknown, and stays so if no server
 * can be reached afterwards. The message has no name of a session, no token, and nothing of an answer but numbers.
 */
public final class OfficeException extends RuntimeException {
    private static final long serialVersionUID = 1L;

    private final Reason reason;
    private final boolean mayBeDone;
    private final int code;
    private final String refusal;
    private final transient Map<String, Object> details;

    private OfficeException(
        Reason reason, boolean mayBeDone, int code, String refusal, Map<String, Object> details, String message, Throwable cause) {
        super(message, cause);
        this.reason = reason;
        this.mayBeDone = mayBeDone;
        this.code = code;
        this.refusal = refusal;
        this.details = details;
    }

    static OfficeException refused(int code, String refusal, Map<String, Object> details) {
        // What a server sends is no text of a log: the name is that of docs/reference/api.md, and the name of a set is only in the details.
        var message = new StringBuilder(code + " " + Functions.NAMES.getOrDefault(code, "(a later refusal)"));
        details.forEach((key, value) -> message.append(value instanceof Long ? " " + key + " " + value : ""));
        var mayBeDone = code == 41 || code == 60 || code == 61;
        return new OfficeException(Reason.ofCode(code), mayBeDone, code, refusal, details, message.toString(), null);
    }

    static OfficeException failed(Reason reason, boolean mayBeDone, String message, Throwable cause) {
        return new OfficeException(reason, mayBeDone, 0, "", Map.of(), message, cause);
    }

    /** The same error, if it is known whether the command may have been done. */
    OfficeException thatMayBeDone(boolean isPossible) {
        if (isPossible == mayBeDone) {
            return this;
        }
        return new OfficeException(reason, isPossible, code, refusal, details, getMessage(), getCause());
    }

    /** Why there is no result. */
    public Reason reason() {
        return reason;
    }

    /** Whether a command may have been done. */
    public boolean mayBeDone() {
        return mayBeDone;
    }

    /** The refusal's code of docs/reference/api.md, or 0 if the server didn't refuse the request. */
    public int code() {
        return code;
    }

    /** The refusal's name. */
    public String refusal() {
        return refusal;
    }

    /** The refusal's further key, if any, with its text or number. */
    public Map<String, Object> details() {
        return details == null ? Map.of() : details;
    }
}
