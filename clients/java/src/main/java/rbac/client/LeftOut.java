package rbac.client;

/** A role that wasn't activated in a session, and the refusal of docs/reference/api.md that says why. */
public final class LeftOut {
    private final String role;
    private final int code;
    private final String refusal;
    private final String detail;

    LeftOut(String role, int code, String refusal, String detail) {
        this.role = role;
        this.code = code;
        this.refusal = refusal;
        this.detail = detail;
    }

    /** The role. */
    public String role() {
        return role;
    }

    /** The refusal's code. */
    public int code() {
        return code;
    }

    /** The refusal's name. */
    public String refusal() {
        return refusal;
    }

    /** The set that forbids the role, or the kind of the limit, or an empty text. */
    public String detail() {
        return detail;
    }

    @Override
    public String toString() {
        return role + ": " + code + " " + refusal + (detail.isEmpty() ? "" : " " + detail);
    }
}
