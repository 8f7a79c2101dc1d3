package rbac.client;

import java.util.Locale;
import java.util.Map;

/** Why a decision allows or denies, or why a call has no result. docs/howto/integrate.md, section 1, has what to do. */
public enum Reason {
    ALLOWED,
    DENIED,
    ENDED_SESSION,
    UNKNOWN_NAME,
    REFUSED,
    INVALID_REQUEST,
    UNAUTHENTICATED,
    FORBIDDEN,
    UNAVAILABLE,
    UNREACHABLE,
    UNTRUSTED,
    UNANSWERED,
    UNEXPECTED;

    /** The reasons of the refusals that a decision can get, by their codes. All others are REFUSED. */
    private static final Map<Integer, Reason> OF_CODES = Map.ofEntries(
        Map.entry(26, ENDED_SESSION), Map.entry(6, UNKNOWN_NAME), Map.entry(33, UNKNOWN_NAME), Map.entry(1, INVALID_REQUEST),
        Map.entry(34, INVALID_REQUEST), Map.entry(35, INVALID_REQUEST), Map.entry(36, INVALID_REQUEST),
        Map.entry(62, UNAUTHENTICATED), Map.entry(63, FORBIDDEN), Map.entry(65, FORBIDDEN), Map.entry(66, FORBIDDEN),
        Map.entry(40, UNAVAILABLE), Map.entry(41, UNAVAILABLE), Map.entry(42, UNAVAILABLE), Map.entry(60, UNAVAILABLE),
        Map.entry(61, UNAVAILABLE), Map.entry(64, UNAVAILABLE));

    /** The reasons of answers that aren't those of rbac, by their statuses: a proxy sends them. */
    private static final Map<Integer, Reason> OF_STATUSES =
        Map.of(401, UNAUTHENTICATED, 403, FORBIDDEN, 429, UNAVAILABLE, 502, UNAVAILABLE, 503, UNAVAILABLE, 504, UNAVAILABLE);

    static Reason ofCode(int code) {
        return OF_CODES.getOrDefault(code, REFUSED);
    }

    static Reason ofStatus(int status) {
        return OF_STATUSES.getOrDefault(status, UNEXPECTED);
    }

    /** The reason in small letters, as the other clients and the log have it. */
    @Override
    public String toString() {
        return name().toLowerCase(Locale.ROOT);
    }
}
