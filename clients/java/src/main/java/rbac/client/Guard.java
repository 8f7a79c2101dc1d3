package rbac.client;

import java.util.function.Function;

/**
 * A guard in front of pages: a request passes only if its session may do what it needs. The requests are of any kind, such as
 * {@code HttpServletRequest}: a filter of servlets calls {@link #statusOf}, and passes the request on if the status is 200.
 *
 * @param <R> the requests
 */
public final class Guard<R> {
    private final Decides decides;
    private final Function<? super R, Need> need;
    private final Function<? super R, String> holder;

    /**
     * A guard. The function need returns what a request needs, or null if it passes without a question; session returns the name of
     * its session, which the application keeps, or null.
     */
    public Guard(Client office, Function<? super R, Need> need, Function<? super R, String> session) {
        this(office::check, need, session);
    }

    private Guard(Decides decides, Function<? super R, Need> need, Function<? super R, String> holder) {
        this.decides = decides;
        this.need = need;
        this.holder = holder;
    }

    /**
     * A guard for applications without sessions: the function user returns the user whom the application has authenticated, or null.
     */
    public static <R> Guard<R> byUser(Client office, Function<? super R, Need> need, Function<? super R, String> user) {
        return new Guard<>(office::decideByUser, need, user);
    }

    /** What decides about a session, or about a user. */
    private interface Decides {
        Decision decide(String holder, String operation, String object);
    }

    /** 200 if the request passes. Otherwise 401 without a session or a user, 403 if the office denies, and 503 if there is no decision. */
    public int statusOf(R request) {
        var needed = need.apply(request);
        if (needed == null) {
            return 200;
        }
        var name = holder.apply(request);
        if (name == null || name.isEmpty()) {
            return 401;
        }
        var decision = decides.decide(name, needed.operation(), needed.object());
        if (decision.isAllowed()) {
            return 200;
        }
        if (decision.reason() == Reason.ENDED_SESSION) {
            return 401;
        }
        return decision.isDecided() ? 403 : 503;
    }

    /** The text of the answer to a request that doesn't pass, by its status. */
    public static String textOf(int status) {
        return status == 401 ? "Unauthorized" : status == 403 ? "Forbidden" : "Service Unavailable";
    }
}
