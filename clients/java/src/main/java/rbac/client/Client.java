package rbac.client;

import java.security.NoSuchAlgorithmException;
import java.time.Duration;
import java.util.ArrayList;
import java.util.Collection;
import java.util.EnumMap;
import java.util.List;
import java.util.Map;
import java.util.Objects;
import java.util.concurrent.atomic.AtomicInteger;
import java.util.function.Supplier;
import java.util.regex.Pattern;
import javax.net.ssl.SSLContext;

/**
 * A server, or several servers of one office: the functions as methods, decisions, and sessions. Threads may share it.
 * docs/howto/integrate.md shows how an application uses it.
 */
public final class Client extends Functions implements AutoCloseable {
    private static final System.Logger LOGGER = System.getLogger("rbac.client");

    private static final Pattern TOKEN = Pattern.compile("([!-~]+)(?:\r?\n)?");
    private static final String WRONG_TOKEN = "a token is a text of visible ASCII characters without spaces";
    private static final String NO_TLS =
        "a token is sent over TLS alone, or to this machine: give an address that begins with https://, "
        + "or tokenOverHttp if the network encrypts by itself";

    private final List<Address> addresses = new ArrayList<>();
    private final AtomicInteger first = new AtomicInteger();
    private final Supplier<String> token;
    private final Duration timeout;
    private final Duration pause;
    private final boolean repeats;
    private final Map<Reason, Long> counts = new EnumMap<>(Reason.class);
    private final LogLines lines = new LogLines(System::nanoTime);

    /** Until then sessions are made by createSession, since the server opens none: by the nanoseconds of System. */
    volatile long createsUntil = System.nanoTime();

    private Client(Builder builder) {
        var context = builder.context == null ? usual() : builder.context;
        builder.addresses.forEach(address -> addresses.add(new Address(address, context)));
        token = builder.token;
        if (token != null && !builder.tokenOverHttp && !addresses.stream().allMatch(Address::hides)) {
            throw new IllegalArgumentException(NO_TLS);
        }
        timeout = builder.timeout;
        pause = builder.pause;
        repeats = builder.repeats;
    }

    private static SSLContext usual() {
        try {
            return SSLContext.getDefault();
        } catch (NoSuchAlgorithmException error) {
            throw new IllegalStateException(error);
        }
    }

    /** A token without the end of the line that it may have, or null if it can't be sent. */
    private static String judged(String token) {
        var found = TOKEN.matcher(String.valueOf(token));
        return token != null && found.matches() ? found.group(1) : null;
    }

    /** What makes a client. */
    public static final class Builder {
        private final List<String> addresses = new ArrayList<>();
        private Supplier<String> token;
        private boolean tokenOverHttp;
        private Duration timeout = Duration.ofSeconds(10);
        private Duration pause = Duration.ofMillis(100);
        private boolean repeats = true;
        private SSLContext context;

        private Builder() {}

        /** Adds an address: {@code http://HOST:PORT} or {@code https://HOST:PORT}. One answers for all. */
        public Builder address(String address) {
            addresses.add(address);
            return this;
        }

        /** Shows who asks, unless it is null. The end of a line after it is ignored. */
        public Builder token(String given) {
            var judged = judged(given);
            if (given != null && judged == null) {
                throw new IllegalArgumentException(WRONG_TOKEN);
            }
            token = given == null ? null : () -> judged;
            return this;
        }

        /** Shows who asks: the function returns the present token. */
        public Builder token(Supplier<String> given) {
            token = () -> judged(given.get());
            return this;
        }

        /** Whether the token is sent to other machines without TLS too, over a network that encrypts by itself. */
        public Builder tokenOverHttp(boolean given) {
            tokenOverHttp = given;
            return this;
        }

        /** Limits a call as a whole, with all of its attempts, and a check with the renewal of its session. */
        public Builder timeout(Duration given) {
            timeout = given;
            return this;
        }

        /**
         * Passes before a command is sent again, or a question at the same addresses, which is done while half of the time is left. Each
         * further pause is twice as long.
         */
        public Builder pause(Duration given) {
            pause = given;
            return this;
        }

        /** Whether a command whose answer was lost is sent again, if docs/howto/integrate.md, section 3, says that it may be. */
        public Builder repeats(boolean given) {
            repeats = given;
            return this;
        }

        /** Has the authorities that are trusted instead of those of Java, and the client's own certificate. */
        public Builder sslContext(SSLContext given) {
            context = given;
            return this;
        }

        /** Makes the client. It connects when it is first used. */
        public Client build() {
            if (addresses.isEmpty()) {
                throw new IllegalArgumentException("there is no address");
            }
            return new Client(this);
        }
    }

    /** What makes a client of these addresses. */
    public static Builder of(String... addresses) {
        var builder = new Builder();
        for (var address : addresses) {
            builder.address(address);
        }
        return builder;
    }

    /** Whether the session may do the operation on the object, and why. It throws nothing: without an answer it denies. */
    public Decision check(String session, String operation, String object) {
        return keep(decide(session, operation, object, limit()), operation, object);
    }

    /**
     * Whether the user may do the operation on the object in some session, and why: for applications without sessions. The front decides;
     * {@code rbac serve} can't. It throws nothing: without an answer it denies.
     */
    public Decision decideByUser(String user, String operation, String object) {
        var keys = Functions.keys("user", user, "operation", operation, "object", object);
        return keep(asked("decideByUser", keys, limit()), operation, object);
    }

    /** Whether to let the session do the operation on the object. */
    public boolean may(String session, String operation, String object) {
        return check(session, operation, object).isAllowed();
    }

    /** Makes a session of the user with as many of the roles that the user is assigned to as the server activates together. */
    public Session openSession(String user) {
        return Session.opened(this, user, null, false);
    }

    /**
     * Makes a session of the user, under a new name that nobody can guess. The front activates as many of the roles in their order as
     * it can, and {@link Session#left} has the others. {@code rbac serve} activates exactly these roles, or refuses.
     */
    public Session openSession(String user, Collection<String> roles) {
        return Session.opened(this, user, roles, false);
    }

    /**
     * Makes such a session. It is made again when a decision finds that it has ended, with those of its roles that are left, and never
     * with others.
     */
    public Session openRenewedSession(String user, Collection<String> roles) {
        return Session.opened(this, user, roles, true);
    }

    /** Makes such a session with all roles that the user is assigned to at first. */
    public Session openRenewedSession(String user) {
        return Session.opened(this, user, null, true);
    }

    /** Ends the session that has this digest, as lists and records of the front show it. */
    public void endSession(String digest) {
        if (!digest.matches("[0-9a-f]{32}")) {
            throw new IllegalArgumentException("this is not the digest of a session");
        }
        call("DELETE /sessions/" + digest, Functions.keys(), Reader.DONE, 26, limit());
    }

    /** Closes the connections that are kept. A further call opens a new one. */
    @Override
    public void close() {
        addresses.forEach(Address::close);
    }

    /** How many decisions there were, by their reasons. */
    public Map<Reason, Long> counts() {
        synchronized (counts) {
            return new EnumMap<>(counts);
        }
    }

    /** A decision that isn't counted yet, made until a limit. */
    Decision decide(String session, String operation, String object, long limit) {
        return asked("checkAccess", Functions.keys("session", session, "operation", operation, "object", object), limit);
    }

    /** The decision that a question has for its answer. Whatever goes wrong, it doesn't allow. */
    private Decision asked(String function, Map<String, Object> keys, long limit) {
        try {
            return Decision.of(call(function, keys, Reader.ACCESS, null, limit));
        } catch (RuntimeException error) {
            return Decision.undecided(error);
        }
    }

    /** Counts a decision, and logs it if the office hasn't made it. The log has no names of sessions. */
    Decision keep(Decision decision, String operation, String object) {
        synchronized (counts) {
            counts.merge(decision.reason(), 1L, Long::sum);
        }
        var end = decision.isDecided() ? null : lines.due(decision.reason());
        if (end != null) {
            var about = LogLines.shown(String.valueOf(operation)) + " on " + LogLines.shown(String.valueOf(object));
            LOGGER.log(System.Logger.Level.WARNING, "no decision about " + about + ": " + decision + end);
        }
        return decision;
    }

    @Override
    <T> T call(String function, Map<String, Object> keys, Reader<T> reader) {
        return call(function, keys, reader, null, limit());
    }

    /** When a call that begins now has to have ended, by the nanoseconds of System. */
    long limit() {
        return System.nanoTime() + timeout.toNanos();
    }

    /** Calls a function until a limit. The code again means that a command was done, if its answer was lost before. */
    <T> T call(String function, Map<String, Object> keys, Reader<T> reader, Integer again, long limit) {
        var body = function.equals("importAssignments") ? (String) keys.get("csv") : Json.body(keys);
        if (!isSendable(Objects.requireNonNull(body))) {
            throw OfficeException.failed(Reason.INVALID_REQUEST, false, "a name has half of a character", null);
        }
        var course = new Course(function, again, repeats, addresses.size(), first.get(), limit - System.nanoTime(), pause);
        while (true) {
            try {
                var value = answered(course, function, body, reader);
                first.set(course.place());
                return value;
            } catch (OfficeException error) {
                if (Course.isRefused(error)) {
                    first.set(course.place());
                }
                var milliseconds = course.after(error);
                if (milliseconds < 0) {
                    return null;
                }
                pause(milliseconds, error);
            }
        }
    }

    private <T> T answered(Course course, String function, String body, Reader<T> reader) {
        var address = addresses.get(course.place());
        var shown = token == null ? null : token.get();
        if (token != null && shown == null) {
            throw OfficeException.failed(Reason.INVALID_REQUEST, false, WRONG_TOKEN, null);
        }
        var limit = System.nanoTime() + course.limit();
        return course.isQuestion() ? address.ask(function, body, shown, reader, limit)
                                   : address.command(function, body, shown, reader, limit);
    }

    /** Whether a text has no half of a character of two. */
    private static boolean isSendable(String text) {
        return text.codePoints().noneMatch(one -> one >= Character.MIN_SURROGATE && one <= Character.MAX_SURROGATE);
    }

    private static void pause(long milliseconds, OfficeException error) {
        try {
            Thread.sleep(milliseconds);
        } catch (InterruptedException interrupted) {
            Thread.currentThread().interrupt();
            throw error;
        }
    }
}
