package rbac.client;

import java.nio.charset.StandardCharsets;
import java.security.MessageDigest;
import java.security.NoSuchAlgorithmException;
import java.security.SecureRandom;
import java.util.ArrayList;
import java.util.Collection;
import java.util.List;
import java.util.Map;
import java.util.concurrent.CompletableFuture;
import java.util.concurrent.ExecutionException;
import java.util.concurrent.TimeUnit;
import java.util.concurrent.TimeoutException;

/** A session of a user: opened when the user logs in, and closed when the user logs out. Threads may share it. */
public final class Session {
    private static final SecureRandom RANDOM = new SecureRandom();

    /** What a server answers that opens no sessions, such as {@code rbac serve}, and what the front answers if no role is left. */
    private static final int NO_SUCH_PATH = 35;

    private static final int NOT_AUTHORIZED = 29;

    /** For how many nanoseconds such a server isn't asked to open a session again. */
    private static final long CREATES = 60_000_000_000L;

    private final Client office;
    private final String user;
    private final List<String> wanted;
    private boolean isRenewed;
    private Opened opened = new Opened("", List.of(), List.of());

    /** What makes the session again at the moment, or null. The monitor is held for moments, never while something is asked. */
    private CompletableFuture<Void> renewal;

    /** wanted may be null: then they are all that the user is assigned to. */
    private Session(Client office, String user, Collection<String> wanted, boolean isRenewed) {
        this.office = office;
        this.user = user;
        this.wanted = wanted == null ? null : List.copyOf(wanted);
        this.isRenewed = isRenewed;
    }

    /** What a server answers about a session that it has opened. */
    static final class Opened {
        private final String name;
        private final List<String> roles;
        private final List<LeftOut> left;

        Opened(String name, List<String> roles, List<LeftOut> left) {
            this.name = name;
            this.roles = List.copyOf(roles);
            this.left = List.copyOf(left);
        }
    }

    static Session opened(Client office, String user, Collection<String> roles, boolean isRenewed) {
        var session = new Session(office, user, roles, isRenewed);
        session.open(office.limit());
        return session;
    }

    /** A new name for a session, which nobody can guess and no other session has. */
    public static String newName() {
        var bytes = new byte[16];
        RANDOM.nextBytes(bytes);
        return hexadecimal(bytes, bytes.length);
    }

    /** What the front shows to others instead of the name of a session. */
    public static String digest(String name) {
        try {
            var sum = MessageDigest.getInstance("SHA3-256").digest(name.getBytes(StandardCharsets.UTF_8));
            return hexadecimal(sum, 16);
        } catch (NoSuchAlgorithmException error) {
            throw new IllegalStateException(error);
        }
    }

    private static String hexadecimal(byte[] bytes, int count) {
        var text = new StringBuilder();
        for (var at = 0; at < count; at++) {
            text.append(String.format("%02x", bytes[at]));
        }
        return text.toString();
    }

    public String user() {
        return user;
    }

    /** The present name. Whoever knows it can ask. */
    public synchronized String name() {
        return opened.name;
    }

    /** The roles that were activated when the session was made. */
    public synchronized List<String> roles() {
        return opened.roles;
    }

    /** Those of the wanted roles that the front has left out. */
    public synchronized List<LeftOut> left() {
        return opened.left;
    }

    /** Whether the session may do the operation on the object, and why. */
    public Decision check(String operation, String object) {
        var limit = office.limit();
        var asked = name();
        var decision = office.decide(asked, operation, object, limit);
        if (decision.reason() == Reason.ENDED_SESSION) {
            try {
                if (renew(asked, limit)) {
                    decision = office.decide(name(), operation, object, limit);
                }
            } catch (RuntimeException error) {
                // A refusal to make it again leaves it ended.
                var isRefused = error instanceof OfficeException && ((OfficeException) error).reason() == Reason.REFUSED;
                decision = isRefused ? decision : Decision.undecided(error);
            }
        }
        return office.keep(decision, operation, object);
    }

    /** Whether to let the session do the operation on the object. */
    public boolean may(String operation, String object) {
        return check(operation, object).isAllowed();
    }

    /** Ends the session, for good. It is no error if it has ended before. */
    public void close() {
        CompletableFuture<Void> own;
        synchronized (this) {
            isRenewed = false;
            own = renewal;
        }
        if (own != null) {
            own.exceptionally(error -> null).join(); // It ends with the time of its check.
        }
        try {
            office.call("deleteSession", Functions.keys("user", user, "session", name()), Reader.DONE, 26, office.limit());
        } catch (OfficeException error) {
            // The user may be gone as well.
            if (error.code() != 26 && error.code() != 2) {
                throw error;
            }
        }
    }

    /** Makes the session, under a new name, until a limit. */
    private void open(long limit) {
        if (System.nanoTime() - office.createsUntil >= 0) {
            try {
                var roles = wanted();
                var keys = roles == null ? Functions.keys("user", user) : Functions.keys("user", user, "roles", roles);
                became(office.call("POST /sessions", keys, Reader.OPENED, null, limit));
                return;
            } catch (OfficeException error) {
                if (error.code() != NO_SUCH_PATH) {
                    throw error;
                }
                office.createsUntil = System.nanoTime() + CREATES;
            }
        }
        became(created(limit));
    }

    private synchronized void became(Opened made) {
        opened = made;
    }

    /** The roles that are asked for: those that it has had if it is made again. Null are all of the user. */
    private synchronized List<String> wanted() {
        return opened.name.isEmpty() ? wanted : opened.roles;
    }

    /** Makes the session by createSession. If the answer is lost it is sent again: nobody else has that name. */
    private Opened created(long limit) {
        var made = newName();
        var roles = wanted();
        if (roles == null) {
            roles = office.call("assignedRoles", Functions.keys("user", user), Reader.NAMES, null, limit);
        } else if (!name().isEmpty() && !roles.isEmpty()) {
            roles = new ArrayList<>(roles);
            roles.retainAll(office.call("authorizedRoles", Functions.keys("user", user), Reader.NAMES, null, limit));
            if (roles.isEmpty()) { // Without a role there is no session to be made again.
                throw OfficeException.refused(NOT_AUTHORIZED, Functions.NAMES.get(NOT_AUTHORIZED), Map.of());
            }
        }
        office.call("createSession", Functions.keys("user", user, "roles", roles, "session", made), Reader.DONE, 27, limit);
        return new Opened(made, roles, List.of());
    }

    /** Makes the session again if that is wanted, or waits for the thread that does. Returns whether there is a new one. */
    private boolean renew(String asked, long limit) {
        CompletableFuture<Void> own;
        boolean isFirst;
        synchronized (this) {
            if (!isRenewed || !opened.name.equals(asked)) {
                return !opened.name.equals(asked);
            }
            isFirst = renewal == null;
            renewal = isFirst ? new CompletableFuture<>() : renewal;
            own = renewal;
        }
        if (isFirst) {
            makeAgain(own, limit);
        }
        try {
            own.get(Math.max(limit - System.nanoTime(), 0), TimeUnit.NANOSECONDS);
            return true;
        } catch (ExecutionException error) {
            throw(RuntimeException) error.getCause();
        } catch (TimeoutException error) {
            throw OfficeException.failed(Reason.UNANSWERED, true, "the session wasn't made again in time", null);
        } catch (InterruptedException error) {
            Thread.currentThread().interrupt();
            throw OfficeException.failed(Reason.UNANSWERED, true, "the thread was interrupted", null);
        }
    }

    /** Makes the session again. Its failure is that of all who wait. */
    private void makeAgain(CompletableFuture<Void> own, long limit) {
        try {
            open(limit);
        } catch (RuntimeException error) {
            own.completeExceptionally(error);
        } finally {
            synchronized (this) {
                renewal = null;
            }
            own.complete(null);
        }
    }
}
