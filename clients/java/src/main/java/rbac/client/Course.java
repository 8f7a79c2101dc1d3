package rbac.client;

import java.time.Duration;

/** The course of one call: which address is asked next, for how long, and after which pause. */
final class Course {
    /** How often a command is sent at most. */
    private static final int MOST_ATTEMPTS = 4;

    private final int addresses;
    private final Duration pause;
    private final long deadline;
    /** The latest time at which a question is asked again at the same addresses. */
    private final long latest;
    private final boolean isQuestion;
    private final Integer again;
    private int left;
    private int unreached;
    private int at;
    private int sent;
    private boolean isLost;

    /**
     * again is the code that means that the command was done, or null if the function alone says it. The call has to have ended after
     * some nanoseconds.
     */
    Course(String function, Integer again, boolean repeats, int addresses, int first, long nanoseconds, Duration pause) {
        this.addresses = addresses;
        this.pause = pause;
        this.deadline = System.nanoTime() + nanoseconds;
        this.latest = deadline - nanoseconds / 2;
        // What only the front does is a method and a path, and changes the office.
        this.isQuestion = !Functions.COMMANDS.contains(function) && !function.contains(" ");
        this.again = !repeats ? null : again != null ? again : Functions.AGAIN.get(function);
        this.left = isQuestion ? addresses : this.again == null ? 1 : MOST_ATTEMPTS;
        // Addresses that can't be reached cost no attempt: nothing was sent.
        this.unreached = addresses - 1;
        this.at = first;
    }

    /** The number of the address that is asked now. */
    int place() {
        return at % addresses;
    }

    boolean isQuestion() {
        return isQuestion;
    }

    /** How many nanoseconds the attempt may take: a share of the time is left for each further attempt. */
    long limit() {
        var share = isQuestion ? left : Math.min(left, 2) + unreached;
        return Math.max(deadline - System.nanoTime(), 0) / share;
    }

    /**
     * What follows on an error: after how many milliseconds the next attempt, or -1 if the command was done. Throws what the
     * call has to throw if there is no further attempt.
     */
    long after(OfficeException error) {
        if (isRefused(error) && isLost && again != null && again != 0 && error.code() == again) {
            return -1;
        }
        var own = error.thatMayBeDone(!isQuestion && (error.mayBeDone() || isLost));
        if (isRefused(error) || !isOfOneAddress(error.reason()) || System.nanoTime() - deadline >= 0) {
            throw last(own);
        }
        at++;
        return isQuestion ? askedAgain(own) : afterCommand(own);
    }

    /** The next address at once. After the last one all of them again, after a pause, while half of the time is left. */
    private long askedAgain(OfficeException error) {
        left--;
        if (left > 0) {
            return 0;
        }
        var milliseconds = pause();
        if (!isOfTheMoment(error.reason()) || System.nanoTime() + milliseconds * 1_000_000 - latest > 0) {
            throw error;
        }
        left = addresses;
        return milliseconds;
    }

    /** What the call throws at its end: a command that was sent is unanswered, though nobody could be reached after that. */
    private OfficeException last(OfficeException error) {
        if (!isLost || !isUnsent(error)) {
            return error;
        }
        return OfficeException.failed(Reason.UNANSWERED, true, "the answer was lost, and then: " + error.getMessage(), null);
    }

    private static boolean isUnsent(OfficeException error) {
        return error.reason() == Reason.UNREACHABLE || error.reason() == Reason.UNTRUSTED;
    }

    private long afterCommand(OfficeException error) {
        if (isUnsent(error)) {
            if (unreached > 0) {
                unreached--;
                return 0;
            }
            if (!isLost) {
                throw error;
            }
            return pause(); // The command waits for a server.
        }
        left--;
        if (left == 0 || error.reason() == Reason.UNEXPECTED) {
            throw error;
        }
        isLost |= error.mayBeDone();
        return pause();
    }

    private long pause() {
        var milliseconds = pause.toMillis() << Math.min(sent++, 16);
        return Math.min(milliseconds, Math.max(deadline - System.nanoTime(), 0) / 1_000_000);
    }

    static boolean isRefused(OfficeException error) {
        return error.code() != 0 && error.reason() != Reason.UNAVAILABLE;
    }

    /** Whether the same address may have an answer soon: a server that is restarted or too busy. */
    private static boolean isOfTheMoment(Reason reason) {
        return reason == Reason.UNAVAILABLE || reason == Reason.UNREACHABLE || reason == Reason.UNANSWERED;
    }

    /** Whether another address may have an answer. */
    private static boolean isOfOneAddress(Reason reason) {
        switch (reason) {
            case UNAVAILABLE:
            case UNREACHABLE:
            case UNTRUSTED:
            case UNANSWERED:
            case UNEXPECTED:
                return true;
            default:
                return false;
        }
    }
}
