package rbac.client;

import java.util.function.LongSupplier;

/** Which lines about failures are written: each change of the reason, and otherwise one a second, which counts the others. */
final class LogLines {
    /** How many nanoseconds pass between two lines of the same reason, and how many lines there are in as many at most. */
    private static final long INTERVAL = 1_000_000_000L;

    private static final int MOST_LINES = 10;

    /** How many characters of a name, and of another text, a line shows. */
    private static final int MOST_OF_A_NAME = 80;

    private static final int MOST_OF_A_TEXT = 200;

    private final LongSupplier clock;
    private Reason reason;
    private int leftOut;
    private int written;
    private long last;
    private long start;

    LogLines(LongSupplier clock) {
        this.clock = clock;
        this.last = this.start = clock.getAsLong() - INTERVAL;
    }

    /** What a line about this reason ends with, or null if it isn't to be written. */
    synchronized String due(Reason given) {
        var now = clock.getAsLong();
        if (now - start >= INTERVAL) {
            start = now;
            written = 0;
        }
        var isDue = given == reason ? now - last >= INTERVAL : written < MOST_LINES;
        if (!isDue) {
            leftOut++;
            return null;
        }
        var end = leftOut > 0 ? " (and " + leftOut + " more since the last line)" : "";
        reason = given;
        last = now;
        leftOut = 0;
        written++;
        return end;
    }

    /** A name in quotes, as a line shows it. */
    static String shown(String name) {
        var text = new StringBuilder();
        Json.append(text, name.substring(0, Math.min(name.length(), MOST_OF_A_NAME)));
        return ascii(text.toString());
    }

    /** The text of an error of the system, or about a certificate, as a line shows it. */
    static String inOneLine(String text) {
        return ascii(text.substring(0, Math.min(text.length(), MOST_OF_A_TEXT)));
    }

    private static String ascii(String text) {
        var shown = new StringBuilder();
        for (var one : text.toCharArray()) {
            shown.append(one >= ' ' && one <= '~' ? String.valueOf(one) : String.format("\\u%04x", (int) one));
        }
        return shown.toString();
    }
}
