package rbac.client;

import java.nio.ByteBuffer;
import java.nio.charset.CharacterCodingException;
import java.nio.charset.StandardCharsets;
import java.util.Arrays;
import java.util.Locale;
import java.util.regex.Pattern;

/** An answer as it arrives. It has to state the length of its body in exactly one way. */
final class Reply {
    /** How many bytes the head and the body may have. */
    private static final int LONGEST_HEAD = 16_384;

    private static final int LONGEST_BODY = 4 << 20;

    private static final String VALUE = "[\\t\\x20-\\x7e\\x80-\\xff]*";
    private static final Pattern STATUS = Pattern.compile("HTTP/1\\.([01]) (\\d{3}) " + VALUE);
    private static final Pattern FIELD = Pattern.compile("([!#$%&'*+.^_`|~0-9A-Za-z-]+):(" + VALUE + ")");

    private byte[] received = new byte[512];
    private int size;
    private int start;
    private int end;

    int status;
    boolean keeps;

    /** Adds bytes. Throws an exception if it isn't an answer of rbac. */
    void feed(byte[] piece, int count) {
        if (size + count > received.length) {
            received = Arrays.copyOf(received, Math.max(2 * received.length, size + count));
        }
        System.arraycopy(piece, 0, received, size, count);
        var from = Math.max(size - 3, 0);
        size += count;
        if (end == 0) {
            readHead(from);
        }
        if (end > 0 && size > end) {
            throw unexpected("there is more than an answer");
        }
    }

    boolean isComplete() {
        return end > 0 && size == end;
    }

    /** The body of a complete answer, or nothing if it isn't UTF-8. */
    String text() {
        try {
            return StandardCharsets.UTF_8.newDecoder().decode(ByteBuffer.wrap(received, start, end - start)).toString();
        } catch (CharacterCodingException error) {
            return "";
        }
    }

    /** The error of an answer that isn't one of rbac. Its text has nothing of it. */
    static OfficeException unexpected(String why) {
        return OfficeException.failed(Reason.UNEXPECTED, true, why, null);
    }

    /** Reads the head if it is complete; its end isn't before a place. */
    private void readHead(int from) {
        if (!"HTTP/1.".startsWith(latin(0, Math.min(size, 7)))) {
            throw unexpected("no HTTP");
        }
        var at = from;
        while (at + 4 <= size
               && !(received[at] == '\r' && received[at + 1] == '\n' && received[at + 2] == '\r' && received[at + 3] == '\n')) {
            at++;
        }
        if (at > LONGEST_HEAD) {
            throw unexpected("the head of the answer is too long");
        }
        if (at + 4 > size) {
            return;
        }
        var lines = latin(0, at).split("\r\n", -1);
        var first = STATUS.matcher(lines[0]);
        if (!first.matches()) {
            throw unexpected("no answer of rbac: a wrong head");
        }
        status = Integer.parseInt(first.group(2));
        keeps = first.group(1).equals("1");
        start = at + 4;
        end = start + lengthOf(lines);
        if (end - start > LONGEST_BODY) {
            throw unexpected("the answer has " + (end - start) + " bytes");
        }
    }

    /** The length that the fields of a head state. */
    private int lengthOf(String[] lines) {
        var length = -1;
        for (var number = 1; number < lines.length; number++) {
            var field = FIELD.matcher(lines[number]);
            if (!field.matches()) {
                throw unexpected("no answer of rbac: a wrong head");
            }
            var value = field.group(2).trim();
            switch (field.group(1).toLowerCase(Locale.ROOT)) {
                case "content-length":
                    if (length >= 0 || !value.matches("[0-9]{1,9}")) {
                        throw unexpected("the answer doesn't state its length in one way");
                    }
                    length = Integer.parseInt(value);
                    break;
                case "transfer-encoding":
                    throw unexpected("the answer doesn't state its length in one way");
                case "connection":
                    keeps &= !value.toLowerCase(Locale.ROOT).contains("close");
                    break;
                default:
            }
        }
        if (length < 0) {
            throw unexpected("the answer doesn't state its length in one way");
        }
        return length;
    }

    private String latin(int from, int to) {
        return new String(received, from, to - from, StandardCharsets.ISO_8859_1);
    }
}
