package rbac.client;

import java.util.ArrayList;
import java.util.Collection;
import java.util.List;
import java.util.Map;
import java.util.function.Supplier;

/** JSON as far as requests and answers use it. Answers are read only as rbac writes them. */
final class Json {
    private final String text;
    private int at;
    private boolean isBad;

    Json(String text) {
        this.text = text;
    }

    /** The body of a request. A name that is null is not the text "null": it can't be sent. */
    static String body(Map<String, Object> keys) {
        var written = new StringBuilder("{");
        keys.forEach((key, value) -> {
            written.append(written.length() > 1 ? "," : "");
            append(written, key);
            appendValue(written.append(':'), value);
        });
        return written.append('}').toString();
    }

    private static void appendValue(StringBuilder written, Object value) {
        if (value instanceof Collection) {
            var separator = "[";
            for (var one : (Collection<?>) value) {
                append(written.append(separator), (String) one);
                separator = ",";
            }
            written.append(separator.equals("[") ? "[]" : "]");
        } else if (value instanceof Long) {
            written.append(value);
        } else {
            append(written, (String) value);
        }
    }

    /** Appends a text in quotes. */
    static void append(StringBuilder written, String text) {
        written.append('"');
        for (var at = 0; at < text.length(); at++) {
            var one = text.charAt(at);
            if (one == '"' || one == '\\') {
                written.append('\\').append(one);
            } else if (one < 0x20) {
                written.append(String.format("\\u%04x", (int) one));
            } else {
                written.append(one);
            }
        }
        written.append('"');
    }

    /** Whether the whole text was read, and all of it was right. */
    boolean isRead() {
        return !isBad && at == text.length();
    }

    /** Whether a text comes next. It is skipped then. */
    boolean skips(String wanted) {
        var comes = text.startsWith(wanted, at);
        at += comes ? wanted.length() : 0;
        return comes;
    }

    /** Skips a text that has to come next. */
    void need(String wanted) {
        isBad |= !skips(wanted);
    }

    /** Reads a text in quotes. Only quotes and backslashes are escaped. */
    String text() {
        need("\"");
        var name = new StringBuilder();
        while (!isBad && at < text.length()) {
            var one = text.charAt(at++);
            if (one == '"') {
                return name.toString();
            }
            if (one == '\\') {
                one = at < text.length() ? text.charAt(at++) : 0;
                isBad |= one != '"' && one != '\\';
            } else {
                isBad |= one < 0x20;
            }
            name.append(one);
        }
        isBad = true;
        return "";
    }

    /** Reads a whole number of at most ten digits. */
    long number() {
        var start = at;
        while (at < text.length() && text.charAt(at) >= '0' && text.charAt(at) <= '9') {
            at++;
        }
        var digits = text.substring(start, at);
        if (digits.isEmpty() || digits.length() > 10 || digits.length() > 1 && digits.charAt(0) == '0') {
            isBad = true;
            return 0;
        }
        return Long.parseLong(digits);
    }

    /** Reads a list. */
    <T> List<T> list(Supplier<T> item) {
        var found = new ArrayList<T>();
        need("[");
        if (skips("]")) {
            return found;
        }
        while (!isBad) {
            found.add(item.get());
            if (skips("]")) {
                return found;
            }
            need(",");
        }
        return found;
    }
}
