package rbac.client;

import java.io.IOException;
import java.nio.file.Files;
import java.nio.file.Path;
import java.util.ArrayList;
import java.util.LinkedHashMap;
import java.util.List;
import java.util.Map;

/** Reads JSON of any form: maps, lists, texts, numbers as doubles, true, false and null. */
final class Values {
    private final String text;
    private int at;

    Values(String text) {
        this.text = text;
    }

    /** A file of clients/conformance. */
    static Object shared(String name) throws IOException {
        return new Values(Files.readString(Path.of(System.getProperty("conformance", "../conformance"), name))).value();
    }

    Object value() {
        switch (next()) {
            case '{':
                return members();
            case '[':
                return items();
            case '"':
                return quoted();
            default:
                var start = at;
                while (at < text.length() && ",]} \n".indexOf(text.charAt(at)) < 0) {
                    at++;
                }
                var word = text.substring(start, at);
                return word.equals("null")       ? null
                    : word.matches("true|false") ? (Object) word.equals("true")
                                                 : Double.valueOf(word);
        }
    }

    private char next() {
        while (Character.isWhitespace(text.charAt(at))) {
            at++;
        }
        return text.charAt(at);
    }

    private boolean ends(char end) {
        var ends = next() == end;
        at += ends || next() == ',' ? 1 : 0;
        return ends;
    }

    private Map<String, Object> members() {
        var found = new LinkedHashMap<String, Object>();
        at++;
        while (!ends('}')) {
            next();
            var key = quoted();
            next();
            at++;
            found.put(key, value());
        }
        return found;
    }

    private List<Object> items() {
        var found = new ArrayList<>();
        at++;
        while (!ends(']')) {
            found.add(value());
        }
        return found;
    }

    private String quoted() {
        var found = new StringBuilder();
        for (at++; text.charAt(at) != '"'; at++) {
            var one = text.charAt(at);
            if (one == '\\') {
                one = text.charAt(++at);
                var place = "nrtbf".indexOf(one);
                if (place >= 0) {
                    one = "\n\r\t\b\f".charAt(place);
                } else if (one == 'u') {
                    one = (char) Integer.parseInt(text.substring(at + 1, at + 5), 16);
                    at += 4;
                }
            }
            found.append(one);
        }
        at++;
        return found.toString();
    }
}
