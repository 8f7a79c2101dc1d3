import java.io.BufferedReader;
import java.io.InputStreamReader;
import java.io.PrintStream;
import java.lang.reflect.InvocationTargetException;
import java.lang.reflect.Method;
import java.nio.charset.StandardCharsets;
import java.nio.file.Files;
import java.nio.file.Path;
import java.security.KeyFactory;
import java.security.KeyStore;
import java.security.cert.Certificate;
import java.security.cert.CertificateFactory;
import java.security.spec.PKCS8EncodedKeySpec;
import java.time.Duration;
import java.util.ArrayList;
import java.util.Arrays;
import java.util.Base64;
import java.util.Collections;
import java.util.LinkedHashMap;
import java.util.List;
import java.util.Map;
import java.util.concurrent.Callable;
import java.util.concurrent.Executors;
import java.util.stream.Collectors;
import javax.net.ssl.KeyManager;
import javax.net.ssl.KeyManagerFactory;
import javax.net.ssl.SSLContext;
import javax.net.ssl.TrustManagerFactory;
import rbac.client.Client;
import rbac.client.Decision;
import rbac.client.ImportReport;
import rbac.client.OfficeException;
import rbac.client.Permission;
import rbac.client.Session;

/**
 * Does with the client in Java what each line of its input says, and prints what came of it. tests/clients/driving.py has what
 * the lines say.
 */
public final class Driver {
    private final Map<String, Object> keys;
    private Client client;
    private Session session;

    private Driver(Map<String, Object> keys) {
        this.keys = keys;
    }

    public static void main(String[] arguments) throws Exception {
        var driver = new Driver(object(new Values(arguments[0]).value()));
        var lines = new BufferedReader(new InputStreamReader(System.in, StandardCharsets.UTF_8));
        var out = new PrintStream(System.out, true, StandardCharsets.UTF_8);
        for (var line = lines.readLine(); line != null; line = lines.readLine()) {
            out.println(written(driver.act(object(new Values(line).value()))));
        }
        System.exit(0);
    }

    private Map<String, Object> act(Map<String, Object> line) throws Exception {
        switch ((String) line.get("do")) {
            case "open":
                return open(line);
            case "call":
                return call((String) line.get("function"), object(line.get("arguments")));
            case "check":
                return shown(client.check(text(line, "session"), text(line, "operation"), text(line, "object")));
            case "decide":
                return shown(client.decideByUser(text(line, "user"), text(line, "operation"), text(line, "object")));
            case "login":
                return result(() -> {
                    var user = text(line, "user");
                    var isRenewed = line.get("renews").equals(true);
                    if (line.get("roles") == null) {
                        session = isRenewed ? client.openRenewedSession(user) : client.openSession(user);
                        return session.name();
                    }
                    var roles = texts(line.get("roles"));
                    session = isRenewed ? client.openRenewedSession(user, roles) : client.openSession(user, roles);
                    return session.name();
                });
            case "opened":
                return opened();
            case "end":
                var digest = line.get("digest") == null ? Session.digest(session.name()) : text(line, "digest");
                try {
                    return result(() -> {
                        client.endSession(digest);
                        return null;
                    });
                } catch (IllegalArgumentException error) {
                    return new LinkedHashMap<>(Map.of("reason", "invalid_request", "may_be_done", false));
                }
            case "ask":
                var found = shown(session.check(text(line, "operation"), text(line, "object")));
                found.put("name", session.name());
                return found;
            case "asks":
                return asks(text(line, "operation"), text(line, "object"), ((Double) line.get("times")).intValue());
            case "logout":
                return result(() -> {
                    session.close();
                    return null;
                });
            default:
                var counts = new LinkedHashMap<String, Object>();
                client.counts().forEach((reason, count) -> counts.put(reason.toString(), count));
                return counts;
        }
    }

    /** The reasons of decisions at once. */
    private Map<String, Object> asks(String operation, String object, int times) throws Exception {
        var threads = Executors.newFixedThreadPool(times);
        try {
            Callable<String> asking = () -> session.check(operation, object).reason().toString();
            var reasons = new ArrayList<String>();
            for (var one : threads.invokeAll(Collections.nCopies(times, asking))) {
                reasons.add(one.get());
            }
            return Map.of("reasons", reasons);
        } finally {
            threads.shutdown();
        }
    }

    private Map<String, Object> opened() {
        var left = new ArrayList<List<Object>>();
        for (var one : session.left()) {
            var row = new ArrayList<Object>(List.of(one.role(), (long) one.code()));
            if (!one.detail().isEmpty()) {
                row.add(one.detail());
            }
            left.add(row);
        }
        return new LinkedHashMap<>(Map.of("roles", session.roles(), "left", left));
    }

    private Map<String, Object> open(Map<String, Object> line) throws Exception {
        var builder = Client.of(texts(line.get("addresses")).toArray(String[] ::new));
        if (line.get("timeout") != null) {
            builder.timeout(Duration.ofNanos((long) ((Double) line.get("timeout") * 1e9)));
        }
        if (line.get("pause") != null) {
            builder.pause(Duration.ofNanos((long) ((Double) line.get("pause") * 1e9)));
        }
        if (line.get("repeats") != null) {
            builder.repeats(line.get("repeats").equals(true));
        }
        if (line.get("token") != null) {
            builder.token(text(line, "token"));
        }
        if (line.get("ca") != null) {
            builder.sslContext(context(line));
        }
        try {
            client = builder.build();
        } catch (IllegalArgumentException error) {
            return Map.of("refused", error.getMessage());
        }
        return Map.of();
    }

    /** What trusts an authority, and shows a certificate if there is one. */
    private static SSLContext context(Map<String, Object> line) throws Exception {
        var trusted = KeyStore.getInstance("PKCS12");
        trusted.load(null, null);
        trusted.setCertificateEntry("ca", certificate(text(line, "ca")));
        var trust = TrustManagerFactory.getInstance(TrustManagerFactory.getDefaultAlgorithm());
        trust.init(trusted);
        KeyManager[] own = null;
        if (line.get("certificate") != null) {
            var pem = Files.readString(Path.of(text(line, "key"))).replaceAll("-----[A-Z ]+-----|\\s", "");
            var key = KeyFactory.getInstance("EC").generatePrivate(new PKCS8EncodedKeySpec(Base64.getDecoder().decode(pem)));
            var store = KeyStore.getInstance("PKCS12");
            store.load(null, null);
            store.setKeyEntry("own", key, new char[0], new Certificate[] {certificate(text(line, "certificate"))});
            var keys = KeyManagerFactory.getInstance(KeyManagerFactory.getDefaultAlgorithm());
            keys.init(store, new char[0]);
            own = keys.getKeyManagers();
        }
        var context = SSLContext.getInstance("TLS");
        context.init(own, trust.getTrustManagers(), null);
        return context;
    }

    private static Certificate certificate(String path) throws Exception {
        try (var file = Files.newInputStream(Path.of(path))) {
            return CertificateFactory.getInstance("X.509").generateCertificate(file);
        }
    }

    /** Calls the method of a function. */
    private Map<String, Object> call(String function, Map<String, Object> given) {
        var method = Arrays.stream(Client.class.getMethods()).filter(one -> one.getName().equals(function)).findFirst().get();
        var values = new ArrayList<Object>();
        for (var key : texts(keys.get(function))) {
            var value = given.get(key);
            values.add(value instanceof Double ? (Object) ((Double) value).longValue() : value);
        }
        return result(() -> invoked(method, values));
    }

    private Object invoked(Method method, List<Object> values) throws Exception {
        try {
            return plain(method.invoke(client, values.toArray()));
        } catch (InvocationTargetException error) {
            throw(Exception) error.getCause();
        }
    }

    /** What a call returns. */
    private interface Call {
        Object value() throws Exception;
    }

    /** The value of a call, or why it has none. */
    private static Map<String, Object> result(Call call) {
        var shown = new LinkedHashMap<String, Object>();
        try {
            shown.put("value", call.value());
        } catch (OfficeException error) {
            shown.put("reason", error.reason().toString());
            shown.put("may_be_done", error.mayBeDone());
            if (error.code() != 0) {
                var refusal = new LinkedHashMap<String, Object>(error.details());
                refusal.put("code", error.code());
                refusal.put("error", error.refusal());
                shown.put("refusal", refusal);
            }
        } catch (RuntimeException error) {
            throw error;
        } catch (Exception error) {
            throw new IllegalStateException(error);
        }
        return shown;
    }

    /** A value as rbac has it. */
    private static Object plain(Object value) {
        if (value instanceof ImportReport) {
            var report = (ImportReport) value;
            var refused = report.refused().stream().map(one -> Map.of("code", one.code(), "record", one.record()));
            return Map.of(
                "already", report.already(), "assigned", report.assigned(), "refused", refused.collect(Collectors.toList()));
        }
        if (value instanceof List) {
            return ((List<?>) value).stream().map(Driver::plain).collect(Collectors.toList());
        }
        if (value instanceof Permission) {
            return List.of(((Permission) value).object(), ((Permission) value).operation());
        }
        return value;
    }

    private static Map<String, Object> shown(Decision decision) {
        var shown = new LinkedHashMap<String, Object>();
        shown.put("allowed", decision.isAllowed());
        shown.put("reason", decision.reason().toString());
        shown.put("code", decision.code());
        return shown;
    }

    private static String text(Map<String, Object> line, String key) {
        return (String) line.get(key);
    }

    private static List<String> texts(Object value) {
        return ((List<?>) value).stream().map(String.class ::cast).collect(Collectors.toList());
    }

    private static Map<String, Object> object(Object value) {
        var found = new LinkedHashMap<String, Object>();
        ((Map<?, ?>) value).forEach((key, one) -> found.put((String) key, one));
        return found;
    }

    /** A value as JSON, in ASCII. */
    private static String written(Object value) {
        if (value instanceof Map) {
            var members = ((Map<?, ?>) value).entrySet().stream().map(one -> written(one.getKey()) + ":" + written(one.getValue()));
            return members.collect(Collectors.joining(",", "{", "}"));
        }
        if (value instanceof List) {
            return ((List<?>) value).stream().map(Driver::written).collect(Collectors.joining(",", "[", "]"));
        }
        if (!(value instanceof String)) {
            return String.valueOf(value);
        }
        var signs = ((String) value).chars().mapToObj(one -> String.format("\\u%04x", one));
        return signs.collect(Collectors.joining("", "\"", "\""));
    }

    /** Reads JSON of any form: maps, lists, texts, numbers as doubles, true, false and null. */
    private static final class Values {
        private final String text;
        private int at;

        Values(String text) {
            this.text = text;
        }

        Object value() {
            switch (next()) {
                case '{':
                    return members();
                case '[':
                    return items();
                case '"':
                    return quoted();
                default:
                    var start = at;
                    while (at < text.length() && ",]} ".indexOf(text.charAt(at)) < 0) {
                        at++;
                    }
                    var word = text.substring(start, at);
                    return word.equals("null")       ? null
                        : word.matches("true|false") ? (Object) word.equals("true")
                                                     : Double.valueOf(word);
            }
        }

        private char next() {
            while (text.charAt(at) == ' ') {
                at++;
            }
            return text.charAt(at);
        }

        private boolean ends(char end) {
            var ends = next() == end;
            at += ends || next() == ',' ? 1 : 0;
            return ends;
        }

        private Map<String, Object> members() {
            var found = new LinkedHashMap<String, Object>();
            at++;
            while (!ends('}')) {
                next();
                var key = quoted();
                next();
                at++;
                found.put(key, value());
            }
            return found;
        }

        private List<Object> items() {
            var found = new ArrayList<>();
            at++;
            while (!ends(']')) {
                found.add(value());
            }
            return found;
        }

        private String quoted() {
            var found = new StringBuilder();
            for (at++; text.charAt(at) != '"'; at++) {
                var one = text.charAt(at);
                if (one == '\\') {
                    one = text.charAt(++at);
                    var place = "nrtbf".indexOf(one);
                    if (place >= 0) {
                        one = "\n\r\t\b\f".charAt(place);
                    } else if (one == 'u') {
                        one = (char) Integer.parseInt(text.substring(at + 1, at + 5), 16);
                        at += 4;
                    }
                }
                found.append(one);
            }
            at++;
            return found.toString();
        }
    }
}
