package rbac.client;

import java.io.IOException;
import java.net.InetAddress;
import java.net.URI;
import java.nio.charset.StandardCharsets;
import java.util.ArrayDeque;
import java.util.Deque;
import java.util.List;
import java.util.concurrent.ExecutionException;
import java.util.concurrent.FutureTask;
import java.util.concurrent.TimeUnit;
import java.util.concurrent.TimeoutException;
import javax.net.ssl.SSLContext;

/** Where a server listens. Questions go over connections that are kept, and commands over new ones. Threads may share it. */
final class Address {
    private static final int MOST_IDLE = 16;

    private final String host;
    private final int port;
    private final String field;
    private final SSLContext context;
    private final Deque<Connection> idle = new ArrayDeque<>();

    /** The context is the one for TLS, and is not used without it. */
    Address(String text, SSLContext context) {
        var uri = uriOf(text);
        var isTls = "https".equals(uri.getScheme());
        var path = uri.getRawPath() == null ? "" : uri.getRawPath();
        var isPlain = uri.getRawUserInfo() == null && uri.getRawQuery() == null && uri.getRawFragment() == null;
        var isRight = (isTls || "http".equals(uri.getScheme())) && uri.getHost() != null && uri.getPort() <= 65_535;
        if (!isRight || !isPlain || !path.isEmpty() && !path.equals("/")) {
            throw new IllegalArgumentException(NO_ADDRESS);
        }
        this.host = uri.getHost().replaceAll("^\\[|\\]$", "");
        this.port = uri.getPort() >= 0 ? uri.getPort() : isTls ? 443 : 80;
        this.field = uri.getHost() + ":" + port;
        this.context = isTls ? context : null;
    }

    /** Whether nobody on the way can read what is sent: over TLS, or on this machine. */
    boolean hides() {
        return context != null || host.equalsIgnoreCase("localhost") || host.matches("127\\.[0-9.]+|[0:]*:0*1");
    }

    /** The text isn't shown: it may have a password. */
    private static final String NO_ADDRESS = "this is no address such as https://localhost:8080";

    private static URI uriOf(String text) {
        try {
            return URI.create(text.isEmpty() ? "none" : text);
        } catch (IllegalArgumentException error) {
            throw new IllegalArgumentException(NO_ADDRESS);
        }
    }

    /** Asks a question over a kept connection. If that was closed meanwhile, the question is asked once more, over a new one. */
    <T> T ask(String function, String body, String token, Reader<T> reader, long limit) {
        var request = request(function, body, token, true);
        var kept = kept();
        if (kept != null) {
            try {
                return exchange(kept, request, reader, limit);
            } catch (OfficeException error) {
                if (error.reason() != Reason.UNANSWERED || limit - System.nanoTime() <= 0
                    || Thread.currentThread().isInterrupted()) {
                    throw error;
                }
            }
        }
        return exchange(Connection.open(this, limit), request, reader, limit);
    }

    /** Sends a command over a new connection. */
    <T> T command(String function, String body, String token, Reader<T> reader, long limit) {
        return exchange(Connection.open(this, limit), request(function, body, token, false), reader, limit);
    }

    /** Sends a request, and reads its answer. The connection is kept only after an answer of the server. */
    private <T> T exchange(Connection connection, byte[] request, Reader<T> reader, long limit) {
        var isOfServer = false;
        try {
            var answer = connection.exchange(request, limit);
            try {
                var value = reader.read(answer.status, answer.text());
                isOfServer = answer.keeps;
                return value;
            } catch (OfficeException error) {
                isOfServer = answer.keeps && error.code() != 0;
                throw error;
            }
        } finally {
            if (!isOfServer || !keeps(connection)) {
                connection.close();
            }
        }
    }

    private byte[] request(String function, String body, String token, boolean keeps) {
        var bytes = body.getBytes(StandardCharsets.UTF_8);
        var head = new StringBuilder(function.contains(" ") ? function : "POST /v1/" + function)
                       .append(" HTTP/1.1\r\nHost: ")
                       .append(field);
        head.append("\r\nContent-Type: application/json\r\nContent-Length: ").append(bytes.length);
        if (token != null) {
            head.append("\r\nAuthorization: Bearer ").append(token);
        }
        var before = head.append(keeps ? "\r\n\r\n" : "\r\nConnection: close\r\n\r\n").toString().getBytes(StandardCharsets.UTF_8);
        var request = new byte[before.length + bytes.length];
        System.arraycopy(before, 0, request, 0, before.length);
        System.arraycopy(bytes, 0, request, before.length, bytes.length);
        return request;
    }

    /** Keeps a connection for the next question, if there aren't many. */
    private boolean keeps(Connection connection) {
        synchronized (idle) {
            return idle.size() < MOST_IDLE && idle.offerLast(connection);
        }
    }

    /** A kept connection that is open, and on which nothing has come meanwhile, or null. */
    private Connection kept() {
        while (true) {
            Connection connection;
            synchronized (idle) {
                connection = idle.pollLast();
            }
            if (connection == null || connection.isSilent()) {
                return connection;
            }
            connection.close();
        }
    }

    /** Closes the connections that are kept. */
    void close() {
        synchronized (idle) {
            idle.forEach(Connection::close);
            idle.clear();
        }
    }

    String host() {
        return host;
    }

    int port() {
        return port;
    }

    /** The context for TLS, or null without it. */
    SSLContext context() {
        return context;
    }

    /** Where the host is. The system may look for it longer than there is time: nobody waits for it then. */
    List<InetAddress> places(long limit) throws IOException, InterruptedException {
        if (host.matches("[0-9.]+|.*:.*")) {
            return List.of(InetAddress.getAllByName(host));
        }
        var found = new FutureTask<>(() -> InetAddress.getAllByName(host));
        var thread = new Thread(found, "rbac-host");
        thread.setDaemon(true);
        thread.start();
        try {
            return List.of(found.get(Math.max(limit - System.nanoTime(), 0), TimeUnit.NANOSECONDS));
        } catch (ExecutionException error) {
            throw new IOException("the host has no address");
        } catch (TimeoutException error) {
            throw new IOException("the address of the host wasn't found in time");
        }
    }
}
