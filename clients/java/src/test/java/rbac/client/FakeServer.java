package rbac.client;

import java.io.ByteArrayOutputStream;
import java.io.IOException;
import java.net.InetAddress;
import java.net.ServerSocket;
import java.net.Socket;
import java.nio.charset.StandardCharsets;
import java.util.List;
import java.util.concurrent.CopyOnWriteArrayList;
import java.util.concurrent.atomic.AtomicInteger;
import java.util.regex.Pattern;

/** Sends one answer after each request, and closes the connection unless it keeps it. Without an answer it resets the connection. */
final class FakeServer implements AutoCloseable {
    static final String RIGHT = "HTTP/1.1 200 OK\r\nContent-Length: 24\r\n\r\n{\"ok\":true,\"value\":true}";
    static final String DENIED = "HTTP/1.1 200 OK\r\nContent-Length: 25\r\n\r\n{\"ok\":true,\"value\":false}";

    private static final Pattern LENGTH = Pattern.compile("(?i)content-length: (\\d+)");

    private final ServerSocket listener;
    private volatile byte[] answer = RIGHT.getBytes(StandardCharsets.ISO_8859_1);
    volatile boolean keeps;
    /** How many milliseconds pass until a connection is closed that isn't kept. */
    volatile int pause;
    final List<String> requests = new CopyOnWriteArrayList<>();
    final AtomicInteger connections = new AtomicInteger();

    FakeServer() throws IOException {
        listener = new ServerSocket(0, 50, InetAddress.getByName("127.0.0.1"));
        start(this::serve);
    }

    private static void start(Runnable task) {
        var thread = new Thread(task);
        thread.setDaemon(true);
        thread.start();
    }

    /** The next answer, in which each character is a byte, or null. */
    void answers(String text) {
        answer = text == null ? null : text.replace("{port}", "" + listener.getLocalPort()).getBytes(StandardCharsets.ISO_8859_1);
    }

    String address() {
        return "http://127.0.0.1:" + listener.getLocalPort();
    }

    @Override
    public void close() throws IOException {
        listener.close();
    }

    private void serve() {
        while (!listener.isClosed()) {
            try {
                var client = listener.accept();
                connections.incrementAndGet();
                start(() -> converse(client));
            } catch (IOException error) {
                return;
            }
        }
    }

    private void converse(Socket socket) {
        try (var client = socket) {
            do {
                var request = new ByteArrayOutputStream();
                while (!isWhole(request.toString(StandardCharsets.ISO_8859_1))) {
                    var one = client.getInputStream().read();
                    if (one < 0) {
                        return;
                    }
                    request.write(one);
                }
                requests.add(request.toString(StandardCharsets.ISO_8859_1));
                if (answer == null) {
                    client.setSoLinger(true, 0);
                    return;
                }
                client.getOutputStream().write(answer);
            } while (keeps);
            Thread.sleep(pause);
        } catch (InterruptedException | IOException error) {
            // The client has gone, or the test is over.
        }
    }

    private static boolean isWhole(String request) {
        var end = request.indexOf("\r\n\r\n");
        var length = LENGTH.matcher(request);
        return end >= 0 && request.length() - end - 4 >= (length.find() ? Integer.parseInt(length.group(1)) : 0);
    }
}
