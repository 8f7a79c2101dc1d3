package rbac.client;

import java.io.IOException;
import java.net.InetSocketAddress;
import java.net.Socket;
import java.net.StandardSocketOptions;
import java.nio.ByteBuffer;
import java.nio.channels.SocketChannel;
import java.security.cert.CertificateParsingException;
import java.security.cert.X509Certificate;
import java.util.concurrent.ScheduledFuture;
import java.util.concurrent.ScheduledThreadPoolExecutor;
import java.util.concurrent.TimeUnit;
import javax.net.ssl.SSLException;
import javax.net.ssl.SSLSocket;

/**
 * A connection that carries one request at a time. Whatever takes too long on it ends by its end: to connect, TLS, to write, or to
 * read. An interrupt of the thread ends it too.
 */
final class Connection {
    /** Closes connections whose time is over. Its thread ends if there are none. */
    private static final ScheduledThreadPoolExecutor CLOCK = new ScheduledThreadPoolExecutor(1, task -> {
        var thread = new Thread(task, "rbac-time-limits");
        thread.setDaemon(true);
        return thread;
    });

    static {
        CLOCK.setRemoveOnCancelPolicy(true);
        CLOCK.setKeepAliveTime(10, TimeUnit.SECONDS);
        CLOCK.allowCoreThreadTimeOut(true);
    }

    /** The type of a name of a host among the other names of a certificate. */
    private static final Integer DNS_NAME = 2;

    private final SocketChannel channel;
    private Socket socket;

    private Connection(SocketChannel channel) {
        this.channel = channel;
        this.socket = channel.socket();
    }

    /** A new connection to an address: to the first of the host's places that answers, each of which gets a share of the time. */
    static Connection open(Address address, long limit) {
        try {
            IOException failure = new IOException("the host has no address");
            var places = address.places(limit);
            for (var at = 0; at < places.size(); at++) {
                var share = (limit - System.nanoTime()) / (places.size() - at);
                var connection = new Connection(SocketChannel.open());
                try {
                    return connection.connected(address, new InetSocketAddress(places.get(at), address.port()), share, limit);
                } catch (SSLException error) {
                    throw error;
                } catch (IOException error) {
                    failure = error;
                }
            }
            throw failure;
        } catch (InterruptedException error) {
            Thread.currentThread().interrupt();
            throw OfficeException.failed(Reason.UNREACHABLE, false, "the thread was interrupted", null);
        } catch (SSLException error) {
            // Its text has names of the certificate, and so has that of its cause. A server that closes the connection amid the
            // handshake has shown no certificate that isn't trusted.
            var isLost = limit - System.nanoTime() <= 0 || error.getCause() instanceof IOException;
            throw OfficeException.failed(isLost ? Reason.UNREACHABLE : Reason.UNTRUSTED, false, said(error, limit), null);
        } catch (IOException error) {
            throw OfficeException.failed(Reason.UNREACHABLE, false, said(error, limit), error);
        }
    }

    private Connection connected(Address address, InetSocketAddress place, long share, long limit) throws IOException {
        var isConnected = false;
        var end = closesAfter(share);
        try {
            channel.connect(place);
            channel.setOption(StandardSocketOptions.TCP_NODELAY, true);
            if (address.context() != null) {
                end.cancel(false);
                end = closesAfter(limit - System.nanoTime());
                var secured =
                    (SSLSocket) address.context().getSocketFactory().createSocket(socket, address.host(), address.port(), true);
                var parameters = secured.getSSLParameters();
                parameters.setEndpointIdentificationAlgorithm("HTTPS");
                parameters.setProtocols(new String[] {"TLSv1.3", "TLSv1.2"});
                secured.setSSLParameters(parameters);
                secured.startHandshake();
                if (!isNamed(secured, address.host())) {
                    throw new SSLException("the certificate has no name of a host");
                }
                socket = secured;
            }
            isConnected = true;
            return this;
        } finally {
            end.cancel(false);
            if (!isConnected) {
                close();
            }
        }
    }

    /** Whether a certificate has a name of a host, as all clients want it: Java takes that of the subject if there is no other. */
    private static boolean isNamed(SSLSocket secured, String host) throws IOException {
        if (host.contains(":") || host.matches("[0-9.]+")) {
            return true; // Java takes an address from the other names alone.
        }
        try {
            var names = ((X509Certificate) secured.getSession().getPeerCertificates()[0]).getSubjectAlternativeNames();
            return names != null && names.stream().anyMatch(one -> one.get(0).equals(DNS_NAME));
        } catch (CertificateParsingException error) {
            return false;
        }
    }

    /** Closes the connection after some nanoseconds. */
    private ScheduledFuture<?> closesAfter(long nanoseconds) {
        return CLOCK.schedule(this::close, Math.max(nanoseconds, 0), TimeUnit.NANOSECONDS);
    }

    /** Sends a request, and reads its answer. */
    Reply exchange(byte[] request, long limit) {
        var end = closesAfter(limit - System.nanoTime());
        IOException broken = null;
        try {
            try {
                socket.getOutputStream().write(request);
            } catch (IOException error) { // A server may refuse a request that it hasn't read to the end.
                broken = error;
            }
            var reply = new Reply();
            var piece = new byte[8_192];
            var in = socket.getInputStream();
            do {
                var size = in.read(piece);
                if (size < 0) {
                    throw broken != null ? broken : new IOException("the connection was closed before the answer ended");
                }
                reply.feed(piece, size);
            } while (!reply.isComplete());
            if (in.available() > 0) {
                throw Reply.unexpected("there is more than an answer");
            }
            reply.keeps &= broken == null;
            return reply;
        } catch (IOException error) {
            throw OfficeException.failed(Reason.UNANSWERED, true, said(error, limit), null);
        } finally {
            end.cancel(false);
        }
    }

    /** What an error says in one line. */
    private static String said(IOException error, long limit) {
        if (Thread.currentThread().isInterrupted()) {
            return "the thread was interrupted";
        }
        return limit - System.nanoTime() <= 0 ? "the time was over" : LogLines.inOneLine(String.valueOf(error.getMessage()));
    }

    /** Whether it is open, and nothing has come that no request has asked for. */
    boolean isSilent() {
        try {
            channel.configureBlocking(false);
            var size = channel.read(ByteBuffer.allocate(1));
            channel.configureBlocking(true);
            return size == 0;
        } catch (IOException error) {
            return false;
        }
    }

    /** Closes the connection, without a word to the other side: TLS could wait for it. */
    void close() {
        try {
            channel.close();
        } catch (IOException error) {
            // It is closed.
        }
    }
}
