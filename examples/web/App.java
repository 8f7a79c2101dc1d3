import com.sun.net.httpserver.HttpExchange;
import com.sun.net.httpserver.HttpServer;
import java.io.IOException;
import java.net.InetSocketAddress;
import java.nio.charset.StandardCharsets;
import java.util.Map;
import java.util.concurrent.ConcurrentHashMap;
import rbac.client.*;

/** A bank's pages. RBAC is the address of the office, RBAC_TOKEN this application's token, and Java trusts its key store. */
class App {
    static final Map<String, Need> NEEDS = Map.of("/vault", Need.of("open", "vault"), "/count", Need.of("count", "vault"));
    static final Map<String, String> PASSWORDS = Map.of("ann", "apple", "erin", "elder"); // An application keeps digests of them.
    static final Map<String, Session> SESSIONS = new ConcurrentHashMap<>(); // by the cookie
    static final Client OFFICE = Client.of(System.getenv("RBAC")).token(System.getenv("RBAC_TOKEN")).build();

    public static void main(String[] arguments) throws IOException {
        var port = Integer.parseInt(System.getenv().getOrDefault("PORT", "0"));
        var server = HttpServer.create(new InetSocketAddress("127.0.0.1", port), 0);
        var guard = new GuardFilter(OFFICE, visit -> NEEDS.get(visit.getRequestURI().getPath()), App::session);
        server.createContext("/", App::page).getFilters().add(guard);
        server.start();
        System.out.println("http://127.0.0.1:" + server.getAddress().getPort());
    }

    static String cookie(HttpExchange visit) {
        return String.valueOf(visit.getRequestHeaders().getFirst("Cookie")).replaceFirst("^login=", "");
    }

    static String session(HttpExchange visit) {
        var session = SESSIONS.get(cookie(visit));
        return session == null ? null : session.name();
    }

    static void page(HttpExchange visit) throws IOException {
        var asked = visit.getRequestMethod() + " " + visit.getRequestURI().getPath();
        var status = 200;
        try {
            if (asked.equals("POST /login")) {
                status = logIn(visit, new String(visit.getRequestBody().readNBytes(1000), StandardCharsets.UTF_8).split("[=&]"));
            } else if (asked.equals("POST /logout") && session(visit) != null) {
                SESSIONS.remove(cookie(visit)).close();
            }
        } catch (OfficeException error) {
            status = 503;
            System.err.println(error);
        }
        visit.sendResponseHeaders(status, -1);
    }

    static int logIn(HttpExchange visit, String[] form) {
        if (form.length < 4 || !form[3].equals(PASSWORDS.get(form[1]))) {
            return 401;
        }
        var cookie = Session.newName();
        SESSIONS.put(cookie, OFFICE.openSession(form[1]));
        visit.getResponseHeaders().set("Set-Cookie", "login=" + cookie + "; HttpOnly; SameSite=Strict; Path=/");
        return 200;
    }
}
