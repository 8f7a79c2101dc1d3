package rbac.client;

import com.sun.net.httpserver.Filter;
import com.sun.net.httpserver.HttpExchange;
import java.io.IOException;
import java.nio.charset.StandardCharsets;
import java.util.function.Function;

/** A guard as a filter of {@code com.sun.net.httpserver}: {@code context.getFilters().add(new GuardFilter(office, need, session))}. */
public final class GuardFilter extends Filter {
    private final Guard<HttpExchange> guard;

    /** The parameters are those of {@link Guard}. */
    public GuardFilter(Client office, Function<HttpExchange, Need> need, Function<HttpExchange, String> session) {
        this(new Guard<>(office, need, session));
    }

    private GuardFilter(Guard<HttpExchange> guard) {
        this.guard = guard;
    }

    /** The parameters are those of {@link Guard#byUser}. */
    public static GuardFilter byUser(Client office, Function<HttpExchange, Need> need, Function<HttpExchange, String> user) {
        return new GuardFilter(Guard.byUser(office, need, user));
    }

    @Override
    public void doFilter(HttpExchange exchange, Chain chain) throws IOException {
        var status = guard.statusOf(exchange);
        if (status == 200) {
            chain.doFilter(exchange);
            return;
        }
        exchange.getResponseHeaders().set("Content-Type", "text/plain; charset=utf-8");
        exchange.getResponseHeaders().set("Cache-Control", "no-store");
        var text = (Guard.textOf(status) + "\n").getBytes(StandardCharsets.UTF_8);
        exchange.sendResponseHeaders(status, text.length);
        try (var body = exchange.getResponseBody()) {
            body.write(text);
        }
    }

    @Override
    public String description() {
        return "passes a request on only if its session may do what it needs";
    }
}
