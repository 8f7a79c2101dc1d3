package rbac.client;

import static org.junit.jupiter.api.Assertions.assertEquals;
import static org.junit.jupiter.api.Assertions.assertFalse;
import static org.junit.jupiter.api.Assertions.assertNull;
import static org.junit.jupiter.api.Assertions.assertThrows;
import static org.junit.jupiter.api.Assertions.assertTrue;

import java.io.IOException;
import java.time.Duration;
import java.util.ArrayList;
import java.util.List;
import java.util.Map;
import java.util.concurrent.atomic.AtomicLong;
import java.util.function.Function;
import org.junit.jupiter.api.DynamicTest;
import org.junit.jupiter.api.Test;
import org.junit.jupiter.api.TestFactory;

/** Tokens, lines of the log, and guards: with clients/conformance/tokens.json, addresses.json and log_lines.json. */
class ClientTest {
    private final Map<?, ?> tokens = (Map<?, ?>) Values.shared("tokens.json");

    ClientTest() throws IOException {}

    @TestFactory
    List<DynamicTest> tokensThatAreSent() {
        var tests = new ArrayList<DynamicTest>();
        ((Map<?, ?>) tokens.get("sent")).forEach((token, sent) -> tests.add(DynamicTest.dynamicTest("the token " + token, () -> {
            var given = (String) token;
            for (var builder : List.of(Client.of().token(given), Client.of().token(() -> given))) {
                try (var server = new FakeServer(); var office = builder.address(server.address()).build()) {
                    assertTrue(office.may("s1", "open", "safe"));
                    assertTrue(server.requests.get(0).contains("\r\nAuthorization: Bearer " + sent + "\r\n"));
                }
            }
        })));
        return tests;
    }

    @TestFactory
    List<DynamicTest> tokensThatAreRefused() {
        var refused = new ArrayList<Object>((List<?>) tokens.get("refused"));
        refused.add("");
        var tests = new ArrayList<DynamicTest>();
        for (var token : refused) {
            tests.add(DynamicTest.dynamicTest("the token " + token, () -> refuses((String) token)));
        }
        tests.add(DynamicTest.dynamicTest("no token of a function", () -> refusesLater(null)));
        return tests;
    }

    private static void refuses(String token) throws IOException {
        var error = assertThrows(IllegalArgumentException.class, () -> Client.of("http://localhost").token(token));
        assertTrue(error.getMessage().contains("visible ASCII"));
        assertFalse(token.length() > 2 && error.toString().contains(token));
        refusesLater(token);
    }

    private static void refusesLater(String token) throws IOException {
        try (var server = new FakeServer(); var logged = new Logged();
             var office = Client.of(server.address()).token(() -> token).build()) {
            var decision = office.check("s1", "open", "safe");
            assertEquals(Reason.INVALID_REQUEST, decision.reason());
            var error = assertThrows(OfficeException.class, () -> office.addUser("ann"));
            assertFalse(error.mayBeDone());
            assertFalse(token != null && token.length() > 2 && (logged.lines + error.toString() + decision).contains(token));
            assertEquals(List.of(), server.requests);
        }
    }

    @TestFactory
    List<DynamicTest> tokensGoToOtherMachinesOverTls() throws IOException {
        var tests = new ArrayList<DynamicTest>();
        ((Map<?, ?>) Values.shared("addresses.json")).forEach((kind, addresses) -> ((List<?>) addresses).forEach(one -> {
            tests.add(DynamicTest.dynamicTest(kind + ": a token to " + one, () -> goesTo((String) one, kind.equals("sent"))));
        }));
        return tests;
    }

    private static void goesTo(String address, boolean isSent) {
        Client.of(address).build().close();
        for (var builder : List.of(
                 Client.of("https://localhost", address).token("abc-secret"),
                 Client.of(address, "http://localhost").token(() -> "abc-secret"))) {
            if (isSent) {
                builder.build().close();
            } else {
                var error = assertThrows(IllegalArgumentException.class, builder::build);
                assertTrue(error.getMessage().contains("https://"));
                assertFalse(error.toString().contains("abc-secret"));
            }
            builder.tokenOverHttp(true).build().close();
        }
    }

    @Test
    void whatAFunctionThrowsIsNotShown() {
        try (var logged = new Logged();
             var office = Client.of("http://127.0.0.1:9").token(() -> { throw new IllegalStateException("abc-secret"); }).build()) {
            assertEquals("IllegalStateException", office.check("s1", "open", "safe").detail());
            assertFalse(logged.lines.toString().contains("abc-secret"));
        }
        var error = assertThrows(IllegalArgumentException.class, () -> Client.of("http://ann:abc-secret@a b").build());
        assertFalse(error.toString().contains("abc-secret"));
        assertNull(error.getCause());
    }

    @TestFactory
    List<DynamicTest> lines() throws IOException {
        var tests = new ArrayList<DynamicTest>();
        for (var one : (List<?>) Values.shared("log_lines.json")) {
            var test = (Map<?, ?>) one;
            tests.add(DynamicTest.dynamicTest((String) test.get("name"), () -> {
                var now = new AtomicLong();
                var lines = new LogLines(now::get);
                for (var step : (List<?>) test.get("steps")) {
                    var words = (List<?>) step;
                    now.set(Math.round((Double) words.get(0) * 1e9));
                    var leftOut = (Double) words.get(2);
                    var end = leftOut == null ? null
                        : leftOut == 0        ? ""
                                              : " (and " + leftOut.intValue() + " more since the last line)";
                    assertEquals(end, lines.due(Reason.valueOf(((String) words.get(1)).toUpperCase())), step.toString());
                }
            }));
        }
        return tests;
    }

    @Test
    void aLineIsOneOfPrintableAscii() {
        try (var logged = new Logged(); var office = Client.of("http://127.0.0.1:9").pause(Duration.ofMinutes(1)).build()) {
            office.check("s1", "open\n\u001b[31m\u2028\u0085", "safe".repeat(1_000));
            office.check("s1", "open", "safe");
            var start = "no decision about \"open\\u000a\\u001b[31m\\u2028\\u0085\" on \""
                + "safe".repeat(20) + "\": unreachable: ";
            assertEquals(1, logged.lines.size());
            assertTrue(logged.lines.get(0).startsWith(start) && logged.lines.get(0).matches("[ -~]*"), logged.lines.get(0));
        }
    }

    @Test
    void aGuardPassesOnlyWhatIsAllowed() throws IOException {
        try (var server = new FakeServer(); var logged = new Logged(); var office = client(server)) {
            Function<String, Need> need = request -> request.equals("free") ? null : Need.of("open", "safe");
            var guard = new Guard<String>(office, need, request -> request);
            var byUser = Guard.<String>byUser(office, need, request -> request);
            var answers = Map.of(FakeServer.RIGHT, 200, FakeServer.DENIED, 403, "", 503);
            answers.forEach((answer, status) -> {
                server.answers(answer);
                assertEquals(status, guard.statusOf("s1"));
                assertEquals(status, byUser.statusOf("ann"));
                var last = server.requests.get(server.requests.size() - 1);
                assertTrue(last.startsWith("POST /v1/decideByUser ") && last.contains("{\"user\":\"ann\","), last);
            });
            assertEquals(401, guard.statusOf(""));
            assertEquals(401, byUser.statusOf(""));
            assertEquals(200, guard.statusOf("free"));
            assertEquals(200, byUser.statusOf("free"));
            assertEquals(1, logged.lines.size());
        }
    }

    /** A client that asks each question once. */
    private static Client client(FakeServer server) {
        return Client.of(server.address()).pause(Duration.ofMinutes(1)).build();
    }
}
