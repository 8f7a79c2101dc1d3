package rbac.client;

import static org.junit.jupiter.api.Assertions.assertEquals;
import static org.junit.jupiter.api.Assertions.assertFalse;
import static org.junit.jupiter.api.Assertions.assertThrows;
import static org.junit.jupiter.api.Assertions.assertTrue;

import java.io.IOException;
import java.io.PrintWriter;
import java.io.StringWriter;
import java.time.Duration;
import java.util.ArrayList;
import java.util.List;
import java.util.Map;
import org.junit.jupiter.api.DynamicTest;
import org.junit.jupiter.api.Test;
import org.junit.jupiter.api.TestFactory;

/** What no client may take for a permission, and what it says about it: clients/conformance/wrong_answers.json. */
class WrongAnswersTest {
    private final Map<?, ?> data = (Map<?, ?>) Values.shared("wrong_answers.json");
    private final String token = (String) data.get("token");
    private final String session = (String) data.get("session");

    WrongAnswersTest() throws IOException {}

    @TestFactory
    List<DynamicTest> wrongAnswers() {
        var tests = new ArrayList<DynamicTest>();
        for (var one : (List<?>) data.get("cases")) {
            var test = (Map<?, ?>) one;
            tests.add(DynamicTest.dynamicTest((String) test.get("name"), () -> denies(test)));
        }
        return tests;
    }

    private void denies(Map<?, ?> test) throws IOException {
        try (var server = new FakeServer(); var logged = new Logged();
             var office = Client.of(server.address()).pause(Duration.ofMinutes(1)).token(token).build()) {
            server.answers(test.get("reset") == null ? text((List<?>) test.get("answer")) : null);
            var decision = office.check(session, "open", "safe");
            assertFalse(decision.isAllowed());
            assertEquals(test.get("reason"), decision.reason().toString());
            assertEquals(1, server.requests.size());
            assertEquals(1, logged.lines.size());
            isHarmless(logged.lines.get(0));
            isHarmless(decision.toString());
            var error = assertThrows(OfficeException.class, () -> office.sessionRoles(session));
            isHarmless(error.getMessage());
            var trace = new StringWriter();
            error.printStackTrace(new PrintWriter(trace, true));
            hasNoSecret(trace + error.toString());
        }
    }

    /** The text of an answer: its pieces, each as often as it comes. */
    private static String text(List<?> pieces) {
        var answer = new StringBuilder();
        for (var piece : pieces) {
            if (piece instanceof String) {
                answer.append(piece);
            } else {
                answer.append(((String) ((List<?>) piece).get(0)).repeat(((Double) ((List<?>) piece).get(1)).intValue()));
            }
        }
        return answer.toString();
    }

    /** It is one line of printable ASCII, not long, and has neither the token nor the session's name. */
    private void isHarmless(String text) {
        assertTrue(text.matches("[ -~]{0,400}"), text);
        hasNoSecret(text);
    }

    private void hasNoSecret(String text) {
        assertFalse(text.contains(token) || text.contains(session), text);
    }

    @Test
    void rightAnswer() throws IOException {
        try (var server = new FakeServer(); var logged = new Logged();
             var office = Client.of(server.address()).pause(Duration.ofMinutes(1)).token(token).build()) {
            assertTrue(office.may(session, "open", "safe"));
            assertEquals(List.of(), logged.lines);
            assertTrue(server.requests.get(0).contains("Bearer " + token + "\r\n"));
        }
    }
}
