package rbac.client;

import static org.junit.jupiter.api.Assertions.assertEquals;
import static org.junit.jupiter.api.Assertions.assertThrows;
import static org.junit.jupiter.api.Assertions.assertTrue;

import java.io.IOException;
import java.time.Duration;
import java.util.ArrayList;
import java.util.Collections;
import java.util.List;
import java.util.Map;
import java.util.concurrent.Callable;
import java.util.concurrent.Executors;
import java.util.concurrent.Future;
import org.junit.jupiter.api.DynamicTest;
import org.junit.jupiter.api.Test;
import org.junit.jupiter.api.TestFactory;

/** Which connections are kept, and which requests go over them. */
class ConnectionsTest {
    @TestFactory
    List<DynamicTest> isKeptAfterAnAnswerOfTheServer() throws IOException {
        var tests = new ArrayList<DynamicTest>();
        for (var one : (List<?>) Values.shared("connections.json")) {
            var test = (Map<?, ?>) one;
            tests.add(DynamicTest.dynamicTest((String) test.get("name"), () -> {
                try (var server = new FakeServer(); var logged = new Logged();
                     var office = Client.of(server.address()).pause(Duration.ofMinutes(1)).build()) {
                    server.keeps = true;
                    server.answers((String) test.get("answer"));
                    assertEquals(test.get("reason"), office.check("s1", "open", "safe").reason().toString());
                    server.answers(FakeServer.RIGHT);
                    assertTrue(office.may("s1", "open", "safe"), () -> logged.lines.toString());
                    assertEquals(test.get("keeps").equals(true) ? 1 : 2, server.connections.get());
                }
            }));
        }
        return tests;
    }

    @Test
    void aCommandHasAConnectionOfItsOwn() throws IOException {
        try (var server = new FakeServer(); var office = Client.of(server.address()).pause(Duration.ofMinutes(1)).build()) {
            server.keeps = true;
            assertTrue(office.may("s1", "open", "safe"));
            server.answers("HTTP/1.1 200 OK\r\nContent-Length: 11\r\n\r\n{\"ok\":true}");
            office.addUser("ann");
            office.addUser("bob");
            assertEquals(3, server.connections.get());
            assertTrue(server.requests.get(2).contains("\r\nConnection: close\r\n"));
        }
    }

    /** A server that closes each connection after its answer, though it doesn't say so, costs no decision, whatever the threads. */
    @Test
    void threadsOverConnectionsThatAreClosed() throws Exception {
        try (var server = new FakeServer(); var logged = new Logged();
             var office = Client.of(server.address()).pause(Duration.ofMinutes(1)).build()) {
            server.pause = 2;
            Callable<Integer> asks = () -> {
                var allowed = 0;
                for (var number = 0; number < 100; number++) {
                    allowed += office.may("s1", "open", "safe") ? 1 : 0;
                }
                return allowed;
            };
            var threads = Executors.newFixedThreadPool(8);
            var allowed = 0;
            for (Future<Integer> one : threads.invokeAll(Collections.nCopies(8, asks))) {
                allowed += one.get();
            }
            threads.shutdown();
            assertEquals(800, allowed, () -> logged.lines.toString());
        }
    }

    @Test
    void anInterruptEndsACall() throws Exception {
        try (var server = new FakeServer(); var logged = new Logged();
             var office = Client.of(server.address()).pause(Duration.ofMinutes(1)).build()) {
            server.keeps = true;
            server.answers("HTTP/1.1 200 OK\r\n");
            var asking = new Thread(() -> office.check("s1", "open", "safe"));
            asking.start();
            while (server.requests.isEmpty()) {
                Thread.sleep(1);
            }
            asking.interrupt();
            asking.join();
            assertEquals(Map.of(Reason.UNANSWERED, 1L), office.counts());
            Thread.currentThread().interrupt();
            assertThrows(OfficeException.class, () -> office.addUser("ann"));
            assertTrue(Thread.interrupted());
            assertEquals(1, logged.lines.size());
        }
    }
}
