import java.net.URI;
import java.net.http.HttpClient;
import java.net.http.HttpRequest;
import java.net.http.HttpResponse;
import java.time.Duration;
import java.util.Arrays;
import java.util.concurrent.Callable;
import rbac.client.Client;

/** Prints the median times of a decision in Java: by java.net.http, and by the client. */
class Decide {
    static final int WARM = 3_000;
    static final int COUNT = 10_000;

    public static void main(String[] arguments) throws Exception {
        var address = System.getenv("RBAC");
        var session = System.getenv("SESSION");
        var http = HttpClient.newBuilder().version(HttpClient.Version.HTTP_1_1).build();
        var office = Client.of(address).timeout(Duration.ofSeconds(60)).build();
        Callable<Boolean> byHand = () -> {
            var body = String.format("{\"session\":\"%s\",\"operation\":\"%s\",\"object\":\"%s\"}", session, "open", "vault");
            var request = HttpRequest.newBuilder(URI.create(address + "/v1/checkAccess"))
                              .timeout(Duration.ofSeconds(60))
                              .POST(HttpRequest.BodyPublishers.ofString(body))
                              .build();
            var answer = http.send(request, HttpResponse.BodyHandlers.ofString());
            return answer.statusCode() == 200 && answer.body().equals("{\"ok\":true,\"value\":true}");
        };
        Callable<Boolean> byClient = () -> office.may(session, "open", "vault");
        var times = new double[2][COUNT];
        for (var round = 0; round < WARM + COUNT; round++) {
            for (var way = 0; way < 2; way++) {
                var start = System.nanoTime();
                if (!(way == 0 ? byHand : byClient).call()) {
                    throw new IllegalStateException("denied");
                }
                if (round >= WARM) {
                    times[way][round - WARM] = (System.nanoTime() - start) / 1000.0;
                }
            }
        }
        Arrays.sort(times[0]);
        Arrays.sort(times[1]);
        System.out.printf("Java, java.net.http %.1f %.1f%n", times[0][COUNT / 2], times[1][COUNT / 2]);
        System.exit(0);
    }
}
