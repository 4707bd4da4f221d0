package ixm;

import java.math.BigInteger;
import java.net.UnixDomainSocketAddress;
import java.nio.file.Path;
import java.time.Duration;
import java.util.List;

/** The engine as a client of the conformance run (docs/client.md): {@code SOCKET ACTION MILLIS
 * STORE SECONDS}. */
final class Conformance {
    private Conformance() {}

    public static void main(String[] words) throws InterruptedException {
        Engine.Settings settings = Engine.Settings.standard().withLease(Integer.parseInt(words[2]));
        Engine engine = new Engine(List.of(UnixDomainSocketAddress.of(words[0])), settings);
        Duration within = Duration.ofSeconds(Long.parseLong(words[4]));
        try {
            BigInteger number = engine.activity(words[1], new FileStore(Path.of(words[3])), within);
            System.out.println("done " + number);
        } catch (NotDone error) {
            String neither = "not done: " + error.getMessage();
            System.out.println(error.ticket().map(it -> "unsure " + it).orElse(neither));
        }
    }
}
