package ixm;

import java.io.IOException;
import java.math.BigInteger;
import java.net.SocketAddress;
import java.time.Duration;
import java.util.List;
import java.util.Optional;
import java.util.concurrent.ThreadLocalRandom;
import java.util.concurrent.atomic.AtomicInteger;
import javax.net.ssl.SSLContext;

/** An engine at the manager's sockets, which may be used by many threads (docs/engines.md).
 *
 * <p>Its sockets are all of the same manager, or of fronts before it; the first that takes a
 * connection is used. */
public final class Engine {
    /** Seconds in which a manager has to answer a connection that it reads. */
    private static final Duration REPLY = Duration.ofSeconds(10);

    private static final Duration FIRST_PAUSE = Duration.ofMillis(50);

    /** How an engine asks: the milliseconds for which an action is reserved, from its ask to its
     * confirm; how long it waits for its turn; the milliseconds for which an ask may wait in the
     * line of a front; the longest pause between two tries; and what secures a connection to a
     * host. */
    public record Settings(
            int lease, Duration turn, int frontWait, Duration pause, Optional<SSLContext> tls) {
        public static Settings standard() {
            Duration turn = Duration.ofSeconds(60);
            return new Settings(5000, turn, 60000, Duration.ofSeconds(2), Optional.empty());
        }

        public Settings withLease(int millis) {
            return new Settings(millis, turn, frontWait, pause, tls);
        }
    }

    private final List<SocketAddress> sockets;
    private final Settings settings;
    private final AtomicInteger first = new AtomicInteger();

    public Engine(List<SocketAddress> sockets, Settings settings) {
        this.sockets = List.copyOf(sockets);
        this.settings = settings;
        if (sockets.isEmpty()) {
            throw new IllegalArgumentException("an engine has at least one socket");
        }
    }

    /** Brings the action about exactly once, as soon as the rules permit it, and gives its number
     * in the history.
     *
     * <p>The store is of this activity alone. A call with it goes on where the last one was, also
     * if that was killed or interrupted: if the action is done already, its number is given again.
     * It is confirmed as soon as it is granted, so it has to be an instant: a beginning, an end, a
     * decision. After the time, no further try is made. */
    public BigInteger activity(String action, Store store, Duration within)
            throws NotDone, InterruptedException {
        Activity activity = new Activity(action, settings.lease(), store);
        long end = System.nanoTime() + within.toNanos();
        Duration pause = FIRST_PAUSE;
        activity.load();
        while (activity.number().isEmpty()) {
            Duration left = Duration.ofNanos(end - System.nanoTime());
            if (left.isNegative() || left.isZero()) {
                throw activity.notDone(NotDone.Kind.TOO_LATE, "the time is over", null);
            }
            tryOnce(activity, left);
            if (activity.number().isEmpty()) {
                long longest = Math.min(pause.toMillis(), left.toMillis());
                Thread.sleep(ThreadLocalRandom.current().nextLong(longest + 1));
                pause = shorter(pause.multipliedBy(2), settings.pause());
            }
        }
        return activity.number().get();
    }

    /** Goes as far as one connection gets. */
    private void tryOnce(Activity activity, Duration left) throws NotDone {
        int place = first.get();
        SocketAddress address = sockets.get(Math.floorMod(place, sockets.size()));
        Duration limit = shorter(settings.turn(), left);
        int wait = (int) Math.min(settings.frontWait(), left.toMillis());
        try (Link link = Link.open(address, settings.tls(), limit)) {
            // A front says yes at once. A bare manager refuses this line, once it has come to this
            // connection: so nobody who gives up while he waits for his turn leaves an ask behind.
            boolean isFront = link.request("front wait " + wait, limit).equals("yes");
            activity.goOn(line -> {
                boolean waits = isFront && line.startsWith("ask ");
                return link.request(line, waits ? REPLY.plusMillis(wait) : REPLY);
            });
        } catch (javax.net.ssl.SSLHandshakeException error) {
            throw activity.notDone(NotDone.Kind.FOR_PEOPLE, error.getMessage(), error);
        } catch (IOException lost) {
            // Nothing is known of the last request; what is kept says what to ask next. The next
            // socket is tried.
            first.compareAndSet(place, place + 1);
        }
    }

    private static Duration shorter(Duration one, Duration other) {
        return one.compareTo(other) < 0 ? one : other;
    }
}
