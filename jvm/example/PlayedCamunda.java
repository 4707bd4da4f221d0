import com.sun.net.httpserver.HttpExchange;
import com.sun.net.httpserver.HttpServer;
import java.io.IOException;
import java.net.InetAddress;
import java.net.InetSocketAddress;
import java.nio.charset.StandardCharsets;
import java.util.ArrayList;
import java.util.List;
import java.util.Map;

/** A process engine, as far as an external worker sees it: the two calls of Camunda 7's REST
 * interface, {@code POST /external-task/fetchAndLock} and {@code POST /external-task/ID/complete}.
 * It is played: nothing of Camunda is here. A task that is locked and not completed is given out
 * again once its lock is over, as there.
 *
 * <p>{@code PlayedCamunda ACTION..} puts its port, has one task for each action, in turn, and puts
 * each that is completed. */
final class PlayedCamunda {
    private static final class Task {
        final String id;
        final String action;
        long lockedUntil;
        boolean isCompleted;

        Task(String id, String action) {
            this.id = id;
            this.action = action;
        }
    }

    private final List<Task> tasks = new ArrayList<>();

    private PlayedCamunda(String[] actions) {
        for (String action : actions) {
            tasks.add(new Task("task-" + (tasks.size() + 1), action));
        }
    }

    public static void main(String[] actions) throws IOException {
        PlayedCamunda engine = new PlayedCamunda(actions);
        InetSocketAddress address = new InetSocketAddress(InetAddress.getLoopbackAddress(), 0);
        HttpServer server = HttpServer.create(address, 0);
        server.createContext("/engine-rest/external-task/", engine::answer);
        server.start();
        System.out.println(server.getAddress().getPort());
    }

    private synchronized void answer(HttpExchange exchange) throws IOException {
        String body = new String(exchange.getRequestBody().readAllBytes(), StandardCharsets.UTF_8);
        String path = exchange.getRequestURI().getPath().replace("/engine-rest/external-task/", "");
        if (path.equals("fetchAndLock")) {
            send(exchange, 200, Json.write(fetch(Json.read(body))));
        } else if (path.endsWith("/complete")) {
            send(exchange, complete(path.replace("/complete", "")) ? 204 : 404, "");
        } else {
            send(exchange, 404, "");
        }
    }

    /** The first task that isn't completed, if nobody has it. Those behind it wait, as in a
     * sequence. */
    private List<Object> fetch(Object request) {
        Object topic = ((List<?>) Json.at(request, "topics")).get(0);
        long now = System.currentTimeMillis();
        for (Task task : tasks) {
            if (!task.isCompleted) {
                if (task.lockedUntil > now) {
                    return List.of();
                }
                task.lockedUntil = now + (Long) Json.at(topic, "lockDuration");
                Map<String, Object> action = Map.of("type", "String", "value", task.action);
                return List.of(Map.of("id", task.id, "variables", Map.of("action", action)));
            }
        }
        return List.of();
    }

    private boolean complete(String id) {
        for (Task task : tasks) {
            if (task.id.equals(id) && !task.isCompleted) {
                task.isCompleted = true;
                System.out.println("completed " + task.id + " " + task.action);
                return true;
            }
        }
        return false;
    }

    private static void send(HttpExchange exchange, int status, String body) throws IOException {
        byte[] bytes = body.getBytes(StandardCharsets.UTF_8);
        exchange.sendResponseHeaders(status, bytes.length == 0 ? -1 : bytes.length);
        exchange.getResponseBody().write(bytes);
        exchange.close();
    }
}
