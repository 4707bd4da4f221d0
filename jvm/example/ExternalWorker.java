import ixm.Engine;
import ixm.FileStore;
import ixm.NotDone;
import java.io.IOException;
import java.math.BigInteger;
import java.net.URI;
import java.net.UnixDomainSocketAddress;
import java.net.http.HttpClient;
import java.net.http.HttpRequest;
import java.net.http.HttpResponse;
import java.nio.file.Path;
import java.time.Duration;
import java.util.List;
import java.util.Map;

/** A worker of external tasks, as Camunda 7 has them: it fetches and locks a task of the topic
 * {@code ixm}, brings the action of its variable {@code action} about at a manager, and completes
 * the task only then.
 *
 * <p>{@code ExternalWorker URL SOCKET FOLDER LOCK}. FOLDER keeps a store for each task, under the
 * task's id. So a worker that was killed behind a confirm finds its action done when it is given
 * the task again, and completes it without asking twice. A task is this worker's for LOCK
 * milliseconds; another one may have it after that, and the store decides then. */
final class ExternalWorker {
    private final HttpClient http = HttpClient.newHttpClient();
    private final String url;
    private final Engine engine;
    private final Path folder;
    private final long lock;

    private ExternalWorker(String url, String socket, String folder, long lock) {
        this.url = url;
        UnixDomainSocketAddress address = UnixDomainSocketAddress.of(socket);
        this.engine = new Engine(List.of(address), Engine.Settings.standard());
        this.folder = Path.of(folder);
        this.lock = lock;
    }

    public static void main(String[] words) throws IOException, InterruptedException {
        if (words.length != 4) {
            System.err.println("ExternalWorker URL SOCKET FOLDER LOCK");
            System.exit(2);
        }
        long lock = Long.parseLong(words[3]);
        ExternalWorker worker = new ExternalWorker(words[0], words[1], words[2], lock);
        while (true) {
            if (!worker.takeOne()) {
                Thread.sleep(100);
            }
        }
    }

    /** Whether there was a task. */
    private boolean takeOne() throws IOException, InterruptedException {
        Map<String, Object> topic = Map.of("topicName", "ixm", "lockDuration", lock);
        Map<String, Object> request =
                Map.of("workerId", "worker", "maxTasks", 1L, "topics", List.of(topic));
        List<?> tasks = (List<?>) Json.read(post("fetchAndLock", Json.write(request)).body());
        for (Object task : tasks) {
            Object action = Json.at(Json.at(task, "variables"), "action");
            work((String) Json.at(task, "id"), (String) Json.at(action, "value"));
        }
        return !tasks.isEmpty();
    }

    private void work(String id, String action) throws IOException, InterruptedException {
        try {
            Duration within = Duration.ofMillis(lock / 2);
            BigInteger number = engine.activity(action, new FileStore(folder.resolve(id)), within);
            System.out.println(id + ": " + action + " is " + number);
            post(id + "/complete", Json.write(Map.of("workerId", "worker")));
        } catch (NotDone error) {
            // The task is given out again when its lock is over, and the store says then where to
            // go on.
            System.out.println(id + ": " + error.getMessage());
        }
    }

    private HttpResponse<String> post(String call, String body)
            throws IOException, InterruptedException {
        HttpRequest request = HttpRequest.newBuilder(URI.create(url + "/external-task/" + call))
                .header("Content-Type", "application/json")
                .POST(HttpRequest.BodyPublishers.ofString(body))
                .build();
        HttpResponse<String> response = http.send(request, HttpResponse.BodyHandlers.ofString());
        if (response.statusCode() / 100 != 2) {
            throw new IOException(call + " was answered " + response.statusCode());
        }
        return response;
    }
}
