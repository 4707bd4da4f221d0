import ixm.Engine;
import ixm.FileStore;
import ixm.NotDone;
import java.net.InetSocketAddress;
import java.nio.file.Path;
import java.security.NoSuchAlgorithmException;
import java.time.Duration;
import java.util.List;
import java.util.Optional;
import javax.net.ssl.SSLContext;

/** An engine over TLS: {@code Far PORT ACTION STORE}. The certificates that it believes are those
 * of the system's property. */
final class Far {
    private Far() {}

    public static void main(String[] words) throws NoSuchAlgorithmException, InterruptedException {
        Engine.Settings standard = Engine.Settings.standard();
        Engine.Settings settings = new Engine.Settings(
                standard.lease(), standard.turn(), standard.frontWait(), standard.pause(),
                Optional.of(SSLContext.getDefault()));
        InetSocketAddress nobody = InetSocketAddress.createUnresolved("localhost", 1);
        InetSocketAddress address =
                InetSocketAddress.createUnresolved("localhost", Integer.parseInt(words[0]));
        Engine engine = new Engine(List.of(nobody, address), settings);
        try {
            FileStore store = new FileStore(Path.of(words[2]));
            System.out.println("done " + engine.activity(words[1], store, Duration.ofSeconds(30)));
        } catch (NotDone error) {
            System.out.println(error.kind());
        }
    }
}
