package ixm;

import java.io.IOException;
import java.nio.ByteBuffer;
import java.nio.channels.FileChannel;
import java.nio.channels.FileLock;
import java.nio.charset.StandardCharsets;
import java.nio.file.Files;
import java.nio.file.NoSuchFileException;
import java.nio.file.Path;
import java.nio.file.StandardCopyOption;
import java.nio.file.StandardOpenOption;
import java.util.Optional;

/** A store in a file of its own, which is replaced as a whole and brought to the disk. Its folder is
 * there before. Beside the file are its name with {@code .lock} and, for a moment, with {@code .new}. */
public final class FileStore implements Store {
    // A lock on a file keeps other processes out, and not other threads.
    private static final Object THREADS = new Object();

    private final Path path;

    public FileStore(Path path) {
        this.path = path.toAbsolutePath();
    }

    @Override
    public Optional<String> load() throws IOException {
        try {
            String text = Files.readString(path, StandardCharsets.ISO_8859_1);
            return Optional.of(text.endsWith("\n") ? text.substring(0, text.length() - 1) : text);
        } catch (NoSuchFileException absent) {
            return Optional.empty();
        }
    }

    @Override
    public boolean swap(Optional<String> old, String record) throws IOException {
        synchronized (THREADS) {
            try (FileChannel channel = open(".lock"); FileLock lock = channel.lock()) {
                return lock.isValid() && swapAlone(old, record);
            }
        }
    }

    private boolean swapAlone(Optional<String> old, String record) throws IOException {
        if (!load().equals(old)) {
            return false;
        }
        try (FileChannel file = open(".new")) {
            file.truncate(0);
            ByteBuffer bytes = ByteBuffer.wrap((record + "\n").getBytes(StandardCharsets.US_ASCII));
            while (bytes.hasRemaining()) {
                file.write(bytes);
            }
            file.force(true);
        }
        Files.move(beside(".new"), path, StandardCopyOption.ATOMIC_MOVE);
        try (FileChannel folder = FileChannel.open(path.getParent(), StandardOpenOption.READ)) {
            folder.force(true);
        }
        return true;
    }

    private FileChannel open(String tail) throws IOException {
        return FileChannel.open(beside(tail), StandardOpenOption.CREATE, StandardOpenOption.WRITE);
    }

    private Path beside(String tail) {
        return path.resolveSibling(path.getFileName() + tail);
    }
}
