package ixm;

import java.io.Closeable;
import java.io.IOException;
import java.net.InetSocketAddress;
import java.net.Socket;
import java.net.SocketAddress;
import java.net.SocketTimeoutException;
import java.net.StandardProtocolFamily;
import java.net.UnixDomainSocketAddress;
import java.nio.ByteBuffer;
import java.nio.channels.SelectionKey;
import java.nio.channels.Selector;
import java.nio.channels.SocketChannel;
import java.nio.charset.StandardCharsets;
import java.time.Duration;
import java.util.Arrays;
import java.util.Optional;
import javax.net.ssl.SSLContext;
import javax.net.ssl.SSLParameters;
import javax.net.ssl.SSLSocket;

/** A connection to a manager or a front. One on which something went wrong is closed, so that a
 * late reply is never taken for the answer to another request. Each IOException says that nothing
 * is known of what the last request did. */
final class Link implements Closeable {
    /** Bytes that go and come. */
    private interface Wire extends Closeable {
        void write(byte[] bytes, Duration limit) throws IOException;

        /** The number of bytes that came, or -1 at the end. */
        int read(byte[] bytes, Duration limit) throws IOException;
    }

    private final Wire wire;
    private byte[] pending = new byte[0];

    private Link(Wire wire) {
        this.wire = wire;
    }

    /** Connects to a Unix socket, or to a host and a port, over TLS if there is a context. */
    static Link open(SocketAddress address, Optional<SSLContext> tls, Duration limit)
            throws IOException {
        if (address instanceof InetSocketAddress far) {
            return new Link(new Far(far, tls, limit));
        }
        return new Link(new Near(address));
    }

    @Override
    public void close() throws IOException {
        wire.close();
    }

    /** The first line of the reply to a request. None of those sent here has a reply of more. */
    String request(String line, Duration limit) throws IOException {
        if (!line.chars().allMatch(it -> it >= ' ' && it < 127)) {
            throw new IllegalArgumentException("not one line of ASCII: " + line);
        }
        try {
            if (pending.length > 0) {
                throw new IOException("more came than was asked for");
            }
            wire.write((line + "\n").getBytes(StandardCharsets.US_ASCII), limit);
            return readLine(limit);
        } catch (IOException error) {
            close();
            throw error;
        }
    }

    private String readLine(Duration limit) throws IOException {
        byte[] piece = new byte[4096];
        while (true) {
            int end = new String(pending, StandardCharsets.ISO_8859_1).indexOf('\n');
            if (end > Reply.LONGEST || end < 0 && pending.length > Reply.LONGEST) {
                throw new IOException("a line is longer than any reply");
            }
            if (end >= 0) {
                String line = new String(pending, 0, end, StandardCharsets.ISO_8859_1);
                pending = Arrays.copyOfRange(pending, end + 1, pending.length);
                return line;
            }
            int count = wire.read(piece, limit);
            if (count < 0) {
                throw new IOException("the connection was closed in front of a reply's end");
            }
            int before = pending.length;
            pending = Arrays.copyOf(pending, before + count);
            System.arraycopy(piece, 0, pending, before, count);
        }
    }

    /** A Unix socket. Its channel has no limits of time of its own, so it is waited for by a
     * selector. */
    private static final class Near implements Wire {
        private final SocketChannel channel;
        private final Selector selector;

        Near(SocketAddress address) throws IOException {
            if (!(address instanceof UnixDomainSocketAddress)) {
                throw new IOException("no address of a socket: " + address);
            }
            channel = SocketChannel.open(StandardProtocolFamily.UNIX);
            try {
                channel.configureBlocking(false);
                if (!channel.connect(address)) {
                    throw new IOException("the queue of connections is full");
                }
                selector = Selector.open();
                channel.register(selector, SelectionKey.OP_READ);
            } catch (IOException error) {
                channel.close();
                throw error;
            }
        }

        @Override
        public void write(byte[] bytes, Duration limit) throws IOException {
            ByteBuffer buffer = ByteBuffer.wrap(bytes);
            channel.write(buffer);
            if (buffer.hasRemaining()) {
                throw new IOException("the other side reads nothing");
            }
        }

        @Override
        public int read(byte[] bytes, Duration limit) throws IOException {
            if (selector.select(Math.max(1, limit.toMillis())) == 0) {
                throw new SocketTimeoutException("no reply in time");
            }
            selector.selectedKeys().clear();
            return channel.read(ByteBuffer.wrap(bytes));
        }

        @Override
        public void close() throws IOException {
            selector.close();
            channel.close();
        }
    }

    /** A host and a port. */
    private static final class Far implements Wire {
        private final Socket socket;

        Far(InetSocketAddress address, Optional<SSLContext> tls, Duration limit)
                throws IOException {
            Socket plain = new Socket();
            try {
                String host = address.getHostString();
                plain.connect(new InetSocketAddress(host, address.getPort()), millis(limit));
                plain.setTcpNoDelay(true);
                plain.setSoTimeout(millis(limit));
                socket = tls.isPresent() ? secured(plain, address, tls.get()) : plain;
            } catch (IOException error) {
                plain.close();
                throw error;
            }
        }

        private static Socket secured(Socket plain, InetSocketAddress address, SSLContext tls)
                throws IOException {
            SSLSocket socket = (SSLSocket) tls.getSocketFactory()
                    .createSocket(plain, address.getHostString(), address.getPort(), true);
            SSLParameters parameters = socket.getSSLParameters();
            parameters.setEndpointIdentificationAlgorithm("HTTPS");
            socket.setSSLParameters(parameters);
            socket.startHandshake();
            return socket;
        }

        @Override
        public void write(byte[] bytes, Duration limit) throws IOException {
            socket.getOutputStream().write(bytes);
            socket.getOutputStream().flush();
        }

        @Override
        public int read(byte[] bytes, Duration limit) throws IOException {
            socket.setSoTimeout(millis(limit));
            return socket.getInputStream().read(bytes);
        }

        @Override
        public void close() throws IOException {
            socket.close();
        }

        private static int millis(Duration limit) {
            return (int) Math.max(1, Math.min(Integer.MAX_VALUE, limit.toMillis()));
        }
    }
}
