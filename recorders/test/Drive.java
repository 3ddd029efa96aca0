import java.io.DataInputStream;
import java.io.FileOutputStream;
import java.io.IOException;
import java.io.OutputStream;
import java.net.Socket;
import java.nio.charset.StandardCharsets;
import java.util.Arrays;

/** Drives the Java recorder: `Drive calls PORT OUT` over memcached, `Drive table OUT ONE_OF` over a table. test/run says what. */
public final class Drive {
    private static byte[] held;

    private static byte[] latin(String text) { return text.getBytes(StandardCharsets.ISO_8859_1); }

    private static byte[] filled(int size, int with) {
        byte[] bytes = new byte[size];
        Arrays.fill(bytes, (byte) with);
        return bytes;
    }

    private static final class Client {
        final DataInputStream in;
        final OutputStream out;

        Client(int port) throws IOException {
            Socket socket = new Socket("127.0.0.1", port);
            socket.setTcpNoDelay(true);
            in = new DataInputStream(new java.io.BufferedInputStream(socket.getInputStream()));
            out = socket.getOutputStream();
        }

        @SuppressWarnings("deprecation")
        String ask(byte[] request) throws IOException {
            out.write(request);
            return in.readLine();
        }

        void change(byte[] request) throws IOException {
            String answer = ask(request);
            if (!Arrays.asList("STORED", "DELETED", "NOT_FOUND").contains(answer)) throw new IOException(answer);
        }

        byte[] get(String key) throws IOException {
            String answer = ask(latin("get " + key + "\r\n"));
            if (answer.equals("END")) return null;
            byte[] found = new byte[Integer.parseInt(answer.split(" ")[3])];
            in.readFully(found);
            in.readFully(new byte[7]);
            return found;
        }
    }

    private static void work(Recorder recorder, int port, long seed) {
        try {
            Client client = new Client(port);
            long chance = seed;
            for (int number = 0; number < 600; number++) {
                chance = chance * 6364136223846793005L + 1442695040888963407L;
                String key = "key" + (chance >>> 33) % 8;
                long kind = (chance >>> 40) % 100;
                int expiry = kind < 70 ? 1 : 0;
                byte[] value = filled(number % 100, 'a' + number % 26);
                if (kind < 60) {
                    recorder.get("java-" + seed, latin(key), () -> client.get(key));
                } else if (kind < 92) {
                    recorder.put("java-" + seed, latin(key), value, 3_000_000_000L * expiry, stored -> {
                        String body = new String(stored, StandardCharsets.ISO_8859_1);
                        client.change(latin("set " + key + " 0 " + expiry + " " + stored.length + "\r\n" + body + "\r\n"));
                    });
                } else {
                    recorder.remove("java-" + seed, latin(key), () -> client.change(latin("delete " + key + "\r\n")));
                }
            }
        } catch (IOException broken) {
            broken.printStackTrace();
            System.exit(1);
        }
    }

    private static void tableKey(Recorder r, byte[] key, byte[] value) {
        held = null;
        if (r.get("a #-%", key, () -> held) != null) throw new AssertionError();
        r.put("-", key, value, 0, stored -> held = stored);
        if (!Arrays.equals(r.get("a #-%", key, () -> held), value)) throw new AssertionError();
        r.remove("", key, () -> held = null);
        try {
            r.put("late", key, new byte[0], 1_000_000_000L, stored -> { throw new IllegalStateException(); });
            throw new AssertionError();
        } catch (IllegalStateException expected) {
            return;
        }
    }

    /** Nulls are the client's to refuse: each call is made, and the recording stops. */
    private static void nothing() {
        boolean[] called = new boolean[2];
        try (Recorder recorder = new Recorder(OutputStream.nullOutputStream(), 1)) {
            recorder.put(null, latin("key"), null, 0, stored -> called[0] = stored == null);
            recorder.remove(null, null, () -> called[1] = true);
            if (!called[0] || !called[1] || recorder.lost() == 0) throw new AssertionError();
        }
    }

    public static void main(String[] words) throws Exception {
        boolean isTable = words[0].equals("table");
        Thread[] threads = new Thread[isTable ? 0 : 4];
        try (FileOutputStream out = new FileOutputStream(words[isTable ? 1 : 2], true)) {
            Recorder recorder = new Recorder(out, isTable ? Long.parseLong(words[2]) : 1);
            for (int i = 0; i < threads.length; i++) {
                long seed = i + 1;
                threads[i] = new Thread(() -> work(recorder, Integer.parseInt(words[1]), seed));
                threads[i].start();
            }
            for (Thread thread : threads) thread.join();
            for (int b = 0; b < 256 && isTable; b++) tableKey(recorder, new byte[] {(byte) b}, filled(b, b));
            for (int n = 0; n < 300 && isTable; n++) tableKey(recorder, latin("key" + n), filled(n, 'x'));
            recorder.close();
            long lost = recorder.lost();
            recorder.remove("after", latin("key0"), () -> held = null); // leaves no line
            recorder.close();
            System.out.println("lost " + lost);
            if (lost != recorder.lost()) throw new AssertionError();
            nothing();
        }
    }
}
