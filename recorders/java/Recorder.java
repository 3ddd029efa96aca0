import java.io.OutputStream;
import java.math.BigInteger;
import java.nio.charset.StandardCharsets;
import java.security.MessageDigest;
import java.security.SecureRandom;
import java.util.Arrays;
import java.util.concurrent.atomic.AtomicLong;
import java.util.regex.Matcher;
import java.util.regex.Pattern;

/**
 * Records the calls of a cache's client as lines for `kangaroo judge`. The page is ../README.md. Any thread may use it, until close.
 * Each of put, remove and get makes one call of yours, which returns after the cache's answer has come. No error of the recorder
 * reaches the service: it stops recording, and counts the lines that it did not write. System.nanoTime is CLOCK_MONOTONIC on Linux.
 */
public final class Recorder implements AutoCloseable {
    /** Sends a put and waits for its answer. It is given what it has to store, and throws if that was refused. */
    public interface Put<E extends Exception> { void store(byte[] stored) throws E; }
    /** Sends a removal and waits for its answer. It throws if that was refused. */
    public interface Remove<E extends Exception> { void remove() throws E; }
    /** Sends a get and waits for its answer. It returns what was found, or null, and throws if no answer came. */
    public interface Get<E extends Exception> { byte[] find() throws E; }

    private static final int NAME_MOST = 64, KEY_MOST = 255, VALUE_MOST = 64;
    private static final Pattern TAG = Pattern.compile("^rec\\.[0-9a-f]{12}\\.[0-9]{1,20}\\|");
    private final OutputStream out;
    private final long oneOf;
    private final String run = String.format("%012x", new SecureRandom().nextLong() >>> 16);
    private final AtomicLong puts = new AtomicLong();
    private long calls = -1, lost; // under the lock of this, with the next
    private boolean closed;

    /** Begins a recording of one key in oneOf; 1 means every key. */
    public Recorder(OutputStream out, long oneOf) {
        this.out = out;
        this.oneOf = Math.max(1, oneOf);
        write("# recorder rec." + run + ", 1 of " + this.oneOf + " keys\n");
    }

    /** Puts a value. The cache surely lets it expire `lifetime` nanoseconds after END; 0 is never. */
    public <E extends Exception> void put(String caller, byte[] key, byte[] value, long lifetime, Put<E> call) throws E {
        byte[] stored = tagged(key, value);
        change(caller, key, "put", stored, lifetime, () -> call.store(stored));
    }

    /** Removes a key. */
    public <E extends Exception> void remove(String caller, byte[] key, Remove<E> call) throws E {
        change(caller, key, "remove", null, 0, call);
    }

    /** Makes a write, and notes it. One that throws has the END `-`: it may have happened, or happen yet. */
    private <E extends Exception> void change(String caller, byte[] key, String act, byte[] stored, long lifetime, Remove<E> call) throws E {
        boolean done = false;
        long start = System.nanoTime();
        try {
            call.remove();
            done = true;
        } finally {
            long end = System.nanoTime(), expires = end + lifetime;
            note(caller, key, start, done ? end : -1, act, stored, done && lifetime > 0 && expires > 0 ? expires : -1);
        }
    }

    /** Gets a value, and returns it without its tag, or null. A get that throws has no line. */
    public <E extends Exception> byte[] get(String caller, byte[] key, Get<E> call) throws E {
        long start = System.nanoTime();
        byte[] found = call.find();
        long end = System.nanoTime();
        note(caller, key, start, end, found == null ? "miss" : "hit", found, found == null ? -1 : start);
        return found == null ? null : Arrays.copyOfRange(found, tagOf(found).length(), found.length);
    }

    /** Returns how many lines were not written. After the first, nothing more is written. */
    public synchronized long lost() { return lost; }

    /** Writes the last line: `# whole: ..`, or `# not whole: ..` if that can be written. What it wrote to stays open. */
    @Override
    public synchronized void close() {
        if (lost == 0) write("# whole: " + calls + " calls\n");
        if (lost > 0 && !closed) written("  cut\n# not whole: " + lost + " lines were not written\n");
        closed = true;
    }

    private void note(String caller, byte[] key, long start, long end, String act, byte[] value, long time) {
        if (!isRecorded(key)) return;
        try {
            byte[] name = (caller == null ? "" : caller).getBytes(StandardCharsets.UTF_8);
            write(word(Arrays.copyOf(name, Math.min(name.length, NAME_MOST))) + " " + start + " " + (end < 0 ? "-" : end) + " " + act
                + " " + word(key) + (value == null ? "" : " " + valueWord(value)) + (time < 0 ? "" : " " + time) + "\n");
        } catch (Exception | OutOfMemoryError none) {
            write(null);
        }
    }

    /** Writes a line whole, or counts it as lost; a line that could not be made is null. After close it does nothing. */
    private synchronized void write(String line) {
        if (!closed && lost == 0 && line != null && written(line)) calls++;
        else if (!closed) lost++;
    }
    private boolean written(String line) {
        try {
            out.write(latin(line));
            out.flush();
            return true;
        } catch (Exception | OutOfMemoryError broken) {
            return false;
        }
    }

    /** Returns what to store. If no tag can be made, recording stops, and that is the value. */
    private byte[] tagged(byte[] key, byte[] value) {
        if (!isRecorded(key)) return value;
        try {
            byte[] tag = latin("rec." + run + "." + puts.incrementAndGet() + "|"), stored = Arrays.copyOf(tag, tag.length + value.length);
            System.arraycopy(value, 0, stored, tag.length, value.length);
            return stored;
        } catch (Exception | OutOfMemoryError none) {
            write(null);
            return value;
        }
    }

    /** The FNV-1a hash of a key, 64 bits, with its upper half folded into the lower, decides whether the key is recorded. */
    private boolean isRecorded(byte[] key) {
        long hash = 0xcbf29ce484222325L;
        for (int i = 0; key != null && i < key.length; i++) hash = (hash ^ (key[i] & 255)) * 1099511628211L;
        return key != null && key.length >= 1 && key.length <= KEY_MOST && Long.remainderUnsigned(hash ^ hash >>> 32, oneOf) == 0;
    }
    private static String tagOf(byte[] value) {
        Matcher tag = TAG.matcher(new String(value, 0, Math.min(value.length, 40), StandardCharsets.ISO_8859_1));
        return tag.find() ? tag.group() : "";
    }
    private static byte[] latin(String text) { return text.getBytes(StandardCharsets.ISO_8859_1); }
    private static String word(byte[] data) {
        StringBuilder coded = new StringBuilder(data.length == 0 ? "-" : "");
        for (byte b : data) {
            boolean plain = b > 32 && b < 127 && b != '%' && b != '#' && !(b == '-' && data.length == 1);
            coded.append(plain ? String.valueOf((char) b) : String.format("%%%02X", b & 255));
        }
        return coded.toString();
    }
    private static String valueWord(byte[] value) throws Exception {
        String tag = tagOf(value);
        byte[] rest = Arrays.copyOfRange(value, tag.length(), value.length);
        if (rest.length <= VALUE_MOST) return word(value);
        byte[] hash = MessageDigest.getInstance("SHA-256").digest(rest);
        return tag + "sha256." + String.format("%032x", new BigInteger(1, Arrays.copyOf(hash, 16)));
    }
}
