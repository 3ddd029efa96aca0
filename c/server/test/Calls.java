// Calls HOST PORT: spymemcached makes the calls of its text protocol. A line "ok NAME" or "not ok NAME" for each; suites runs it.
import java.net.InetSocketAddress;
import java.util.Arrays;
import java.util.Map;
import java.util.concurrent.TimeUnit;
import net.spy.memcached.CASResponse;
import net.spy.memcached.CASValue;
import net.spy.memcached.MemcachedClient;

public class Calls {
    static void tell(boolean isSo, String name) {
        System.out.println((isSo ? "ok " : "not ok ") + name);
    }

    static String text(int length) {
        char[] all = new char[length];
        for (int i = 0; i < length; i++) all[i] = (char) ('!' + (i * 7919 % 90));
        return new String(all);
    }

    static void stores(MemcachedClient c) throws Exception {
        tell(c.set("a", 0, "1").get() && "1".equals(c.get("a")), "set and get");
        tell(c.get("absent") == null, "get of an absent key");
        tell(!c.add("a", 0, "2").get() && c.add("b", 0, "2").get(), "add");
        tell(c.replace("b", 0, "3").get() && !c.replace("absent", 0, "3").get(), "replace");
        tell(c.append(0, "b", "4").get() && c.prepend(0, "b", "2").get() && "234".equals(c.get("b")), "append, prepend");
        tell(c.set("object", 0, new java.util.ArrayList<>(Arrays.asList(1, "two"))).get() && c.get("object") != null, "an object");
        tell(c.set("1900", 0, text(1900)).get() && text(1900).equals(c.get("1900")), "a text of 1,900 bytes");
        try {
            tell(c.set("3000", 0, text(3000)).get() && text(3000).equals(c.get("3000")), "a text of 3,000 bytes");
        } catch (Exception refused) {
            tell(false, "a text of 3,000 bytes");
        }
    }

    static void changes(MemcachedClient c) throws Exception {
        CASValue<Object> got = c.gets("a");
        tell(c.cas("a", got.getCas(), "5") == CASResponse.OK && c.cas("a", got.getCas(), "6") == CASResponse.EXISTS, "gets, cas");
        tell(c.cas("absent", 5, "6") == CASResponse.NOT_FOUND, "cas of an absent key");
        c.set("n", 0, "10").get();
        tell(c.incr("n", 5) == 15 && c.decr("n", 3) == 12 && c.incr("absent", 1) == -1, "incr, decr");
        tell(c.incr("made", 1, 7) == 7 && c.incr("made", 1, 7) == 8, "incr with a first number");
        tell(c.touch("n", 100).get() && !c.touch("absent", 100).get(), "touch");
        tell(c.delete("n").get() && !c.delete("n").get(), "delete");
        for (int i = 0; i < 300; i++) c.set("many" + i, 0, "value " + i);
        String[] keys = new String[300];
        for (int i = 0; i < 300; i++) keys[i] = "many" + i;
        Map<String, Object> all = c.getBulk(keys);
        tell(all.size() == 300 && "value 299".equals(all.get("many299")), "300 sets in flight, getBulk");
    }

    static void expiries(MemcachedClient c) throws Exception {
        for (int expiry : new int[] {-1, Integer.MAX_VALUE, Integer.MIN_VALUE}) {
            c.set("mine", expiry, "x\r\nflush_all").get();
            tell(c.set("own", 0, "my own").get() && "my own".equals(c.get("own")), "what follows a set with expiry " + expiry);
        }
        int later = (int) (System.currentTimeMillis() / 1000) + 1000;
        tell(c.set("later", later, "x").get() && "x".equals(c.get("later")), "a moment that is to come");
        c.set("soon", 1, "x").get();
        Thread.sleep(3000);
        tell(c.get("soon") == null, "an expiry of a second");
    }

    public static void main(String[] words) throws Exception {
        MemcachedClient c = new MemcachedClient(new InetSocketAddress(words[0], Integer.parseInt(words[1])));
        stores(c);
        changes(c);
        expiries(c);
        tell(!c.getVersions().isEmpty() && !c.getStats().isEmpty(), "getVersions, getStats");
        tell(c.flush().get() && c.get("a") == null, "flush");
        c.shutdown(1, TimeUnit.SECONDS);
    }
}
