"""What the recorded clients share: recorded_client.py (pymemcache), recorded_redis.py and recorded_pylibmc.py. The page is ../README.md."""
import contextlib

MEMCACHED_LATE = 2          # seconds by which memcached's clock, which it reads once a second, can make an expiry late
MOST_RELATIVE = 30 * 86400  # above this memcached takes an expiry for a date


class DoesNotWait(Exception):
    """The client's writes return before the answer has come, so each END would be too early and a right cache be accused."""


class NotRecorded(Exception):
    """A call whose lines would be wrong, or that no line describes. Nothing was sent."""


class Recorded:
    """A client whose calls of single keys are recorded. What it can't record it refuses by name, or makes for keys that are left out.

    `left_out` says of a key, as bytes, whether it is left out: it gets neither lines nor tags. Say the same in all processes.
    With `touches` no put has an expiry, and calls that change the expiry alone are made."""

    ALONE, PASSED, REFUSED = "", "", ""  # calls of one key that no line describes; those that read and write no value; those of many keys

    def __init__(self, recorder, client, caller, left_out=None, touches=False, prefix=b""):
        self.recorder, self.client, self.caller, self.touches, self.prefix = recorder, client, caller, touches, prefix
        self.left_out = left_out or (lambda key: False)

    def name_of(self, key):
        """Returns the key as the server knows it, or nothing, which is never recorded, if it is left out."""
        name = self.prefix + (key.encode("utf-8", "replace") if isinstance(key, str) else bytes(key))
        return b"" if self.left_out(name) else name

    def reading(self, key):
        """Records a get: let the block set `found`, to None for a miss."""
        return self.recorder.get(self.caller, self.name_of(key))

    def putting(self, key, value, lifetime=0):
        """Records a put of `stored`. A lifetime is in nanoseconds."""
        return self.recorder.put(self.caller, self.name_of(key), value, 0 if self.touches else lifetime)

    def removing(self, key):
        """Records a removal."""
        return self.recorder.remove(self.caller, self.name_of(key))

    @contextlib.contextmanager
    def swapping(self, key, value, lifetime=0):
        """Records a call that reads a value and puts another. Both have the START and the END of the whole."""
        with self.reading(key) as read, self.putting(key, value, lifetime) as written:
            yield read, written

    def touch_of(self, key, name):
        """Refuses a call that changes an expiry, unless no put has one, or its key is left out."""
        if not self.touches and self.name_of(key):
            raise NotRecorded(f"{name}: a put of this key has an EXPIRES that would be wrong now; make the recorded client with touches=True")

    def __getattr__(self, name):
        """Gives the client's other calls, as far as they can be made."""
        if name.startswith("_") or name in ("client", "left_out"):
            raise AttributeError(name)
        found = getattr(self.client, name)
        if name in self.PASSED.split():
            return found
        if name not in self.ALONE.split():
            why = "it is of several keys, or of no known one" if name in self.REFUSED.split() else "it is not among the calls that are recorded"
            raise NotRecorded(f"{name}: {why}; make a call for each key, or make this one with a client of its own, on keys that no recorded client uses")
        return self.alone(name, found)

    def alone(self, name, made):
        """Returns what makes a call of one key, if the key is left out."""
        def call(key, *words, **named):
            if self.name_of(key):
                raise NotRecorded(f"{name}: no line describes it; name its keys by left_out when the recorded client is made")
            return made(key, *words, **named)
        return call


def memcached_lifetime(expire):
    """Returns after how many nanoseconds memcached has surely let a value expire, 0 for never or a date."""
    return (expire + MEMCACHED_LATE) * 10**9 if 0 < expire <= MOST_RELATIVE else 0
