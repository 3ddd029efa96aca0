"""A client of pylibmc, that is of libmemcached, whose calls of single keys are recorded. The page is ../README.md.

    client = RecordedPylibmc(recorder, pylibmc.Client(["127.0.0.1"]), "worker1")

A client of pylibmc serves one thread: make a recorded one over each, with one recorder. A client does not tell its namespace, so say it by
`prefix`, as bytes."""
import pylibmc
from recorded import DoesNotWait, NotRecorded, Recorded, memcached_lifetime

HASTY = ("_noreply", "buffer_requests")  # behaviors by which a write returns before its answer has come


class RecordedPylibmc(Recorded):
    """Records get, gets, set, add, replace, cas and delete. `recorded.py` says what becomes of the other calls."""

    ALONE = "append prepend incr decr"
    PASSED = "addresses behaviors disconnect_all get_stats hash"
    REFUSED = "add_multi set_multi get_multi delete_multi incr_multi flush_all clone"

    def __init__(self, recorder, client, caller, left_out=None, touches=False, prefix=b""):
        found = [it for it in HASTY if client.behaviors.get(it)]
        if found:
            raise DoesNotWait(f"make the client without the behavior {found[0]}: by it a write returns before its answer has come")
        super().__init__(recorder, client, caller, left_out, touches, prefix)

    def get(self, key, default=None):
        """Gets a value, without its tag."""
        with self.reading(key) as call:
            call.found = self.client.get(key)
        return default if call.value is None else call.value

    def gets(self, key):
        """Gets a value, without its tag, and the number for a cas."""
        with self.reading(key) as call:
            call.found, number = self.client.gets(key)
        return call.value, number

    def set(self, key, value, time=0, **more):
        """Puts a value."""
        return self.store("set", key, value, (), time, more)

    def add(self, key, value, time=0, **more):
        """Puts a value, if there is none. One that is not stored has no line."""
        return self.store("add", key, value, (), time, more)

    def replace(self, key, value, time=0, **more):
        """Puts a value, if there is one. One that is not stored has no line."""
        return self.store("replace", key, value, (), time, more)

    def cas(self, key, value, cas, time=0, **more):
        """Puts a value, if nobody put another one since its `gets`. One that is not stored has no line."""
        return self.store("cas", key, value, (cas,), time, more)

    def store(self, name, key, value, words, time, more):
        """Makes a call that puts a value."""
        with self.putting(key, value, memcached_lifetime(time)) as call:
            try:
                answer = getattr(self.client, name)(key, call.stored, *words, time=time, **more)
            except pylibmc.NotFound:  # what a cas says of a key that is not there
                call.undone = True
                raise
            call.failed = name == "set" and not answer
            call.undone = name != "set" and not answer
        return answer

    def delete(self, key):
        """Removes a key. False is memcached's answer that there was none."""
        with self.removing(key):
            return self.client.delete(key)

    def touch(self, key, time=0):
        """Gives a value another expiry. It has no line."""
        self.touch_of(key, "touch")
        return self.client.touch(key, time)
