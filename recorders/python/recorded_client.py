"""A client of pymemcache (Client, PooledClient or HashClient) whose calls of single keys are recorded. The page is ../README.md.

    client = RecordedClient(recorder, pymemcache.Client("127.0.0.1:11211", default_noreply=False), "worker1")"""
from recorded import DoesNotWait, NotRecorded, Recorded, memcached_lifetime


class RecordedClient(Recorded):
    """Records get, gets, gat, gats, set, add, replace, cas and delete. `recorded.py` says what becomes of the other calls."""

    ALONE = "append prepend incr decr"
    PASSED = "check_key close disconnect_all quit stats version"
    REFUSED = "set_many set_multi get_many get_multi gets_many gets_multi delete_many delete_multi flush_all raw_command"

    def __init__(self, recorder, client, caller, left_out=None, touches=False):
        shared = getattr(client, "default_kwargs", {})  # of a HashClient
        if getattr(client, "default_noreply", shared.get("default_noreply", False)):
            raise DoesNotWait("make the client with default_noreply=False: pymemcache's default does not wait for answers")
        prefix = getattr(client, "key_prefix", shared.get("key_prefix", b""))
        super().__init__(recorder, client, caller, left_out, touches, prefix.encode() if isinstance(prefix, str) else prefix)
        # a HashClient answers as for a refusal if it takes a server for dead
        self.hides_errors = bool(shared) or hasattr(client, "hasher") or getattr(client, "ignore_exc", False)

    def get(self, key, default=None):
        """Gets a value, without its tag."""
        with self.reading(key) as call:
            call.found = self.client.get(key)
        return default if call.value is None else call.value

    def gets(self, key, default=None, cas_default=None):
        """Gets a value, without its tag, and the number for a cas."""
        return self.read_with_number(key, default, cas_default, self.client.gets, ())

    def gat(self, key, expire=0, default=None):
        """Gets a value, and gives it another expiry."""
        self.touch_of(key, "gat")
        with self.reading(key) as call:
            call.found = self.client.gat(key, expire)
        return default if call.value is None else call.value

    def gats(self, key, expire=0, default=None, cas_default=None):
        """Gets a value and the number for a cas, and gives it another expiry."""
        self.touch_of(key, "gats")
        return self.read_with_number(key, default, cas_default, self.client.gats, (expire,))

    def read_with_number(self, key, default, cas_default, made, words):
        """Makes a gets or a gats."""
        with self.reading(key) as call:
            call.found, number = made(key, *words) or (None, None)
        return (default, cas_default) if call.value is None else (call.value, number)

    def set(self, key, value, expire=0, noreply=False, **more):
        """Puts a value. One that is told not to wait is recorded with the END `-`."""
        return self.store("set", key, value, (), expire, noreply, more)

    def add(self, key, value, expire=0, noreply=False, **more):
        """Puts a value, if there is none. One that is not stored has no line."""
        return self.store("add", key, value, (), expire, noreply, more)

    def replace(self, key, value, expire=0, noreply=False, **more):
        """Puts a value, if there is one. One that is not stored has no line."""
        return self.store("replace", key, value, (), expire, noreply, more)

    def cas(self, key, value, cas, expire=0, noreply=False, **more):
        """Puts a value, if nobody put another one since its `gets`. One that is not stored has no line."""
        return self.store("cas", key, value, (cas,), expire, noreply, more)

    def store(self, name, key, value, words, expire, noreply, more):
        """Makes a call that puts a value."""
        with self.putting(key, value, memcached_lifetime(expire)) as call:
            answer = getattr(self.client, name)(key, call.stored, *words, expire=expire, noreply=noreply, **more)
            call.failed = bool(noreply) or answer is not True and (self.hides_errors or name == "set")
            call.undone = not call.failed and answer is not True
        return answer

    def delete(self, key, noreply=False):
        """Removes a key. False is memcached's answer that there was none, unless the client hides errors."""
        with self.removing(key) as call:
            answer = self.client.delete(key, noreply=noreply)
            call.failed = bool(noreply) or answer is False and self.hides_errors
        return answer

    def touch(self, key, expire=0, noreply=False):
        """Gives a value another expiry. It has no line."""
        self.touch_of(key, "touch")
        return self.client.touch(key, expire=expire, noreply=noreply)
