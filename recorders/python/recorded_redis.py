"""A client of redis-py (redis.Redis) whose calls of single strings are recorded. The page is ../README.md.

    client = RecordedRedis(recorder, redis.Redis("127.0.0.1"), "worker1")"""
import datetime
from recorded import DoesNotWait, NotRecorded, Recorded

LATE = 10**9  # nanoseconds, more than Redis can be late with an expiry
UNITS = {"ex": 10**9, "px": 10**6}


def lifetime_of(ex=None, px=None):
    """Returns after how many nanoseconds Redis has surely let a value expire, 0 for never. Dates are taken for never."""
    given = [(it, UNITS[name]) for name, it in (("ex", ex), ("px", px)) if it is not None]
    if not given:
        return 0
    it, unit = given[0]
    length = it // datetime.timedelta(microseconds=1) * 1000 if isinstance(it, datetime.timedelta) else int(it) * unit
    return length + LATE if length > 0 else 0


class RecordedRedis(Recorded):
    """Records get, getex, getset, getdel, set, setex, psetex, setnx, delete and unlink. `recorded.py` says what becomes of the other calls."""

    ALONE = ("append decr decrby incr incrby incrbyfloat getbit getrange setbit setrange strlen substr bitcount bitpos dump restore lock pfadd "
             "hset hget hdel hgetall hincrby hmget hmset hsetnx hlen hkeys hvals hexists lpush rpush lpop rpop lrange llen lindex lset ltrim lrem linsert "
             "sadd srem smembers sismember scard spop zadd zrem zrange zscore zcard zincrby zrank xadd xlen xrange")
    PASSED = "close connection_pool dbsize echo exists expiretime get_encoder info object ping pttl time ttl type"
    REFUSED = ("pipeline transaction multi_exec execute_command eval evalsha script_load register_script fcall mget mset msetnx rename renamenx copy move "
               "bitop flushdb flushall swapdb")

    def __init__(self, recorder, client, caller, left_out=None, touches=False):
        if hasattr(client, "execute") or hasattr(client, "__aenter__"):
            raise DoesNotWait("a pipeline or an asyncio client returns before its answers have come: give a redis.Redis")
        super().__init__(recorder, client, caller, left_out, touches)
        self.encode = client.get_encoder().encode

    def name_of(self, key):
        """Returns a key as the client sends it."""
        return super().name_of(self.encode(key))

    def putting(self, key, value, lifetime=0):
        """Records a put of what the client would send, as bytes."""
        return super().putting(key, bytes(self.encode(value)), lifetime)

    def get(self, name):
        """Gets a value, without its tag."""
        with self.reading(name) as call:
            call.found = self.client.get(name)
        return call.value

    def getex(self, name, **expiry):
        """Gets a value, and may give it another expiry."""
        if any(expiry.values()):
            self.touch_of(name, "getex")
        with self.reading(name) as call:
            call.found = self.client.getex(name, **expiry)
        return call.value

    def getset(self, name, value):
        """Puts a value, and returns the one before."""
        with self.swapping(name, value) as (read, written):
            read.found = self.client.getset(name, written.stored)
        return read.value

    def getdel(self, name):
        """Removes a key, and returns the value that it had."""
        with self.reading(name) as read, self.removing(name):
            read.found = self.client.getdel(name)
        return read.value

    def set(self, name, value, ex=None, px=None, nx=False, xx=False, keepttl=False, get=False, **more):
        """Puts a value. One that `nx` or `xx` refuse has no line. With `get` it returns the value before."""
        lifetime, words = lifetime_of(ex, px), dict(ex=ex, px=px, nx=nx, xx=xx, keepttl=keepttl, get=get, **more)
        if keepttl:
            self.touch_of(name, "set with keepttl")
        if not get:
            with self.putting(name, value, lifetime) as call:
                answer = self.client.set(name, call.stored, **words)
                call.undone = not answer
            return answer
        if (nx or xx) and self.name_of(name):
            raise NotRecorded("set with get and nx or xx: the answer does not say whether the value was stored")
        with self.swapping(name, value, lifetime) as (read, written):
            read.found = self.client.set(name, written.stored, **words)
        return read.value

    def setex(self, name, time, value):
        """Puts a value with a lifetime in seconds."""
        with self.putting(name, value, lifetime_of(ex=time)) as call:
            return self.client.setex(name, time, call.stored)

    def psetex(self, name, time_ms, value):
        """Puts a value with a lifetime in milliseconds."""
        with self.putting(name, value, lifetime_of(px=time_ms)) as call:
            return self.client.psetex(name, time_ms, call.stored)

    def setnx(self, name, value):
        """Puts a value, if there is none. One that is not stored has no line."""
        with self.putting(name, value) as call:
            answer = self.client.setnx(name, call.stored)
            call.undone = not answer
        return answer

    def delete(self, *names):
        """Removes a key."""
        return self.remove("delete", names)

    def unlink(self, *names):
        """Removes a key, and lets Redis free its value later."""
        return self.remove("unlink", names)

    def remove(self, made, names):
        """Removes one key."""
        if len(names) != 1:
            raise NotRecorded(f"{made} of {len(names)} keys: make a call for each key")
        with self.removing(names[0]):
            return getattr(self.client, made)(names[0])

    def expire(self, name, *words, **named):
        """Gives a value another expiry. It has no line, as the next four."""
        return self.touch("expire", name, words, named)

    def pexpire(self, name, *words, **named):
        return self.touch("pexpire", name, words, named)

    def expireat(self, name, *words, **named):
        return self.touch("expireat", name, words, named)

    def pexpireat(self, name, *words, **named):
        return self.touch("pexpireat", name, words, named)

    def persist(self, name):
        return self.touch("persist", name, (), {})

    def touch(self, made, name, words, named):
        """Makes a call that changes an expiry alone."""
        self.touch_of(name, made)
        return getattr(self.client, made)(name, *words, **named)
