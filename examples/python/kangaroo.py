"""A cache of the C library, by ctypes. KANGAROO_LIBRARY may name the shared library's file."""
import ctypes
import os

OK, ABSENT, EXPIRED, UNREADABLE, DAMAGED, SHORT_BUFFER, STALE = range(7)
TOO_LARGE, NO_MEMORY = -3, -4
VALUE_MAX, NEVER = 2048, 2**64 - 1

Bytes, Size, Number, Word = ctypes.c_char_p, ctypes.c_size_t, ctypes.c_uint64, ctypes.c_uint32


class Options(ctypes.Structure):
    """kangaroo_options."""

    _fields_ = [("size", Word), ("flags", Word), ("flash_bytes", Number), ("memory_bytes", Number)] + [
        (name, Word)
        for name in "object_bytes threads upkeep_threads admit threshold lease_slots shards lanes sets "
        "memory_objects segments segment_pages log_objects bring_back".split()
    ]


class Hit(ctypes.Structure):
    """kangaroo_hit."""

    _fields_ = [("length", Size), ("expires", Number), ("tier", Word), ("reserved", Word * 3)]


class Lease(ctypes.Structure):
    """kangaroo_lease."""

    _fields_ = [("opaque", Number * 4)]


def load(name):
    """Loads the library, and says what its functions take."""
    library, cache, key, buffer = ctypes.CDLL(name), ctypes.c_void_p, (Bytes, Size), (ctypes.c_void_p, Size)
    takes = {
        "options_init": (ctypes.POINTER(Options), Size),
        "open": (ctypes.POINTER(Options), Bytes, ctypes.POINTER(cache), ctypes.POINTER(ctypes.c_int)),
        "close": (cache,),
        "get": (cache, *key, Number, *buffer, ctypes.POINTER(Hit)),
        "get_or_lease": (cache, *key, Number, *buffer, ctypes.POINTER(Hit), ctypes.POINTER(Lease)),
        "put_or_remove": (cache, *key, Bytes, Size, Number),
        "fill": (cache, ctypes.POINTER(Lease), *key, Bytes, Size, Number),
        "remove": (cache, *key),
        "strerror": (ctypes.c_int,),
    }
    for function, types in takes.items():
        getattr(library, f"kangaroo_{function}").argtypes = types
    library.kangaroo_strerror.restype = Bytes
    return library


LIBRARY = load(os.environ.get("KANGAROO_LIBRARY", "libkangaroo.so.1"))


class Refused(Exception):
    """A call was refused; `status` is its number, and `cause` the system's errno or 0."""

    def __init__(self, status, cause=0):
        super().__init__(os.strerror(cause) if cause else LIBRARY.kangaroo_strerror(status).decode())
        self.status, self.cause = status, cause


def tested(status):
    """Raises a refusal; gives any other status back."""
    if status < 0:
        raise Refused(status)
    return status


class Cache:
    """An open cache over files in a folder. Keys and values are bytes. Use it in a with statement, or close it."""

    def __init__(self, folder, **options):
        """Options are the fields of kangaroo_options, for instance flash_bytes=2**30."""
        wanted, self.handle, cause = Options(), ctypes.c_void_p(), ctypes.c_int()
        LIBRARY.kangaroo_options_init(wanted, ctypes.sizeof(wanted))
        unknown = sorted(set(options) - {name for name, _ in Options._fields_})
        if unknown:
            raise TypeError(f"kangaroo_options has no field {', '.join(unknown)}")
        for name, number in options.items():
            setattr(wanted, name, number)
        status = LIBRARY.kangaroo_open(wanted, os.fsencode(folder), self.handle, cause)
        if status != OK:
            raise Refused(status, cause.value)

    def __enter__(self):
        return self

    def __exit__(self, *_):
        self.close()

    def close(self):
        handle, self.handle = self.handle, None
        tested(LIBRARY.kangaroo_close(handle))

    def get(self, key, moment=0):
        """The key's value, or None."""
        buffer, hit = ctypes.create_string_buffer(VALUE_MAX), Hit()
        status = tested(LIBRARY.kangaroo_get(self.handle, key, len(key), moment, buffer, VALUE_MAX, hit))
        return buffer.raw[: hit.length] if status == OK else None

    def put(self, key, value, expires=NEVER):
        """Puts a value, and returns True; where its size or want of memory refuses it, the key has no value any more."""
        status = LIBRARY.kangaroo_put_or_remove(self.handle, key, len(key), value, len(value), expires)
        return status not in (TOO_LARGE, NO_MEMORY) and tested(status) == OK

    def remove(self, key):
        """Removes a key. Call it behind each write to the database."""
        tested(LIBRARY.kangaroo_remove(self.handle, key, len(key)))

    def get_or_fill(self, key, read, moment=0, expires=NEVER):
        """The key's value, or what `read(key)` gives, which is then kept by a lease unless it is None."""
        buffer, hit, lease = ctypes.create_string_buffer(VALUE_MAX), Hit(), Lease()
        into = (buffer, VALUE_MAX, hit, lease)
        if tested(LIBRARY.kangaroo_get_or_lease(self.handle, key, len(key), moment, *into)) == OK:
            return buffer.raw[: hit.length]
        value = read(key)  # behind the miss; a fill that is stale or refused is just not kept
        if value is not None:
            LIBRARY.kangaroo_fill(self.handle, lease, key, len(key), value, len(value), expires)
        return value
