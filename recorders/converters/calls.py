"""A row's fields turned into a line of the judge's text."""
from .text import CALLERS_MOST, NAME_MOST, NUMBER_MOST, Bad, key_word, shown, value_word, word
from .times import number, stamp

FIELDS = ("caller", "start", "end", "took", "op", "key", "value", "result", "ttl")
LATE = 2 * 10**9  # by so much memcached's clock, which it reads once a second, can make an expiry late
ACTS = {"get": "get gets read fetch lookup", "put": "put set write store setex psetex", "remove": "remove delete del unlink invalidate"}
RESULTS = {"hit": "hit found", "miss": "miss missed not_found notfound", "stored": "stored ok done success deleted removed",
           "failed": "failed not_stored refused rejected", "unknown": "unknown error timeout timedout info"}
ACTS_TAKEN, RESULTS_TAKEN = ("get", "put", "remove", "skip", "leave"), tuple(RESULTS)
HINTS = {**dict.fromkeys("incr incrby incrbyfloat decr decrby increment decrement append prepend setrange cas add replace setnx getset getdel getex touch expire".split(),
                         "leave out its keys by --map {0}=leave, or see docs/JUDGING.md for what to write"),
         **dict.fromkeys("mget mset get_many set_many get_multi set_multi gets_many eval evalsha exec multi flush_all flushall flushdb".split(),
                         "write a row for each key; docs/JUDGING.md says how")}


def table_of(groups, added):
    """Returns names in lower case, as bytes, with what they stand for."""
    return {**{it.encode(): name.encode() for name, words in groups.items() for it in words.split()}, **added}


class Calls:
    """Makes lines of fields. `options` are those of the command line."""

    def __init__(self, options):
        self.unit, self.ttl_unit, self.over, self.hashes_keys = options.unit, options.ttl_unit, options.hash_over, options.hash_keys
        self.acts, self.results = table_of(ACTS, options.map), table_of(RESULTS, options.map_result)
        self.is_timed, self.has_took, self.has_result = options.ttl is not None, options.took is not None, options.result is not None
        self.is_csv = options.form == "csv"  # which has no null: an empty field may be no value
        self.stamp_name = "start" if options.start else "end"
        self.known, self.callers, self.left, self.without_line = {}, {}, set(), 0

    def act_of(self, op):
        """Returns what an operation is: get, put, remove, skip or leave."""
        act = self.known.get(op)
        if act is None:
            act = self.known[op] = self.new_act(op)
        return act

    def new_act(self, op):
        """Returns what an operation is that was not asked for before in this spelling."""
        act = self.acts.get(op.strip().lower())
        if act is None:
            name = op.strip().lower().decode("utf-8", "replace")
            hint = HINTS.get(name, "say what it is by --map {0}=get, put, remove, skip or leave").format(name or "NAME")
            raise Bad(f"the operation {shown(op)} is unknown: {hint}", field="op")
        return act

    def result_of(self, act, result, value):
        """Returns how a call went: hit, miss, stored, failed or unknown."""
        if not self.has_result:
            return b"stored" if act != b"get" else b"miss" if value is None else b"hit"
        went = self.results.get(result or b"") or self.results.get((result or b"").strip().lower())
        if went is None:
            raise Bad(f"the result {shown(result or b'')} is unknown: say what it is by --map-result NAME=hit, miss, stored, failed or unknown", field="result")
        if act == b"get" and went == b"stored":
            if self.is_csv and not value:
                raise Bad(f"the result {shown(result)} does not say whether this get hit an empty value or missed: map a word to hit and one to miss", field="result")
            return b"miss" if value is None else b"hit"
        if act == b"get":
            return went
        if act == b"put" and went in (b"hit", b"miss"):
            raise Bad(f"a put can't have the result {shown(result)}: is the operation right?", field="result")
        return b"stored" if went in (b"hit", b"miss") else went

    def caller_of(self, name):
        """Returns the word of a caller."""
        found = self.callers.get(name)
        if found is None:
            if len(self.callers) == CALLERS_MOST:
                raise Bad(f"a history has at most {CALLERS_MOST} callers: leave out --caller", field="caller", ends=True)
            found = self.callers[name] = word((name or b"caller")[:NAME_MOST])
        return found

    def times_of(self, start, end, took):
        """Returns START and END, or None for the END of an open call. END is the last nanosecond that its stamp can mean."""
        if self.has_took:
            return self.times_by_took(start, end, took)
        begun, _ = stamp(start, self.unit, "start")
        if not end or end == b"-":
            return begun, None
        ended, step = stamp(end, self.unit, "end")
        ended += step - 1
        if ended < begun:
            raise Bad(f"the end {shown(end)} is before the start {shown(start)}: correct the line; are the columns swapped, or do both have one clock?", field="end")
        return begun, ended

    def times_by_took(self, start, end, took):
        """Returns the times of a call of which one stamp is given and how long it took. What both left out makes it longer."""
        at, step = stamp(start or end, self.unit, "start" if start else "end")
        if not took or took == b"-":
            return at, None
        length, more = number(took, "ms" if self.unit == "rfc3339" else self.unit, "took")
        if at + length + step + more > NUMBER_MOST:
            raise Bad(f"the call would end above 2^63 - 1 nanoseconds: {shown(took)}; is its unit right?", field="took")
        return (at, at + length + step + more) if start else (max(0, at - length - more), at + step - 1)

    def line(self, fields):
        """Returns the line of a row, or nothing if it has none."""
        caller, start, end, took, op, key, value, result, ttl = fields
        act = self.act_of(op)
        if act == b"skip" or act == b"leave" or key in self.left:
            return b""
        went = self.result_of(act, result, value)
        if value is None and act != b"remove" and went in (b"hit", b"stored") and not self.is_csv:
            raise Bad("a put or a hit has a value, and this one has none: is --value right?", field="value")
        name, (begun, ended) = key_word(key, self.hashes_keys), self.times_of(start, end, took)
        is_open = ended is None or went == b"unknown"
        if went == b"failed" or is_open and act == b"get":
            self.without_line += 1
            return b""
        head = b"%b %d %b" % (self.caller_of(caller), begun, b"-" if is_open else b"%d" % ended)
        if act == b"remove":
            return b"%b remove %b\n" % (head, name)
        if went == b"miss":
            return b"%b miss %b\n" % (head, name)
        return b"%b %b %b %b%b\n" % (head, b"hit" if act == b"get" else b"put", name, value_word(value or b"", self.over),
                                     self.time_of(act, begun, None if is_open else ended, ttl))

    def time_of(self, act, begun, ended, ttl):
        """Returns the moment of a hit or the expiry of a put, if lifetimes are given."""
        if not self.is_timed:
            return b""
        if act == b"get":
            return b" %d" % begun
        lifetime = number(ttl, self.ttl_unit, "ttl")[0] if ttl else 0
        is_never = not lifetime or ended is None or ended + lifetime + LATE > NUMBER_MOST
        return b"" if is_never else b" %d" % (ended + lifetime + LATE)
