"""Random commands of memcached's text protocol, most of them right, many with one fault or two: what beside-memcached gives to two servers.
A number may be any that is hard to read, a line may have a word too many or too few, and a block may look like commands."""
import re
import time

KEYS = [b"a", b"b", b"cc", b"k" * 250, b"key:7", b"n"]
ODD_KEYS = [b"w" * 251, b"w" * 300, b"a\tb", b"\x80\xff", b"a\x00b", b"noreply", b"0"]
DATA = [b"", b"1", b"9", b"10", b"99", b"hello", b"x" * 100, b"18446744073709551615", b"12 ", b"\r\n", b"y" * 30, b"5", b"z" * 1000, b"007",
        b"0" * 20 + b"1"]
# data that an incr reads as a number or not, by memcached's own rule
ODD_DATA = [b"+9", b"-0", b"-1", b" 9", b"9 ab", b"9abc", b" ", b"18446744073709551616", b"9\t", b"0x10", b"-18446744073709551615", b"9" * 25]
# data near the greatest length of a value here, and longer
LONG_DATA = [b"m" * 2030, b"m" * 2031, b"m" * 2035, b"m" * 2039, b"m" * 2040, b"m" * 2044, b"m" * 3000, b"m" * 5000]
# data that does something if a server runs it as commands, and shows it
RUN_DATA = [b"flush_all", b"delete b", b"set b 0 0 1\r\n7", b"get a", b"incr n 1", b"touch cc 0", b"ms b 1\r\n8", b"mn"]
STORING = [b"set", b"set", b"set", b"add", b"replace", b"append", b"prepend"]
# each kind of number that servers may read in different ways, with some of it
ODD_NUMBERS = {
    "2^31": [b"2147483648", b"2147483649"],
    "2^31-1": [b"2147483647"],
    "2^32-1": [b"4294967295"],
    "2^32": [b"4294967296", b"4294967297"],
    "2^32+100": [b"4294967396"],
    "2^63-1": [b"9223372036854775807"],
    "2^63": [b"9223372036854775808", b"9223372036854775809"],
    "2^64-1": [b"18446744073709551615"],
    "2^64": [b"18446744073709551616", b"18446744073709551617"],
    "more than 20 digits": [b"9" * 21, b"1" + b"0" * 30, b"9" * 300],
    "-1": [b"-1", b"-5"],
    "-0": [b"-0", b"-00"],
    "-2^31": [b"-2147483648", b"-2147483649"],
    "-2^32+100": [b"-4294967196"],
    "-2^63": [b"-9223372036854775808"],
    "-2^63-1": [b"-9223372036854775809"],
    "-2^64+1": [b"-18446744073709551615"],
    "-2^64": [b"-18446744073709551616"],
    "+N": [b"+0", b"+5", b"+100"],
    "a sign alone": [b"+", b"-", b"--5", b"+-5", b"-+5", b"- 5"],
    "leading zeros": [b"000", b"0000000000000000000000000100"],
    "hex": [b"0x10", b"ff"],
    "letters": [b"x", b"noreply", b"S5", b"\x80"],
    "digits and more": [b"5x", b"100.0", b"1e3", b"5-", b"5,"],
    "a tab": [b"\t5", b"5\t", b"5\tx", b"\t", b"5\x0b", b"5\x0cx", b"5\r"],
    "NUL": [b"\x00", b"5\x00", b"5\x00x"],
    "30 days": [b"2592000", b"2592001"],
    "small": [b"0", b"7", b"100", b"1000", b"65535"],
}
# numbers that belong to some fields only
NOW = int(time.time())
MOMENTS = {"a moment": [b"%d" % (NOW + 5000), b"%d" % (NOW - 5000)]}
KNOWN_FLAGS = b"NTRlOPLkstcfvhuqFCMJDIb"
TAKEN_FLAGS = b"NTROkstcfvqFCMJDI"  # those that are not refused by name here, and that change or tell something
FIELD_OF = {**{chr(it): "a number of N, T, R" for it in b"NTR"}, **{chr(it): "a number of C, J, D" for it in b"CJD"}, "F": "a number of F"}
SIMPLE = {"N": [b"30", b"0", b"100"], "T": [b"0", b"100", b"1000", b"-1"], "R": [b"30", b"50", b"500"], "F": [b"0", b"5", b"4294967295"],
          "J": [b"0", b"7", b"13"], "D": [b"0", b"1", b"3", b"100"]}
MODES = {"ms": b"EAPRS", "ma": b"ID+-"}
OTHER_LINES = [b"foo", b"", b" ", b"g", b"GET a", b"gx", b"geta a", b"bget a", b"m", b"mx a", b"mn a b", b"version", b"version 1", b"stats foo",
               b"stats detail", b"stats detail on", b"stats detail off", b"stats detail x", b"stats cachedump", b"stats cachedump 60 0",
               b"stats cachedump x 0", b"stats cachedump 99 0", b"stats reset", b"stats sizes", b"me", b"me a", b"me zz", b"slabs", b"lru",
               b"lru_crawler", b"slabs automove 0", b"slabs reassign 1 2", b"lru mode flat", b"lru tune 10 20 1.0 1.0", b"lru_crawler tocrawl 5",
               b"lru_crawler sleep 5", b"cache_memlimit", b"cache_memlimit x", b"cache_memlimit 64", b"watch foo", b"shutdown", b"extstore",
               b"verbosity", b"gx HTTP/1.1",
               b"get a\x00b", b"get \x00", b"delete", b"incr", b"touch", b"flush_all 1 2 3"]
CLOSING_LINES = [b"set", b"ms", b"set a 0 0", b"cas a 0 0 1", b"append", b"\x80get a", b"quit", b"quit now", b"foo HTTP/1.1", b"GET / HTTP/1.0",
                 b"x" * 3000, b"set " + b"x" * 3000, b"get " + b"x " * 3000]


class Command:
    """A command: what is sent, its family, the faults that were put into it, and the key that shows what it did."""

    __slots__ = ("sent", "family", "faults", "key", "keys", "resets", "is_quiet", "is_last")

    def __init__(self, family, sent, key=None, faults=()):
        self.sent, self.family, self.key = sent, family, key
        self.faults = tuple(faults)
        self.resets = self.is_quiet = self.is_last = False
        self.keys = set()

    def touched(self):
        """The keys that it may change, also by what is run of its data."""
        if self.family in ("get", "line", "verbosity"):
            return set()
        if b"flush_all" in self.sent:
            return set(KEYS + ODD_KEYS)
        return set(re.split(rb"[ \r\n]", self.sent) + re.split(rb"[\s\x00]", self.sent)) & set(KEYS + ODD_KEYS)


def memcached_reads(word):
    """What memcached's strtol makes of a word, cut to 32 bits, or None."""
    text = word.split(b"\x00")[0].lstrip(b"\t\v\f\r")
    digits = text[1:] if text[:1] in (b"+", b"-") else text
    count = len(digits) - len(digits.lstrip(b"0123456789"))
    if not count or digits[count:count + 1] not in (b"", b"\t", b"\v", b"\f", b"\r", b" "):
        return None
    number = int(digits[:count]) * (-1 if text[:1] == b"-" else 1)
    if not -2 ** 63 <= number < 2 ** 63:
        return None
    return (number + 2 ** 31) % 2 ** 32 - 2 ** 31


class Maker:
    """Makes random commands."""

    def __init__(self, draw):
        self.draw = draw

    def choose(self, many):
        """One of many."""
        return many[int(self.draw.random() * len(many))]

    def is_so(self, share):
        """True for such a share of the calls."""
        return self.draw.random() < share

    def number(self, more=None):
        """A number of an odd kind, and the kind's name."""
        kinds = ODD_NUMBERS if not more or self.is_so(0.9) else more
        kind = self.choose(list(kinds))
        return self.choose(kinds[kind]), kind

    def data(self, has_faults):
        """The data of a storing command."""
        if has_faults and self.is_so(0.5):
            return self.choose(RUN_DATA)
        if self.is_so(0.02):
            return self.choose(LONG_DATA)
        return self.choose(ODD_DATA if self.is_so(0.2) else DATA)

    def fault_count(self):
        """How many faults a command gets."""
        it = self.draw.random()
        return 0 if it < 0.55 else 1 if it < 0.88 else 2

    def wrong_key(self):
        """A key that is too long, or has odd bytes."""
        return self.choose(ODD_KEYS)

    def cas_number(self, key):
        """A number of an item: the key's own, as a mark that is replaced as it is sent, another one, or nobody's."""
        if self.is_so(0.2):
            return self.choose([b"0", b"4611686018427387904"])
        return self.choose([b"\x01%s+0\x01", b"\x01%s+0\x01", b"\x01%s+99999\x01", b"\x01%s-1\x01"]) % key

    def length(self, data):
        """A length that is odd, and its kind."""
        count = len(data)
        near = {"exact +N": b"+%d" % count, "exact 00N": b"00%d" % count, "exact with a tab": b"%d\t" % count,
                "exact+2^32": b"%d" % (count + 2 ** 32),
                "exact-2^32": b"%d" % (count - 2 ** 32), "one more": b"%d" % (count + 1), "one less": b"%d" % max(0, count - 1)}
        if self.is_so(0.5):
            kind = self.choose(list(near))
            return near[kind], "length " + kind
        word, kind = self.number()
        return word, kind

    def ended(self, words, faults):
        """The line of some words, with its end; now and then with odd spaces or an odd end."""
        joint, end = b" ", b"\r\n"
        if self.is_so(0.03):
            joint = self.choose([b"  ", b"   "])
        if self.is_so(0.02):
            end = self.choose([b"\n", b" \r\n", b"  \r\n", b"\r\r\n"])
            if end == b"\r\r\n":
                faults.append(("end", "two CR"))
        return (b" " if self.is_so(0.01) else b"") + joint.join(words) + end

    def spoil_words(self, words, faults):
        """Takes a word off, puts one too many, or a noreply in an odd place."""
        what = self.choose(["a word less", "a word more", "noreply for the last", "noreply and more", "two words more"])
        if what == "a word less" and len(words) > 1:
            words.pop()
        elif what == "a word more":
            words.append(self.choose([b"x", b"0", b"5"]))
        elif what == "two words more":
            words += [b"x", b"y"]
        elif what == "noreply for the last":
            words[-1] = b"noreply"
        else:
            words += [b"noreply", self.choose([b"x", b"noreply", b"0"])]
        faults.append(("words", what))

    # ------------------------------------------------------------------------------------------------- the classic commands

    def storing(self):
        """set, add, replace, append, prepend or cas."""
        verb, count = self.choose(STORING), self.fault_count()
        if self.is_so(0.2):
            verb = b"cas"
        key, data, faults = self.choose(KEYS), self.data(count), []
        words = [verb, key, self.choose([b"0", b"0", b"7", b"4294967295"]), self.choose([b"0", b"0", b"100", b"1000"]), b"%d" % len(data)]
        if verb == b"cas":
            words.append(self.cas_number(key))
        block = data + b"\r\n"
        for _ in range(count):
            block = self.spoil_storing(words, data, block, faults)
        is_quiet = self.is_so(0.25)
        if is_quiet:
            words.append(b"noreply")
        it = Command("store", self.ended(words, faults) + block, key, faults)
        it.is_quiet, it.resets = is_quiet, verb == b"set" and not count
        it.is_last = self.ends_round(words[4] if len(words) > 4 else b"", block) or ("end", "two CR") in faults
        return it

    def ends_round(self, word, block):
        """Whether a server may wait for more bytes than come, by the word for the length, or close since it cannot read that word."""
        if not re.fullmatch(rb"\+?\d+", word) or int(word[:400]) >= 2 ** 31:
            return True
        return max(memcached_reads(word) or 0, int(word)) + 2 > len(block) + 3

    def spoil_storing(self, words, data, block, faults):
        """Puts a fault into a storing command; returns its block."""
        field = self.choose(["flags", "exptime", "exptime", "length", "length", "key", "words", "block"] + (["unique"] if len(words) > 5 else []))
        at = {"flags": 2, "exptime": 3, "length": 4, "unique": 5}.get(field)
        if field == "length" and len(words) > 4:
            words[4], kind = self.length(data)
            faults.append(("length", kind))
        elif at and len(words) > at:
            words[at], kind = self.number(MOMENTS if field == "exptime" else None)
            faults.append((field, kind))
        elif field == "key":
            words[1] = self.wrong_key()
            faults.append(("key", "wrong"))
        elif field == "words":
            self.spoil_words(words, faults)
        else:
            kind = self.choose(["no CR", "longer", "shorter", "another end"])
            faults.append(("block", kind))
            return {"no CR": data + b"\n\n", "longer": data + b"more\r\n", "shorter": data[1:] + b"\r\n\r\n",
                    "another end": data + b"\rX\r\n"}[kind]
        return block

    def getting(self):
        """get, gets, gat or gats."""
        verb = self.choose([b"get", b"gets", b"get", b"gets", b"gat", b"gats"])
        faults, keys = [], [self.choose(KEYS) for _ in range(self.choose([1, 1, 2, 3, 4, 30]))]
        words = [verb, *keys]
        if verb.startswith(b"gat"):
            words.insert(1, self.choose([b"0", b"100", b"1000", b"-1"]))
        for _ in range(self.fault_count()):
            if len(words) < 2:
                break
            if verb.startswith(b"gat") and self.is_so(0.6):
                words[1], kind = self.number(MOMENTS)
                faults.append(("exptime", kind))
            elif self.is_so(0.5):
                words[self.choose(range(1, len(words)))] = self.wrong_key()
                faults.append(("key", "wrong"))
            else:
                words = words[:self.choose([1, 2])]
                faults.append(("words", "a word less"))
        it = Command("gat" if verb.startswith(b"gat") else "get", self.ended(words, faults), None, faults)
        it.keys = set(words[1:])
        it.key = keys[0] if it.family == "gat" else None
        return it

    def line_of(self, family, words, at, field, more=None):
        """A command of one line whose word at a place is a number."""
        faults = []
        key = words[1] if len(words) > 1 and words[1] in KEYS else None
        for _ in range(self.fault_count()):
            fault = self.choose([field, field, field, "key", "words"]) if field else self.choose(["key", "words"])
            if fault == field and len(words) > at:
                words[at], kind = self.number(more)
                faults.append((field, kind))
            elif fault == "key" and key and len(words) > 1:
                words[1] = self.wrong_key()
                faults.append(("key", "wrong"))
            else:
                self.spoil_words(words, faults)
        is_quiet = self.is_so(0.25)
        if is_quiet:
            words.append(b"noreply")
        it = Command(family, self.ended(words, faults), key, faults)
        it.is_quiet = is_quiet
        return it

    def touching(self):
        """touch."""
        return self.line_of("touch", [b"touch", self.choose(KEYS), self.choose([b"0", b"100", b"1000", b"-1"])], 2, "exptime", MOMENTS)

    def counting(self):
        """incr or decr."""
        key = b"n" if self.is_so(0.5) else self.choose(KEYS)
        delta = self.choose([b"0", b"1", b"5", b"10", b"99", b"18446744073709551615"])
        return self.line_of("count", [self.choose([b"incr", b"decr"]), key, delta], 2, "delta")

    def deleting(self):
        """delete."""
        words = [b"delete", self.choose(KEYS)] + ([self.choose([b"0", b"00", b"5", b"-0", b"noreply"])] if self.is_so(0.2) else [])
        it = self.line_of("delete", words, 2, None)
        it.resets = not it.faults and len(words) == 2 + it.is_quiet
        return it

    def flushing(self):
        """flush_all."""
        words = [b"flush_all"] + ([self.choose([b"0", b"-1", b"100000"])] if self.is_so(0.5) else [])
        return self.line_of("flush_all", words, 1, "delay", MOMENTS)

    def telling(self):
        """verbosity, and back to none."""
        it = self.line_of("verbosity", [b"verbosity", self.choose([b"0", b"1"])], 1, "level")
        it.sent += b"verbosity 0\r\n"
        return it

    # --------------------------------------------------------------------------------------------------- the meta commands

    def flag_word(self, verb, letter, key, faults):
        """A word of one flag; maybe a wrong one."""
        is_odd = self.is_so(0.12)
        if letter in SIMPLE:
            if is_odd:
                word, kind = self.number() if self.is_so(0.93) else (b"", "none")
                faults.append((FIELD_OF[letter], kind))
                return letter.encode() + word
            return letter.encode() + self.choose(SIMPLE[letter])
        if letter == "C":
            if is_odd:
                word, kind = self.number()
                faults.append((FIELD_OF[letter], kind))
                return b"C" + word
            return b"C" + self.cas_number(key)
        if letter == "M":
            if is_odd:
                faults.append(("M", "odd"))
                return b"M" + self.choose([b"", b"x", b"SS", b"s", b"Set", b"0"])
            return b"M%c" % self.choose(MODES.get(verb, b"S"))
        if letter == "O":
            if is_odd:
                faults.append(("O", "long"))
            return b"O" + (self.choose([b"x" * 32, b"x" * 33, b"y" * 100]) if is_odd else self.choose([b"", b"12", b"x" * 31, b"T5"]))
        if is_odd:
            faults.append(("flag", "more after its letter"))
            return letter.encode() + self.choose([b"1", b"x", b"-"])
        return letter.encode()

    def flags(self, verb, key, faults):
        """The flags of a meta command."""
        letters = [chr(self.choose(TAKEN_FLAGS)) for _ in range(self.choose([0, 1, 1, 2, 2, 3, 4, 5]))]
        letters = list(dict.fromkeys(letters))
        if self.is_so(0.06):
            faults.append(("flag", "twice"))
            letters.append(self.choose(letters) if letters else "v")
            letters += [] if len(letters) > 1 else ["v"]
        words = [self.flag_word(verb, it, key, faults) for it in letters]
        if self.is_so(0.05):
            word = self.choose([b"z", b"E5", b"S1", b"x", b"W", b"\x80", b"\x7f", b"1", b"-", b"i", b"V"])
            faults.append(("flag", "unknown"))
            words.insert(self.choose(range(len(words) + 1)), word)
        if self.is_so(0.02):
            words.append(self.choose([b"b", b"h", b"l", b"u", b"P5", b"L5"]))
            faults.append(("flag", words[-1][:1].decode()))
        if self.is_so(0.01):
            words += [b"k"] * self.choose([12, 13, 14, 15, 16, 17, 18, 19, 25])
            faults.append(("flag", "many"))
        return words

    def meta(self):
        """mg, ms, md or ma."""
        verb = self.choose(["mg", "mg", "ms", "ms", "md", "ma", "ma"])
        key, faults = b"n" if verb == "ma" and self.is_so(0.5) else self.choose(KEYS), []
        flags = self.flags(verb, key, faults)
        data = self.data(faults)
        words, block = [verb.encode(), key], b""
        if verb == "ms":
            block = data + b"\r\n"
            words.append(b"%d" % len(data))
            if self.is_so(0.1):
                words[2], kind = self.length(data)
                faults.append(("length", kind))
            elif self.is_so(0.03):
                words.pop()
                faults.append(("words", "a word less"))
            elif self.is_so(0.03):
                faults.append(("block", "longer"))
                block = data + b"more\r\n"
        if self.is_so(0.04):
            words[1] = self.wrong_key()
            faults.append(("key", "wrong"))
        elif self.is_so(0.01):
            words, flags = words[:1], []
            faults.append(("words", "a word less"))
        it = Command(verb, self.ended(words + flags, faults) + block, key, faults)
        it.is_quiet = any(word[:1] == b"q" for word in flags)
        it.resets = verb in ("ms", "md") and not faults and all(word[:1] not in b"CMIN" for word in flags)
        if verb == "ms":
            length = words[2] if len(words) > 2 else flags[0] if flags else b""
            it.is_last = self.ends_round(length, block) or ("end", "two CR") in faults
        return it

    def other(self):
        """A line of no command that is served in full, or with a closing one at last."""
        if self.is_so(0.05):
            it = Command("line", self.choose(CLOSING_LINES) + b"\r\n", None, [("line", "closing or long")])
            it.is_last = True
            return it
        line = self.choose(OTHER_LINES)
        return Command("line", line + b"\r\n", None, [("line", line[:20].decode("latin1"))])

    def command(self):
        """A random command."""
        it = self.draw.random()
        if it < 0.32:
            return self.storing()
        if it < 0.42:
            return self.getting()
        if it < 0.50:
            return self.counting()
        if it < 0.55:
            return self.touching()
        if it < 0.60:
            return self.deleting()
        if it < 0.605:
            return self.flushing()
        if it < 0.61:
            return self.telling()
        return self.meta() if it < 0.97 else self.other()
