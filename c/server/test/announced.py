"""Which differences between memcached and kangarood docs/SERVER.md announces, each with the sentence that does. beside-memcached gives
cases: a command with its faults, and both answers to it."""
import re
import time

BAD_LINE, NO_NUMBER = b"CLIENT_ERROR bad command line format", b"CLIENT_ERROR cannot increment or decrement non-numeric value"
MARKS = rb"(?m)^((?:VA|HD|EN)[^\r]*?)((?: [WXZ])+)(?= |\r)"


def squeezed(answer):
    """An answer whose numbers have no spaces after them, and whose values no length."""
    answer = re.sub(rb"^(VALUE \S+ \d+) \d+|^(VA) \d+", rb"\1\2", answer, flags=re.M)
    return re.sub(rb"(?<=\d) +", b"", re.sub(rb"^((?:VA|HD)[^\r]*) s\d+", rb"\1", answer, flags=re.M))


def without_lifetime(answer):
    """An answer of a meta command without the flag t."""
    return re.sub(rb"^((?:VA|HD)[^\r]*?) t\S+", rb"\1", answer, flags=re.M)


def lifetimes(answer):
    """The flags t of answers, as numbers."""
    return [int(it) for it in re.findall(rb"(?m)^(?:VA|HD)[^\r]*? t(-?\d+)", answer)]


def is_longer_number(it):
    """A number that got shorter: memcached counts by data of another length. Between both a second may have ended."""
    both = list(zip(lifetimes(it.theirs), lifetimes(it.ours)))
    our_answers = it.ours if re.search(MARKS, it.theirs) else re.sub(MARKS, rb"\1", it.ours)
    theirs, ours = (squeezed(without_lifetime(answer)) for answer in (it.theirs, our_answers))
    return it.theirs != it.ours and theirs == ours and all(abs(one - other) <= 2 for one, other in both)


def is_error(answer):
    """Whether an answer begins with an error, or nothing comes any more."""
    return re.match(rb"ERROR|CLIENT_ERROR|SERVER_ERROR|\(closed\)", answer) is not None


def is_refused(it):
    """Whether a command is refused here, aloud or in silence."""
    return is_error(it.ours) or it.command.is_quiet and not it.our_answer


def first_line(answer):
    """The first line of an error."""
    return answer.split(b"\r\n")[0] if is_error(answer) else b""


def is_block_run(it):
    """memcached runs the block of a storing line that both refuse, or that it refuses in silence."""
    if not re.match(rb" *(set|add|replace|append|prepend|cas|ms)( |$)", it.line) or not it.command.faults:
        return False
    ours, is_quiet = it.our_answer.replace(b"(closed)\r\n", b""), b"noreply" in it.line
    if is_quiet and len(it.command.faults) > 1 and it.has_fault("block", "length"):
        return True
    return first_line(ours) == first_line(it.their_answer) != b"" or is_quiet and ours == b""


def is_length_refused(it):
    """A length that memcached reads and that is none here."""
    return it.command.family in ("store", "ms") and it.has_fault("length", "words") and b"(closed)" in it.ours


def is_too_long(it):
    """A value that is too long here, or in silence was."""
    stored = re.match(rb"VA (\d+) ", it.their_state)
    is_long = stored and int(stored[1]) > 2030
    if it.command.family == "get" and re.sub(rb"(?s)VALUE \S+ \d+ 203\d\r\n.{2030,2039}\r\n", b"", it.theirs) == it.ours != it.theirs:
        return True
    return b"too large for cache" in it.ours and b"too large" not in it.theirs or is_long and it.our_state != it.their_state


def is_long_number(it):
    """A number with many zeros before it."""
    return it.command.family in ("count", "ma") and re.search(rb"\r\n0\d{20,}\r\n\Z", it.our_state) is not None


def is_no_number(it):
    """Data that is no number here, and one with memcached; in silence only what the key then has shows it."""
    if it.command.family not in ("count", "ma"):
        return False
    stored = re.search(rb"\r\n((?:[^\r]|\r(?!\n\Z))*)\r\n\Z", it.our_state)
    return NO_NUMBER in it.ours and NO_NUMBER not in it.theirs or it.command.is_quiet and stored and not re.fullmatch(rb"\d+ *", stored[1])


def is_beyond_end(it):
    """A number of 2^63 or more that memcached refuses, since a minus sign stands in memory after the item."""
    stored = re.search(rb"\r\n(\d{19,20}) *\r\n\Z", it.their_state)
    return NO_NUMBER in it.theirs and NO_NUMBER not in it.ours and stored and int(stored[1]) >= 2 ** 63


def is_older_number(it):
    """An ms or md with I whose number is above the item's in one server and below it in the other. In silence HD is not said."""
    answers = [b"HD" if it.command.is_quiet and not answer else answer[:2] for answer in (it.their_answer, it.our_answer)]
    return re.search(rb" I", it.line) and re.search(rb" C\d", it.line) and set(answers) == {b"EX", b"HD"}


def is_mark_lost(theirs, ours):
    """Whether the one has none of the marks of the other, and all else is the same."""
    return not re.search(MARKS, theirs) and theirs == re.sub(MARKS, rb"\1", ours)


def is_lost_expiry(it):
    """An ma with T, after which the items are the same but for the expiry and the marks, or this one has expired."""
    found = re.match(rb" *ma .* T\+?(-|\d+)", it.line)
    if not found or is_error(it.ours) or is_error(it.theirs):
        return False
    low = -1 if found[1] == b"-" else int(found[1]) % 2 ** 32
    has_passed = low < 0 or low >= 2 ** 31 or 2592000 < low < time.time()
    theirs, ours = (re.sub(rb"(?m)^(VA[^\r]*?)( [WXZ])*\r", rb"\1\r", without_lifetime(state)) for state in (it.their_state, it.our_state))
    return squeezed(theirs) == squeezed(ours) or has_passed and ours.startswith(b"EN")


def is_refused_by_name(it):
    """A command or a flag that is never served."""
    is_flag = it.has_fault("flag") and re.search(rb" [bhl][ \r]", it.command.sent)
    return it.line.startswith(b"me") or is_flag or b" is not served" in it.ours


def is_wrong_key(it):
    """A key that is too long among others."""
    return it.command.family in ("get", "gat") and BAD_LINE in it.theirs and BAD_LINE in it.ours


def is_minus_expiry(it):
    """An expiry with a minus sign, of which memcached takes the lower half."""
    return it.has_fault("exptime", "a number of N, T, R", "delay") and it.has_kind("-2^63", "-2^32+100", "-2^31") and not is_error(it.ours)


# sentences of docs/SERVER.md, and which differences they announce
ANNOUNCED = [
    ("values have at most 2,039 bytes", is_too_long),
    ("me, b, h and l are refused by name", is_refused_by_name),
    ("the block of a refused storing line is passed over, or the client closed", is_block_run),
    ("a length is a number from 0 to 2^31 - 1", is_length_refused),
    ("an expiry with a minus sign has passed, whatever its size", is_minus_expiry),
    ("a minus sign refuses any number but an expiry", lambda it: it.has_kind("-0", "-2^63-1", "-2^64+1") and is_refused(it)),
    ("a byte beside the digits refuses a number", lambda it: it.has_kind("a tab", "two CR") and is_refused(it)),
    ("a NUL does not end a line", lambda it: b"\x00" in it.line),
    ("mg and ma with an opaque token that is too long do nothing", lambda it: it.has_fault("O") and b"opaque token too long" in it.ours),
    ("the keys before a wrong one are answered", is_wrong_key),
    ("spaces after a number keep the length of the data", is_longer_number),
    ("data of more than 20 digits is no number", is_long_number),
    ("memcached takes other bytes beside a number's digits", is_no_number),
    ("an item without data is compared before it is found to be no number",
     lambda it: it.our_answer.startswith(b"EX") and NO_NUMBER in it.theirs),
    ("ma with q answers nothing of an item that it makes too", lambda it: re.match(rb" *ma ", it.line) and it.command.is_quiet and b" N" in it.line
     and it.our_answer == b"" and it.their_answer[:2] in (b"HD", b"VA")),
    ("a line has at most 2,048 bytes", lambda it: b"CLIENT_ERROR line too long" in it.ours),
    ("numbers of items begin at the wall clock", is_older_number),
    ("memcached looks for a minus sign after the item's end too", is_beyond_end),
    ("memcached loses the T of an ma that makes a number longer", is_lost_expiry),
    ("t of an item that has expired is 0", lambda it: re.sub(rb" t4294\d+", b" t0", it.theirs) == it.ours != it.theirs),
    ("t tells the expiry that a new item has",
     lambda it: b" N" in it.line and without_lifetime(it.theirs) == without_lifetime(it.ours)),
    ("the marks stale and won stay if a number gets longer",
     lambda it: is_mark_lost(it.theirs, it.ours) or it.their_answer == it.our_answer and is_mark_lost(it.their_state, it.our_state)),
    ("a line whose last word begins with HTTP/ closes, and so does the byte 0x80", lambda it: b"HTTP/" in it.line or it.line.startswith(b"\x80")),
    ("watch, lru_crawler, slabs, lru, cache_memlimit, bget are not served",
     lambda it: it.command.family == "line" and re.match(rb"watch|lru|slabs|cache_memlimit|bget|extstore", it.line)),
    ("stats cachedump lists nothing", lambda it: it.line.startswith(b"stats cachedump") and it.ours == b"END\r\n"),
]


def reason(it):
    """The sentence that announces a difference, or None. In a pipeline any of the commands may be what it speaks of."""
    first = it.command
    for it.command in it.commands:
        for sentence, is_meant in ANNOUNCED:
            if is_meant(it):
                return sentence
    it.command = first
    return None
