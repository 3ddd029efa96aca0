"""A small reader of EDN: one map, as a line of a Jepsen history has it."""
import re
from .text import Bad

TOKEN = re.compile(rb'(?:[\s,]|;.*)*("(?:\\.|[^"\\])*"|#[\w./*!$%&=<>-]*|[\[\](){}]|[^\s,\[\](){}";#]+|$|.)')
CLOSES = {b"[": b"]", b"(": b")", b"{": b"}"}
DEPTH_MOST = 50


class Atom(bytes):
    """A word of EDN as it is written, with the column at which it stands."""
    column = 1


class Braces(list):
    """What stands in braces: a map or a set, with the column at which it begins."""
    column = 1


class Tokens:
    """The tokens of a line."""

    def __init__(self, line):
        self.line, self.at, self.column = line, 0, 1

    def next(self):
        """Returns the next token, empty at the end."""
        it = TOKEN.match(self.line, self.at)
        self.at, self.column = it.end(), it.start(1) + 1
        if it[1] == b'"':
            raise Bad("a text without its closing quote", self.column)
        return it[1]


def value(tokens, token, depth=0):
    """Returns what a token begins: an atom, or a list of what is in brackets. A tag is passed over."""
    while token.startswith(b"#") and token != b"#":
        token = tokens.next()
    if token == b"#" or token in CLOSES:
        column = tokens.column
        opened = tokens.next() if token == b"#" else token
        if opened not in CLOSES or depth > DEPTH_MOST:
            raise Bad("no EDN: a map, a vector or an atom should stand here", column)
        found = items(tokens, CLOSES[opened], depth + 1, column)
        if opened == b"{":
            found = Braces(found)
            found.column = column
        return found
    if token in (b"", b"]", b")", b"}"):
        raise Bad("no EDN: " + ("the line ends within an operation" if not token else f"a {token.decode()} that closes nothing"), tokens.column)
    found = Atom(token)
    found.column = tokens.column
    return found


def items(tokens, closing, depth, column):
    """Returns the values up to a closing bracket."""
    found = []
    while True:
        token = tokens.next()
        if token == closing:
            return found
        if not token:
            raise Bad(f"no EDN: the bracket that opens here is never closed by {closing.decode()}: write one operation a line", column)
        found.append(value(tokens, token, depth))


def read_map(line):
    """Returns the map of a line as a dict by its keys, or None if the line has none."""
    tokens = Tokens(line)
    token = tokens.next()
    if token == b"[":
        token = tokens.next()
    if token in (b"", b"]"):
        return None
    column, found = tokens.column, value(tokens, token)
    if not isinstance(found, Braces) or len(found) % 2:
        raise Bad("no map of EDN: an operation is {:type .., :f .., :process .., :value ..}, one in a line", column)
    if tokens.next() not in (b"", b"]") or tokens.next():
        raise Bad("something follows the map: write one operation a line", tokens.column)
    return {bytes(name): it for name, it in zip(found[::2], found[1::2]) if isinstance(name, bytes)}
