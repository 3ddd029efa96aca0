"""Histories of Jepsen's registers, as EDN. What begins and what ends an operation are two lines."""
from .edn import Atom, Braces, read_map
from .text import NUMBER_MOST, Bad, key_word, shown, value_word, word

ATOMS = {b":read": 1, b":write": 1, b":cas": 2}  # of a :value without its key
TYPES = (b":invoke", b":ok", b":fail", b":info")


def flat(found):
    """Returns the atoms of a :value, those in its vectors too."""
    if isinstance(found, Braces):
        raise Bad("a map or a set is no value of a register: give an atom", found.column)
    return [it for part in found for it in flat(part)] if isinstance(found, list) else [found]


class Jepsen:
    """Reads operations as they are written, and keeps those that have begun, and the keys that have been seen."""

    def __init__(self, lines, initial=b"nil", over=64):
        self.lines, self.initial, self.over = lines, initial, over
        self.begun, self.seen, self.is_timed, self.count, self.ended = {}, set(), None, 0, False

    def begin(self):
        """There is nothing to read before the first line."""

    def place(self, bad):
        """Returns the line and the column of a fault."""
        return bad.line or self.lines.number, bad.column

    def read(self):
        """Returns the lines of the next operation that ended and how many calls they have, or None at the end."""
        line = self.lines.read()
        if line is None:
            return self.open_call()
        found = read_map(line)
        if found is None:
            return b"", 0
        process = found.get(b":process")
        if process is not None and not (isinstance(process, bytes) and process.isdigit()):
            return b"", 0  # the nemesis
        self.count += 1
        return self.take(process, found)

    def open_call(self):
        """Returns the lines of an operation that never ended, or None."""
        if not self.begun:
            return None
        process, (start, act, atoms) = self.begun.popitem()
        return self.calls(process, start, None, act, atoms)

    def take(self, process, found):
        """Takes the beginning or the end of an operation."""
        kind, act = found.get(b":type"), found.get(b":f")
        if process is None or kind not in TYPES or not isinstance(act, bytes):
            raise Bad("an operation has a :process, a :f, and a :type of :invoke, :ok, :fail or :info")
        if act not in ATOMS:
            raise Bad(f"the function {shown(act)} is none of :read, :write and :cas: leave such operations out", act.column)
        atoms, stamp = self.atoms(act, found.get(b":value", Atom(b"nil"))), self.stamp(found.get(b":time"))
        if kind == b":invoke":
            if process in self.begun:
                raise Bad(f"process {process.decode()} began twice: the line of its first end is missing", process.column)
            self.begun[process] = stamp, act, atoms
            return b"", 0
        return self.finish(process, kind, act, atoms, stamp)

    def finish(self, process, kind, act, atoms, stamp):
        """Takes the end of an operation."""
        if process not in self.begun:
            raise Bad(f"process {process.decode()} ended what it had not begun: the line of its beginning is missing", process.column)
        start, was, given = self.begun[process]
        if was != act:
            raise Bad(f"process {process.decode()} began {was.decode()}, and ends {act.decode()}", act.column)
        if stamp < start:
            raise Bad(f"the end is before the start: process {process.decode()} began at {start - 1}", process.column)
        del self.begun[process]
        if kind == b":fail":
            return b"", 0
        return self.calls(process, start, stamp if kind == b":ok" else None, act, atoms if act == b":read" else given)

    def atoms(self, act, found):
        """Returns the key and the values of an operation."""
        atoms = flat(found)
        if len(atoms) - ATOMS[act] not in (0, 1):
            raise Bad(f"this is no :value of {act.decode()}: give its {ATOMS[act]} values, or a vector of its key and these",
                      atoms[0].column if atoms else 1)
        return ([b"register"] if len(atoms) == ATOMS[act] else []) + atoms

    def stamp(self, time):
        """Returns the stamp of a line: its :time plus 1, or its number if there are no times."""
        if self.is_timed is None:
            self.is_timed = time is not None
        if self.is_timed != (time is not None):
            raise Bad("some operations have a :time and some have none: give all or none", time.column if time else 1)
        if time is None:
            return self.lines.number
        if not isinstance(time, bytes) or not time.isdigit() or int(time) >= NUMBER_MOST:
            raise Bad("the :time is no number of nanoseconds from 0 to 2^63 - 2", getattr(time, "column", 1))
        return int(time) + 1

    def calls(self, process, start, end, act, atoms):
        """Returns the lines of an operation. Without an end nobody knows whether it happened."""
        key, values = key_word(atoms[0]), [value_word(it, self.over) for it in atoms[1:]]
        lines = []
        if act != b":read" or end is not None:
            lines += self.setup(key)
        if act != b":write" and end is not None:
            lines.append(b"%b %d %d hit %b %b\n" % (word(process), start, end, key, values[0]))
        if act != b":read":
            lines.append(b"%b %d %b put %b %b\n" % (word(process), start, b"-" if end is None else b"%d" % end, key, values[-1]))
        return b"".join(lines), len(lines)

    def setup(self, key):
        """Returns the first put of a register, once."""
        if key in self.seen:
            return []
        self.seen.add(key)
        return [b"setup 0 0 put %b %b\n" % (key, value_word(self.initial, self.over))]
