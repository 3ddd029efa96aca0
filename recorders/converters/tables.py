"""Rows of CSV and of JSON lines: each gives the fields that a call is made of."""
import json
import operator
import re
from .calls import FIELDS
from .text import Bad, shown

QUOTED = re.compile(rb'"[^"]*(?:""[^"]*)*"')
LINES_OF_RECORD = 1 << 16


def indexes(header, columns):
    """Returns the place in a header of each column that is named, and None for the others."""
    for name in columns.values():
        if name is not None and header.count(name.encode()) != 1:
            found = "two columns are named" if header.count(name.encode()) else "there is no column"
            raise Bad(f"{found} {name}: the header has {', '.join(it.decode() for it in header[:20])}", ends=True)
    return [None if columns[it] is None else header.index(columns[it].encode()) for it in FIELDS]


def numbers_of(columns):
    """Returns the place of each column that is given by its number."""
    for name in columns.values():
        if name is not None and not (name.isdigit() and 0 < int(name) < 10**6):
            raise Bad(f"with --no-header a column is a number from 1, not {name}", ends=True)
    return [None if columns[it] is None else int(columns[it]) - 1 for it in FIELDS]


class Csv:
    """Reads CSV as RFC 4180 has it. A field in quotes may have line feeds."""

    def __init__(self, lines, columns, delimiter=b",", has_header=True):
        self.lines, self.columns, self.delimiter, self.has_header = lines, columns, delimiter, has_header
        self.row, self.begins, self.first, self.width, self.places, self.pick = [], None, 0, None, None, None

    def begin(self):
        """Reads the header, or takes the columns as numbers."""
        if not self.has_header:
            self.places = numbers_of(self.columns)
        elif self.read_row():
            self.places, self.width = indexes(self.row, self.columns), len(self.row)
        else:
            return False
        self.pick = operator.itemgetter(*[-1 if it is None else it for it in self.places])
        return True

    def read_row(self):
        """Reads a row. Returns whether there is one."""
        line = self.lines.read()
        self.first = self.lines.number
        if line is None:
            return False
        if b'"' not in line:
            self.row, self.begins = line.split(self.delimiter), None
            return True
        self.row, self.begins, text = [], [], line
        while not self.split(text):
            text = self.rest_of(text)
        return True

    def rest_of(self, text):
        """Returns a record that goes on, with its further lines up to one that may end it."""
        parts, size = [text], len(text)
        while True:
            line = self.lines.read()
            size += len(line or b"") + 1
            if line is None or size > 1 << 24 or len(parts) > LINES_OF_RECORD:
                raise Bad("the quote that begins here is never closed: close it, or double each quote within a field", self.begins[-1] + 1,
                          line=self.first + text.count(b"\n", 0, self.begins[-1]), ends=True)
            parts.append(line)
            if line.count(b'"') % 2:
                return b"\n".join(parts)

    def split(self, text):
        """Splits a record with quotes. Returns whether it is whole."""
        at, self.row, self.begins = 0, [], []
        while True:
            self.begins.append(at)
            it = QUOTED.match(text, at)
            if it is None and text.startswith(b'"', at):
                return False
            end = it.end() if it else text.find(self.delimiter, at)
            end = len(text) if end < 0 else end
            self.row.append(it[0][1:-1].replace(b'""', b'"') if it else text[at:end])
            if not it and b'"' in self.row[-1]:
                self.fail("a quote within a field that has none around it: put the field in quotes, and double this one", text, text.index(b'"', at))
            if end == len(text):
                return True
            if not text.startswith(self.delimiter, end):
                self.fail("after a closing quote the field goes on: double each quote within a field", text, end)
            at = end + len(self.delimiter)

    def fail(self, what, text, at):
        """Refuses the record at a byte."""
        raise Bad(what, at - text.rfind(b"\n", 0, at), line=self.first + text.count(b"\n", 0, at))

    def read(self):
        """Returns the fields of the next row, or None at the end. Empty lines are passed over."""
        there_is = self.read_row()
        while there_is and self.row == [b""]:
            there_is = self.read_row()
        if not there_is:
            return None
        row = self.row
        if len(row) != self.width:
            self.check_width(len(row))
        row.append(None)  # for the columns that are not named
        fields = self.pick(row)
        # an empty value, with no result beside it: nothing was read
        return fields if fields[6] or fields[7] is not None else (*fields[:6], None, *fields[7:])

    def check_width(self, found):
        """Takes the width of the first row, if there is no header. Refuses a row of another one."""
        if self.width is None:
            most = max(it or 0 for it in self.places) + 1
            if found < most:
                raise Bad(f"the row has {found} fields, and a column {most} is named", ends=True)
            self.width = found
            return
        column = self.column_of(self.width) if found > self.width else self.column_of(found) - 1
        raise Bad(f"the row has {found} fields, and {'the header' if self.has_header else 'the first row'} {self.width}: "
                  "put a field that has the delimiter in quotes", column)

    def column_of(self, at):
        """Returns the column at which a field begins."""
        if self.begins is not None:
            return self.begins[min(at, len(self.begins) - 1)] + 1
        return sum(len(it) + len(self.delimiter) for it in self.row[:at]) + 1

    def place(self, bad):
        """Returns the line and the column of a fault in the last row."""
        at = self.places[FIELDS.index(bad.field)] if bad.field and self.places else None
        return bad.line or self.first or 1, bad.column if at is None else self.column_of(at)


def refuse_constant(name):
    """Refuses what JSON has no word for."""
    raise ValueError(name)


class JsonLines:
    """Reads objects of JSON, one in a line. Numbers keep all their digits."""

    def __init__(self, lines, columns):
        self.lines, self.line = lines, b""
        self.columns = [(name, columns[name]) for name in FIELDS]
        self.decode = json.JSONDecoder(parse_float=str, parse_int=str, parse_constant=refuse_constant).decode

    def begin(self):
        """There is nothing to read before the first line."""
        return True

    def read(self):
        """Returns the fields of the next object, or None at the end. Empty lines are passed over."""
        self.line = self.lines.read()
        while self.line is not None and not self.line.strip():
            self.line = self.lines.read()
        if self.line is None:
            return None
        found = self.object_of(self.line.decode())
        return [None if path is None else self.field(found, name, path) for name, path in self.columns]

    def object_of(self, text):
        """Returns the object of a line."""
        try:
            found = self.decode(text)
        except json.JSONDecodeError as error:
            hint = "; of an array `jq -c .[]` makes lines" if text.strip() in ("[", "]") or text[:1] == "[" else ""
            raise Bad(f"no JSON: {error.msg}: write one object a line{hint}", len(text[:error.pos].encode()) + 1) from None
        except (ValueError, RecursionError) as error:
            what = "it is nested too deeply" if isinstance(error, RecursionError) else f"JSON has no {error}"
            raise Bad(f"no JSON: {what}: write one object a line") from None
        if not isinstance(found, dict):
            raise Bad("the line is no object: write one object a line, {..}; of an array `jq -c .[]` makes them")
        return found

    def field(self, found, name, path):
        """Returns a member as bytes, or None if it is null or absent. A path goes into objects by its dots."""
        it = found.get(path)
        if type(it) is str and it.isascii():
            return it.encode()
        if it is None and "." in path:
            it = found
            for part in path.split("."):
                it = it.get(part) if isinstance(it, dict) else None
        if it is None or isinstance(it, str):
            return it if it is None else self.bytes_of(it, name)
        if isinstance(it, bool):
            return b"true" if it else b"false"
        if name != "value":
            raise Bad(f"the member {path} is {'an object' if isinstance(it, dict) else 'an array'}: give a text or a number", field=name)
        return self.bytes_of(json.dumps(it, sort_keys=True, separators=(",", ":"), ensure_ascii=False), name)

    def bytes_of(self, text, name):
        """Returns a text as UTF-8."""
        try:
            return text.encode()
        except UnicodeEncodeError as error:
            raise Bad("half of a surrogate pair: %s is no character" % shown(text[error.start:error.start + 1].encode("utf-8", "surrogatepass")), field=name) from None

    def place(self, bad):
        """Returns the line and the column of a fault in the last line."""
        path = dict(self.columns).get(bad.field)
        it = re.search(rb'"%b"\s*:\s*' % re.escape(path.split(".")[-1].encode()), self.line) if path and self.line else None
        return bad.line or self.lines.number, it.end() + 1 if it else bad.column


class Table:
    """The calls of rows, whichever form they have."""

    def __init__(self, rows, calls):
        self.rows, self.calls, self.count = rows, calls, 0

    def begin(self):
        """Finds the keys that are left out, if an operation leaves some out, and reads what stands before the rows."""
        if b"leave" in self.calls.acts.values():
            self.find_left_out()
        self.begin_rows()

    def begin_rows(self):
        """Reads what stands before the rows."""
        if not self.rows.begin():
            raise Bad("the input is empty: give it a header and a row for each call", line=1, ends=True)

    def fields(self):
        """Returns the fields of the next row, or None. What a call needs is there."""
        fields = self.rows.read()
        if fields is None:
            return None
        self.count += 1
        if fields[4] is None or fields[5] is None or not fields[1] and not (self.calls.has_took and fields[2]):
            name = "op" if fields[4] is None else "key" if fields[5] is None else self.calls.stamp_name
            raise Bad(f"there is no {name}: each call needs one", field=name)
        return fields

    def read(self):
        """Returns the lines of the next row and how many calls they have, or None at the end."""
        fields = self.fields()
        if fields is None:
            return None
        line = self.calls.line(fields)
        return line, bool(line)

    def place(self, bad):
        """Returns the line and the column of a fault."""
        return self.rows.place(bad)

    def find_left_out(self):
        """Goes through all rows for the keys of operations that can't be judged, and begins again."""
        self.begin_rows()
        while True:
            try:
                fields = self.fields()
                if fields is None:
                    break
                if self.calls.act_of(fields[4]) == b"leave":
                    self.calls.left.add(fields[5])
            except Bad as bad:
                if bad.ends:
                    break
        self.rows.lines.restart()
        self.count = 0
