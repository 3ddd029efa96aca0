"""The lines of an input, one at a time."""
from .text import Bad

LINE_MOST = 1 << 24
MARK = b"\xef\xbb\xbf"  # some programs begin a file in UTF-8 with it


def check_text(line, number):
    """Refuses a line that is no UTF-8, or has a NUL byte."""
    if b"\0" in line:
        raise Bad("a NUL byte: the file is in UTF-16 or was damaged; write it in UTF-8", line.index(b"\0") + 1, line=number)
    if line.isascii():
        return
    try:
        line.decode()
    except UnicodeDecodeError as error:
        raise Bad("the byte %02x is no UTF-8: write the file in UTF-8" % line[error.start], error.start + 1, line=number) from None


class Lines:
    """Gives the lines of a file, without their ends. `number` is that of the line which was given last, from 1."""

    def __init__(self, file):
        self.file, self.number = file, 0

    def read(self):
        """Returns the next line, or None at the end. A line that is refused has been read."""
        line = self.file.readline(LINE_MOST + 2)
        if not line:
            return None
        self.number += 1
        if line.endswith(b"\n"):
            line = line[:-2] if line.endswith(b"\r\n") else line[:-1]
        if len(line) > LINE_MOST:
            raise Bad(f"the line has more than {LINE_MOST} bytes: is its end missing?", LINE_MOST + 1, line=self.number, ends=True)
        check_text(line, self.number)
        return line[len(MARK):] if self.number == 1 and line.startswith(MARK) else line

    def restart(self):
        """Begins at the first line again."""
        self.file.seek(0)
        self.number = 0
