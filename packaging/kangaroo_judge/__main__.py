"""The commands: `python3 -m kangaroo_judge FILE` is `kangaroo judge FILE`, `python3 -m kangaroo_judge convert ..` is `kangaroo-convert ..`."""
import os
import signal
import sys
from . import PROGRAM


def become(words):
    """Becomes the program, so that its status, signals and pipes are its own. Python ignores two signals, which it would inherit."""
    for ignored in (signal.SIGPIPE, signal.SIGXFSZ):
        signal.signal(ignored, signal.SIG_DFL)
    os.execv(PROGRAM, ["kangaroo", *words])


def kangaroo():
    """The command kangaroo."""
    become(sys.argv[1:])


def judge():
    """The command kangaroo-judge."""
    become(["judge", *sys.argv[1:]])


def convert(words=None):
    """The command kangaroo-convert."""
    from .converters.main import main as converted

    return converted(sys.argv[1:] if words is None else words)


def main():
    """The module as a command."""
    if sys.argv[1:2] == ["convert"]:
        return convert(sys.argv[2:])
    return judge()


if __name__ == "__main__":
    sys.exit(main())
