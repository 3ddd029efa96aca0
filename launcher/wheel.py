"""The wheel of the judge, which pip installs: its tag, its files, and how they are packed so that the same files give the same bytes."""
import base64
import hashlib
import re
import time
import zipfile

NAME = "kangaroo_judge"
# what a program may ask for, of what each Linux with glibc has by the policy of manylinux
LIBRARIES = ("libc.so.6", "libm.so.6", "libgcc_s.so.1", "ld-linux-x86-64.so.2")
# a version that it may ask of them
VERSION = re.compile(r"(GLIBC|GCC)_(\d+)\.(\d+)(?:\.\d+)?")
COMMANDS = ("kangaroo", "kangaroo-judge", "kangaroo-convert")
METADATA = """Metadata-Version: 2.1
Name: kangaroo-judge
Version: {version}
Summary: Finds out from recorded calls whether a cache ever served a stale value
Maintainer-email: {author}
License: none named; the file copyright says more
Platform: linux_x86_64
Classifier: Environment :: Console
Classifier: Operating System :: POSIX :: Linux
Classifier: Topic :: Software Development :: Testing
Requires-Python: >=3.9
Description-Content-Type: text/markdown

{readme}"""


class Refused(Exception):
    """The program can't be in a wheel. The text says why."""


def glibc_of(asked):
    """Returns the oldest glibc that has all which a program asks for, by what `objdump -p` prints of it, as two numbers."""
    if "file format elf64-x86-64" not in asked:
        raise Refused("the program is none for x86-64")
    for library in re.findall(r"^ +NEEDED +(\S+)$", asked, re.M):
        if library not in LIBRARIES:
            raise Refused(f"the program asks for {library}, which the policy of manylinux does not list")
    versions = re.findall(r"^ +0x\w+ 0x\w+ \d+ (\S+)$", asked, re.M)
    for name in versions:
        if not VERSION.fullmatch(name):
            raise Refused(f"the program asks for {name}, of which the policy of manylinux says nothing")
    found = [(int(it[2]), int(it[3])) for it in map(VERSION.fullmatch, versions) if it[1] == "GLIBC"]
    if not found:
        raise Refused("the program names no version of glibc")
    return max(found)


class Wheel:
    """A wheel: its version and tag, and the files that were laid into it."""

    def __init__(self, version, glibc, seconds):
        self.version, self.tag = version, "py3-none-manylinux_%d_%d_x86_64" % glibc
        self.day = time.gmtime(max(int(seconds), 315532800))[:6]  # a zip file knows no time before 1980
        self.about = f"{NAME}-{version}.dist-info"
        self.file = f"{NAME}-{version}-{self.tag}.whl"
        self.entries = []

    def lay(self, name, content, runs=False):
        """Lays a file: its name in the wheel, its bytes or text, and whether it is a program."""
        self.entries.append((name, content.encode() if isinstance(content, str) else content, runs))

    def lay_about(self, author, readme):
        """Lays what pip reads: what this is, its tag, and its commands."""
        starts = [f"{it} = {NAME}.__main__:{it.rpartition('-')[2]}\n" for it in COMMANDS]
        self.lay(f"{self.about}/METADATA", METADATA.format(version=self.version, author=author, readme=readme))
        self.lay(f"{self.about}/WHEEL", f"Wheel-Version: 1.0\nGenerator: launcher/release\nRoot-Is-Purelib: false\nTag: {self.tag}\n")
        self.lay(f"{self.about}/entry_points.txt", "[console_scripts]\n" + "".join(starts))

    def record(self):
        """Returns the list of all files, with their checksums and sizes."""
        rows = [f"{name},sha256={checksum(content)},{len(content)}\n" for name, content, _ in self.entries]
        return "".join([*rows, f"{self.about}/RECORD,,\n"])

    def pack(self, folder):
        """Writes the wheel into a folder, and returns the name of its file. Its list of files is the last of them."""
        self.entries.sort()
        self.entries.sort(key=lambda it: it[0].startswith(f"{self.about}/"))
        self.lay(f"{self.about}/RECORD", self.record())
        with zipfile.ZipFile(f"{folder}/{self.file}", "w") as it:
            for name, content, runs in self.entries:
                entry = zipfile.ZipInfo(name, self.day)
                entry.create_system, entry.compress_type = 3, zipfile.ZIP_DEFLATED
                entry.external_attr = (0o100755 if runs else 0o100644) << 16
                it.writestr(entry, content, compresslevel=9)
        return self.file


def checksum(content):
    """Returns a checksum as a list of files has it."""
    return base64.urlsafe_b64encode(hashlib.sha256(content).digest()).rstrip(b"=").decode()
