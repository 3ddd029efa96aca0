"""What the tests of kangarood share: a server of their own in a new folder, clients, and the list of tests."""
import concurrent.futures
import contextlib
import os
import pathlib
import resource
import select
import shutil
import signal
import socket
import subprocess
import tempfile
import time

TESTS = []
PROGRAM = {"kangarood": None, "refuser": None, "stepper": None, "narrow": None, "delayer": None, "orders": None}
IS_QUICK = os.environ.get("QUICK", "") not in ("", "0")
PATIENCE = 30
MORE = 16 if os.environ.get("SANITIZED") else 1  # a sanitizer takes memory of its own


class Skipped(Exception):
    """The machine lacks something that a test needs."""


def shows(what):
    """Puts a function on the list of tests, with what it shows."""

    def put(function):
        TESTS.append((what, function))
        return function

    return put


def expect(is_so, what):
    """Fails the test if something is not so."""
    if not is_so:
        raise AssertionError(what)


def equal(got, wanted, what):
    """Fails the test if two things differ."""
    expect(got == wanted, f"{what}: got {shortly(got)}, wanted {shortly(wanted)}")


def shortly(it):
    """A text for something, not too long."""
    text = repr(it)
    return text if len(text) < 400 else f"{text[:200]} .. {text[-150:]} ({len(it)} long)"


def grew_little(it, before, kib):
    """Fails the test if a server has grown by more KiB than these."""
    grown = it.kib() - before
    expect(grown < kib * MORE, f"the server took {grown} KiB")


def wait_for(is_so, what):
    """Waits until something is so, or fails the test."""
    ends = time.monotonic() + 20
    while not is_so():
        expect(time.monotonic() < ends, what)
        time.sleep(0.01)


def all_at_once(calls):
    """Makes calls, each in a thread of its own, and waits for all. Fails the test if one fails."""
    with concurrent.futures.ThreadPoolExecutor(len(calls)) as threads:
        for made in [threads.submit(it) for it in calls]:
            made.result()


def have_descriptors(count):
    """Has the system give this process so many descriptors, or skips the test."""
    soft, hard = resource.getrlimit(resource.RLIMIT_NOFILE)
    if soft >= count:
        return
    try:
        resource.setrlimit(resource.RLIMIT_NOFILE, (count, max(count, hard)))
    except (ValueError, OSError):
        raise Skipped(f"{count} descriptors") from None


def free_port():
    """A TCP port that nobody has now."""
    with socket.socket() as it:
        it.bind(("127.0.0.1", 0))
        return it.getsockname()[1]


class Client:
    """A client that sends bytes and waits for those that it expects."""

    def __init__(self, address, room=None):
        is_unix = isinstance(address, str)
        self.socket = socket.socket(socket.AF_UNIX if is_unix else socket.AF_INET)
        if room is not None:  # for what it has not read yet
            self.socket.setsockopt(socket.SOL_SOCKET, socket.SO_RCVBUF, room)
        self.socket.settimeout(PATIENCE)
        self.connect(address)
        self.left = b""

    def connect(self, address):
        """Connects. A Unix socket with too many that wait refuses at once, where TCP would wait."""
        for _ in range(1000):
            try:
                self.socket.connect(address)
                return
            except BlockingIOError:
                time.sleep(0.005)
        raise AssertionError("nobody accepts")

    def send(self, data):
        """Sends all of it."""
        self.socket.sendall(data)

    def take(self, count):
        """Returns the next so many bytes, or those up to the end."""
        while len(self.left) < count:
            more = self.socket.recv(1 << 16)
            if not more:
                break
            self.left += more
        taken, self.left = self.left[:count], self.left[count:]
        return taken

    def take_to(self, end):
        """Returns what comes up to some bytes and with them, or up to the end."""
        while end not in self.left:
            more = self.socket.recv(1 << 16)
            if not more:
                taken, self.left = self.left, b""
                return taken
            self.left += more
        at = self.left.index(end) + len(end)
        taken, self.left = self.left[:at], self.left[at:]
        return taken

    def ask(self, data, wanted, what=None):
        """Sends bytes and expects exactly these."""
        self.send(data)
        equal(self.take(len(wanted)), wanted, what or f"the answer to {shortly(data)}")

    def found(self, key):
        """Gets a key; returns its value, or None."""
        self.send(b"get %s\r\n" % key)
        return self.take_found(key)

    def take_found(self, key):
        """Takes the answer to the get of a key that was sent; returns its value, or None."""
        head = self.take_to(b"\r\n")
        if head == b"END\r\n":
            return None
        expect(head.startswith(b"VALUE " + key + b" "), f"not the answer to get {key}: {head}")
        length = int(head.split()[3])
        value = self.take(length + 7)
        expect(value[length:] == b"\r\nEND\r\n", f"not the end of get {key}: {value[length:]}")
        return value[:length]

    def stats(self, word=b""):
        """Returns the lines of a stats command as a table."""
        self.send(b"stats " + word + b"\r\n" if word else b"stats\r\n")
        lines = self.take_to(b"END\r\n").decode().split("\r\n")
        return dict(line.split(" ", 2)[1:] for line in lines if line.startswith("STAT "))

    def is_closed(self):
        """Whether the server ends the connection, with no byte more."""
        try:
            return self.left == b"" and self.socket.recv(1) == b""
        except ConnectionError:
            return True

    def close(self):
        """Closes it."""
        self.socket.close()


def listens(address):
    """Whether somebody listens at an address."""
    try:
        Client(address).close()
        return True
    except OSError:
        return False


class Server:
    """kangarood in a new folder, on a Unix socket in it, or where the words say."""

    def __init__(self, *words, environment=None, has_socket=True, under=(), wait=True, stderr=None):
        self.folder = tempfile.mkdtemp(prefix="kangarood-")
        self.path = f"{self.folder}/socket"
        self.notified = socket.socket(socket.AF_UNIX, socket.SOCK_DGRAM)
        self.notified.bind(f"{self.folder}/notify")
        self.errors = open(f"{self.folder}/errors", "wb+")
        self.words = [PROGRAM["kangarood"], *usual_words(self.folder, words)]
        if has_socket:
            self.words += ["-s", self.path]
        more = {"NOTIFY_SOCKET": f"{self.folder}/notify", **(environment or {})}
        how = {"stdin": subprocess.DEVNULL, "stdout": self.errors, "stderr": self.errors if stderr is None else stderr,
               "env": {**os.environ, **more}}
        self.process = subprocess.Popen([*under, *self.words], **how)
        self.is_ready = self.wait_ready() if wait else None

    def wait_ready(self):
        """Waits until it tells that it serves; False: it ended before."""
        ends = time.monotonic() + PATIENCE
        while time.monotonic() < ends:
            if select.select([self.notified], [], [], 0.02)[0]:
                return self.notified.recv(100) == b"READY=1"
            if self.process.poll() is not None:
                return False
        raise AssertionError("the server neither serves nor ends")

    def client(self):
        """A new client on its socket."""
        return Client(self.path)

    def greeted(self, number):
        """So many new clients, each of which was answered, so the server has them all."""
        clients = [self.client() for _ in range(number)]
        for client in clients:
            client.ask(b"mn\r\n", b"MN\r\n")
        return clients

    def said(self):
        """What it told so far."""
        return pathlib.Path(f"{self.folder}/errors").read_text(encoding="utf-8", errors="replace")

    def kib(self, name="RssAnon"):
        """A number of its memory, in KiB."""
        lines = pathlib.Path(f"/proc/{self.process.pid}/status").read_text(encoding="ascii").splitlines()
        return int(next(it for it in lines if it.startswith(name + ":")).split()[1])

    def descriptors(self):
        """Where its descriptors lead. One that it has closed since they were listed is left out."""
        found = []
        for name in os.listdir(f"/proc/{self.process.pid}/fd"):
            with contextlib.suppress(FileNotFoundError):
                found.append(os.readlink(f"/proc/{self.process.pid}/fd/{name}"))
        return found

    def stop(self, by=signal.SIGTERM):
        """Ends it, and returns its status."""
        if self.process.poll() is None:
            self.process.send_signal(by)
        return self.process.wait(PATIENCE)

    def remove(self):
        """Ends it if it runs, and removes its folder."""
        if self.process.poll() is None:
            self.process.kill()
            self.process.wait()
        self.errors.close()
        self.notified.close()
        shutil.rmtree(self.folder, ignore_errors=True)


def usual_words(folder, words):
    """The words of a small server, but for those that a test gives itself."""
    usual = ["--folder", folder, "--sparse"]
    usual += [] if "--flash" in words else ["--flash", "8M"]
    usual += ["-u", "root"] if os.geteuid() == 0 and "-u" not in words else []
    return [*usual, *words]


@contextlib.contextmanager
def server(*words, **how):
    """A server for a test. It has to end well when the test is over."""
    it = Server(*words, **how)
    try:
        expect(it.is_ready, f"it serves: {it.said()}")
        yield it
        equal(it.stop(), 0, f"the status after SIGTERM, having said {it.said()}")
    finally:
        it.remove()


def run_words(*words, environment=None):
    """Runs the program on words that it refuses or answers at once; returns its status and what it said."""
    ran = subprocess.run([PROGRAM["kangarood"], *words], stdin=subprocess.DEVNULL, stdout=subprocess.PIPE, stderr=subprocess.STDOUT,
                         env={**os.environ, **(environment or {})}, timeout=PATIENCE, check=False)
    return ran.returncode, ran.stdout.decode()
