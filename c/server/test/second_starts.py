"""Two starts on one socket, one folder, one pid file: the second harms nothing of the first, and an end removes only what is its own."""
import contextlib
import fcntl
import os
import pathlib
import pwd
import shutil
import signal
import socket
import stat
import subprocess
import tempfile
import threading
import time

from harness import IS_QUICK, PATIENCE, PROGRAM, Client, Server, Skipped, equal, expect, free_port, listens, shows, usual_words, wait_for

ENDS = (signal.SIGTERM, signal.SIGKILL)
HELLO = (b"set a 0 0 1\r\nx\r\nget a\r\n", b"STORED\r\nVALUE a 0 1\r\nx\r\nEND\r\n")


@contextlib.contextmanager
def room():
    """A new folder for sockets and pid files."""
    path = tempfile.mkdtemp(prefix="kangarood-room-")
    try:
        yield path
    finally:
        shutil.rmtree(path, ignore_errors=True)


@contextlib.contextmanager
def started(*words, **how):
    """A server that may end in a test, where the words say."""
    it = Server(*words, has_socket=False, **how)
    try:
        yield it
    finally:
        it.remove()


def words_at(path, folder=None):
    """The words for a socket and a pid file in a folder."""
    return ["-v", "-s", f"{path}/socket", "-P", f"{path}/pid", *(["--folder", folder] if folder else [])]


def state_of(path):
    """Which files a folder has, by name, and what the pid file says."""
    found = {name: os.lstat(f"{path}/{name}").st_ino for name in os.listdir(path)}
    return found, pathlib.Path(f"{path}/pid").read_text(encoding="ascii")


def is_served(address):
    """A client is served there."""
    client = Client(address)
    client.ask(*HELLO)
    client.close()


def refused(wanted, *words):
    """A start that has to be refused, saying this."""
    with started(*words) as it:
        equal((it.is_ready, it.process.wait(PATIENCE)), (False, 71), f"a second start: {it.said()}")
        expect(wanted in it.said(), f"it said {it.said()!r}, and not {wanted!r}")


@shows("a second start on the socket, the folder, the port or the pid file of a server is refused by name and leaves all of it as it was")
def second_starts():
    with room() as at, started(*words_at(at)) as first:
        expect(first.is_ready, first.said())
        before = state_of(at)
        for wanted, words in (
            ("another server listens there; end it, or give another file", words_at(at)),
            ("another server listens there; end it, or give another file", words_at(at, first.folder)),
            ("another cache has this folder; give each server a --folder", ["-s", f"{at}/other", "-P", f"{at}/pid", "--folder", first.folder]),
            ("-s /nowhere/socket: No such file or directory", ["-s", "/nowhere/socket", "-P", f"{at}/pid"]),
        ):
            refused(wanted, *words)
            equal(state_of(at), before, f"the files of the first after {words}")
            is_served(f"{at}/socket")
        equal(first.stop(), 0, "the status")
        equal(os.listdir(at), [], "what is left")
    with room() as at, started("-p", str(port := free_port()), "-P", f"{at}/pid") as first:
        expect(first.is_ready, first.said())
        before = state_of(at)
        refused("Address already in use", "-p", str(port), "-P", f"{at}/pid")
        equal(state_of(at), before, "the pid file")
        is_served(("127.0.0.1", port))


def start_at_once(words_of_each):
    """Starts a server for each list of words, all at once."""
    servers = []

    def start(words):
        servers.append(Server(*words, has_socket=False))

    threads = [threading.Thread(target=start, args=(words,)) for words in words_of_each]
    for thread in threads:
        thread.start()
    for thread in threads:
        thread.join()
    return servers


@shows("of many starts at once on one socket, folder and pid file one serves, by all of its files, and the others are refused")
def many_starts():
    with room() as at, room() as folder:
        servers = start_at_once([words_at(at, folder)] * 8)
        try:
            ready = [it for it in servers if it.is_ready]
            equal((len(servers), len(ready)), (8, 1), "how many there are, and how many serve")
            is_served(f"{at}/socket")
            equal(state_of(at)[1], f"{ready[0].process.pid}\n", "the pid file")
            equal(sorted(os.listdir(at)), ["pid", "socket"], "the files")
        finally:
            for it in servers:
                it.remove()


@shows("of many starts at once on what a killed server left of a socket, each with a folder of its own, one serves, and it is reached")
def many_starts_on_a_dead_socket():
    for _ in range(3 if IS_QUICK else 20):
        with room() as at, started("-s", f"{at}/socket") as dead:
            expect(dead.is_ready, dead.said())
            dead.stop(signal.SIGKILL)
            servers = start_at_once([["-s", f"{at}/socket"]] * 8)
            try:
                ready = [it for it in servers if it.is_ready]
                equal((len(servers), len(ready)), (8, 1), "how many there are, and how many serve")
                client = Client(f"{at}/socket")
                equal(client.stats()["pid"], str(ready[0].process.pid), "who is reached")
            finally:
                for it in servers:
                    it.remove()


@shows("what a killed server left is taken over: its socket, its folder and its pid file")
def after_a_kill():
    with room() as at, room() as folder, started(*words_at(at, folder)) as first:
        expect(first.is_ready, first.said())
        first.stop(signal.SIGKILL)
        equal(sorted(os.listdir(at)), ["pid", "socket"], "what it left")
        with started(*words_at(at, folder)) as second:
            expect(second.is_ready, second.said())
            is_served(f"{at}/socket")
            equal(state_of(at)[1], f"{second.process.pid}\n", "the pid file")
            equal(second.stop(), 0, "the status")
            equal(os.listdir(at), [], "what is left")


@shows("two servers that came to one socket file and pid file, in all orders of their ends: none removes what the other has made")
def each_its_own():
    for by in ENDS:
        for is_first in (True, False):
            with room() as at, started(*words_at(at)) as first:
                expect(first.is_ready, first.said())
                os.unlink(f"{at}/socket")  # as somebody does who thinks that it is dead
                with started(*words_at(at)) as second:
                    expect(second.is_ready, second.said())
                    before = state_of(at)
                    equal(before[1], f"{second.process.pid}\n", "the pid file is that of the later start")
                    ends_first, ends_last = (first, second) if is_first else (second, first)
                    equal(ends_first.stop(by), 0 if by == signal.SIGTERM else -by, "the status")
                    if is_first:
                        equal(state_of(at), before, "the files of the second after the first has ended")
                        is_served(f"{at}/socket")
                        expect(by == signal.SIGKILL or "it is another's by now" in first.said(), first.said())
                    equal(ends_last.stop(), 0, "the status")
                    left = ["pid", "socket"] if by == signal.SIGKILL and not is_first else []
                    equal(sorted(os.listdir(at)), left, "what is left")


@shows("what is no socket of a dead server is not taken from -s: a file, a link, a socket of another kind, one that may not be asked")
def not_a_dead_socket():
    with room() as at:
        path = f"{at}/socket"
        pathlib.Path(path).write_text("mine", encoding="ascii")
        refused(f"-s {path}: Address already in use", "-s", path)
        equal(pathlib.Path(path).read_text(encoding="ascii"), "mine", "a file")
        os.rename(path, f"{at}/file")
        os.symlink(f"{at}/file", path)
        refused(f"-s {path}: Address already in use", "-s", path)
        expect(os.path.islink(path), "a link")
        os.unlink(path)
        with socket.socket(socket.AF_UNIX, socket.SOCK_DGRAM) as other:
            other.bind(path)
            refused("nobody knows whether a server has this socket: Protocol wrong type for socket; remove it, or give another file", "-s", path)
            expect(stat.S_ISSOCK(os.stat(path).st_mode), "a socket of datagrams")
            os.unlink(path)
        with socket.socket(socket.AF_UNIX) as other:
            other.bind(path)
            other.listen(0)
            waiting = [socket.socket(socket.AF_UNIX) for _ in range(2)]
            for it in waiting:
                it.setblocking(False)
                it.connect_ex(path)
            refused("another server listens there", "-s", path)
            for it in waiting:
                it.close()


def with_a_link(*under, owner=None):
    """A server whose -P is a link to a file of somebody: the link goes, the file stays."""
    with room() as at:
        victim, link = f"{at}/victim", f"{at}/pid"
        pathlib.Path(victim).write_text("mine", encoding="ascii")
        os.symlink(victim, link)
        os.makedirs(f"{at}/cache")
        for path in (at, f"{at}/cache") if owner else ():
            shutil.chown(path, owner)
        with started("-P", link, "-s", f"{at}/socket", "--folder", f"{at}/cache", under=under, wait=False) as it:
            wait_for(lambda: listens(f"{at}/socket") and not os.path.islink(link), "it serves, and the link is replaced")
            equal(pathlib.Path(victim).read_text(encoding="ascii"), "mine", "what the link led to")
            equal(pathlib.Path(link).read_text(encoding="ascii"), f"{it.process.pid}\n", "the pid file")
            equal(it.stop(), 0, "the status")
            equal(sorted(os.listdir(at)), ["cache", "victim"], "what is left")
            equal(pathlib.Path(victim).read_text(encoding="ascii"), "mine", "what the link led to, after the end")


@shows("-P follows no symbolic link, as the user who starts it and as root")
def no_link():
    with_a_link()


@shows("-P follows no symbolic link as another user than root")
def no_link_as_user():
    if os.geteuid() != 0 or shutil.which("setpriv") is None:
        raise Skipped("root and setpriv")
    with_a_link("setpriv", "--reuid=65534", "--regid=65534", "--clear-groups", owner="nobody")


@shows("-P of a device, a pipe, a folder or no name is refused, and left; and a refused start leaves no file beside it")
def no_plain_pid_file():
    with room() as at:
        os.mkfifo(f"{at}/pipe")
        os.makedirs(f"{at}/folder")
        with contextlib.suppress(PermissionError):  # only root may make a device
            os.mknod(f"{at}/null", stat.S_IFCHR | 0o600, os.makedev(1, 3))
        before = sorted(os.listdir(at))
        for name in [*before, ""]:
            refused(f"-P {at}/{name}: this is no plain file: give another name", "-P", f"{at}/{name}", "-s", f"{at}/socket")
        refused("--folder /nowhere: No such file or directory", "-P", f"{at}/pid", "-s", f"{at}/socket", "--folder", "/nowhere")
        equal(sorted(os.listdir(at)), before, "what is left")


def low_port():
    """A port below 1024 that nobody has."""
    for port in range(1023, 900, -1):
        with contextlib.suppress(OSError), socket.socket() as it:
            it.bind(("127.0.0.1", port))
            return port
    raise Skipped("a free port below 1024")


@shows("started by root with -u: a port below 1024, and a pid file in a folder of root's; the cache's files are the user's; what cannot be "
       "removed at the end is said")
def as_root():
    if os.geteuid() != 0:
        raise Skipped("root")
    with room() as at:
        os.chmod(at, 0o755)
        for name in ("cache", "run"):
            os.makedirs(f"{at}/{name}")
        shutil.chown(f"{at}/cache", "nobody")
        for words, address in (((), f"{at}/run/socket"), (("-p", str(port := low_port())), ("127.0.0.1", port))):
            where = words or ("-s", address)
            with started("-v", "-u", "nobody", "--folder", f"{at}/cache", "-P", f"{at}/run/pid", *where, wait=False) as it:
                wait_for(lambda: listens(address) and os.path.exists(f"{at}/run/pid"), "it serves")  # noqa: B023
                is_served(address)
                owners = {os.stat(f"{at}/cache/{name}").st_uid for name in os.listdir(f"{at}/cache")}
                equal(owners, {pwd.getpwnam("nobody").pw_uid}, "the owner of the cache's files")
                equal(os.stat(f"{at}/run/pid").st_uid, 0, "the owner of the pid file")
                for word in ("Uid", "Gid"):
                    line = pathlib.Path(f"/proc/{it.process.pid}/status").read_text(encoding="ascii").split(f"{word}:")[1].split("\n")[0]
                    expect("0" not in line.split(), f"it is not root any more: {word} {line}")
                equal(it.stop(), 0, "the status")
                expect(f"-P {at}/run/pid: Permission denied" in it.said(), it.said())


@shows("-d: the socket and the pid file are those of the process that goes on, and a second start with -d is refused and leaves them")
def daemons():
    with room() as at, room() as folder:
        words = [PROGRAM["kangarood"], *usual_words(folder, ()), "-d", "-P", f"{at}/pid", "-s", f"{at}/socket"]
        equal(subprocess.run(words, timeout=PATIENCE, check=False).returncode, 0, "the status")
        pid = int(pathlib.Path(f"{at}/pid").read_text(encoding="ascii"))
        try:
            before = state_of(at)
            again = subprocess.run(words, stderr=subprocess.PIPE, timeout=PATIENCE, check=False)
            equal(again.returncode, 71, "the status of a second start")
            expect(b"another server listens there" in again.stderr, again.stderr)
            equal(state_of(at), before, "the files of the first")
            is_served(f"{at}/socket")
        finally:
            os.kill(pid, signal.SIGTERM)
        wait_for(lambda: not os.listdir(at), "it ends and removes its files")


@shows("while another start has the folder of a Unix socket, one waits for it, though not for ever")
def waits_for_another_start():
    folder = tempfile.mkdtemp(prefix="kangarood-room-")
    opened = os.open(folder, os.O_RDONLY | os.O_DIRECTORY)
    fcntl.flock(opened, fcntl.LOCK_SH)
    began = time.monotonic()
    it = Server("-s", f"{folder}/socket", has_socket=False)
    try:
        expect(it.is_ready, it.said())
        expect(time.monotonic() - began >= 0.2, f"it serves after {time.monotonic() - began:.2f} s, and did not wait for the other")
        equal(it.stop(), 0, "the status")
    finally:
        it.remove()
        os.close(opened)
        shutil.rmtree(folder, ignore_errors=True)
