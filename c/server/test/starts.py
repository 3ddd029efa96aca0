"""Start and stop: signals, files, systemd, a daemon, users."""
import os
import pathlib
import pwd
import shutil
import signal
import socket
import stat
import subprocess
import tempfile
import time

from harness import PATIENCE, PROGRAM, Client, Server, Skipped, equal, expect, free_port, listens, run_words, server, shows, usual_words, wait_for


@shows("SIGTERM, SIGINT and SIGUSR1 end it with status 0, and its socket and pid file are gone; SIGHUP and SIGPIPE do not")
def signals():
    for by in (signal.SIGTERM, signal.SIGINT, signal.SIGUSR1):
        it = Server("-P", "/tmp/kangarood-test.pid")
        try:
            expect(it.is_ready, it.said())
            client = it.client()
            pid_file = pathlib.Path("/tmp/kangarood-test.pid")
            equal(pid_file.read_text(encoding="ascii"), f"{it.process.pid}\n", "the pid file")
            for ignored in (signal.SIGHUP, signal.SIGPIPE):
                it.process.send_signal(ignored)
            client.ask(b"set a 0 0 1\r\nx\r\n", b"STORED\r\n")
            equal(it.stop(by), 0, f"the status after {by.name}")
            expect(client.is_closed(), "its client is closed")
            expect(not pid_file.exists() and not os.path.exists(it.path), "its files are gone")
            equal(it.notified.recv(100), b"STOPPING=1", "what systemd is told")
        finally:
            it.remove()


@shows("what a client gets up to the end is the front of its answers, each whole or cut, and none twice")
def answers_before_the_end():
    one = b"VALUE v 0 1000\r\n" + b"v" * 1000 + b"\r\nEND\r\n"
    with server() as it:
        client = it.client()
        client.ask(b"set v 0 0 1000\r\n" + b"v" * 1000 + b"\r\n", b"STORED\r\n")
        client.send(b"get v\r\n" * 1000)
        first = client.take(len(one))
        equal(it.stop(), 0, "status")
        expect((one * 1000).startswith(first + client.take(1000 * len(one))), "its answers")


def files_of_cache(it):
    """The files of its cache that a server has open or mapped."""
    mapped = pathlib.Path(f"/proc/{it.process.pid}/maps").read_text(encoding="ascii").split()
    return {name for name in [*it.descriptors(), *mapped] if name.startswith(f"{it.folder}/kangaroo")}


@shows("a server that ends has its cache until its last client is answered, and that one gets the front of its answers")
def cache_to_the_last_answer():
    if PROGRAM["narrow"] is None:
        raise Skipped("a library that has sends wait, which the sanitizers do not allow")
    one, count = b"VALUE v 0 1000\r\n" + b"v" * 1000 + b"\r\nEND\r\n", 1000
    with tempfile.TemporaryDirectory(prefix="kangarood-room-") as at:
        holding = pathlib.Path(f"{at}/hold")
        with server("-v", "-t", "1", environment={"LD_PRELOAD": PROGRAM["narrow"], "HOLD_SENDS": str(holding)}) as it:
            client = it.client()
            client.ask(b"set v 0 0 1000\r\n" + b"v" * 1000 + b"\r\n", b"STORED\r\n")
            before = files_of_cache(it)
            holding.touch()
            client.send(b"get v\r\n" * count)
            wait_for(lambda: os.path.exists(f"{holding}.held"), "an answer is about to be sent")
            it.process.send_signal(signal.SIGTERM)
            wait_for(lambda: "ends by" in it.said(), "the server is to end")
            time.sleep(0.3)
            equal(files_of_cache(it), before, "the files of the cache while a client is answered")
            holding.unlink()
            answers = client.take(count * len(one))
            expect(len(answers) >= len(one) and (one * count).startswith(answers), "its answers")
            equal(it.process.wait(PATIENCE), 0, f"the status, having said {it.said()}")


@shows("the mode of a Unix socket is that of -a, and a socket that a dead server left is replaced")
def socket_mode():
    for mode in ("0700", "0777", "660"):
        with server("-a", mode) as it:
            equal(stat.S_IMODE(os.stat(it.path).st_mode), int(mode, 8), f"-a {mode}")
    it = Server()
    left = it.path
    it.process.kill()
    it.process.wait()
    expect(os.path.exists(left), "a killed server leaves its socket")
    again = Server("-s", left, has_socket=False)
    try:
        expect(again.is_ready, again.said())
        Client(left).ask(b"mn\r\n", b"MN\r\n")
    finally:
        again.remove()
        it.remove()


def refused_start(*words, wanted, status=71, **how):
    """Starts a server that has to end at once, saying this."""
    it = Server(*words, **how)
    try:
        equal((it.is_ready, it.process.wait(PATIENCE)), (False, status), f"it ends: {it.said()}")
        expect(wanted in it.said(), f"it said {it.said()!r}, and not {wanted!r}")
    finally:
        it.remove()


@shows("what a start is refused for is said: folder, folder in use, port in use, socket's path, pid file, host, descriptors")
def refused_starts():
    refused_start("--folder", "/nowhere", wanted="--folder /nowhere: No such file or directory")
    with server() as it:
        refused_start("--folder", it.folder, wanted="another cache has this folder; give each server a --folder of its own")
    port = free_port()
    with server("-p", str(port), has_socket=False):
        refused_start("-p", str(port), has_socket=False, wanted=f"-l 127.0.0.1, port {port}: Address already in use")
    refused_start("-s", "/tmp/" + "x" * 120, has_socket=False, wanted="the path has more than 107 bytes")
    refused_start("-s", "/nowhere/socket", has_socket=False, wanted="-s /nowhere/socket: No such file or directory")
    long = "/" + "x" * 3000
    refused_start("--folder", long, wanted=f"kangarood: error: --folder {long}"[:1022] + "\n")
    refused_start("-P", "/nowhere/pid", wanted="-P /nowhere/pid: No such file or directory")
    refused_start("-l", "[::1", has_socket=False, wanted="-l [::1: give HOST, HOST:PORT or [HOST]:PORT")
    refused_start("-l", "256.1.1.1", has_socket=False, wanted="-l 256.1.1.1: ")


def wrong_file(kind, path, victim):
    """Makes something of somebody's in the place of a file of the cache."""
    if kind == "is no plain file":
        os.symlink(victim, path)
    elif kind == "has another name too":
        os.link(victim, path)
    else:
        pathlib.Path(path).write_text("mine", encoding="ascii")
        os.chmod(path, 0o666)
        os.chown(path, 65534, 65534)


@shows("a file of the folder that somebody made before, a link, one with two names, another user's, is refused by name, with what to do, and left")
def files_of_others():
    kinds = ["is no plain file", "has another name too", *(["belongs to another user"] if os.geteuid() == 0 else [])]
    for name in ("kangaroo.lock", "kangaroo-1.dev"):
        for kind in kinds:
            it = Server(wait=False)
            it.remove()
            os.makedirs(it.folder)
            victim, path = f"{it.folder}/victim", f"{it.folder}/{name}"
            try:
                pathlib.Path(victim).write_text("mine", encoding="ascii")
                wrong_file(kind, path, victim)
                wanted = f"--folder {it.folder}: {name} {kind}; remove it, or give a folder that only this user can write\n"
                refused_start("--folder", it.folder, wanted=wanted)
                equal([pathlib.Path(left).read_text(encoding="ascii") for left in (victim, path)], ["mine", "mine"], "what is left")
            finally:
                shutil.rmtree(it.folder)


@shows("more clients than the system gives descriptors for are refused at the start, by -c")
def too_few_descriptors():
    as_other = ("setpriv", "--reuid=65534", "--regid=65534", "--clear-groups") if os.geteuid() == 0 else ()
    for command in ("prlimit", *as_other[:1]):
        if shutil.which(command) is None:
            raise Skipped(command)
    under = ("prlimit", "--nofile=1024:1024", *as_other)
    refused_start("-c", "5000", under=under, wanted="-c 5000: the system gives fewer descriptors than")


@shows("started by root it asks for -u; a user that is not there is named; and it becomes that user")
def users():
    if os.geteuid() != 0:
        raise Skipped("root")
    status, said = run_words("-s", "/tmp/kangarood-user")
    expect(status == 64 and "-u: started by root, it has to be told whom to become: give -u NAME" in said, said)
    status, said = run_words("-u", "nobody-of-this-name", "-s", "/tmp/kangarood-user")
    equal((status, said), (77, "kangarood: error: -u nobody-of-this-name: there is no such user\n"), "an unknown user")
    it = Server(wait=False)
    it.remove()
    os.makedirs(it.folder)
    shutil.chown(it.folder, "nobody")
    it = subprocess.Popen([PROGRAM["kangarood"], "--folder", it.folder, "--sparse", "--flash", "8M", "-u", "nobody", "-s", f"{it.folder}/s"])
    try:
        wait_for(lambda: listens(it.args[-1]), "it listens")
        Client(it.args[-1]).ask(b"mn\r\n", b"MN\r\n")
        uids = pathlib.Path(f"/proc/{it.pid}/status").read_text(encoding="ascii").split("Uid:")[1].split("\n")[0].split()
        equal(set(uids), {str(pwd.getpwnam("nobody").pw_uid)}, "its user")
    finally:
        it.terminate()
        equal(it.wait(PATIENCE), 0, "status")
        shutil.rmtree(os.path.dirname(it.args[-1]), ignore_errors=True)


@shows("-d: the program ends once clients are served, with status 0, or with the status of a start that failed")
def daemon():
    with server() as other:
        folder = f"{other.folder}/daemon"
        os.makedirs(folder)
        words = [PROGRAM["kangarood"], *usual_words(folder, ()), "-d", "-P", f"{folder}/pid", "-s", f"{folder}/socket"]
        equal(subprocess.run(words, timeout=PATIENCE, check=False).returncode, 0, "the status")
        Client(f"{folder}/socket").ask(b"mn\r\n", b"MN\r\n")
        pid = int(pathlib.Path(f"{folder}/pid").read_text(encoding="ascii"))
        equal(os.getsid(pid), pid, "it has a session of its own")
        again = subprocess.run([*words[:-1], f"{folder}/another"], stderr=subprocess.PIPE, timeout=PATIENCE, check=False)
        equal(again.returncode, 71, "the status of one that is refused its folder")
        expect(b"another cache has this folder" in again.stderr, again.stderr)
        os.kill(pid, signal.SIGTERM)
        wait_for(lambda: not os.path.exists(f"{folder}/socket") and not os.path.exists(f"/proc/{pid}/exe"), "it ends")


def handed_over(listener, words):
    """Starts the program as systemd does, with a socket as descriptor 3."""

    def place():
        os.dup2(listener.fileno(), 3)
        os.set_inheritable(3, True)
        os.environ["LISTEN_PID"] = str(os.getpid())

    start = "import os, sys; os.environ['LISTEN_PID'] = str(os.getpid()); os.execv(sys.argv[1], sys.argv[1:])"
    return subprocess.Popen(["python3", "-c", start, *words], preexec_fn=place, close_fds=False, stderr=subprocess.PIPE,
                            env={**os.environ, "LISTEN_FDS": "1"})


@shows("a socket that systemd hands over is served, and one that does not listen is refused by its number")
def activation():
    with server() as other:
        folder = f"{other.folder}/handed"
        os.makedirs(folder)
        words = [PROGRAM["kangarood"], *usual_words(folder, ())]
        with socket.socket() as listener:
            listener.bind(("127.0.0.1", 0))
            refused = handed_over(listener, words)
            expect(b"descriptor 3 that systemd handed over is no listening stream socket" in refused.communicate()[1], "it says so")
            equal(refused.returncode, 71, "the status")
            listener.listen()
            it = handed_over(listener, words)
            try:
                client = Client(listener.getsockname())
                client.ask(b"set a 0 0 1\r\nx\r\nget a\r\n", b"STORED\r\nVALUE a 0 1\r\nx\r\nEND\r\n")
            finally:
                it.terminate()
                equal(it.wait(PATIENCE), 0, "the status")


@shows("the command shutdown is refused without -A, and ends the server with it")
def shutdown():
    with server() as it:
        client = it.client()
        client.send(b"shutdown\r\n")
        expect(client.take_to(b"\r\n").startswith(b"ERROR"), "without -A")
        client.ask(b"mn\r\n", b"MN\r\n")
    with server("-A") as it:
        it.client().send(b"shutdown\r\n")
        equal(it.process.wait(PATIENCE), 0, "with -A")


@shows("-vv tells each connection and step, and the command verbosity changes that")
def verbose():
    with server("-vv") as it:
        client = it.client()
        client.ask(b"set a 0 0 1\r\nx\r\nverbosity 0\r\nget a\r\n", b"STORED\r\nOK\r\nVALUE a 0 1\r\nx\r\nEND\r\n")
        said = it.said()
        expect("new client connection" in said and " set a 0 0 1" in said and " STORED" in said, said)
        expect("VALUE" not in said, "after verbosity 0 nothing more is told")
        lengths = (99, 101, 102, 250)
        client.ask(b"verbosity 2\r\n" + b"".join(b"get " + b"k" * it + b"\r\n" for it in lengths), b"OK\r\n" + b"END\r\n" * len(lengths))
        told = [line.split(" ", 3)[3] for line in it.said().splitlines() if "kkk" in line]
        equal(told, ["k" * 99] + ["k" * 100 + ".."] * 3, "keys that are told, of which 100 bytes are")
        client.ask(b"get " + b"k " * 60 + b"\r\nmn\r\n", b"END\r\nMN\r\n")
