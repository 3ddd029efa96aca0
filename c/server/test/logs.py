"""--log: each line with a time and a level, and SIGHUP."""
import contextlib
import datetime
import os
import pathlib
import re
import resource
import shutil
import signal
import subprocess
import tempfile

from harness import PATIENCE, PROGRAM, Client, Server, Skipped, all_at_once, equal, expect, server, shows, usual_words, wait_for

LINE = re.compile(r"(\d{4}-\d\d-\d\dT\d\d:\d\d:\d\d\.\d{3}Z) (error|warning|info|debug) (.*)")


def read_log(path):
    """The lines of a log, each as its time, level and text."""
    lines = pathlib.Path(path).read_text(encoding="utf-8", errors="replace").splitlines()
    for line in lines:
        expect(LINE.fullmatch(line), f"a line of the log: {line}")
    return [LINE.fullmatch(line).groups() for line in lines]


def moment_of(time):
    """Seconds since 1970 of a time in UTC."""
    return datetime.datetime.strptime(time, "%Y-%m-%dT%H:%M:%S.%fZ").replace(tzinfo=datetime.timezone.utc).timestamp()


@contextlib.contextmanager
def room():
    """A folder for logs."""
    with tempfile.TemporaryDirectory(prefix="kangarood-logs-") as folder:
        os.chmod(folder, 0o777)
        yield folder


@shows("--log: what goes to standard error is in the file, each line with its time in UTC and its level, in order; standard error has nothing")
def lines_of_log():
    began = datetime.datetime.now().timestamp()
    with room() as folder:
        log = f"{folder}/log"
        with server("-vv", "--log", log, environment={"TZ": "Asia/Tokyo"}) as it:
            clients = [it.client() for _ in range(4)]
            all_at_once([lambda client=client: client.ask(b"mn\r\n" * 200, b"MN\r\n" * 200) for client in clients])
            clients[0].ask(b"set a 0 0 1\r\nx\r\n", b"STORED\r\n")
            equal(it.said(), "", "standard error")
        lines = read_log(log)
        texts = {(level, re.sub(r"^([<>])\d+", r"\1N", text)) for _, level, text in lines}
        for wanted in (("info", "serves"), ("debug", "<N new client connection"), ("debug", "<N set a 0 0 1"), ("debug", ">N STORED"),
                       ("info", "ends by Terminated")):
            expect(wanted in texts, f"no line {wanted}")
        equal({level for _, level, text in lines if text[0] in "<>"}, {"debug"}, "the level of each step")
        times = [moment_of(time) for time, _, _ in lines]
        expect(times == sorted(times) and began - 0.01 <= times[0] and times[-1] <= datetime.datetime.now().timestamp(), "the times")
        equal(os.stat(log).st_mode & 0o777, 0o600, "the mode of the file")


@shows("without --log each line has its level")
def levels_of_errors():
    with server("-vv", "-f", "2", "-c", "1") as it:
        first = it.client()
        first.ask(b"mn\r\n", b"MN\r\n")
        it.client().take_to(b"\r\n")
        said = it.said()
        for wanted in ("warning: -f, --slab-growth-factor: taken", "info: serves\n", "warning: a client was refused: 1 are connected", "debug: <"):
            expect(f"kangarood: {wanted}" in said, f"no {wanted!r} in {said!r}")
        expect(all(re.match(r"kangarood: (error|warning|info|debug): ", line) for line in said.splitlines()), said)


@shows("SIGHUP opens the log anew: after a rename the next line is in the new file, and each line is in one file, once, while clients are served")
def log_is_renamed():
    with room() as folder:
        log, clients, rounds, asked = f"{folder}/log", 4, 12, 100
        with server("-vv", "-t", "2", "--log", log) as it:
            every = it.greeted(clients)
            for turn in range(rounds):
                gets = [[b"get c%dt%dn%d\r\n" % (number, turn, at) for at in range(asked)] for number in range(clients)]
                sends = [lambda client=client, all_of=all_of: client.ask(b"".join(all_of), b"END\r\n" * asked) for client, all_of in zip(every, gets)]
                all_at_once([*sends, lambda turn=turn: rename_log(it, log, f"{log}.{turn}")])
                every[0].ask(b"get next%d\r\n" % turn, b"END\r\n")
                told = [text for _, _, text in read_log(log)]
                expect(any(text.endswith(f" next{turn}") or text.endswith(f" get next{turn}") for text in told), "the next line is in the new file")
        texts = [text for path in sorted(os.listdir(folder)) for _, _, text in read_log(f"{folder}/{path}")]
        found = sorted(re.findall(r"\bc\d+t\d+n\d+\b", "\n".join(texts)))
        wanted = sorted(f"c{number}t{turn}n{at}" for number in range(clients) for turn in range(rounds) for at in range(asked))
        equal(found, wanted, "the gets that were told")
        equal(len([text for text in texts if text == f"--log {log}: opened anew"]), rounds, "how often it was opened anew")


def rename_log(it, log, to):
    """What logrotate does: renames the log, and has it opened anew."""
    os.rename(log, to)
    it.process.send_signal(signal.SIGHUP)
    wait_for(lambda: os.path.exists(log), "the log is opened anew")
    wait_for(lambda: os.stat(log).st_size != 0, "its first line")


@shows("a log that can't be opened at SIGHUP: the old one is gone on with, a line says why, and the next SIGHUP opens it")
def log_is_kept():
    with room() as folder:
        log, old = f"{folder}/log", f"{folder}/old"
        with server("-v", "--log", log) as it:
            os.rename(log, old)
            os.mkdir(log)
            it.process.send_signal(signal.SIGHUP)
            wanted = ("warning", f"--log {log}: not opened anew, and the old file is gone on with: Is a directory")
            wait_for(lambda: wanted in [line[1:] for line in read_log(old)], f"the line {wanted}")
            os.rmdir(log)
            os.mkfifo(log)
            it.process.send_signal(signal.SIGHUP)
            wait_for(lambda: "No such device or address" in read_log(old)[-1][2], "a pipe is not waited for")
            it.client().ask(b"mn\r\n", b"MN\r\n")
            os.unlink(log)
            it.process.send_signal(signal.SIGHUP)
            wait_for(lambda: os.path.exists(log) and read_log(log), "it is opened")
            equal([read_log(log)[0][1:], len(read_log(old))], [("info", f"--log {log}: opened anew"), 3], "the lines of both")
            expect(f"{log}" in it.descriptors() and old not in it.descriptors(), "the old file is closed")


@shows("SIGHUP without --log is ignored, also for one that is told all")
def no_log():
    with server("-vv") as it:
        it.process.send_signal(signal.SIGHUP)
        it.client().ask(b"mn\r\n", b"MN\r\n")
        expect("log" not in it.said(), it.said())


def refused_log(path, wanted, *words):
    """Starts a server whose log is refused."""
    it = Server("--log", path, *words)
    try:
        expect(it.is_ready is False, f"it serves: {it.said()}")
        equal(it.process.wait(PATIENCE), 71, "the status")
        equal(it.said(), f"kangarood: error: --log {path}: {wanted}\n", "what it said")
    finally:
        it.remove()


@shows("a log that can't be opened at the start is refused by name: no folder, a folder, a pipe, a device, and what the user of -u can't write")
def log_is_refused():
    with room() as folder:
        os.mkfifo(f"{folder}/pipe")
        refused_log("/nowhere/log", "No such file or directory")
        refused_log(folder, "Is a directory")
        refused_log(f"{folder}/pipe", "No such device or address")
        refused_log("/dev/null", "it is no plain file")
        if os.geteuid() == 0:
            os.chmod(folder, 0o755)
            refused_log(f"{folder}/log", "Permission denied", "-u", "nobody")


@shows("started by root, the log is the user's of -u, who opens it anew")
def log_of_user():
    if os.geteuid() != 0:
        raise Skipped("root")
    with room() as folder:
        log, files = f"{folder}/log", f"{folder}/files"
        os.mkdir(files)
        shutil.chown(files, "nobody")
        words = [PROGRAM["kangarood"], "--folder", files, "--sparse", "--flash", "8M", "-v", "-u", "nobody", "-s", f"{files}/s", "--log", log]
        it = subprocess.Popen(words)
        try:
            wait_for(lambda: os.path.exists(log) and "info serves" in pathlib.Path(log).read_text(encoding="ascii"), "it serves")
            os.rename(log, f"{log}.1")
            it.send_signal(signal.SIGHUP)
            wait_for(lambda: os.path.exists(log), "it is opened anew")
            equal({os.stat(path).st_uid for path in (log, f"{log}.1")}, {os.stat(files).st_uid}, "whose the files are")
        finally:
            it.terminate()
            equal(it.wait(PATIENCE), 0, "status")


@shows("a start that is refused says why in the log and on standard error; -d has its lines in the log and leaves the terminal")
def log_of_daemon():
    with room() as folder, server() as other:
        log, files = f"{folder}/log", f"{folder}/files"
        os.mkdir(files)
        words = [PROGRAM["kangarood"], "-d", "-v", "--log", log, "-P", f"{files}/pid"]
        refused = subprocess.run([*words, *usual_words(other.folder, ()), "-s", f"{files}/s"], stderr=subprocess.PIPE, timeout=PATIENCE, check=False)
        equal(refused.returncode, 71, "the status of one that is refused its folder")
        expect(b"kangarood: error: --folder" in refused.stderr and b"another cache has this folder" in refused.stderr, refused.stderr)
        expect(read_log(log)[-1][1] == "error" and "another cache has this folder" in read_log(log)[-1][2], "the log")
        began = subprocess.run([*words, *usual_words(files, ()), "-s", f"{files}/s"], stderr=subprocess.PIPE, timeout=PATIENCE, check=False)
        equal((began.returncode, began.stderr), (0, b""), "the start")
        pid = int(pathlib.Path(f"{files}/pid").read_text(encoding="ascii"))
        try:
            Client(f"{files}/s").ask(b"mn\r\n", b"MN\r\n")
            wait_for(lambda: read_log(log)[-1][1:] == ("info", "serves"), "its line")
            leads = [os.readlink(f"/proc/{pid}/fd/{fd}") for fd in range(3)]
            equal(leads, ["/dev/null", "/dev/null", log], "where its first descriptors lead")
        finally:
            os.kill(pid, signal.SIGTERM)
            wait_for(lambda: not os.path.exists(f"/proc/{pid}/exe"), "it ends")
        lines = read_log(log)
        equal(lines[-1][1:], ("info", "ends by Terminated"), "its last line")
        expect("another cache has this folder" in lines[0][2], f"the lines of before are kept: {lines}")


def limit_files(it, most):
    """Has the system take no byte of a file of the server beyond these; None: it takes all."""
    _, hard = resource.prlimit(it.process.pid, resource.RLIMIT_FSIZE)
    resource.prlimit(it.process.pid, resource.RLIMIT_FSIZE, (hard if most is None else most, hard))


@shows("lines that the system does not take, since the disk is full, stop no client; they are counted in their place, and one cut short is ended")
def log_without_room():
    with room() as folder:
        log = f"{folder}/log"
        with server("-v", "-c", "1", "--log", log, under=("sh", "-c", 'trap "" XFSZ; exec "$@"', "sh")) as it:
            client = it.client()
            client.ask(b"mn\r\n", b"MN\r\n")
            before = os.stat(log).st_size
            limit_files(it, before + 10)
            for _ in range(5):
                it.client().take_to(b"\r\n")
            client.ask(b"mn\r\n", b"MN\r\n")
            equal(os.stat(log).st_size, before + 10, "the size of the log")
            limit_files(it, None)
            it.client().take_to(b"\r\n")
            wait_for(lambda: os.stat(log).st_size > before + 100, "lines are written again")
        text = pathlib.Path(log).read_text(encoding="ascii")
        cut, *lines = text[before:].splitlines()
        equal(len(cut), 10, "the line that was cut")
        told = [LINE.fullmatch(line).groups()[1:] for line in lines]
        wanted = ("warning", "a client was refused: 1 are connected (-c)")
        equal(told, [("warning", "5 lines were not written: File too large"), wanted, ("info", "ends by Terminated")], "what follows")
