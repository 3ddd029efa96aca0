"""Lines on standard error: nobody waits for one who does not read them, and one who reads them gets them all."""
import os
import pty
import re
import socket
import threading

from harness import Server, equal, expect, shows, wait_for

ANSWER = b"VALUE a 0 1\r\nx\r\nEND\r\n"
LINE = re.compile(rb"kangarood: (info: .*|warning: .*|debug: [<>]\d+ .*)")
LOST = re.compile(rb"kangarood: warning: (\d+) lines were not written: nobody read them in time")
MANY_LOST = re.compile(LOST.pattern.replace(rb"\d+", rb"\d{4,}"))  # a busy machine may lose some before the pipe is full


def ends_of(kind):
    """The two ends of a pipe, of a terminal or of a pair of sockets: the one that is read, and the one for standard error."""
    if kind == "a pipe":
        return os.pipe()
    if kind == "a terminal":
        return pty.openpty()
    return [it.detach() for it in socket.socketpair()]


def ask_for_lines(client, gets):
    """Makes a client have each step told, and makes steps."""
    client.socket.settimeout(10)
    client.ask(b"set a 0 0 1\r\nx\r\nverbosity 2\r\n", b"STORED\r\nOK\r\n")
    for _ in range(gets // 500):
        client.ask(b"get a\r\n" * 500, ANSWER * 500, "gets while nobody reads standard error")


def take_lines(end, until):
    """Reads lines until one is as wanted, or all that there are."""
    text = b""
    while not re.search(until, text):
        more = os.read(end, 1 << 16)
        if not more:
            break
        text += more
    return text.replace(b"\r\n", b"\n")


@shows("standard error that nobody reads, a pipe, a terminal or a socket, stops no client from being served, nor the end; what is lost is counted")
def nobody_reads():
    for kind in ("a pipe", "a terminal", "a pair of sockets"):
        reads, writes = ends_of(kind)
        it = Server("-t", "2", stderr=writes)
        os.close(writes)
        try:
            expect(it.is_ready, f"it serves, with {kind}")
            first, other = it.client(), it.client()
            ask_for_lines(first, 20_000)
            other.ask(b"get a\r\n", ANSWER, f"another client, with {kind} that nobody reads")
            other.ask(b"verbosity 0\r\n", b"OK\r\n")
            text = take_lines(reads, MANY_LOST)
            lines = text.split(b"\n")
            expect(all(LINE.fullmatch(line) for line in lines[:-1]), f"whole lines, with {kind}")
            told = len([line for line in lines if re.fullmatch(rb"kangarood: debug: <\d+ a", line)])
            expect(1000 < told < 20_001 and int(MANY_LOST.search(text)[1]) > 1000, f"{told} gets were told, with {kind}")
            ask_for_lines(first, 20_000)
            equal(it.stop(), 0, f"the status, with {kind} that nobody reads")
        finally:
            it.remove()
            os.close(reads)


@shows("lines that are lost are counted in their place: up to it none is missing, and none comes before its turn")
def lost_in_their_place():
    reads, writes = os.pipe()
    it = Server("-t", "1", stderr=writes)
    os.close(writes)
    try:
        client = it.client()
        client.ask(b"verbosity 2\r\n", b"OK\r\n")
        for first in range(0, 20_000, 500):
            asked = [b"get k%d%s\r\n" % (number, b"x" * 200) for number in range(first, first + 500)]
            client.ask(b"".join(asked), b"END\r\n" * 500)
        client.ask(b"verbosity 0\r\n", b"OK\r\n")
        text = take_lines(reads, LOST)
        said = [line.split(b" ", 3)[3] for line in text[: LOST.search(text).start()].splitlines()]
        said = said[said.index(b"get ") :]
        for at, line in enumerate(said):
            wanted = (b"get ", b"k%dxxx" % (at // 4), b"", b"END")[at % 4]
            expect(line.startswith(wanted) and (wanted or not line), f"line {at} before the count of those that were lost: {line}")
        expect(len(said) > 1000, f"{len(said)} lines")
        equal(it.stop(), 0, "the status")
    finally:
        it.remove()
        os.close(reads)


@shows("who reads standard error gets each line, whole and in order, up to the last")
def somebody_reads():
    for kind in ("a pipe", "a pair of sockets"):
        reads, writes = ends_of(kind)
        it = Server("-v", stderr=writes)
        os.close(writes)
        got = []
        reader = threading.Thread(target=lambda: got.append(take_lines(reads, rb"ends by .*\n")))
        reader.start()
        try:
            client = it.client()
            client.ask(b"verbosity 2\r\n", b"OK\r\n")
            for number in range(1000):
                client.ask(b"get k%d\r\n" % number, b"END\r\n")
            equal(it.stop(), 0, "the status")
            reader.join(10)
            asked = re.findall(rb"<\d+ k(\d+)\n", got[0])
            equal([int(number) for number in asked], list(range(1000)), f"the gets that were told, with {kind}")
            expect(got[0].startswith(b"kangarood: info: serves\n") and b"kangarood: info: ends by Terminated\n" in got[0], got[0][-200:])
        finally:
            it.remove()
            reader.join(10)
            os.close(reads)


@shows("lines on standard error that is gone are lost, and clients are served")
def nobody_is_there():
    reads, writes = os.pipe()
    it = Server("-vv", stderr=writes)
    os.close(writes)
    os.close(reads)
    try:
        client = it.client()
        client.ask(b"set a 0 0 1\r\nx\r\n" + b"get a\r\n" * 1000, b"STORED\r\n" + ANSWER * 1000)
        wait_for(lambda: client.stats()["curr_connections"] == "1", "it serves")
        equal(it.stop(), 0, "the status")
    finally:
        it.remove()
