"""The wall clock is set back or ahead while the server runs: what it promises goes by a clock that nobody sets."""
import contextlib
import os
import struct
import tempfile
import time

from harness import PROGRAM, Server, Skipped, equal, expect, shows, wait_for

HOUR, DAY = 3600, 86400
STEPS = [-5, -HOUR, -DAY, 5, HOUR, DAY]


class Stepped(Server):
    """A server whose wall clock a test can set."""

    def __init__(self, *words, start=0):
        if PROGRAM["stepper"] is None:
            raise Skipped("a library that steps the clock, which the sanitizers do not allow")
        self.file = f"{tempfile.gettempdir()}/kangarood-step-{os.getpid()}-{time.monotonic_ns()}"
        self.step(start)
        super().__init__(*words, environment={"LD_PRELOAD": PROGRAM["stepper"], "STEP_FILE": self.file})

    def step(self, seconds):
        """Sets the clock so many seconds ahead of the machine's."""
        with open(self.file, "r+b" if os.path.exists(self.file) else "wb") as file:
            file.write(struct.pack("q", seconds))

    def remove(self):
        """Ends it, and removes its files."""
        super().remove()
        os.unlink(self.file)


@contextlib.contextmanager
def one_for_each(steps, *words):
    """A server for each step of the clock, all at once, so that a test waits once."""
    servers = []
    try:
        for step in steps:
            servers.append((Stepped(*words), step))
            expect(servers[-1][0].is_ready, servers[-1][0].said())
        yield [(it, it.client(), step) for it, step in servers]
        for it, step in servers:
            equal(it.stop(), 0, f"the status after a step of {step} s")
    finally:
        for it, _ in servers:
            it.remove()


def seconds_left(client, key):
    """How many seconds an item has left."""
    client.send(b"mg %s t\r\n" % key)
    return int(client.take_to(b"\r\n").split()[1][1:])


@shows("what has expired stays so when the wall clock is set back 5 s, an hour or a day, and what has not stays when it is set ahead")
def expiry():
    with one_for_each(STEPS) as all_of:
        for _, client, step in all_of:
            client.ask(b"set seen 0 2 3\r\nold\r\nset unseen 0 2 3\r\nold\r\nset kept 0 100 4\r\nkept\r\n", b"STORED\r\n" * 3)
            client.ask(b"set dated 0 %d 5\r\ndated\r\nget seen\r\n" % (time.time() + 100), b"STORED\r\nVALUE seen 0 3\r\nold\r\nEND\r\n")
        time.sleep(3.1)
        for it, client, step in all_of:
            client.ask(b"get seen\r\n", b"END\r\n", "expired")
            it.step(step)
            client.ask(b"get seen\r\nget unseen\r\n", b"END\r\nEND\r\n", f"expired, after a step of {step} s")
            for key in (b"kept", b"dated"):
                expect(client.found(key) == key, f"{key} is there after a step of {step} s")
                expect(90 <= seconds_left(client, key) <= 98, f"{key}: what it has left after a step of {step} s")
            client.ask(b"set new 0 2 3\r\nnew\r\nget new\r\n", b"STORED\r\nVALUE new 0 3\r\nnew\r\nEND\r\n", f"new, after {step} s")
        time.sleep(3.1)
        for it, client, step in all_of:
            it.step(0)
            client.ask(b"get new\r\n", b"END\r\n", f"new has expired, {step} s after a step and back")


@shows("a flush_all that is to come is made at its time, neither kept off nor hastened by a step of the wall clock")
def later_flush():
    with one_for_each(STEPS) as all_of, one_for_each(STEPS) as dated:
        for _, client, _ in all_of:
            client.ask(b"set a 0 0 1\r\ny\r\nflush_all 2\r\n", b"STORED\r\nOK\r\n")
        for _, client, _ in dated:
            client.ask(b"set a 0 0 1\r\ny\r\nflush_all %d\r\n" % (time.time() + 2), b"STORED\r\nOK\r\n")
        time.sleep(3.1)
        for it, client, step in [*all_of, *dated]:
            it.step(step)
            client.ask(b"get a\r\n", b"END\r\n", f"flushed, though the clock was set {step} s on")
            it.step(0)
            client.ask(b"set b 0 0 1\r\ny\r\nflush_all 100\r\n", b"STORED\r\nOK\r\n")
            it.step(step)
            client.ask(b"get b\r\n", b"VALUE b 0 1\r\ny\r\nEND\r\n", f"not yet flushed, {step} s on")


@shows("a client is closed for being silent so long, and no sooner, whatever the wall clock says")
def idle():
    with one_for_each(STEPS, "-o", "idle_timeout=60") as patient, one_for_each(STEPS, "-o", "idle_timeout=1") as hasty:
        for it, client, step in [*patient, *hasty]:
            client.ask(b"mn\r\n", b"MN\r\n")
            it.step(step)
        time.sleep(1.2)
        for _, client, step in patient:
            client.ask(b"mn\r\n", b"MN\r\n", f"a client that was silent for 1.2 of 60 s, with a step of {step} s")
        for it, client, step in hasty:
            client.socket.settimeout(5)
            expect(client.is_closed(), f"a client that was silent for more than 1 s, with a step of {step} s")


@shows("uptime, time, and how long a client was silent count on through steps of the wall clock; numbers of items still grow")
def counts():
    with one_for_each(STEPS) as all_of:
        for it, client, step in all_of:
            before = client.stats()
            client.ask(b"set a 0 0 1\r\ny\r\n", b"STORED\r\n")
            client.send(b"gets a\r\n")
            number = int(client.take_to(b"END\r\n").split()[4])
            it.step(step)
            after = client.stats()
            for name in ("uptime", "time"):
                expect(0 <= int(after[name]) - int(before[name]) <= 5, f"{name}: {before[name]}, then {after[name]}, {step} s on")
            silent = [int(value) for name, value in client.stats(b"conns").items() if name.endswith(":secs_since_last_cmd")]
            expect(silent and max(silent) <= 5, f"seconds since the last command: {silent}, {step} s on")
            client.ask(b"set a 0 0 1\r\ny\r\n", b"STORED\r\n")
            client.send(b"gets a\r\n")
            expect(int(client.take_to(b"END\r\n").split()[4]) > number, f"numbers grow, {step} s on")
    it = Stepped(start=-DAY)
    try:
        wait_for(lambda: it.client().stats()["time"].isdigit(), "it serves")
        expect(abs(int(it.client().stats()["time"]) - (time.time() - DAY)) < 5, "it takes the wall clock as it is at the start")
    finally:
        it.remove()
