"""--pin-threads: which processors the threads may use."""
import os
import pathlib
import shutil

from harness import PATIENCE, PROGRAM, Server, Skipped, equal, expect, run_words, server, shows


def processors_of(text):
    """The numbers of a list such as 0-2,5."""
    ends = [part.split("-") for part in text.strip().split(",")]
    return frozenset(number for part in ends for number in range(int(part[0]), int(part[-1]) + 1))


def allowed(it):
    """The processors that each thread of a server may use."""
    lists = []
    for task in pathlib.Path(f"/proc/{it.process.pid}/task").iterdir():
        text = (task / "status").read_text(encoding="ascii")
        lists.append(processors_of(text.split("Cpus_allowed_list:")[1].split("\n")[0]))
    return lists


def expect_pins(it, wanted):
    """Of these processors each has a thread of its own, and any other thread may use all of them."""
    lists = allowed(it)
    single = sorted(next(iter(one)) for one in lists if len(one) == 1)
    equal(single, sorted(wanted), "the processors that have a thread of their own")
    others = {one for one in lists if len(one) != 1}
    equal(others, {frozenset(wanted)}, "what the other threads may use")


def own_processors(least):
    """The processors that this process may use, if they are enough."""
    own = sorted(os.sched_getaffinity(0))
    if len(own) < least:
        raise Skipped(f"{least} processors")
    return own


@shows("--pin-threads: each thread that serves clients has a processor of its own, of those that the process may use, and no other thread is kept; "
       "without it none is")
def pinned():
    own = own_processors(2)
    with server("--pin-threads", "-t", str(len(own))) as it:
        expect_pins(it, own)
        for client in it.greeted(len(own)):
            client.ask(b"set a 0 0 1\r\nx\r\n", b"STORED\r\n")
        expect_pins(it, own)
    with server("-t", str(len(own))) as it:
        equal(set(allowed(it)), {frozenset(own)}, "without the option")


@shows("--pin-threads of a process that may use two processors: these two")
def pinned_to_some():
    own = own_processors(3)
    if shutil.which("taskset") is None:
        raise Skipped("taskset")
    some = [own[0], own[-1]]
    with server("--pin-threads", "-t", "2", under=("taskset", "-c", ",".join(map(str, some)))) as it:
        expect_pins(it, some)


@shows("--pin-threads is refused by name: more threads than processors, and if the system refuses it")
def pins_are_refused():
    count = len(own_processors(1))
    status, said = run_words("--pin-threads", "-t", str(count + 1))
    wanted = f"kangarood: error: --pin-threads: {count + 1} threads (-t), and {count} processors that this process may use: give -t {count} or less"
    expect(status == 64 and said.startswith(wanted), f"status {status}, and it said {said!r}")
    if PROGRAM["refuser"] is None:
        raise Skipped("a library that refuses, which the sanitizers do not allow")
    for number in (1, count):
        it = Server("--pin-threads", "-t", str(count),
                    environment={"REFUSE": f"pthread_setaffinity_np {number}", "LD_PRELOAD": PROGRAM["refuser"]})
        try:
            expect(it.is_ready is False, f"it serves: {it.said()}")
            equal(it.process.wait(PATIENCE), 71, "the status")
            equal(it.said(), "kangarood: error: --pin-threads: Operation not permitted\n", "what it said")
        finally:
            it.remove()
