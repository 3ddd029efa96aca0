"""The stats commands."""
import os
import pathlib
import shutil
import time

from harness import Server, equal, expect, server, shows, wait_for

OF_MEMCACHED = """pid uptime time version pointer_size rusage_user rusage_system max_connections curr_connections total_connections
rejected_connections cmd_get cmd_set cmd_flush cmd_touch cmd_meta get_hits get_misses delete_misses delete_hits incr_misses incr_hits
decr_misses decr_hits cas_misses cas_hits cas_badval touch_hits touch_misses store_too_large store_no_memory total_items idle_kicks
bytes_read bytes_written limit_maxbytes accepting_conns threads conn_yields connection_structures listen_disabled_num bytes curr_items
evictions get_expired get_flushed expired_unfetched evicted_unfetched reclaimed hash_power_level hash_bytes hash_is_expanding""".split()
UNCOUNTED = """listen_disabled_num get_flushed expired_unfetched evicted_unfetched reclaimed hash_power_level hash_bytes
hash_is_expanding""".split()


def counted(client, requests, **wanted):
    """Makes requests, and expects these counts to have grown by so much, and no other command's."""
    before = client.stats()
    for request in requests:
        client.send(request)
    client.send(b"mn\r\n")
    client.take_to(b"MN\r\n")
    after = client.stats()
    kinds = ("cmd_", "get_", "delete_", "incr_", "decr_", "cas_", "touch_", "store_", "evict", "expired_", "listen_")
    grown = {name: int(after[name]) - int(before[name]) for name in after if name.startswith(kinds)}
    equal({name: by for name, by in grown.items() if by}, wanted, f"what {requests} count")


@shows("each classic command counts what memcached counts, under its names")
def counts():
    with server() as it:
        client = it.client()
        names = client.stats()
        expect(not [name for name in OF_MEMCACHED if name not in names], "memcached's names are there")
        counted(client, [b"set a 0 0 1\r\n1\r\n"], cmd_set=1)
        counted(client, [b"get a b\r\n"], cmd_get=2, get_hits=1, get_misses=1)
        counted(client, [b"incr a 1\r\n", b"incr b 1\r\n"], incr_hits=1, incr_misses=1)
        counted(client, [b"decr a 1\r\n", b"decr b 1\r\n"], decr_hits=1, decr_misses=1)
        counted(client, [b"touch a 0\r\n", b"touch b 0\r\n"], cmd_touch=2, touch_hits=1, touch_misses=1)
        counted(client, [b"cas a 0 0 1 1\r\n2\r\n", b"cas b 0 0 1 1\r\n2\r\n"], cmd_set=2, cas_badval=1, cas_misses=1)
        counted(client, [b"delete a\r\n", b"delete a\r\n"], delete_hits=1, delete_misses=1)
        counted(client, [b"set a 0 0 3000\r\n" + b"x" * 3000 + b"\r\n"], store_too_large=1)
        counted(client, [b"flush_all\r\n"], cmd_flush=1)


@shows("the cache's own counters are there, and are those of this server's calls")
def of_cache():
    with server() as it:
        client = it.client()
        client.ask(b"set a 0 0 1\r\n1\r\nget a\r\nget b\r\n", b"STORED\r\nVALUE a 0 1\r\n1\r\nEND\r\nEND\r\n")
        own = {name: value for name, value in client.stats().items() if name.startswith("kangaroo_")}
        expect(own.pop("kangaroo_version").startswith("1."), own)
        expect(len(own) == 39 and all(value.isdigit() for value in own.values()), f"{len(own)} counters")


@shows("stats reset sets counts to 0, and stats settings has what the command line said")
def reset_and_settings():
    with server("-c", "77", "-t", "2", "--object-bytes", "50") as it:
        client = it.client()
        client.ask(b"get a\r\nstats reset\r\n", b"END\r\nRESET\r\n")
        equal(client.stats()["cmd_get"], "0", "cmd_get")
        settings = client.stats(b"settings")
        wanted = {"maxconns": "77", "num_threads": "2", "object_bytes": "50", "domain_socket": it.path, "tcpport": "0"}
        equal({name: settings[name] for name in wanted}, wanted, "settings")


@shows("stats settings of a folder with a long path has the front of it, and whole lines")
def long_path():
    it = Server(wait=False)
    it.remove()
    folder = f"{it.folder}/{'x' * 250}/{'y' * 250}"
    os.makedirs(folder)
    try:
        with server("--folder", folder) as it:
            client = it.client()
            client.send(b"stats settings\r\n")
            lines = client.take_to(b"END\r\n").decode().split("\r\n")
            told = [line for line in lines if line.startswith("STAT folder ")]
            equal(told, [f"STAT folder {folder}"[: 511 - 2]], "the line of the folder, with its end of 511 bytes")
            expect(all(line.startswith("STAT ") for line in lines[:-2]) and lines[-2:] == ["END", ""], f"whole lines: {lines}")
    finally:
        shutil.rmtree(folder.split("/xxx")[0], ignore_errors=True)


@shows("stats after almost as many answers as go out at once is answered whole, after them, and so is what a client asks then")
def stats_after_answers():
    one = b"VALUE v 0 1000\r\n" + b"v" * 1000 + b"\r\nEND\r\n"
    with server("-t", "1") as it:
        client, other = it.client(), it.client()
        client.ask(b"set v 0 0 1000\r\n" + b"v" * 1000 + b"\r\n", b"STORED\r\n")
        names = list(client.stats())
        for count in range(60, 65):
            for _ in range(4):
                client.ask(b"get v\r\n" * count + b"stats\r\n", one * count, f"{count} answers before stats")
                lines = client.take_to(b"END\r\n").decode().split("\r\n")
                equal([line.split(" ")[:2] for line in lines], [*(["STAT", name] for name in names), ["END"], [""]], f"stats after {count} answers")
                client.ask(b"get v\r\n" * 100, one * 100, "the answers after it")
                other.ask(b"get v\r\n", one, "the answer to another client")


@shows("version and stats give a version of memcached that clients can parse, and stats says whose it is")
def versions():
    with server() as it:
        client = it.client()
        lines = client.stats()
        equal(lines["version"], "1.6.18", "version")
        client.ask(b"version\r\n", b"VERSION 1.6.18\r\n")
        expect(" " not in lines["kangaroo_version"], f"one word, since some clients take three of a line: {lines['kangaroo_version']}")


def item_lines(client):
    """What stats says of items."""
    lines = client.stats()
    return {name: int(lines[name]) for name in ("curr_items", "bytes", "evictions", "get_expired", "total_items", *UNCOUNTED)}


@shows("curr_items and bytes are those of the items in memory, get_expired is counted, and what nobody counts is 0")
def items():
    with server() as it:
        client = it.client()
        nothing = dict.fromkeys(item_lines(client), 0)
        equal(item_lines(client), nothing, "a server that is new")
        for number in range(100):
            client.ask(b"set key%02d 0 0 10\r\n0123456789\r\n" % number, b"STORED\r\n")
        stored = {**nothing, "curr_items": 100, "bytes": 100 * (5 + 10 + 9), "total_items": 100}
        equal(item_lines(client), stored, "100 items")
        client.ask(b"delete key01\r\nset key02 0 1 10\r\n0123456789\r\n", b"DELETED\r\nSTORED\r\n")
        equal(item_lines(client)["curr_items"], 99, "after a removal, and one stored anew")
        time.sleep(2.1)
        client.ask(b"get key02\r\nget key01\r\n", b"END\r\nEND\r\n")
        equal(item_lines(client)["get_expired"], 1, "a get of an expired item, and one of no item")
        client.ask(b"stats reset\r\n", b"RESET\r\n")
        equal(item_lines(client)["get_expired"], 0, "after stats reset")


@shows("with more items than there is room for, bytes stay below that room, and each item is among curr_items or evictions, which never fall")
def full():
    with server("-m", "3", "--flash", "8M") as it:
        client, limit, before = it.client(), int(it.client().stats()["limit_maxbytes"]), 0
        equal(limit, (3 << 20) + sum_of_files(it.folder), "limit_maxbytes, of memory and flash")
        for first in range(0, 200000, 4000):
            numbers = range(first, first + 4000)
            client.send(b"".join(b"set key%06d 0 0 90 noreply\r\n%090d\r\n" % (number, number) for number in numbers))
            now = item_lines(client)
            expect(now["evictions"] >= before, f"evictions fell from {before} to {now['evictions']}")
            expect(now["bytes"] <= limit, f"{now['bytes']} bytes where there is room for {limit}")
            equal(now["bytes"], 108 * now["curr_items"], "bytes, of key, value and 9 more")
            known = now["curr_items"] + now["evictions"]
            expect(0.9 * (first + 4000) <= known <= 1.1 * (first + 4000), f"{known} are known of {first + 4000}")
            before = now["evictions"]
        expect(before > 50000, f"{before} evictions of 200,000 items")
        client.ask(b"stats reset\r\n", b"RESET\r\n")
        expect(item_lines(client)["evictions"] < before / 2, "evictions after stats reset")


def sum_of_files(folder):
    """The bytes of a server's files of lanes."""
    return sum(it.stat().st_size for it in pathlib.Path(folder).glob("kangaroo-*.dev"))


@shows("stats items, slabs and sizes are answered as memcached answers them without slabs")
def without_slabs():
    with server() as it:
        client = it.client()
        client.ask(b"set a 0 0 1\r\n1\r\n", b"STORED\r\n")
        equal(client.stats(b"items"), {}, "stats items")
        equal(client.stats(b"sizes"), {"sizes_status": "disabled"}, "stats sizes")
        lines = client.stats(b"slabs")
        equal(lines.pop("active_slabs"), "0", "active_slabs")
        taken = int(lines.pop("total_malloced"))
        equal(lines, {}, "other lines of stats slabs")
        expect(100000 < taken < 64 << 20, f"{taken} bytes of memory with -m 64")


@shows("a descriptor that a client had is counted once among connection_structures, however often it is used")
def structures():
    with server() as it:
        client = it.client()
        equal(client.stats()["connection_structures"], "1", "one client")
        for _ in range(10):
            other = it.client()
            other.ask(b"mn\r\n", b"MN\r\n")
            other.close()
            wait_for(lambda: client.stats()["curr_connections"] == "1", "it has left")
        equal(client.stats()["connection_structures"], "2", "ten clients one after the other")


@shows("stats conns has the address and the state of each socket: who listens, waits, has sent half a request, and asks")
def of_conns():
    with server() as it:
        clients = it.greeted(20)
        clients[1].send(b"set half 0 0 10\r\n123")
        time.sleep(0.1)
        lines = clients[0].stats(b"conns")
        equal(sorted(name.split(":")[1] for name in lines), sorted(["addr", "listen_addr", "state", "secs_since_last_cmd"] * 21), "lines")
        expect(all(value == f"unix:{it.path}" for name, value in lines.items() if name.endswith("addr")), "addresses")
        states = sorted(value for name, value in lines.items() if name.endswith(":state"))
        equal(states, ["conn_listening", "conn_nread", "conn_parse_cmd", *["conn_read"] * 18], "states")
