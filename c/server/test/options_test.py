"""The command line: each wrong word is named, with what to do; and memcached's options that are not served."""
import os
import tempfile

from harness import Client, equal, expect, free_port, run_words, server, shows

WRONG = [
    (["-p", "0"], "-p 0: give a number from 1 to 65535"),
    (["-p", "65536"], "-p 65536: give a number from 1 to 65535"),
    (["--port=x"], "-p x: give a number from 1 to 65535"),
    (["-t", "0"], "-t 0: give a number from 1 to 1024"),
    (["-c", "99999999999999999999"], "-c 99999999999999999999: give a number from 1 to 1000000"),
    (["-m", "-1"], "-m -1: give a number from 1 to 16777216"),
    (["-a", "9"], "-a 9: give an octal number up to 777"),
    (["-a", "700"], "-a: this is the mode of a Unix socket: give -s too, or leave it out"),
    (["--flash", "1GB"], "--flash 1GB: give a number of bytes, as 512K, 100M, 64G or 2T"),
    (["--flash", "18446744073709551615T"], "--flash 18446744073709551615T: give a number of bytes, as 512K, 100M, 64G or 2T"),
    (["--object-bytes", "2304"], "--object-bytes 2304: give a number from 1 to 2303"),
    (["--admit", "65537"], "--admit 65537: give a number from 0 to 65536"),
    (["--threshold", "33"], "--threshold 33: give a number from 0 to 32"),
    (["--slow", "3600001"], "--slow 3600001: give a number from 0 to 3600000"),
    (["--slow=1s"], "--slow 1s: give a number from 0 to 3600000"),
    (["--log", ""], "--log: its value is empty; give FILE"),
    (["--pin-threads=1"], "--pin-threads=1: there is no such option, or it takes no value"),
    (["--upkeep-threads", "17"], "--upkeep-threads 17: give a number from 0 to 16"),
    (["-o", "lru_crawlers"], "-o lru_crawlers: there is no such word; -o takes idle_timeout=N, and memcached's words"),
    (["-o", "modern,,no_modern"], "-o : there is no such word; -o takes idle_timeout=N, and memcached's words"),
    (["-o", "modern no_modern"], "-o modern no_modern: there is no such word; -o takes idle_timeout=N, and memcached's words"),
    (["-o", "modern,idle_timeout=soon"], "--extended idle_timeout soon: give a number from 0 to 16777216"),
    (["-o", "idle_timeout"], "-o idle_timeout: it needs a value"),
    (["-o", "hashpower"], "-o hashpower: it needs a value"),
    (["-o", "ext_path"], "-o ext_path: it needs a value"),
    (["-o", "drop_privileges"], "-o drop_privileges: no call of the system is given up: use SystemCallFilter= of systemd"),
    (["-o", "sock_cookie_id=1"], "-o sock_cookie_id: sockets are not marked: have the firewall filter by port or user"),
    (["-s", ""], "-s: its value is empty; give FILE"),
    (["-p"], "-p: it needs a value"),
    (["--folder"], "--folder: it needs a value"),
    (["-Q"], "-Q: there is no such option"),
    (["--nothing"], "--nothing: there is no such option, or it takes no value"),
    (["--daemon=1"], "--daemon=1: there is no such option, or it takes no value"),
    (["here"], "here: this is no option"),
    (["-U", "11211"], "-U, --udp-port: UDP is not served: leave it out"),
    (["-U", ""], "-U, --udp-port: UDP is not served: leave it out"),
    (["-B", "binary"], "-B, --protocol: the text protocol is served, and no binary one: leave it out, or give ascii or auto"),
    (["-B", "ascii auto"], "-B, --protocol: the text protocol is served, and no binary one: leave it out, or give ascii or auto"),
    (["-S"], "-S, --enable-sasl: SASL belongs to the binary protocol: use a Unix socket (-s) and its mode (-a), or a proxy"),
    (["-Z"], "-Z, --enable-ssl: TLS is not served: put a proxy with TLS in front, and listen on 127.0.0.1"),
    (["-Y", "file"], "-Y, --auth-file: there are no passwords: use a Unix socket (-s) and its mode (-a), or a proxy"),
    (["-M"], "-M, --disable-evictions: a cache on flash pushes objects out, and does not answer that it is full: leave it out"),
    (["-e", "file"], "-e, --memory-file: a cache starts empty, also after a restart: leave it out"),
    (["-i"], "-i, --license: no license is printed: --version says what this is"),
    *[(["-I", size], f"-I {size}: give a size from 1k to 2k: a value has at most 2,039 bytes")
      for size in ("1023", "2049", "3k", "4m", "1M", "x", "-1", "99999999999999999999g")],
    *[(["-o", word], f"-o {word.split('=')[0]}: TLS is not served: put a proxy with TLS in front, and listen on 127.0.0.1")
      for word in ("ssl_chain_cert=x", "ssl_key=x", "ssl_keyformat=PEM", "ssl_verify_mode=0", "ssl_ciphers=x", "ssl_ca_cert=x",
                   "ssl_wbuf_size=1", "ssl_session_cache", "ssl_kernel_tls", "ssl_min_version=tlsv1.2")],
    (["--flash", "100"], "--flash 100: at least 12,288 bytes"),
]


@shows(f"{len(WRONG)} wrong command lines: each is named, with what to do, and ends with status 64")
def wrong_words():
    for words, wanted in WRONG:
        status, said = run_words(*words)
        equal(status, 64, f"the status of {words}, which said {said!r}")
        expect(said.startswith(f"kangarood: error: {wanted}"), f"{words} said {said!r}, and not {wanted!r}")
        expect(said.endswith("; --help lists the options\n"), f"{words} said {said!r}")


@shows("too little memory for the flash: the least -m that is enough is named, and is enough")
def too_little_memory():
    status, said = run_words("-m", "1", "--flash", "64G")
    equal(status, 64, said)
    least = int(said.split("give -m ")[1].split()[0])
    status, said = run_words("-m", str(least - 1), "--flash", "64G")
    equal(status, 64, said)
    nobody = ["-u", "nobody-of-this-name"] if os.geteuid() == 0 else []
    status, said = run_words("-m", str(least), "--flash", "64G", "--sparse", "--folder", "/nowhere", *nobody)
    expect(status in (71, 77) and "too little" not in said, said)


@shows("--help and --version are answered, with status 0")
def help_and_version():
    status, said = run_words("--help")
    expect(status == 0 and "--folder=DIR" in said and "--unix-socket=FILE" in said, said)
    status, said = run_words("-V")
    expect(status == 0 and said.startswith("kangarood 1."), said)


SLABS = "there are no slabs"
HASH = "there is no hash table that grows"
LRU = "there is no LRU list, and nothing that walks it"
WATCH = "there is no command watch"
FILES = "give --folder and --flash for the files on flash"
# What is taken without effect: the words, how the line names them, and what it says.
TAKEN = [
    (["-p", "11211"], "-l, -p", "with -s a Unix socket stands in place of TCP"),
    (["-l", "127.0.0.1", "-l", "::1"], "-l, -p", "with -s a Unix socket stands in place of TCP"),
    (["-f", "1.25"], "-f, --slab-growth-factor", SLABS),
    (["-n", "48"], "-n, --slab-min-size", SLABS),
    (["-L"], "-L, --enable-largepages", SLABS),
    (["-I", "1k"], "-I, --max-item-size", "a value has at most 2,039 bytes"),
    (["-I", "2048"], "-I, --max-item-size", "a value has at most 2,039 bytes"),
    (["--max-item-size=2K"], "-I, --max-item-size", "a value has at most 2,039 bytes"),
    (["-C"], "-C, --disable-cas", "each item keeps its number"),
    (["-k"], "-k, --lock-memory", "memory is not locked, since the files on flash are mapped and would be locked too"),
    (["-r"], "-r, --enable-coredumps", "ulimit -c, or LimitCORE= of systemd, says how large a core dump may be"),
    (["-R", "20"], "-R, --max-reqs-per-event", "a client has its turn for 16 KiB of requests"),
    (["-D", ":"], "-D, --stat-delimiter", "there are no counts by prefix"),
    (["-N", "2"], "-N, --napi-ids", "a new client goes to the thread that has the fewest"),
    *[(["-o", word], f"-o {word.split('=')[0]}", said) for said, words in [
        (SLABS, "slab_reassign slab_automove slab_automove=2 slab_automove_ratio=0.8 slab_automove_freeratio=0.01 slab_automove_window=3 "
                "slab_sizes=8-16 slab_chunk_max=512 no_chunked_items"),
        (HASH, "hashpower=16 hash_algorithm=murmur3 no_hashexpand"),
        (LRU, "lru_crawler lru_crawler_sleep=100 lru_crawler_tocrawl=0 lru_maintainer hot_lru_pct=20 warm_lru_pct=40 hot_max_factor=0.2 "
              "warm_max_factor=2 tail_repair_time=60"),
        ("any item may be pushed out, whenever it expires", "temporary_ttl=61"),
        (WATCH, "watcher_logbuf_size=256 worker_logbuf_size=64"),
        ("sizes are not counted", "track_sizes"),
        ("there is no older behaviour to go back to", "no_modern"),
        ("a client over -c is told so and closed", "no_maxconns_fast"),
        ("what a client may cost is limited, and not what all cost together", "read_buf_mem_limit=1"),
        (FILES, "ext_path=/x:1G ext_page_size=8 ext_wbuf_size=2 ext_threads=1 ext_io_depth=2 ext_item_size=512 ext_item_age=2 ext_low_ttl=60 "
                "ext_recache_rate=10000 ext_compact_under=1 ext_drop_under=1 ext_max_sleep=100000 ext_max_frag=0.9 ext_drop_unread"),
    ] for word in words.split()],
]
# What is taken in silence: it is so anyway.
SO_ANYWAY = [
    ["-U", "0"], ["-B", "ascii"], ["-B", "auto"], ["--protocol=auto"], ["-X"], ["-W"], ["--disable-dumping", "--disable-watch"],
    *[["-o", word] for word in ("maxconns_fast", "modern", "relaxed_privileges", "no_drop_privileges", "no_lru_crawler", "no_lru_maintainer",
                                "no_slab_reassign", "no_slab_automove", "inline_ascii_resp", "no_inline_ascii_resp", "resp_obj_mem_limit=1",
                                "idle_timeout=0", "modern,maxconns_fast")],
]


def said_of_taken(*words):
    """What a server says of words that it takes: before it says that its folder is not there."""
    with tempfile.TemporaryDirectory() as folder:
        root = ["-u", "root"] if os.geteuid() == 0 else []
        status, said = run_words(*words, "--folder", f"{folder}/none", "-s", f"{folder}/s", *root)
        end = f"kangarood: error: --folder {folder}/none: No such file or directory\n"
        expect(status == 71 and said.endswith(end), f"{words}: status {status}, and it said {said!r}")
        return said[: -len(end)]


@shows(f"{len(TAKEN)} options of memcached's that have no meaning here are taken, each with a line that says why")
def taken_with_line():
    for words, name, why in TAKEN:
        equal(said_of_taken(*words), f"kangarood: warning: {name}: taken, and without effect: {why}\n", f"what {words} say")
    both = said_of_taken("-f", "2", "-o", "no_modern,idle_timeout=5,lru_maintainer", "-k")
    names = [line.split(": ")[2] for line in both.splitlines()]
    equal(names, ["-f, --slab-growth-factor", "-o no_modern", "-o lru_maintainer", "-k, --lock-memory"], "a line each")


@shows(f"{len(SO_ANYWAY)} options of memcached's that say what is so anyway are taken in silence")
def what_is_so():
    for words in SO_ANYWAY:
        equal(said_of_taken(*words), "", f"what {words} say")


@shows("each letter that memcached -h lists is known")
def letters_of_memcached():
    with tempfile.TemporaryDirectory() as folder:
        for letter in "pUsaAldrumMckvhiVPfnLDtRCbBISFXWYeZoN":
            value = [f"{folder}/1"] if letter in "pUsalumcPfnDtRbBIYeoN" else []
            said = run_words(f"-{letter}", *value, "--folder", f"{folder}/none")[1]
            expect("no such option" not in said and "needs a value" not in said, f"-{letter} {value}: it said {said!r}")


@shows("several -l are one list, as with memcached")
def several_addresses():
    first, second = free_port(), free_port()
    with server("-l", f"127.0.0.1:{first}", "-l", f"127.0.0.2:{second}", "--listen", f"127.0.0.3:{first}", has_socket=False):
        for address in (("127.0.0.1", first), ("127.0.0.2", second), ("127.0.0.3", first)):
            Client(address).ask(b"mn\r\n", b"MN\r\n")
