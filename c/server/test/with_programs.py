"""What suites asks of three programs that stand between a client and memcached: nginx, HAProxy and nutcracker. Each check gives pairs
of what was seen and whether it was as it has to be."""
import contextlib
import http.client
import http.server
import subprocess
import threading
import time

import harness

LONG = b"v" * 5000
NGINX = """user root; daemon off; worker_processes 1; pid {folder}/nginx.pid; error_log {folder}/nginx.log; events {{ worker_connections 100; }}
http {{ access_log off; client_body_temp_path {folder}/1; proxy_temp_path {folder}/2; fastcgi_temp_path {folder}/3;
  uwsgi_temp_path {folder}/4; scgi_temp_path {folder}/5;
  upstream cache {{ server 127.0.0.1:{port}; keepalive 8; }}
  server {{ listen 127.0.0.1:{front};
    location / {{ set $memcached_key $uri; memcached_pass cache; default_type text/plain; error_page 404 502 = @origin; }}
    location @origin {{ proxy_pass http://127.0.0.1:{origin}; }} }} }}
"""
HAPROXY = """global
  maxconn 200
defaults
  mode tcp
  timeout connect 2s
  timeout client 20s
  timeout server 20s
frontend cache
  bind 127.0.0.1:{front}
  default_backend caches
backend caches
  option tcp-check
  tcp-check connect
  tcp-check send version\\r\\n
  tcp-check expect rstring ^VERSION\\ 1\\.
  tcp-check send "set haproxy 0 0 2\\r\\nok\\r\\nget haproxy\\r\\n"
  tcp-check expect string ok
  default-server inter 200ms fall 2 rise 2 on-marked-down shutdown-sessions
  server first 127.0.0.1:{port} check
  server second 127.0.0.1:{second} check backup
"""
NUTCRACKER = """cache:
  listen: 127.0.0.1:{front}
  hash: fnv1a_64
  distribution: ketama
  auto_eject_hosts: false
  server_connections: 2
  timeout: 2000
  servers:
    - 127.0.0.1:{port}:1
    - 127.0.0.1:{second}:1
"""


@contextlib.contextmanager
def running(words, port):
    """A program that listens at a port."""
    process = subprocess.Popen(words, stdin=subprocess.DEVNULL, stdout=subprocess.DEVNULL, stderr=subprocess.DEVNULL)
    try:
        harness.wait_for(lambda: harness.listens(("127.0.0.1", port)), f"{words[0]} listens at {port}")
        yield process
    finally:
        process.terminate()
        process.wait()


def answers(client, request, wanted):
    """Whether a request has this answer."""
    try:
        client.send(request)
        return client.take(len(wanted)) == wanted
    except OSError:
        return False


def stored(client, key, value):
    """Whether a value is stored."""
    return answers(client, b"set %s 0 0 %d\r\n%s\r\n" % (key, len(value), value), b"STORED\r\n")


def has(client, key, value):
    """Whether a key has this value."""
    return answers(client, b"get %s\r\n" % key, b"VALUE %s 0 %d\r\n%s\r\nEND\r\n" % (key, len(value), value))


# ----------------------------------------------------------------------------------------------------------------------- nginx

class Origin(http.server.BaseHTTPRequestHandler):
    """The site behind the cache."""

    def do_GET(self):
        """A page that says that it is the origin's."""
        page = b"origin's " + self.path.encode()
        self.send_response(200)
        self.send_header("Content-Length", str(len(page)))
        self.end_headers()
        self.wfile.write(page)

    def log_message(self, *_):
        """Nothing is told."""


def page(front, path):
    """What nginx serves at a path."""
    client = http.client.HTTPConnection("127.0.0.1", front, timeout=10)
    client.request("GET", path)
    answer = client.getresponse()
    body = answer.read()
    client.close()
    return answer.status, body


def with_nginx(program, folder, server, port):
    """nginx serves pages out of the cache, and asks the origin if a page is not there."""
    front, origin = harness.free_port(), http.server.ThreadingHTTPServer(("127.0.0.1", 0), Origin)
    threading.Thread(target=origin.serve_forever, daemon=True).start()
    with open(f"{folder}/nginx.conf", "w", encoding="utf-8") as it:
        it.write(NGINX.format(folder=folder, port=port, front=front, origin=origin.server_address[1]))
    with running([program, "-c", f"{folder}/nginx.conf", "-p", folder], front):
        client = harness.Client(("127.0.0.1", port))
        client.ask(b"set /page 0 0 6\r\ncached\r\n", b"STORED\r\n")
        yield "a page in the cache", page(front, "/page") == (200, b"cached")
        yield "a page that is not there is the origin's", page(front, "/other") == (200, b"origin's /other")
        client.ask(b"set /empty 0 0 0\r\n\r\n", b"STORED\r\n")
        yield "an empty page", page(front, "/empty") == (200, b"")
        yield "500 pages over kept connections", all(page(front, "/page") == (200, b"cached") for _ in range(500))
        yield "a page of 5,000 bytes", stored(client, b"/long", LONG) and page(front, "/long") == (200, LONG)
        server.stop()
        yield "without the cache the origin serves", page(front, "/page") == (200, b"origin's /page")
    origin.shutdown()


# --------------------------------------------------------------------------------------------------------------------- HAProxy

def asked(front, request, wanted, seconds):
    """Whether a request on a new connection has this answer within so many seconds."""
    ends = time.monotonic() + seconds
    while time.monotonic() < ends:
        try:
            client = harness.Client(("127.0.0.1", front))
            client.socket.settimeout(1)
            is_so = answers(client, request, wanted)
            client.close()
            if is_so:
                return True
        except OSError:
            pass
        time.sleep(0.1)
    return False


def with_haproxy(program, folder, server, port):
    """HAProxy asks two servers how they are, and serves from the second while the first is away."""
    front, second = harness.free_port(), harness.free_port()
    server.start(second)
    with open(f"{folder}/haproxy.cfg", "w", encoding="utf-8") as it:
        it.write(HAPROXY.format(port=port, front=front, second=second))
    with running([program, "-f", f"{folder}/haproxy.cfg", "-db"], front):
        for at, name in ((port, b"first"), (second, b"second")):
            harness.Client(("127.0.0.1", at)).ask(b"set name 0 0 %d\r\n%s\r\n" % (len(name), name), b"STORED\r\n")
        first, other = b"VALUE name 0 5\r\nfirst\r\nEND\r\n", b"VALUE name 0 6\r\nsecond\r\nEND\r\n"
        yield "the first server answers", asked(front, b"get name\r\n", first, 5)
        time.sleep(2)
        yield "tcp-check finds both well", asked(front, b"get name\r\n", first, 1)
        server.processes[0].terminate()
        server.processes[0].wait()
        yield "the second one answers after the first has ended", asked(front, b"get name\r\n", other, 10)
        server.start(port)
        yield "the first one is back, and empty", asked(front, b"get name\r\n", b"END\r\n", 10)


# ------------------------------------------------------------------------------------------------------------------ nutcracker

def with_nutcracker(program, folder, server, port):
    """nutcracker spreads keys over two servers."""
    front, second = harness.free_port(), harness.free_port()
    server.start(second)
    with open(f"{folder}/nutcracker.yml", "w", encoding="utf-8") as it:
        it.write(NUTCRACKER.format(port=port, front=front, second=second))
    log = ["-c", f"{folder}/nutcracker.yml", "-o", f"{folder}/nutcracker.log", "-s", str(harness.free_port()), "-a", "127.0.0.1"]
    with running([program, *log], front):
        client = harness.Client(("127.0.0.1", front))
        keys = [b"key%d" % number for number in range(400)]
        yield "400 sets", all(stored(client, key, b"value of " + key) for key in keys)
        counts = [int(harness.Client(("127.0.0.1", at)).stats()["cmd_set"]) for at in (port, second)]
        yield "both servers have some of them", min(counts) > 50
        yield "a get of 400 keys", many(client, keys)
        yield "incr", stored(client, b"n", b"5") and answers(client, b"incr n 3\r\n", b"8\r\n")
        yield "append", stored(client, b"j", b"a") and answers(client, b"append j 0 0 1\r\nb\r\n", b"STORED\r\n") and has(client, b"j", b"ab")
        yield "touch, delete", answers(client, b"touch j 100\r\n", b"TOUCHED\r\n") and answers(client, b"delete j\r\n", b"DELETED\r\n")
        client.send(b"gets n\r\n")
        number = client.take_to(b"END\r\n").split(b"\r\n")[0].split()[-1]
        yield "cas", answers(client, b"cas n 0 0 1 %s\r\n9\r\n" % number, b"STORED\r\n") and has(client, b"n", b"9")
        client.send(b"set quiet 0 0 1 noreply\r\nq\r\n")
        yield "noreply", has(client, b"quiet", b"q")
        yield "a value of 5,000 bytes", stored(client, b"long", LONG) and has(client, b"long", LONG)
        server.processes[1].kill()
        server.processes[1].wait()
        server.start(second)
        yield "keys of a server that was killed and started again come back", asked(front, b"set key1 0 0 1\r\n1\r\n", b"STORED\r\n", 40) and all(
            asked(front, b"set %s 0 0 1\r\n1\r\n" % key, b"STORED\r\n", 40) for key in keys[:20])


def many(client, keys):
    """Whether a get of many keys has all their values."""
    client.send(b"get " + b" ".join(keys) + b"\r\n")
    return client.take_to(b"END\r\n").count(b"VALUE ") == len(keys)
