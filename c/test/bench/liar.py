#!/usr/bin/env python3
"""A server of memcached's text protocol for the tests of kangaroo-bench, which tells the truth or one lie.

usage: liar.py SOCKET LIE

It ends with its standard input. At its 200th hit it tells its lie once: none, byte (a byte of
a value is another one), other (the value of another key), short (a value lacks its last byte), key (the answer names
another key), end (it ends the connection), noise (a line that is no answer). From the start on: full (no value is stored
for want of memory). It says that it has written 10 bytes to flash for each value that it stored.
"""
import socketserver
import sys
import threading

TRUE_HITS = 200


class Liar(socketserver.StreamRequestHandler):
    def handle(self):
        while line := self.rfile.readline():
            words = line.decode().split()
            if words[0] == "set":
                self.put(words)
            elif words[0] == "get":
                self.get(words[1])
            elif words[0] == "delete":
                self.answer("DELETED" if self.server.values.pop(words[1], None) is not None else "NOT_FOUND")
            elif words[0] == "flush_all":
                self.server.values.clear()
                self.answer("OK")
            elif words[0] == "stats":
                self.answer(f"STAT pid 1\r\nSTAT extstore_bytes_written {10 * self.server.puts}\r\nEND")
            else:
                self.answer("ERROR")
            if self.server.is_over:
                return

    def answer(self, line):
        self.wfile.write(line.encode() + b"\r\n")

    def put(self, words):
        value = self.rfile.read(int(words[4]) + 2)[:-2]
        if self.server.lie == "full":
            self.answer("SERVER_ERROR out of memory storing object")
            return
        self.server.values[words[1]] = value
        with self.server.lock:
            self.server.puts += 1
        self.answer("STORED")

    def get(self, key):
        value = self.server.values.get(key)
        if value is None:
            self.answer("END")
            return
        with self.server.lock:
            self.server.hits += 1
            lie = self.server.lie if self.server.hits == TRUE_HITS else "none"
        if lie == "byte":
            value = value[:-1] + bytes([value[-1] ^ 1])
        elif lie == "other":
            value = next(other for name, other in self.server.values.items() if name != key)
        elif lie == "short":
            value = value[:-1]
        elif lie == "key":
            key = "x" + key[1:]
        elif lie == "noise":
            self.answer("HELLO")
        self.server.is_over = lie == "end"
        if not self.server.is_over:
            self.wfile.write(f"VALUE {key} 0 {len(value)}\r\n".encode() + value + b"\r\nEND\r\n")


class Server(socketserver.ThreadingMixIn, socketserver.UnixStreamServer):
    daemon_threads = True


def main():
    with Server(sys.argv[1], Liar) as server:
        server.lie, server.values, server.hits, server.puts = sys.argv[2], {}, 0, 0
        server.is_over, server.lock = False, threading.Lock()
        threading.Thread(target=server.serve_forever, daemon=True).start()
        sys.stdin.read()


main()
