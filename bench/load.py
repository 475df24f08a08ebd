#!/usr/bin/env python3
"""Loads `serve --daemons 2 --workers 16` by 24 connections for a while, and then asks for every point that was acknowledged.

    bench/load.py PROGRAM [SECONDS [RATE]]

A third of the connections put by telnet, a third by HTTP, and a third ask, each of the first two RATE points a second, 1,000 where it isn't
said, for SECONDS, 600 where it isn't said. Of each third one client closes in the middle of a line and comes again, one never reads, and one
sends a byte a second. A point is acknowledged by HTTP where the reply counts it, and by telnet where a later `stats` or `version` was
answered, and no line for it. Prints figures, and ends with status 1 where a point is missing, one too many is there, or a reply is wrong."""
import json
import os
import re
import socket
import subprocess
import sys
import threading
import time

T = 1356998400
HOSTS = 10
EACH = 8
BATCH = {"telnet": 200, "http": 50}
wrong = []
links = 0
lock = threading.Lock()


def value_of(number):
    return number * 7919 % 2_000_003 - 1_000_001


def line_of(client, number):
    return f"put load.c{client} {T + number // HOSTS} {value_of(number)} host=h{number % HOSTS}\n"


def element_of(client, number):
    return {"metric": f"load.c{client}", "timestamp": T + number // HOSTS, "value": value_of(number), "tags": {"host": f"h{number % HOSTS}"}}


def posted(client, numbers):
    body = json.dumps([element_of(client, number) for number in numbers], separators=(",", ":"))
    return f"POST /api/put?summary HTTP/1.1\r\nContent-Length: {len(body)}\r\n\r\n{body}".encode()


def query_of(client, start, end, m):
    return f"GET /api/query?start={start}&end={end}&m={m}:load.c{client}".encode()


class Peer:
    """A connection that reads lines and replies."""

    def __init__(self, port):
        global links
        with lock:
            links += 1
        self.socket = socket.create_connection(("127.0.0.1", port), timeout=120)
        self.left = b""

    def send(self, text):
        self.socket.sendall(text)

    def more(self):
        piece = self.socket.recv(1 << 18)
        if not piece:
            raise EOFError("no reply")
        self.left += piece

    def line(self):
        while b"\n" not in self.left:
            self.more()
        line, _, self.left = self.left.partition(b"\n")
        return line.decode()

    def reply(self):
        """The code and the body of an HTTP reply."""
        while b"\r\n\r\n" not in self.left:
            self.more()
        head, _, self.left = self.left.partition(b"\r\n\r\n")
        size = int((re.search(rb"Content-Length: (\d+)", head) or [0, 0])[1])
        pieces, have = [self.left], len(self.left)
        while have < size:
            piece = self.socket.recv(1 << 20)
            if not piece:
                raise EOFError("no reply")
            pieces.append(piece)
            have += len(piece)
        body = b"".join(pieces)
        self.left = body[size:]
        return int(head[9:12]), body[:size]

    def close(self):
        self.socket.close()


class Client(threading.Thread):
    """One of the 24. `acked` points were acknowledged, and lines of the first `sent` were sent whole."""

    def __init__(self, port, number, until, rate, others):
        super().__init__()
        self.port, self.number, self.until, self.rate, self.others = port, number, until, rate, others
        self.kind = ("telnet", "http", "ask")[number % 3]
        self.way = {0: "closes", 1: "never reads", 2: "a byte a second"}.get(number // 3, "usual")
        self.acked = self.sent = self.replies = 0
        self.longest = 0.0

    def run(self):
        try:
            {"usual": self.usual, "closes": self.usual, "never reads": self.unread, "a byte a second": self.slow}[self.way]()
        except Exception as fault:
            wrong.append(f"client {self.number}, {self.kind}, {self.way}: {fault!r}")

    def usual(self):
        peer, begun, turns = Peer(self.port), time.monotonic(), 0
        while time.monotonic() < self.until:
            asked = time.monotonic()
            {"telnet": self.put_lines, "http": self.post, "ask": self.ask}[self.kind](peer)
            self.longest = max(self.longest, time.monotonic() - asked)
            turns += 1
            if self.way == "closes" and turns % 5 == 0:
                half = {"telnet": line_of(self.number, self.acked)[:-7].encode(), "http": posted(self.number, range(self.acked, self.acked + 50))[:-9], "ask": query_of(0, T, T + 9, "sum")}[self.kind]
                peer.send(half)
                peer.close()
                peer = Peer(self.port)
            ahead = begun + self.acked / self.rate - time.monotonic() if self.kind != "ask" else 0.05
            if ahead > 0:
                time.sleep(ahead)
        peer.close()

    def put_lines(self, peer):
        numbers = range(self.acked, self.acked + BATCH["telnet"])
        self.sent = numbers.stop
        peer.send("".join(line_of(self.number, number) for number in numbers).encode() + b"version\n")
        if (line := peer.line()) != "tsd integer profile 1":
            raise ValueError(line)
        self.acked = numbers.stop
        self.replies += 1

    def post(self, peer):
        numbers = range(self.acked, self.acked + BATCH["http"])
        self.sent = numbers.stop
        peer.send(posted(self.number, numbers))
        if (reply := peer.reply()) != (200, b'{"failed":0,"success":%d}' % len(numbers)):
            raise ValueError(reply)
        self.acked = numbers.stop
        self.replies += 1

    def ask(self, peer):
        """Asks how many points a client has, which is at least how many were acknowledged before."""
        writers = [it for it in self.others if it.kind != "ask" and it.way in ("usual", "closes")]
        other = writers[self.replies % len(writers)]
        before = other.acked
        peer.send(query_of(other.number, T, T + 10_000_000, "zimsum:1h-count") + b" HTTP/1.1\r\n\r\n")
        code, body = peer.reply()
        self.replies += 1
        if code == 400 and before == 0:
            return
        found = sum(json.loads(body)[0]["dps"].values()) if code == 200 else -1
        if found < before:
            raise ValueError((other.number, before, code, body[:200]))

    def unread(self):
        """Sends requests and reads nothing, till no more are taken."""
        peer = Peer(self.port)
        peer.socket.settimeout(1)
        try:
            while time.monotonic() < self.until:
                if self.kind == "telnet":
                    self.sent += 1
                    peer.send(line_of(self.number, self.sent - 1).encode() + b"help\n" * 20)
                elif self.kind == "http":
                    peer.send(b"GET /api/aggregators HTTP/1.1\r\n\r\n" * 20)
                else:
                    peer.send(query_of(0, T, T + 3600, "none") + b" HTTP/1.1\r\n\r\n")
        except TimeoutError:
            time.sleep(max(0, self.until - time.monotonic()))
        peer.close()

    def slow(self):
        """A byte a second."""
        text = {"telnet": "".join(line_of(self.number, number) + "version\n" for number in range(100)).encode(), "http": posted(self.number, range(1)) * 100, "ask": (query_of(self.number, T, T + 9, "sum") + b" HTTP/1.1\r\n\r\n") * 100}[self.kind]
        peer = Peer(self.port)
        for byte in text:
            if self.until <= time.monotonic():
                break
            peer.send(bytes([byte]))
            time.sleep(1)
        peer.socket.settimeout(0.5)
        heard = b""
        try:
            while piece := peer.socket.recv(65536):
                heard += piece
        except TimeoutError:
            pass
        peer.close()
        self.replies = heard.count({"telnet": b"tsd integer profile 1\n", "http": b"HTTP/1.1 200", "ask": b"HTTP/1.1 "}[self.kind])
        self.acked = self.sent = self.replies if self.kind == "telnet" else min(1, self.replies) if self.kind == "http" else 0
        self.sent += self.kind == "telnet"


def verify(port, client):
    """The points that a client has, by one query for each host; adds what is wrong."""
    peer, found, rows = Peer(port), 0, set()
    for host in range(HOSTS):
        end = T + max(client.sent, 1) // HOSTS + 10
        peer.send(query_of(client.number, T, end, "none") + f"%7Bhost=h{host}%7D HTTP/1.1\r\n\r\n".encode())
        code, body = peer.reply()
        if code == 400 and b"unknown" in body:
            points = {}
        else:
            groups = json.loads(body)
            points = {int(at): value for at, value in groups[0]["dps"].items()} if groups else {}
        found += len(points)
        rows |= {(host, at - at % 3600) for at in points}
        for number in range(host, client.sent, HOSTS):
            value = points.pop(T + number // HOSTS, None)
            if value is None and number < client.acked or value not in (None, value_of(number)):
                wrong.append(f"client {client.number}: point {number} is {value}")
        if points:
            wrong.append(f"client {client.number}, host {host}: {len(points)} points that weren't sent")
    peer.close()
    return found, len(rows)


def memory_of(process, name):
    with open(f"/proc/{process.pid}/status") as file:
        return next(int(line.split()[1]) / 1024 for line in file if line.startswith(name))


def main():
    if not 2 <= len(sys.argv) <= 4:
        sys.exit("usage: load.py PROGRAM [SECONDS [RATE]]")
    seconds, rate = int((sys.argv[2:] + ["600"])[0]), int((sys.argv[3:] + ["1000"])[0])
    server = subprocess.Popen([os.path.abspath(sys.argv[1]), "serve", "0", "--daemons", "2", "--workers", "16", "--auto-metric"], stdin=subprocess.DEVNULL, stdout=subprocess.PIPE, stderr=subprocess.PIPE, text=True)
    port = int(server.stdout.readline().split()[1])
    empty, until, clients = memory_of(server, "VmRSS"), time.monotonic() + seconds, []
    for number in range(3 * EACH):
        clients.append(Client(port, number, until, rate, clients))
    for client in clients:
        client.start()
    for client in clients:
        client.join()
    peak, writers = memory_of(server, "VmHWM"), [client for client in clients if client.kind != "ask"]
    counts = [verify(port, client) for client in writers]
    found, rows, acked = sum(it[0] for it in counts), sum(it[1] for it in counts), sum(it.acked for it in writers)
    last = Peer(port)
    last.send(b"diediedie\n")
    last.line()
    last.close()
    rest, error = server.communicate(timeout=120)
    tally = re.fullmatch(r"links (\d+)\nids (\d+) (\d+) (\d+)\nrows (\d+)\ncells (\d+)\n", rest)
    told = [int(it) for it in tally.groups()] if tally else []
    if server.returncode or error or not tally or told[0] != links or told[2] != 1 or told[4] != rows or not rows <= told[5] <= found:
        wrong.append(f"the end: {server.returncode}, {error!r}, {rest!r}; {links} links, {rows} rows, {found} points")
    if peak > empty + 32 + found * 100 / 2**20:
        wrong.append(f"{peak:.1f} MB at the peak")
    print(f"{seconds} s, {links} connections, {acked} points acknowledged, {found} found, {sum(it.replies for it in clients if it.kind == 'ask')} queries answered")
    print(f"longest wait for a reply {max(it.longest for it in clients):.2f} s; memory {empty:.1f} MB empty, {peak:.1f} MB at the peak, {(peak - empty) * 2**20 / max(found, 1):.1f} bytes a point")
    print("the end: " + ", ".join(rest.split("\n")[:4]))
    for line in wrong[:40]:
        print(f"NOT AS IT SHOULD BE: {line}")
    sys.exit(1 if wrong else 0)


main()
