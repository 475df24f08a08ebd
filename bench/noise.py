#!/usr/bin/env python3
"""Feeds the built program mutated inputs: bytes flipped, doubled, cut and joined, of the cases under crates/test_cases/data.

    bench/noise.py PROGRAM COUNT SEED [CONNECTIONS]

Of COUNT inputs one in 20 goes to `stdio`, one in 20 to `batch`, and the others to connections of one `serve`, CONNECTIONS at a time, 8 where
it isn't said. Wanted: no signal, an end of each, and no reply outside the grammar of replies. Before the end `serve` answers a query about a
metric that no mutant names. A mutant may end the daemon; then it is started anew, and that is counted. Ends with status 1 where anything
else comes, and prints the input."""
import json
import os
import random
import re
import socket
import subprocess
import sys
import threading
import time

DATA = f"{os.path.dirname(os.path.dirname(os.path.abspath(__file__)))}/crates/test_cases/data"
FILES = ("sessions", "http", "http_queries", "protocol", "runs", "fleets", "points")
MOST = 4096
OPTIONS = ["--auto-metric"]
WORDS = [["batch", "1", "4294967295", "sum:m"], ["batch", "1356998400", "1356998410", "--ms", "none:m"], ["batch", "1356998400", "1357005600", "sum:1m-avg-zero:sys.cpu.user{host=*}"]]
GUARD = "guard.of.no.mutant"
NAME = r"[-A-Za-z0-9_./]{1,255}"
KIND = r"(?:metric|tagk|tagv)"
NAMED = rf"{KIND} name (?:is empty|has \d+ bytes \(255 at most\)|has byte 0x[0-9a-f]{{2}} at \d+)"
POINT = rf"(?:not enough words \(4 needed, [0-3] found\)|{NAMED}|bad time|floats are not stored|bad value|value too large|tag \d+ has no =|tag \d+: {NAMED}|no tags|two values for tagk {NAME}|\d+ tags \(8 at most\)|unknown {KIND} {NAME}|ids of {KIND} are exhausted|{KIND} {NAME} is filtered)"
QUERY = rf"(?:bad query at byte \d+|unknown aggregator|rate is not supported|bad downsample|bad filter \d+|bad times|bad request|\d+ queries \(16 at most\)|\d+ buckets \(1000000 at most\)|unknown {KIND} {NAME}|two values at \d+: -?\d+ and -?\d+|overflow at \d+)"
TELNET = re.compile(rf"(?:put: {POINT}|tsd integer profile 1|available commands: diediedie dropcaches exit help put stats version|requests \d+\nputs \d+\nrefused \d+|Caches dropped\.|Cleaning up and exiting now\.|line too long|unknown command)\n")
PUT_ERROR = re.compile(rf"(?:not an object|bad member (?:metric|timestamp|value|tags)|{POINT})")
OTHER = re.compile(rf"(?:bad head|head too large|codings are not supported|bad length|length required|body too large|no such path|no such method|body is not JSON|body is not a point or a list of points|One or more data points had errors|bad lists|nothing to assign|bad type|bad max|bad lookup|bad limit|bad timeseries|bad back_scan|{QUERY})")
HEAD = re.compile(rb"HTTP/1\.1 (200 OK|204 No Content|400 Bad Request|404 Not Found|405 Method Not Allowed|411 Length Required|413 Payload Too Large|431 Request Header Fields Too Large|501 Not Implemented)\r\n(?:Content-Type: application/json; charset=UTF-8\r\nContent-Length: (\d+)\r\n)?(Connection: close\r\n)?\r\n")
BATCH = re.compile(rf"(?:line \d+: (?:{POINT}|line too long)|query: {QUERY})\n")
PIECE = re.compile(r'"((?:[^"\\]|\\.)*)"(?:\*(\d+))?')
ESCAPE = re.compile(r"\\(?:x([0-9a-fA-F]{2})|(.))")


# Inputs


def unquoted(text):
    """The bytes of a text of a case."""
    if not text.startswith('"'):
        return text.encode()
    out = b""
    for piece, times in PIECE.findall(text):
        found, at = b"", 0
        for escape in ESCAPE.finditer(piece):
            found += piece[at : escape.start()].encode()
            found += bytes([int(escape[1], 16)]) if escape[1] else {"n": b"\n", "r": b"\r", "t": b"\t"}.get(escape[2], escape[2].encode())
            at = escape.end()
        out += (found + piece[at:].encode()) * min(int(times or 1), MOST)
    return out


def seeds():
    """What the cases give as inputs and connections."""
    found = set()
    for name in FILES:
        with open(f"{DATA}/{name}.txt") as file:
            blocks = file.read().split("\n\n")
        for block in blocks:
            text = b""
            for line in block.split("\n"):
                verb, _, rest = line.strip().partition(" ")
                if verb in ("input", "tail"):
                    text += unquoted(rest) + (b"\n" if verb == "input" else b"")
                elif verb == "connection":
                    found.add(unquoted(rest)[:MOST])
                elif verb == "point":
                    found.add(b"put " + unquoted(rest.split(" => ")[0]) + b"\n")
            found.add(text[:MOST])
    found.discard(b"")
    return sorted(found)


def flipped(draw, text, _):
    text = bytearray(text)
    for _ in range(draw.randint(1, 4)):
        text[draw.randrange(len(text))] ^= 1 << draw.randrange(8)
    return bytes(text)


def replaced(draw, text, _):
    text = bytearray(text)
    text[draw.randrange(len(text))] = draw.choice(b'\0\n\r \t"\\{}[]:=,|*%&?0-9/.\xff\x80AZaz')
    return bytes(text)


def doubled(draw, text, _):
    first = draw.randrange(len(text))
    last = min(len(text), first + draw.choice((1, 2, 8, 64, 512)))
    return text[:last] + text[first:last] * draw.randint(1, 3) + text[last:]


def cut(draw, text, _):
    first = draw.randrange(len(text))
    return text[:first] + text[first + draw.choice((1, 2, 8, 64, MOST)) :]


def joined(draw, text, other):
    return text[: draw.randrange(len(text) + 1)] + other[draw.randrange(len(other)) :]


def mutant(draw, base):
    text = draw.choice(base)
    for _ in range(draw.choice((1, 1, 1, 2, 3, 8))):
        if text:
            text = draw.choice((flipped, replaced, doubled, cut, joined))(draw, text, draw.choice(base))
    return text[: 4 * MOST]


# Replies


def is_body(code, body):
    """Whether this is the body of a reply with this code."""
    value = json.loads(body)
    if code == 200:
        return isinstance(value, (dict, list))
    if "error" in value:
        return value["error"]["code"] == code and bool(OTHER.fullmatch(value["error"]["message"]))
    if "errors" in value:
        return all(PUT_ERROR.fullmatch(it["error"]) for it in value["errors"])
    return "failed" in value or any(f"{kind}_errors" in value for kind in ("metric", "tagk", "tagv"))


def is_http(reply):
    while reply:
        head = HEAD.match(reply)
        if not head or (head[2] is None) != (head[1] == b"204 No Content"):
            return False
        end = head.end() + int(head[2] or 0)
        if len(reply) < end or head[2] and not is_body(int(head[1][:3]), reply[head.end() : end].decode()):
            return False
        reply = reply[end:]
        if head[3]:
            return not reply
    return True


def is_telnet(reply):
    text, at = reply.decode(), 0
    while at < len(text):
        line = TELNET.match(text, at)
        if not line:
            return False
        at = line.end()
    return True


def is_reply(asked, reply):
    try:
        return is_http(reply) if b"A" <= asked[:1] <= b"Z" else is_telnet(reply)
    except (ValueError, KeyError, TypeError):
        return False


def is_batch(status, printed):
    if status == 0:
        return isinstance(json.loads(printed), list)
    return status == 2 and bool(BATCH.fullmatch(printed.decode()))


# Runs


class Server:
    """A daemon that is started anew where a mutant ended it."""

    def __init__(self, program):
        self.program, self.lock, self.starts, self.bad = program, threading.Lock(), 0, []
        self.start()

    def start(self):
        self.starts += 1
        process = subprocess.Popen([self.program, "serve", "0", "--workers", "16", *OPTIONS], stdin=subprocess.DEVNULL, stdout=subprocess.PIPE, stderr=subprocess.PIPE)
        port = int(process.stdout.readline().split()[1])
        self.said(port, f"put {GUARD} 1356998400 7 h=a\nversion\n".encode())
        self.live = process, port

    def said(self, port, text):
        """What is replied, and whether to its end; None where no connection can be made. One that is closed before it was read is reset."""
        try:
            client = socket.create_connection(("127.0.0.1", port), timeout=30)
        except ConnectionError:
            return None, False
        heard = bytearray()
        with client:
            try:
                client.sendall(text)
                client.shutdown(socket.SHUT_WR)
            except OSError:
                pass
            try:
                while piece := client.recv(65536):
                    heard += piece
            except ConnectionResetError:
                return bytes(heard), False
        return bytes(heard), True

    def again(self, process):
        """Starts it anew, if it ended with status 0 and nobody has."""
        with self.lock:
            if process is self.live[0]:
                if process.wait(timeout=600) != 0 or process.stderr.read():
                    self.bad.append(("serve", b"", process.returncode))
                process.stdout.close(), process.stderr.close()
                self.start()

    def feed(self, text):
        process, port = self.live
        reply, whole = self.said(port, text)
        if reply is None or process is not self.live[0]:
            self.again(process)
            return
        if whole and not is_reply(text, reply):
            self.bad.append(("serve", text, reply))
        if b"Cleaning up" in reply:
            self.again(process)


def feed_run(program, words, text, bad):
    done = subprocess.run([program, *words], input=text, capture_output=True, timeout=60)
    if words[0] == "batch":
        good = is_batch(done.returncode, done.stdout)
    else:
        good = done.returncode == 0 and is_reply(text, done.stdout)
    if not good or done.stderr:
        bad.append((words[0], text, (done.returncode, done.stdout, done.stderr)))


def share(program, server, base, numbers, seed, counts, bad):
    for number in numbers:
        draw = random.Random(seed * 1_000_003 + number)
        text = mutant(draw, base)
        where = ("stdio", "batch")[number % 20] if number % 20 < 2 else "serve"
        try:
            if where == "serve":
                server.feed(text)
            elif where == "batch":
                lines = b"\n".join(line.removeprefix(b"put ") for line in text.split(b"\n"))
                feed_run(program, draw.choice(WORDS), lines, bad)
            else:
                feed_run(program, ["stdio", *OPTIONS], text, bad)
        except (subprocess.TimeoutExpired, TimeoutError, ValueError) as fault:
            bad.append((where, text, repr(fault)))
        counts[where] += 1
        if len(bad) + len(server.bad) > 20:
            return


def main():
    if len(sys.argv) not in (4, 5):
        sys.exit("usage: noise.py PROGRAM COUNT SEED [CONNECTIONS]")
    program, count, seed = os.path.abspath(sys.argv[1]), int(sys.argv[2]), int(sys.argv[3])
    together = int(sys.argv[4]) if len(sys.argv) == 5 else 8
    base, server, bad, begun = seeds(), Server(program), [], time.monotonic()
    counts = [dict.fromkeys(("stdio", "batch", "serve"), 0) for _ in range(together)]
    threads = [threading.Thread(target=share, args=(program, server, base, range(at, count, together), seed, counts[at], bad)) for at in range(together)]
    for thread in threads:
        thread.start()
    for thread in threads:
        thread.join()
    process, port = server.live
    reply, _ = server.said(port, f"GET /api/query?start=1356998400&end=1356998400&m=sum:{GUARD} HTTP/1.0\r\n\r\n".encode())
    wanted = f'[{{"aggregateTags":[],"dps":{{"1356998400":7}},"metric":"{GUARD}","tags":{{"h":"a"}}}}]'.encode()
    if reply is None or not reply.endswith(wanted):
        bad.append(("the last query", b"", reply))
    server.said(port, b"diediedie\n")
    status = process.wait(timeout=60)
    if status != 0:
        bad.append(("the end", b"", status))
    fed = {where: sum(it[where] for it in counts) for where in counts[0]}
    print(f"seed {seed}: {len(base)} inputs, mutants {fed}, {server.starts - 1} ended the daemon, {time.monotonic() - begun:.0f} s")
    for where, text, came in bad + server.bad:
        print(f"NOT AS IT SHOULD BE: {where}\n  {text!r}\n  {came!r}")
    sys.exit(1 if bad or server.bad else 0)


main()
