#!/usr/bin/env python3
"""Measures a restart by images beside plain Rust, by turns: `serve --image --save` loads an image, answers a query, and saves its store.

    bench/images.py PROGRAM PLAIN [RUNS] [SERIESxPOINTS ..]

PROGRAM is the built `tsd_main`, PLAIN bench/tools.rs by `rustc -O --edition 2021`, whose job `restart` reads the image into maps and prints their image. RUNS is 5 if left out, the sizes
1000x1000 and 10000x1000: so many series and points of each. Times are by the clock, the least of RUNS: until the program tells its port (plain: until its maps are made), until
the first query is answered, and from `diediedie` (plain: from its maps) to the end. Peaks are `VmHWM`, before the save and at its end. `fresh` is the store alone: a server into which
the points were put. Both have to give the image back."""
import hashlib
import os
import re
import socket
import subprocess
import sys
import tempfile
import threading
import time

from tools import FIRST, lines


def port():
    """A port that is free."""
    with socket.socket() as s:
        s.bind(("127.0.0.1", 0))
        return s.getsockname()[1]


def peak(pid):
    """The peak of a process in MB, or 0 where it has ended."""
    try:
        with open(f"/proc/{pid}/status") as file:
            return int(re.search(r"VmHWM:\s+(\d+)", file.read()).group(1)) / 1024
    except (OSError, AttributeError):
        return 0


class Watch(threading.Thread):
    """Looks at the peak of a process until it ends."""

    def __init__(self, pid):
        super().__init__(daemon=True)
        self.pid, self.most = pid, 0
        self.start()

    def run(self):
        while now := peak(self.pid):
            self.most = max(self.most, now)
            time.sleep(0.005)


def line_of(path, word):
    """Waits for a line with this word first in what a program has printed, and gives the time at which it came."""
    while True:
        with open(path, "rb") as file:
            if file.read(200).startswith(word):
                return time.perf_counter()
        time.sleep(0.001)


def tail_sum(path, count):
    """The sum of the last bytes of a file."""
    found = hashlib.blake2b()
    with open(path, "rb") as file:
        file.seek(-count, os.SEEK_END)
        while piece := file.read(1 << 20):
            found.update(piece)
    return found.hexdigest()


def ask(at, text):
    """The answer of a server to one request."""
    with socket.create_connection(("127.0.0.1", at)) as s:
        s.sendall(text)
        answer = b""
        while piece := s.recv(1 << 16):
            answer += piece
    return answer


def served(program, image, saved, query):
    """One restart of a server: the seconds to its port, to its first answer, and of its save, and the peaks before and at the end."""
    at = port()
    begin = time.perf_counter()
    with open(image, "rb") as file, open(saved, "wb") as out:
        job = subprocess.Popen([program, "serve", str(at), "--image", "--save"], stdin=file, stdout=out)
    watch = Watch(job.pid)
    loaded = line_of(saved, b"listening")
    answer = ask(at, f"GET {query} HTTP/1.1\r\nConnection: close\r\n\r\n".encode())
    if not answer.startswith(b"HTTP/1.1 200"):
        sys.exit(answer[:300])
    answered = time.perf_counter()
    before = peak(job.pid)
    ask(at, b"diediedie\n")
    dying = time.perf_counter()
    status = job.wait()
    ended = time.perf_counter()
    watch.join()
    if status != 0:
        sys.exit(f"ended with {status}")
    return loaded - begin, answered - begin, ended - dying, before, watch.most


def plain_restart(plain, image, saved):
    """The same of the plain program, which answers nothing."""
    begin = time.perf_counter()
    with open(image, "rb") as file, open(saved, "wb") as out:
        job = subprocess.Popen([plain, "restart"], stdin=file, stdout=out)
    watch = Watch(job.pid)
    loaded = line_of(saved, b"loaded")
    before = peak(job.pid)
    job.wait()
    ended = time.perf_counter()
    watch.join()
    return loaded - begin, loaded - begin, ended - loaded, before, watch.most


def fresh(program, points):
    """The peak of a server into which the points were put."""
    at = port()
    with open(os.devnull, "wb") as out:
        job = subprocess.Popen([program, "serve", str(at), "--auto-metric"], stdout=out)
    while True:
        try:
            socket.create_connection(("127.0.0.1", at)).close()
            break
        except OSError:
            time.sleep(0.01)
    with socket.create_connection(("127.0.0.1", at)) as s, open(points, "rb") as file:
        while some := file.readlines(1 << 20):
            s.sendall(b"".join(b"put " + line for line in some))
        s.shutdown(socket.SHUT_WR)
        if told := s.recv(1000):
            sys.exit(told)
    found = peak(job.pid)
    ask(at, b"diediedie\n")
    job.wait()
    return found


def main():
    program, plain = sys.argv[1:3]
    rest = sys.argv[3:]
    runs = int(rest.pop(0)) if rest and rest[0].isdigit() else 5
    with tempfile.TemporaryDirectory() as folder:
        points, listing, image, saved = (os.path.join(folder, name) for name in ("points", "listing", "image", "saved"))
        for size in rest or ["1000x1000", "10000x1000"]:
            series, each = map(int, size.split("x"))
            lines(points, series, each, 2)
            for job, source, target in [("import", points, listing), ("pack", listing, image)]:
                with open(source, "rb") as file, open(target, "wb") as out:
                    subprocess.run([plain, job], stdin=file, stdout=out, check=True)
            count = os.path.getsize(image)
            query = f"/api/query?start={FIRST}&end={FIRST + each * 10}&m=sum:1h-avg:sys.cpu.user%7Bhost=web00000,cpu=0%7D"
            print(f"\n{series:,} series of {each:,} points, an image of {count / 1e6:.0f} MB; the store alone {fresh(program, points):.0f} MB\n")
            wanted = tail_sum(image, count)
            found = {"tsd": [], "plain": []}
            for _ in range(runs):
                found["tsd"].append(served(program, image, saved, query))
                if tail_sum(saved, count) != wanted:
                    sys.exit("the server saved another image")
                found["plain"].append(plain_restart(plain, image, saved))
                if tail_sum(saved, count) != wanted:
                    sys.exit("the plain program saved another image")
            a, b = ([min(of) for of in zip(*found[name])] for name in ("tsd", "plain"))
            print("| What | tsd | plain Rust | tsd / plain |\n|---|---|---|---|")
            for what, x, y in zip(["load, s", "load and first query, s", "save, s", "peak before the save, MB", "peak, MB"], a, b):
                print(f"| {what} | {x:.2f} | {y:.2f} | {x / max(y, 0.001):.2f} |", flush=True)


if __name__ == "__main__":
    main()
