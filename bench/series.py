#!/usr/bin/env python3
"""Measures the memory of a series, of a further row and of what queries leave, and prints Markdown tables.

    bench/series.py PROGRAM [SERIES]

PROGRAM is the built `tsd_main`, or one that `unproved.py` built. Points come as `put` lines of one connection, or of one session of `stdio`,
and each series has two tags, a metric and a key of its own for none, and a value of its own for one. A row has one point. Memory is what the
process holds when it has taken all points (`VmRSS`), the connection still open, less that of one with a single series. SERIES is 100,000 if
left out. Queries are asked by four connections at once, over 1,000 points of each of 1,000 series."""
import os
import random
import re
import socket
import subprocess
import sys
import tempfile
import threading
import time

import serve
from http_queries import FIRST, LAST, METRIC, generated, reply

HOUR = 3600
QUERIES = [f"sum:1m-avg:{METRIC}", f"sum:1m-avg:{METRIC}%7Bhost=*%7D", f"sum:{METRIC}"]


def puts(series, rows, shuffled):
    """Lines of so many series, each with so many rows of one point: hour by hour all series, in order of their names or in no order."""
    order = list(range(series))
    if shuffled:
        random.Random(1).shuffle(order)
    for row in range(rows):
        for number in order:
            yield f"put {METRIC} {FIRST + row * HOUR} 1 cpu=0 host=web{number:07d}\n"


def held(process):
    """The KiB that a process holds."""
    with open(f"/proc/{process.pid}/status") as status:
        return int(re.search(r"VmRSS:\s+(\d+)", status.read())[1])


def settled(process):
    """Waits until a process has had nothing to do for a second."""
    last, since = None, 0
    while since < 4:
        time.sleep(0.25)
        with open(f"/proc/{process.pid}/stat") as stat:
            now = stat.read().rsplit(")", 1)[1].split()[11:13]
        last, since = now, since + 1 if now == last else 0


def in_session(program, lines):
    """The KiB that a session of `stdio` holds once it has taken these lines."""
    process = subprocess.Popen([program, "stdio", "--auto-metric"], stdin=subprocess.PIPE, stdout=subprocess.DEVNULL, text=True)
    process.stdin.writelines(lines)
    process.stdin.flush()
    settled(process)
    found = held(process)
    process.stdin.close()
    process.wait()
    return found


def in_server(program, lines):
    """The same of a server, over one connection."""
    server = serve.Server("0-3", [program, "serve", "0", "--auto-metric"])
    with socket.create_connection(("127.0.0.1", server.port)) as client:
        client.sendall("".join(lines).encode())
        settled(server.process)
        found = held(server.process)
    server.end(True)
    return found


def told(program, series):
    """The table of a series and of a further row."""
    print("| where | names come | series | bytes a series of one row | bytes a further row |")
    print("|---|---|---|---|---|")
    for where, measure in (("`serve`", in_server), ("`stdio`", in_session)):
        none = measure(program, puts(1, 1, False))
        for order, shuffled in (("in their order", False), ("in no order", True)):
            one = measure(program, puts(series, 1, shuffled))
            three = measure(program, puts(series, 3, shuffled))
            print(f"| {where} | {order} | {series} | {(one - none) * 1024 / series:.0f} | {(three - one) * 512 / series:.0f} |", flush=True)


def ask(port, times):
    """Asks each query so often."""
    with socket.create_connection(("127.0.0.1", port)) as client, client.makefile("rb") as output:
        for query in QUERIES * times:
            client.sendall(f"GET /api/query?start={FIRST}&end={LAST}&m={query} HTTP/1.1\r\n\r\n".encode())
            if reply(output)[0] != 200:
                sys.exit(f"no answer to {query}")


def left(program, path, arenas):
    """The KiB that a server holds before the queries, at the most and when they are answered, with so many arenas of malloc."""
    if arenas:
        os.environ["MALLOC_ARENA_MAX"] = arenas
    else:
        os.environ.pop("MALLOC_ARENA_MAX", None)
    server = serve.Server("0-3", [program, "serve", "0", "--auto-metric"])
    with socket.create_connection(("127.0.0.1", server.port)) as client, open(path, "rb") as file:
        client.sendall(file.read())
        settled(server.process)
    before = held(server.process)
    threads = [threading.Thread(target=ask, args=(server.port, 10)) for _ in range(4)]
    for thread in threads:
        thread.start()
    for thread in threads:
        thread.join()
    settled(server.process)
    after = held(server.process)
    with open(f"/proc/{server.process.pid}/status") as status:
        text = status.read()
    peaks = [int(re.search(rf"{word}:\s+(\d+)", text)[1]) for word in ("VmHWM", "VmPeak")]
    server.end(True)
    return before, *peaks, after


def queries(program, folder):
    """The table of what queries leave."""
    generated(f"{folder}/lines")
    with open(f"{folder}/lines") as lines, open(f"{folder}/puts", "w") as out:
        out.writelines(f"put {line}" for line in lines)
    print("\n| `MALLOC_ARENA_MAX` | MB before the queries | MB at the most | MB of addresses at the most | MB when they are answered |")
    print("|---|---|---|---|---|")
    for arenas in ("", "1", "2", "4"):
        found = [kib / 1024 for kib in left(program, f"{folder}/puts", arenas)]
        print(f"| {arenas or 'not set'} | " + " | ".join(f"{mb:.0f}" for mb in found) + " |", flush=True)


def main():
    if len(sys.argv) not in (2, 3):
        sys.exit("usage: series.py PROGRAM [SERIES]")
    program = os.path.realpath(sys.argv[1])
    told(program, int((sys.argv + ["100000"])[2]))
    with tempfile.TemporaryDirectory() as folder:
        queries(program, folder)


if __name__ == "__main__":
    main()
