#!/usr/bin/env python3
"""Drives `tsd serve` and VictoriaMetrics by turns over sockets of this machine, and prints Markdown tables.

    bench/peer.py PROGRAM PEER [RUNS] [PROCESSORS] [CLIENTS]

PROGRAM is the built `tsd_main`, PEER the program of Debian's package `victoria-metrics`, which nothing else here needs. Each put starts a new
server, and VictoriaMetrics has a new folder. The run that was fastest by the clock counts, of RUNS (5 if left out), and the least time of the
processors. Both servers run on the processors that PROCESSORS names (0,1 if left out), the clients on those that CLIENTS names (2,3).
Queries are asked of `tsd` on the first of them alone. VictoriaMetrics has none of these queries: it is asked for the same by its own language,
without its cache of results. Its averages keep their fractions, so the answers are compared within one for each series."""
import json
import os
import re
import socket
import subprocess
import sys
import tempfile
import time
import urllib.parse

import generate
import http_queries
import serve
from http_queries import FIRST, LAST, METRIC, POINTS, SERIES

COUNT = SERIES * POINTS
NAME = f'{{__name__="{METRIC}"}}'
BUCKETS = f"start={FIRST + 59}&end={FIRST + POINTS * 10 + 59}&step=60"
QUERIES = [
    (f"sum:1m-avg:{METRIC}", f"sum(avg_over_time({NAME}[1m]))", BUCKETS, 59),
    (f"sum:1m-avg:{METRIC}{{host=*}}", f"sum(avg_over_time({NAME}[1m])) by (host)", BUCKETS, 59),
    (f"sum:{METRIC}", f"sum({NAME})", f"start={FIRST}&end={LAST}&step=10", 0),
]


class Ours(serve.Server):
    """`tsd serve`."""

    def __init__(self, program, processors, _):
        super().__init__(processors, [program, "serve", "0", "--auto-metric"])
        self.ports = {"telnet": self.port, "http": self.port, "ask": self.port}

    def ended(self):
        self.end(True)

    def path(self, query):
        return f"/api/query?start={FIRST}&end={LAST}&m={urllib.parse.quote(query[0])}"

    def answer(self, body, _):
        return {it["tags"].get("host", ""): {int(at): value for at, value in it["dps"].items()} for it in json.loads(body)}


class Peer(serve.Server):
    """VictoriaMetrics, with a folder of its own."""

    def __init__(self, program, processors, folder):
        self.folder = tempfile.TemporaryDirectory(dir=folder)
        self.ports = dict(zip(("telnet", "http", "ask"), free_ports(3)))
        words = [f"-storageDataPath={self.folder.name}", "-retentionPeriod=100y", "-loggerLevel=ERROR", f"-httpListenAddr=127.0.0.1:{self.ports['ask']}"]
        words += [f"-opentsdbListenAddr=127.0.0.1:{self.ports['telnet']}", f"-opentsdbHTTPListenAddr=127.0.0.1:{self.ports['http']}"]
        self.process = subprocess.Popen(["taskset", "-c", processors, program, *words], stdout=subprocess.DEVNULL, stderr=subprocess.DEVNULL)
        for port in self.ports.values():
            while not listens(port):
                time.sleep(0.05)

    def ended(self):
        self.process.kill()
        self.process.wait()
        self.folder.cleanup()

    def path(self, query):
        return f"/api/v1/query_range?nocache=1&query={urllib.parse.quote(query[1])}&{query[2]}"

    def answer(self, body, shift):
        return {it["metric"].get("host", ""): {at - shift: float(value) for at, value in it["values"]} for it in json.loads(body)["data"]["result"]}


def free_ports(count):
    """So many ports that nobody has."""
    sockets = [socket.create_server(("127.0.0.1", 0)) for _ in range(count)]
    found = [it.getsockname()[1] for it in sockets]
    for it in sockets:
        it.close()
    return found


def listens(port):
    with socket.socket() as client:
        return client.connect_ex(("127.0.0.1", port)) == 0


def held(server, word):
    """The MB that a process holds (`VmRSS`), or held at the most (`VmHWM`)."""
    with open(f"/proc/{server.process.pid}/status") as status:
        return int(re.search(rf"{word}:\s+(\d+)", status.read())[1]) / 1024


def bodies(files, size):
    """Files of the same points in requests, with the host that VictoriaMetrics wants."""
    for path in files:
        with open(path) as lines, open(f"{path}.{size}", "w") as out:
            out.writelines(it.replace("\r\n", "\r\nHost: a\r\n", 1) for it in generate.requests(lines, size))
    return [f"{path}.{size}" for path in files]


def put(kind, folder, places, how, files):
    """One run: the clock's seconds, the processors' up to the clients' end and up to two seconds later, MB before, and MB at the most."""
    server = kind(places[0], folder)
    before, spent = held(server, "VmRSS"), server.spent()
    taken = serve.clients(folder, places[1], how, server.ports[how], files)
    here = server.spent() - spent
    time.sleep(2)
    found = taken, here, server.spent() - spent, before, held(server, "VmHWM")
    server.ended()
    return found


def get(server, query, runs):
    """The clock's least seconds of a query, the processors' seconds of each, and its body."""
    request = f"GET {server.path(query)} HTTP/1.1\r\nHost: a\r\n\r\n".encode()
    times, begun = [], server.spent()
    for _ in range(runs):
        with socket.create_connection(("127.0.0.1", server.ports["ask"])) as client, client.makefile("rb") as output:
            begin = time.perf_counter()
            client.sendall(request)
            status, body = whole(output)
            times.append(time.perf_counter() - begin)
        if status != 200:
            sys.exit(f"{query[0]} was refused: {body}")
    return min(times), (server.spent() - begun) / runs, body


def whole(output):
    """The next reply: its status and its body, which may come in chunks."""
    status, length, chunks = int(output.readline().split()[1]), 0, False
    while (line := output.readline().strip().lower()) != b"":
        length = int(line.split()[1]) if line.startswith(b"content-length") else length
        chunks |= line == b"transfer-encoding: chunked"
    if not chunks:
        return status, output.read(length)
    body = b""
    while size := int(output.readline(), 16):
        body += output.read(size)
        output.readline()
    output.readline()
    return status, body


def agree(ours, theirs):
    """Whether answers are equal but for the fractions of averages."""
    return ours.keys() == theirs.keys() and all(
        ours[it].keys() == theirs[it].keys() and all(abs(value - theirs[it][at]) <= SERIES for at, value in ours[it].items()) for it in ours
    )


def puts(kinds, folder, places, runs):
    """The table of puts."""
    jobs = [("telnet", 4, ""), ("http", 4, 50), ("http", 4, 1000), ("http", 1, 100000)]
    print("| puts | connections | points | program | points/s | processors' ns a point | two seconds later | MB before | MB at the most |")
    print("|---|---|---|---|---|---|---|---|---|")
    for how, parts, size in jobs:
        count = min(COUNT, size or COUNT) if parts == 1 else COUNT
        with open(f"{folder}/lines") as lines, open(f"{folder}/some", "w") as out:
            out.writelines(line for _, line in zip(range(count), lines))
        files = serve.deal(folder, f"{how}{parts}-", f"{folder}/some", parts, False, "" if size else "put ")
        files = bodies(files, size) if size else files
        found = {name: [] for name in kinds}
        for _ in range(runs):
            for name, kind in kinds.items():
                found[name].append(put(kind, folder, places, how, files))
        what = f"bodies of {size}" if size else "telnet"
        if parts == 1:
            what += f" ({os.path.getsize(files[0]) / 1e6:.1f} MB)"
        for name, each in found.items():
            costs = [min(it[at] for it in each) * 1e9 / count for at in (1, 2)]
            memory = f"{min(it[3] for it in each):.1f} | {max(it[4] for it in each):.1f}"
            print(f"| {what} | {parts} | {count} | {name} | {count / min(it[0] for it in each):.0f} | {costs[0]:.0f} | {costs[1]:.0f} | {memory} |", flush=True)


def queries(kinds, folder, places, runs):
    """The table of queries, by turns of ten."""
    files = serve.deal(folder, "queries-", f"{folder}/lines", 1, False, "put ")
    servers = {name: kind(places[0].split(",")[0] if name == "tsd" else places[0], folder) for name, kind in kinds.items()}
    for server in servers.values():
        serve.clients(folder, places[1], "telnet", server.ports["telnet"], files)
    time.sleep(5)
    print("\n| query | program | bytes | ms | processors' ms | MB before | MB at the most | MB afterwards |")
    print("|---|---|---|---|---|---|---|---|")
    for query in QUERIES:
        bodies, answers = {}, {}
        found = {name: [] for name in kinds}
        before = {name: held(server, "VmRSS") for name, server in servers.items()}
        for _ in range(runs):
            for name, server in servers.items():
                taken, spent, bodies[name] = get(server, query, 10)
                found[name].append((taken, spent))
        for name, server in servers.items():
            answers[name] = server.answer(bodies[name], query[3])
            taken, spent = (min(it[at] for it in found[name]) * 1e3 for at in (0, 1))
            memory = f"{before[name]:.1f} | {held(server, 'VmHWM'):.1f} | {held(server, 'VmRSS'):.1f}"
            print(f"| `{query[0]}` | {name} | {len(bodies[name])} | {taken:.1f} | {spent:.1f} | {memory} |", flush=True)
        if not agree(*answers.values()):
            sys.exit(f"the answers differ for {query[0]}")
    for server in servers.values():
        server.ended()


def main():
    if not 3 <= len(sys.argv) <= 6:
        sys.exit("usage: peer.py PROGRAM PEER [RUNS] [PROCESSORS] [CLIENTS]")
    program, peer, runs, processors, others = os.path.realpath(sys.argv[1]), os.path.realpath(sys.argv[2]), *(sys.argv + [None] * 3)[3:6]
    places, runs = (processors or "0,1", others or "2,3"), int(runs or 5)
    kinds = {"tsd": lambda *it: Ours(program, *it), "VictoriaMetrics": lambda *it: Peer(peer, *it)}
    with tempfile.TemporaryDirectory() as folder:
        serve.build(folder, "clients")
        http_queries.generated(f"{folder}/lines")
        puts(kinds, folder, places, runs)
        queries(kinds, folder, places, runs)


if __name__ == "__main__":
    main()
