#!/usr/bin/env python3
"""Drives `tsd serve` over sockets of this machine, beside a server in plain Rust that does little more than keep the points (locked.rs),
and prints Markdown tables; the points a second go into a plot too.

    bench/serve.py PROGRAM [RUNS] [PROCESSORS] [CLIENTS] [PLOT]

PROGRAM is the built `tsd_main`. The run that was fastest by the clock counts, of RUNS (9 if left out), the two servers by turns, and of 40 where
four workers are compared with one. The server runs on the processors that PROCESSORS names (0,1 if left out), the clients on those that
CLIENTS names (the same if left out). PLOT is the SVG file to write. The points are 1,000 of 1,000 series, in order of time, put by telnet and
in bodies of 50; then two queries are asked over all of them, beside the same answers made by hand (scans.rs). What a server's processors
spent is taken when the last client has its end, and again when the server has ended, since it compacts rows after a connection's end."""
import os
import socket
import subprocess
import sys
import tempfile

import generate
import http_queries
import scans
from http_queries import FIRST, HERE, LAST, METRIC, POINTS, SERIES

COUNT = SERIES * POINTS
BODY = 50
# How many runs the comparison of four workers with one takes. The fastest of nine hadn't settled.
WORKER_RUNS = 40
TICKS = os.sysconf("SC_CLK_TCK")
QUERIES = [f"sum:1m-avg:{METRIC}", f"sum:1m-avg:{METRIC}{{host=*}}"]


class Server:
    """A server that has told its port."""

    def __init__(self, processors, words):
        self.process = subprocess.Popen(["taskset", "-c", processors, *words], stdout=subprocess.PIPE, text=True)
        self.port = int(self.process.stdout.readline().split()[1])

    def spent(self):
        """The seconds that its processors spent so far."""
        with open(f"/proc/{self.process.pid}/stat") as file:
            fields = file.read().rsplit(")", 1)[1].split()
        return (int(fields[11]) + int(fields[12])) / TICKS

    def end(self, asked):
        """The seconds that its processors spent in all, its peak memory in MB, and its last lines."""
        if asked:
            with socket.create_connection(("127.0.0.1", self.port)) as client:
                client.sendall(b"diediedie\n")
                while client.recv(4096):
                    pass
        else:
            self.process.terminate()
        output = self.process.stdout.read()
        _, status, used = os.wait4(self.process.pid, 0)
        self.process.returncode = os.waitstatus_to_exitcode(status)
        if asked and self.process.returncode != 0:
            sys.exit(f"the server ended with status {self.process.returncode}")
        return used.ru_utime + used.ru_stime, used.ru_maxrss / 1024, output


def build(folder, name):
    subprocess.run(["rustc", "--edition", "2024", "-O", "-o", f"{folder}/{name}", f"{HERE}/{name}.rs"], check=True)


def deal(folder, name, source, parts, own, prefix):
    """Deals lines out to so many files, series by series, each with a metric of its own on request."""
    files = [open(f"{folder}/{name}{part}", "w") for part in range(parts)]
    with open(source) as lines:
        for at, line in enumerate(lines):
            part = at % parts
            files[part].write(prefix + (line.replace(METRIC, f"{METRIC}.{part}", 1) if own else line))
    for file in files:
        file.close()
    return [file.name for file in files]


def bodies(files):
    """Files of the same points in requests."""
    for path in files:
        with open(path) as lines, open(f"{path}.http", "w") as out:
            out.writelines(generate.requests(lines, BODY))
    return [f"{path}.http" for path in files]


def clients(folder, processors, kind, port, files):
    """The seconds that the clients took."""
    words = ["taskset", "-c", processors, f"{folder}/clients", kind, str(port), *files]
    return int(subprocess.run(words, capture_output=True, check=True, text=True).stdout) / 1e6


def measure(folder, places, kind, words, files, asked):
    """One run: seconds by the clock, of processors up to the clients' end and in all, and peak MB. The places are the processors of the
    server and those of the clients."""
    server = Server(places[0], words)
    taken = clients(folder, places[1], kind, server.port, files)
    spent = server.spent()
    whole, peak, output = server.end(asked)
    if asked and f"links {len(files) + 1}\n" not in output:
        sys.exit(f"connections are missing: {output}")
    return taken, spent, whole, peak


def by_turns(runs, *jobs):
    """The fastest run of each job, the jobs by turns."""
    found = [[] for _ in jobs]
    for _ in range(runs):
        for times, job in zip(found, jobs):
            times.append(job())
    return [min(times) for times in found]


def ask(server, folder, lines, runs):
    """Both queries over a connection: bytes of the reply, the fastest reply, and the fastest answer by hand."""
    for query in QUERIES:
        asked = query.replace("{", "%7B").replace("}", "%7D")
        request = f"GET /api/query?start={FIRST}&end={LAST}&m={asked} HTTP/1.1\r\n\r\n".encode()
        with socket.create_connection(("127.0.0.1", server.port)) as client, client.makefile("rb") as output:
            times = []
            for _ in range(runs):
                begin = http_queries.time.perf_counter()
                client.sendall(request)
                status, body = http_queries.reply(output)
                times.append(http_queries.time.perf_counter() - begin)
        least, answer = scans.by_hand(f"{folder}/scans", lines, LAST, query, runs)
        if status != 200 or answer != body + b"\n":
            sys.exit(f"the replies differ for {query}")
        yield query, len(body), min(times), least


def plot(path, groups):
    """Bars of points a second: of each group its name, that of tsd and that of the plain server, if it has one."""
    most = max(max(ours, plain or 0) for _, ours, plain in groups)
    left, top, wide, high, room = 60, 30, 150, 240, len(groups)
    parts = [
        f'<svg xmlns="http://www.w3.org/2000/svg" width="{left + wide * room + 20}" height="{top + high + 60}" font-family="sans-serif" font-size="12">',
        '<rect width="100%" height="100%" fill="white"/>',
        f'<text x="{left}" y="18">points a second, in thousands: tsd serve (dark), one lock round one map (light)</text>',
    ]
    for share in range(5):
        y = top + high - high * share / 4
        parts.append(f'<line x1="{left}" x2="{left + wide * room}" y1="{y:.0f}" y2="{y:.0f}" stroke="#ddd"/>')
        parts.append(f'<text x="{left - 6}" y="{y + 4:.0f}" text-anchor="end">{most * share / 4 / 1e3:.0f}</text>')
    for at, (name, ours, plain) in enumerate(groups):
        x = left + wide * at
        for shift, value, color in ((30, ours, "#345"), (75, plain, "#abc")):
            if value:
                tall = high * value / most
                parts.append(f'<rect x="{x + shift}" y="{top + high - tall:.1f}" width="40" height="{tall:.1f}" fill="{color}"/>')
        for row, words in enumerate(name):
            parts.append(f'<text x="{x + wide / 2}" y="{top + high + 18 + 15 * row}" text-anchor="middle">{words}</text>')
    with open(path, "w") as file:
        file.write("\n".join([*parts, "</svg>", ""]))


def main():
    if not 2 <= len(sys.argv) <= 6:
        sys.exit("usage: serve.py PROGRAM [RUNS] [PROCESSORS] [CLIENTS] [PLOT]")
    program, runs, processors, others, path = os.path.realpath(sys.argv[1]), *(sys.argv + [None] * 4)[2:6]
    runs, processors = int(runs or 9), processors or "0,1"
    places = processors, others or processors
    serve = [program, "serve", "0", "--auto-metric"]
    groups = []
    with tempfile.TemporaryDirectory() as folder:
        for name in ("clients", "locked", "scans"):
            build(folder, name)
        http_queries.generated(f"{folder}/lines")
        plain = [f"{folder}/locked"]

        print("| connections | metrics | tsd, points/s | plain, points/s | points/s, tsd / plain | tsd, processors' ns a point | in all | plain | tsd / plain | in all / plain | tsd, peak MB | plain, peak MB | memory, tsd / plain |")
        print("|---|---|---|---|---|---|---|---|---|---|---|---|---|")
        for parts, own in ((1, False), (4, False), (4, True)):
            files = deal(folder, f"puts{parts}{own}-", f"{folder}/lines", parts, own, "put ")
            ours, theirs = by_turns(
                runs,
                lambda: measure(folder, places, "telnet", serve, files, True),
                lambda: measure(folder, places, "telnet", plain, files, False),
            )
            metrics = "one each" if own else "one of all"
            rates = COUNT / ours[0], COUNT / theirs[0]
            costs = [seconds * 1e9 / COUNT for seconds in (ours[1], ours[2], theirs[1])]
            print(
                f"| {parts} | {metrics} | {rates[0]:.0f} | {rates[1]:.0f} | {rates[0] / rates[1]:.2f} | {costs[0]:.0f} | {costs[1]:.0f} | {costs[2]:.0f} "
                f"| {costs[0] / costs[2]:.2f} | {costs[1] / costs[2]:.2f} | {ours[3]:.1f} | {theirs[3]:.1f} | {ours[3] / theirs[3]:.2f} |",
                flush=True,
            )
            groups.append(([f"telnet, {parts}" + (" connections" if parts > 1 else " connection"), f"metrics: {metrics}"], *rates))

        print("\n| workers | connections | metrics | points/s | times one worker's |")
        print("|---|---|---|---|---|")
        files = [f"{folder}/puts4True-{part}" for part in range(4)]
        one, four = by_turns(
            WORKER_RUNS,
            lambda: measure(folder, places, "telnet", [*serve, "--workers", "1"], files, True),
            lambda: measure(folder, places, "telnet", [*serve, "--workers", "4"], files, True),
        )
        for workers, run in ((1, one), (4, four)):
            print(f"| {workers} | 4 | one each | {COUNT / run[0]:.0f} | {one[0] / run[0]:.2f} |", flush=True)

        print("\n| points of a body | connections | points/s | processors' ns a point | peak MB |")
        print("|---|---|---|---|---|")
        for parts in (1, 4):
            requests = bodies(deal(folder, f"points{parts}-", f"{folder}/lines", parts, False, ""))
            (run,) = by_turns(runs, lambda: measure(folder, places, "http", serve, requests, True))
            print(f"| {BODY} | {parts} | {COUNT / run[0]:.0f} | {run[1] * 1e9 / COUNT:.0f} | {run[3]:.1f} |", flush=True)
            groups.append(([f"HTTP, {parts}" + (" connections" if parts > 1 else " connection"), f"bodies of {BODY}"], COUNT / run[0], None))

        print("\n| query | reply, bytes | reply over HTTP, ms | by hand, ms | time, tsd / by hand |")
        print("|---|---|---|---|---|")
        server = Server(processors, serve)
        clients(folder, places[1], "telnet", server.port, [f"{folder}/puts1False-0"])
        for query, size, taken, least in ask(server, folder, f"{folder}/lines", runs):
            print(f"| `{query}` | {size} | {taken * 1e3:.1f} | {least * 1e3:.1f} | {taken / least:.2f} |", flush=True)
        server.end(True)
        if path:
            plot(path, groups)


if __name__ == "__main__":
    main()
