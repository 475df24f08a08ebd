#!/usr/bin/env python3
"""Measures what appends cost beside puts, by the same program with and without `--appends`, and prints Markdown tables.

    bench/appends.py PROGRAM [RUNS]

PROGRAM is the built `tsd_main`. The fastest of RUNS runs counts (5 if left out), the two by turns. `stdio` takes the lines of a session,
`serve` those of four connections with a metric each. A column takes 3,600 points, and 1,000,000 of milliseconds in their order; in no order
appends alone are given, since cells would be moved for each. Rows of 1, 60 and 3,600 points tell the memory of a point, less that of a server without a point."""
import os
import random
import socket
import subprocess
import sys
import tempfile
import time

import http_queries
import serve
from http_queries import FIRST, METRIC, POINTS, SERIES

KINDS = {"puts": [], "appends": ["--appends"]}
SPREAD = 3_600_000
QUERY = f"sum:1m-avg:{METRIC}"


def session(program, words, path):
    """The seconds of a session over the lines of a file."""
    begin = time.perf_counter()
    with open(path, "rb") as lines:
        job = subprocess.Popen([program, "stdio", "--auto-metric", *words], stdin=lines, stdout=subprocess.PIPE)
        output = job.stdout.read()
    if job.wait() != 0 or output:
        sys.exit(f"a session ended with {job.returncode}: {output[:200]}")
    return time.perf_counter() - begin


def by_turns(runs, job):
    """The fastest run of each kind."""
    found = {kind: [] for kind in KINDS}
    for _ in range(runs):
        for kind, words in KINDS.items():
            found[kind].append(job(words))
    return {kind: min(times) for kind, times in found.items()}


def write(path, points):
    """A session's lines: points as pairs of a text of the time and a text of the series, and then the end."""
    values = random.Random(1)
    with open(path, "w") as file:
        for moment, series in points:
            file.write(f"put {METRIC} {moment} {values.randrange(-1000, 30000)} {series}\n")
        file.write("exit\n")


def hour(count):
    """So many points of one hour and one series, in milliseconds and in their order."""
    return [(f"{FIRST + at // 1000}.{at % 1000:03d}", "h=a") for at in sorted(random.Random(2).sample(range(SPREAD), count))]


def rows(count, points):
    """So many series with so many points of one hour each, by time."""
    return ((str(FIRST + second * (3600 // points)), f"h=web{series}") for second in range(points) for series in range(count))


def asked(port, query, runs):
    """The fastest reply to a query, and the reply."""
    request = f"GET /api/query?start={FIRST}&end={FIRST + 3599}&m={query} HTTP/1.1\r\n\r\n".encode()
    times = []
    with socket.create_connection(("127.0.0.1", port)) as client, client.makefile("rb") as output:
        for _ in range(runs):
            begin = time.perf_counter()
            client.sendall(request)
            status, body = http_queries.reply(output)
            times.append(time.perf_counter() - begin)
            if status != 200:
                sys.exit(f"{query} was refused: {body[:200]}")
    return min(times), body


def connection(folder, path):
    """The lines of a session's file for a connection, without the end."""
    with open(path) as lines, open(f"{folder}/connection", "w") as out:
        out.writelines(line for line in lines if line != "exit\n")
    return [f"{folder}/connection"]


def peak(program, folder, words, path):
    """The peak KiB of a server that was given the lines of a file. It keeps no list of its steps, as a session does."""
    server = serve.Server("0-3", [program, "serve", "0", "--auto-metric", *words])
    serve.clients(folder, "0-3", "telnet", server.port, connection(folder, path))
    with open(f"/proc/{server.process.pid}/status") as status:
        found = next(int(line.split()[1]) for line in status if line.startswith("VmHWM:"))
    server.end(True)
    return found


def query_time(program, folder, words, path, runs):
    """The fastest reply to the query over the points of a file, and the reply."""
    server = serve.Server("0-3", [program, "serve", "0", "--auto-metric", *words])
    serve.clients(folder, "0-3", "telnet", server.port, connection(folder, path))
    found = asked(server.port, QUERY, runs)
    server.end(True)
    return found


def query_times(program, folder, path, runs):
    """The fastest reply to the query over the points of a file, of each kind; the replies are the same."""
    found = {kind: query_time(program, folder, words, path, runs) for kind, words in KINDS.items()}
    if found["puts"][1] != found["appends"][1]:
        sys.exit("the replies differ")
    return {kind: times for kind, (times, _) in found.items()}


def main():
    if len(sys.argv) not in (2, 3):
        sys.exit("usage: appends.py PROGRAM [RUNS]")
    program, runs = os.path.realpath(sys.argv[1]), int((sys.argv + ["5"])[2])
    with tempfile.TemporaryDirectory() as folder:
        serve.build(folder, "clients")
        http_queries.generated(f"{folder}/lines")
        with open(f"{folder}/lines") as lines, open(f"{folder}/puts", "w") as out:
            out.writelines(f"put {line}" for line in lines)
            out.write("exit\n")
        none = f"{folder}/none"
        write(none, [])
        print("| points | puts, points/s | appends, points/s | time, appends / puts |")
        print("|---|---|---|---|")

        def told(name, count, found):
            one, two = found["puts"], found["appends"]
            print(f"| {name} | {count / one:.0f} | {count / two:.0f} | {two / one:.2f} |", flush=True)

        told("`stdio`, 1,000 series of 1,000", SERIES * POINTS, by_turns(runs, lambda words: session(program, words, f"{folder}/puts")))
        files = serve.deal(folder, "dealt", f"{folder}/lines", 4, True, "put ")

        def served(words):
            return serve.measure(folder, ("0-3", "0-3"), "telnet", [program, "serve", "0", "--auto-metric", *words], files, True)[0]

        told("`serve`, 4 connections", SERIES * POINTS, by_turns(runs, served))
        columns = {}
        for name, series, count in (("`stdio`, 100 series of 3,600 in one hour", 100, 3600), ("`stdio`, one series of 1,000,000 in one hour", 1, 1_000_000)):
            columns[name] = f"{folder}/{series}-{count}"
            write(columns[name], rows(series, count) if series > 1 else hour(count))
            told(name, series * count, by_turns(runs, lambda words: session(program, words, columns[name])))

        print("\n| one hour's points, in no order | appends, points/s | query, ms | query, ns a point |")
        print("|---|---|---|---|")
        for count in (10_000, 100_000, 1_000_000):
            path = f"{folder}/unordered{count}"
            points = hour(count)
            random.Random(3).shuffle(points)
            write(path, points)
            taken = min(session(program, KINDS["appends"], path) for _ in range(runs))
            least = query_time(program, folder, KINDS["appends"], path, runs)[0]
            print(f"| {count} | {count / taken:.0f} | {least * 1e3:.2f} | {least * 1e9 / count:.0f} |", flush=True)

        print("\n| rows | points of each | puts, bytes a point | appends, bytes a point | appends / puts |")
        print("|---|---|---|---|---|")
        empty = by_turns(1, lambda words: peak(program, folder, words, none))
        for count, points in ((500_000, 1), (10_000, 60), (300, 3600)):
            path = f"{folder}/rows{points}"
            write(path, rows(count, points))
            found = by_turns(1, lambda words: peak(program, folder, words, path))
            one, two = ((found[kind] - empty[kind]) * 1024 / (count * points) for kind in KINDS)
            print(f"| {count} | {points} | {one:.1f} | {two:.1f} | {two / one:.2f} |", flush=True)

        print("\n| points, asked by `sum:1m-avg` | puts, ms | appends, ms | appends / puts |")
        print("|---|---|---|---|")
        for name, path in (("1,000 series of 360 in one hour", f"{folder}/puts"), *((name.removeprefix("`stdio`, "), path) for name, path in columns.items())):
            found = query_times(program, folder, path, runs)
            print(f"| {name} | {found['puts'] * 1e3:.2f} | {found['appends'] * 1e3:.2f} | {found['appends'] / found['puts']:.2f} |", flush=True)


if __name__ == "__main__":
    main()
