#!/usr/bin/env python3
"""Times queries over HTTP in a session of `tsd stdio` that was given 1,000,000 points in bodies, beside the queries' own part of
`tsd batch` over the same points, and prints a Markdown table.

    bench/http_queries.py PROGRAM [RUNS]

PROGRAM is the built `tsd_main`. The fastest of RUNS counts (5 if left out). A reply's time is from the query's last byte to the reply's.
A query's own part of `batch` is the time from the input's end to the output's, less that of a run over the same lines that asks for a
second before them all. The replies of both are compared."""
import os
import subprocess
import sys
import tempfile
import threading
import time

HERE = os.path.dirname(os.path.abspath(__file__))
SERIES, POINTS, BODY, FIRST = 1000, 1000, 1000, 1356998400
LAST = FIRST + (POINTS - 1) * 10
METRIC = "sys.cpu.user"
QUERIES = [f"sum:1m-avg:{METRIC}", f"sum:1m-avg:{METRIC}{{host=*}}"]


def generated(path, *options):
    with open(path, "w") as file:
        subprocess.run([sys.executable, f"{HERE}/generate.py", str(SERIES), str(POINTS), *options], stdout=file, check=True)


def reply(output):
    """The next reply of a session: its status and its body."""
    status = int(output.readline().split()[1])
    length = 0
    while (line := output.readline().strip()) != b"":
        name, value = line.split(b": ")
        length = int(value) if name == b"Content-Length" else length
    return status, output.read(length)


def session(program, requests, runs):
    """Each query's fastest time in one session, and its body."""
    daemon = subprocess.Popen([program, "stdio", "--auto-metric"], stdin=subprocess.PIPE, stdout=subprocess.PIPE)

    def put():
        with open(requests, "rb") as file:
            daemon.stdin.write(file.read())
            daemon.stdin.flush()

    writer = threading.Thread(target=put)
    writer.start()
    for _ in range(SERIES * POINTS // BODY):
        if reply(daemon.stdout)[0] != 204:
            sys.exit("a point was refused")
    writer.join()
    found = []
    for query in QUERIES:
        asked = query.replace("{", "%7B").replace("}", "%7D")
        request = f"GET /api/query?start={FIRST}&end={LAST}&m={asked} HTTP/1.1\r\n\r\n".encode()
        times = []
        for _ in range(runs):
            begin = time.perf_counter()
            daemon.stdin.write(request)
            daemon.stdin.flush()
            status, body = reply(daemon.stdout)
            times.append(time.perf_counter() - begin)
            if status != 200:
                sys.exit(f"{query} was refused: {body}")
        found.append((min(times), body))
    daemon.stdin.close()
    daemon.wait()
    return found


def after_input(program, lines, start, end, query, runs):
    """The fastest time from the input's end to the output's, and the output."""
    times = []
    for _ in range(runs):
        job = subprocess.Popen([program, "batch", str(start), str(end), query], stdin=subprocess.PIPE, stdout=subprocess.PIPE)
        job.stdin.write(lines)
        job.stdin.flush()
        time.sleep(0.2)
        begin = time.perf_counter()
        job.stdin.close()
        output = job.stdout.read()
        times.append(time.perf_counter() - begin)
        job.wait()
    return min(times), output


def main():
    if len(sys.argv) not in (2, 3):
        sys.exit("usage: http_queries.py PROGRAM [RUNS]")
    program, runs = os.path.realpath(sys.argv[1]), int((sys.argv + ["5"])[2])
    with tempfile.TemporaryDirectory() as folder:
        generated(f"{folder}/requests", "--bodies", str(BODY))
        generated(f"{folder}/lines")
        with open(f"{folder}/lines", "rb") as file:
            lines = file.read()
        replies = session(program, f"{folder}/requests", runs)
        load = after_input(program, lines, 1, 1, QUERIES[0], runs)[0]
        print("| query | reply, bytes | reply over HTTP, ms | own part of batch, ms | HTTP / batch |")
        print("|---|---|---|---|---|")
        for query, (taken, body) in zip(QUERIES, replies):
            whole, output = after_input(program, lines, FIRST, LAST, query, runs)
            if output != body + b"\n":
                sys.exit(f"the replies differ for {query}")
            own = whole - load
            print(f"| `{query}` | {len(body)} | {taken * 1e3:.1f} | {own * 1e3:.1f} | {taken / own:.2f} |", flush=True)


if __name__ == "__main__":
    main()
