#!/usr/bin/env python3
"""Times queries over HTTP in a session of `tsd stdio` that was given 1,000,000 points in bodies, beside the same answers made by hand of
rows that are two byte strings each (scans.rs), and prints a Markdown table.

    bench/scans.py PROGRAM [RUNS]

PROGRAM is the built `tsd_main`. The fastest of RUNS counts (5 if left out). A reply's time is from the query's last byte to the reply's,
that of scans.rs from its last line to the answer. The replies of both are compared. The lines are of 1,000 series with 1,000 points each,
and of 100,000 with 10."""
import os
import subprocess
import sys
import tempfile

import http_queries

HERE = os.path.dirname(os.path.abspath(__file__))
METRIC = http_queries.METRIC
SETS = [
    (1000, 1000, [f"sum:1m-avg:{METRIC}", f"sum:{METRIC}", f"sum:1m-avg:{METRIC}{{host=*}}"]),
    (100000, 10, [f"sum:1m-avg:{METRIC}"]),
]


def by_hand(program, lines, last, query, runs):
    """The fastest time of scans.rs in seconds, and its answer."""
    times = []
    for _ in range(runs):
        with open(lines, "rb") as source:
            words = [program, str(http_queries.FIRST), str(last), query]
            ran = subprocess.run(words, stdin=source, capture_output=True, check=True)
        times.append(float(ran.stderr) / 1e3)
    return min(times), ran.stdout


def main():
    if len(sys.argv) not in (2, 3):
        sys.exit("usage: scans.py PROGRAM [RUNS]")
    program, runs = os.path.realpath(sys.argv[1]), int((sys.argv + ["5"])[2])
    with tempfile.TemporaryDirectory() as folder:
        hand = f"{folder}/scans"
        subprocess.run(["rustc", "--edition", "2024", "-O", "-o", hand, f"{HERE}/scans.rs"], check=True)
        print("| series | points each | query | reply over HTTP, ms | by hand, ms | time, tsd / by hand |")
        print("|---|---|---|---|---|---|")
        for series, points, queries in SETS:
            http_queries.SERIES, http_queries.POINTS, http_queries.QUERIES = series, points, queries
            http_queries.LAST = last = http_queries.FIRST + (points - 1) * 10
            http_queries.generated(f"{folder}/requests", "--bodies", str(http_queries.BODY))
            http_queries.generated(f"{folder}/lines")
            replies = http_queries.session(program, f"{folder}/requests", runs)
            for query, (taken, body) in zip(queries, replies):
                least, answer = by_hand(hand, f"{folder}/lines", last, query, runs)
                if answer != body + b"\n":
                    sys.exit(f"the replies differ for {query}")
                print(f"| {series} | {points} | `{query}` | {taken * 1e3:.1f} | {least * 1e3:.1f} | {taken / least:.2f} |", flush=True)


if __name__ == "__main__":
    main()
