#!/usr/bin/env python3
"""Measures what `stdio --publish` costs more than `stdio`, over 1,000,000 `put` lines, and prints a Markdown table.

    bench/publish.py PROGRAM [RUNS]

PROGRAM is the built `tsd_main`. The runs go by turns; the fastest by the clock counts, of RUNS (5 if left out), and the least time of the
processor. The prefix is that of all points, and one of none."""
import os
import subprocess
import sys
import tempfile
import time

from http_queries import METRIC, POINTS, SERIES, generated

COUNT = SERIES * POINTS
JOBS = [("`stdio`", []), (f"`--publish {METRIC}`", ["--publish", METRIC]), ("`--publish none.`", ["--publish", "none."])]


def once(program, words, puts):
    """The seconds of the clock and of the processor, the peak in MB, and how many lines came."""
    with open(puts) as source, tempfile.TemporaryFile() as sink:
        begin = time.perf_counter()
        process = subprocess.Popen([program, "stdio", "--auto-metric", *words], stdin=source, stdout=sink)
        _, status, used = os.wait4(process.pid, 0)
        taken = time.perf_counter() - begin
        process.returncode = os.waitstatus_to_exitcode(status)
        sink.seek(0)
        lines = sum(1 for _ in sink)
    if process.returncode != 0:
        sys.exit(f"status {process.returncode}")
    return taken, used.ru_utime + used.ru_stime, used.ru_maxrss / 1024, lines


def main():
    if len(sys.argv) not in (2, 3):
        sys.exit("usage: publish.py PROGRAM [RUNS]")
    program, runs = os.path.realpath(sys.argv[1]), int((sys.argv + ["5"])[2])
    with tempfile.TemporaryDirectory() as folder:
        generated(f"{folder}/lines")
        with open(f"{folder}/lines") as lines, open(f"{folder}/puts", "w") as out:
            out.writelines(f"put {line}" for line in lines)
        found = [[] for _ in JOBS]
        for _ in range(runs):
            for times, (_, words) in zip(found, JOBS):
                times.append(once(program, words, f"{folder}/puts"))
    print("| what | lines | points/s | processor, s | peak MB | clock / `stdio` | processor / `stdio` |")
    print("|---|---|---|---|---|---|---|")
    least = [[min(column) for column in zip(*times)] for times in found]
    for (name, _), (taken, spent, peak, lines) in zip(JOBS, least):
        print(f"| {name} | {lines} | {COUNT / taken:.0f} | {spent:.2f} | {peak:.1f} | {taken / least[0][0]:.2f} | {spent / least[0][1]:.2f} |")


if __name__ == "__main__":
    main()
