#!/usr/bin/env python3
"""Counts the instructions of queries' own parts with valgrind's cachegrind, for `tsd batch` and for plain.rs, and how often `tsd` takes
memory for them, and prints a Markdown table.

    bench/queries.py PROGRAM

PROGRAM is the built `tsd_main`. A query's own part is what a run takes more than one over the same lines that asks for a second before
them all. Instructions tell it where the times of whole runs differ by more than it."""
import os
import re
import subprocess
import sys
import tempfile

HERE = os.path.dirname(os.path.abspath(__file__))
SERIES, POINTS, FIRST = 1000, 250, 1356998400
LAST = FIRST + (POINTS - 1) * 10
METRIC = "sys.cpu.user"
QUERIES = [f"sum:{METRIC}", f"sum:1m-avg:{METRIC}", f"sum:1m-avg:{METRIC}{{host=*}}", f"sum:{METRIC}{{host=web0007}}"]


def instructions(program, start, end, query, lines):
    """The instructions of a run, and what it printed."""
    words = ["valgrind", "--tool=cachegrind", "--cache-sim=no", "--cachegrind-out-file=/dev/null", program, "batch", str(start), str(end), query]
    with open(lines) as source:
        ran = subprocess.run(words, stdin=source, capture_output=True, text=True, check=True)
    return int(re.search(r"I\s+refs:\s+([\d,]+)", ran.stderr).group(1).replace(",", "")), ran.stdout


def times_taken(program, start, end, query, lines):
    """How often a run takes memory."""
    words = ["valgrind", "--tool=memcheck", program, "batch", str(start), str(end), query]
    with open(lines) as source:
        ran = subprocess.run(words, stdin=source, capture_output=True, text=True, check=True)
    return int(re.search(r"total heap usage: ([\d,]+) allocs", ran.stderr).group(1).replace(",", ""))


def main():
    if len(sys.argv) != 2:
        sys.exit("usage: queries.py PROGRAM")
    with tempfile.TemporaryDirectory() as folder:
        plain, lines = f"{folder}/plain", f"{folder}/lines"
        subprocess.run(["rustc", "--edition", "2024", "-O", "-o", plain, f"{HERE}/plain.rs"], check=True)
        with open(lines, "w") as file:
            subprocess.run([sys.executable, f"{HERE}/generate.py", str(SERIES), str(POINTS), "--tags", "2"], stdout=file, check=True)
        programs = [os.path.realpath(sys.argv[1]), plain]
        loads = [instructions(it, 1, 1, QUERIES[0], lines)[0] for it in programs]
        taken = times_taken(programs[0], 1, 1, QUERIES[0], lines)
        print("| query | tsd, instructions a line | plain, instructions a line | tsd / plain | tsd, memory taken, times a line |")
        print("|---|---|---|---|---|")
        for query in QUERIES:
            (ours, text), (theirs, plain_text) = [instructions(it, FIRST, LAST, query, lines) for it in programs]
            if text != plain_text:
                sys.exit(f"the outputs differ for {query}")
            own = [(whole - load) / (SERIES * POINTS) for whole, load in zip((ours, theirs), loads)]
            more = (times_taken(programs[0], FIRST, LAST, query, lines) - taken) / (SERIES * POINTS)
            print(f"| `{query}` | {own[0]:.1f} | {own[1]:.1f} | {own[0] / own[1]:.1f} | {more:.3f} |", flush=True)


main()
