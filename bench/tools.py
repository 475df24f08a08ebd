#!/usr/bin/env python3
"""Measures `import`, `fsck`, `fix`, `dump`, `pack` and `unpack` beside plain Rust that does the same, by turns, and prints a Markdown table for each size.

    bench/tools.py PROGRAM PLAIN [RUNS] [SERIESxPOINTS[xTAGS] ..]

PROGRAM is the built `tsd_main`, PLAIN bench/tools.rs by `rustc -O --edition 2021`, which makes the listings too. Time is the fastest of RUNS (5 if left out), memory the peak of the
process. The sizes are 1000x1000, 100000x10, 1000x1000x8 and 10000x1000 where none is named: so many series and points of each, in turns
over the series, each point with 2 tags or as many as are named. Both have to print the same bytes. `fix, no order` has the lines of the listing shuffled; `batch` over the lines and the plain
printing of the listing are there for `import`."""
import hashlib
import os
import random
import subprocess
import sys
import tempfile
import time

from generate import tags

FIRST = 1_356_998_400


def lines(path, series, points, count):
    """Lines of points with so many tags: each series has a point each ten seconds."""
    values = random.Random(7)
    names = [" ".join([f"host=web{at // 4:05d} cpu={at % 4}", *tags(at, count).split()[2:]]) for at in range(series)]
    with open(path, "w") as file:
        for at in range(points):
            for name in names:
                file.write(f"sys.cpu.user {FIRST + at * 10} {values.randrange(-1000, 30000)} {name}\n")


def run(program, words, path, status=0):
    """The seconds and the peak of a run over a file, and the sum of what it printed."""
    begin = time.perf_counter()
    with open(path, "rb") as file:
        job = subprocess.Popen([program, *words], stdin=file, stdout=subprocess.PIPE)
        found = hashlib.blake2b()
        while piece := job.stdout.read(1 << 20):
            found.update(piece)
        _, ended, used = os.wait4(job.pid, 0)
    seconds = time.perf_counter() - begin
    if os.waitstatus_to_exitcode(ended) != status:
        sys.exit(f"{program} {words} ended with {os.waitstatus_to_exitcode(ended)}")
    return seconds, used.ru_maxrss / 1024, found.hexdigest()


def by_turns(runs, jobs):
    """The fastest seconds and the least peak of each job."""
    found = {name: [] for name in jobs}
    for _ in range(runs):
        for name, (program, words, path) in jobs.items():
            found[name].append(run(program, words, path))
    return {name: (min(f[0] for f in of), min(f[1] for f in of), of[0][2]) for name, of in found.items()}


def main():
    program, plain = sys.argv[1:3]
    rest = sys.argv[3:]
    runs = int(rest.pop(0)) if rest and rest[0].isdigit() else 5
    sizes = rest or ["1000x1000", "100000x10", "1000x1000x8", "10000x1000"]
    with tempfile.TemporaryDirectory() as folder:
        points, listing, shuffled, image = (os.path.join(folder, name) for name in ("points", "listing", "shuffled", "image"))
        for size in sizes:
            series, each, *more = map(int, size.split("x"))
            count = more[0] if more else 2
            lines(points, series, each, count)
            with open(points, "rb") as file, open(listing, "wb") as out:
                subprocess.run([plain, "import"], stdin=file, stdout=out, check=True)
            with open(listing, "rb") as file, open(image, "wb") as out:
                subprocess.run([plain, "pack"], stdin=file, stdout=out, check=True)
            with open(listing) as file:
                all_lines = file.readlines()
            random.Random(3).shuffle(all_lines)
            with open(shuffled, "w") as file:
                file.writelines(all_lines)
            del all_lines
            print(f"\n{series:,} series of {each:,} points, {count} tags each; a listing of {os.path.getsize(listing) / 1e6:.0f} MB, an image of {os.path.getsize(image) / 1e6:.0f} MB\n")
            print("| Job | tsd, s | plain Rust, s | tsd / plain | tsd, MB | plain, MB | tsd / plain |\n|---|---|---|---|---|---|---|")
            for job, words, path in [("fsck", ["fsck"], listing), ("dump", ["dump"], listing), ("fix", ["fix"], listing), ("fix, no order", ["fix"], shuffled), ("pack", ["pack"], listing), ("unpack", ["unpack"], image), ("import", ["import"], points)]:
                both = by_turns(runs, {"tsd": (program, words, path), "plain": (plain, words, path)})
                if both["tsd"][2] != both["plain"][2]:
                    sys.exit(f"{job}: the two print other bytes")
                a, b = both["tsd"], both["plain"]
                print(f"| `{job}` | {a[0]:.2f} | {b[0]:.2f} | {a[0] / b[0]:.2f} | {a[1]:.0f} | {b[1]:.0f} | {a[1] / b[1]:.2f} |", flush=True)
            words = ["batch", str(FIRST), str(FIRST + each * 10), "sum:1h-avg:sys.cpu.user"]
            seconds = by_turns(runs, {"batch": (program, words, points)})["batch"]
            print(f"| `batch` of the same lines | {seconds[0]:.2f} | | | {seconds[1]:.0f} | | |", flush=True)


if __name__ == "__main__":
    main()
