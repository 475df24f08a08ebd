#!/usr/bin/env python3
"""Tells what each guess of docs/GUESSES.md saves: a program that leaves one of them out where the environment's TSD_WITHOUT has its number.

    bench/guesses.py build PROGRAM              builds it by unproved.py
    bench/guesses.py time PROGRAM [RUNS]        runs it with each left out, by turns, and prints a Markdown table
    bench/guesses.py count PROGRAM              the same by valgrind: instructions, and misses of a cache of 1 MiB

Of `time`, 1,000,000 points go through `stdio` and `batch`, of 1,000 series and of 100,000, and through `serve` on four connections with one
metric. The processors' time counts, and of `serve` the clock's too, each the least of RUNS runs (15 if left out). Of `count`, it is 100,000
points of 1,000 series and of 20,000. One program has all switches, so that nothing else differs between two runs."""
import os
import re
import resource
import subprocess
import sys
import tempfile

import http_queries
import serve
import unproved

HERE = os.path.dirname(os.path.abspath(__file__))
TRAIL, ROUND = "guess_table::trails::Trail::", "guess_table::rounds::Round::"
HASHES = [f"guess_table::guesses::Guesses::{call}::<" for call in ("guess", "keep", "grow")]
# By its number: what is left out, the calls that are, and where they are made.
WITHOUT = [
    ("nothing", [], ""),
    ("next series", [TRAIL + "guess", TRAIL + "came"], "known_series::"),
    ("next row", [TRAIL + "guess", TRAIL + "came"], "hints::Hints::"),
    ("next place", [ROUND + "guess", ROUND + "came"], "turn_places::"),
    ("next queued", [ROUND + "guess", ROUND + "came"], "queue::Queue::"),
    ("next of batch", [ROUND + "guess", ROUND + "came"], "pending::"),
    ("last row", ["row_pages::page_places::is_at"], "page_places::place_again"),
    ("row by hash", HASHES, "hints::Hints::"),
    ("pauses", ["region_locks::region_lock::pause"], "region_lock::locked"),
]
SWITCH = """extern char *getenv(const char *);
int tsd_without;
__attribute__((constructor)) static void read_it(void) { char *word = getenv("TSD_WITHOUT"); tsd_without = word ? *word - '0' : 0; }
"""


def wrapper(define, callee, number, name):
    """A function that makes the call, or answers zero where the number is that of the environment."""
    kind = re.match(r"define internal (?:noundef |zeroext )*(.*?) @", define)[1]
    words = ", ".join(f"{it} {arg}" for it, arg in re.findall(r"(ptr|i\d+) noundef (%a\d+)", define[define.index(callee) :]))
    call = f'call {kind} @"{callee}"({words})'
    ends = ("ret void", f"{call}\n  ret void") if kind == "void" else (f"ret {kind} zeroinitializer", f"%r = {call}\n  ret {kind} %r")
    if kind == "i1":
        ends = "ret i1 false", ends[1]
    return f"""define internal {kind} @"{name}"({words}) alwaysinline {{
  %v = load i32, ptr @tsd_without, align 4
  %c = icmp eq i32 %v, {number}
  br i1 %c, label %no, label %yes
no:
  {ends[0]}
yes:
  {ends[1]}
}}
"""


def switched(lines):
    """The module's text with the switches."""
    defines, added, within = {}, [], ""
    for line in lines:
        if line.startswith("define "):
            defines[re.search(r'@"?([^"(]+)', line)[1]] = line
    for at, line in enumerate(lines):
        if line.startswith("define "):
            within = re.search(r'@"?([^"(]+)', line)[1]
        called = re.search(r'call .*?@"([^"]+)"', line)
        for number, (_, calls, where) in enumerate(WITHOUT):
            if called and where in within and any(called[1] == it or it.endswith("<") and called[1].startswith(it) for it in calls):
                name = f"without.{number}.{len(added)}"
                added.append((number, wrapper(defines[called[1]], called[1], number, name)))
                lines[at] = line.replace(f'@"{called[1]}"', f'@"{name}"')
    lacking = set(range(1, len(WITHOUT))) - {number for number, _ in added}
    if lacking:
        sys.exit(f"no calls of {[WITHOUT[number][0] for number in lacking]}")
    return [*lines, "@tsd_without = external global i32, align 4\n", *(text for _, text in added)]


def build(out):
    with tempfile.TemporaryDirectory() as room:
        with open(f"{room}/switch.c", "w") as file:
            file.write(SWITCH)
        subprocess.run([unproved.CLANG, *unproved.FLAGS, "-c", f"{room}/switch.c", "-o", f"{room}/switch.o", "-fPIE", "-O2"], check=True)
        unproved.compile_text(switched(unproved.text_of("tsd_main", room)), room, out, f"{room}/switch.o")


def jobs(program, room, counts):
    """What is run: its name, its words and its input."""
    for series, points in counts:
        with open(f"{room}/lines{series}", "w") as out:
            subprocess.run([sys.executable, f"{HERE}/generate.py", str(series), str(points)], stdout=out, check=True)
        with open(f"{room}/lines{series}") as lines, open(f"{room}/puts{series}", "w") as out:
            out.writelines("put " + line for line in lines)
            out.write("exit\n")
        yield f"stdio, {series} series", [program, "stdio", "--auto-metric"], f"{room}/puts{series}"
        yield f"batch, {series} series", [program, "batch", "1356998400", "1356998400", "zimsum:sys.cpu.user"], f"{room}/lines{series}"


def run(words, path, errors=None):
    """The processors' seconds of a run."""
    before = resource.getrusage(resource.RUSAGE_CHILDREN)
    with open(path) as lines:
        subprocess.run(words, stdin=lines, stdout=subprocess.DEVNULL, stderr=errors, check=True)
    after = resource.getrusage(resource.RUSAGE_CHILDREN)
    return after.ru_utime + after.ru_stime - before.ru_utime - before.ru_stime


def times(program, runs):
    """The least seconds by what was run and by the number of what was left out."""
    least = {}

    def note(what, number, value):
        least[what, number] = min(value, least.get((what, number), value))

    with tempfile.TemporaryDirectory() as room:
        all_jobs = list(jobs(program, room, [(1000, 1000), (100000, 10)]))
        serve.build(room, "clients")
        http_queries.generated(f"{room}/lines")
        files = serve.deal(room, "served", f"{room}/lines", 4, False, "put ")
        for _ in range(runs):
            for number in range(len(WITHOUT)):
                os.environ["TSD_WITHOUT"] = str(number)
                taken, spent, *_ = serve.measure(room, ("0,1", "2,3"), "telnet", [program, "serve", "0", "--auto-metric"], files, True)
                note("serve, by the clock", number, taken)
                note("serve", number, spent)
                for what, words, path in all_jobs:
                    note(what, number, run(words, path))
    return least


def counted(program):
    """Millions of instructions with ten for each miss of a small cache and a hundred for each of a large one, likewise."""
    found = {}
    with tempfile.TemporaryDirectory() as room:
        for what, words, path in jobs(program, room, [(1000, 100), (20000, 5)]):
            for number in range(len(WITHOUT)):
                os.environ["TSD_WITHOUT"] = str(number)
                with open(f"{room}/said", "w") as said:
                    run(["valgrind", "--tool=cachegrind", "--cache-sim=yes", "--LL=1048576,16,64", "--cachegrind-out-file=/dev/null", *words], path, said)
                text = open(f"{room}/said").read()
                refs, small, large = (int(re.search(rf"{it}: +([\d,]+)", text)[1].replace(",", "")) for it in ("I +refs", "D1 +misses", "LL misses"))
                found[what, number] = (refs + 10 * small + 100 * large) / 1e6
    return found


def main():
    if len(sys.argv) < 3 or sys.argv[1] not in ("build", "time", "count"):
        sys.exit("usage: guesses.py build PROGRAM | time PROGRAM [RUNS] | count PROGRAM")
    program = os.path.abspath(sys.argv[2])
    if sys.argv[1] == "build":
        return build(program)
    found = counted(program) if sys.argv[1] == "count" else times(program, int(sys.argv[3]) if len(sys.argv) > 3 else 15)
    whats = list(dict.fromkeys(what for what, _ in found))
    print("| without | " + " | ".join(whats) + " |", "|---" * (len(whats) + 1) + "|", sep="\n")
    for number, (name, _, _) in enumerate(WITHOUT):
        print(f"| {name} | " + " | ".join(f"{found[what, number]:.3f} ({100 * (found[what, number] / found[what, 0] - 1):+.1f} %)" for what in whats) + " |")


main()
