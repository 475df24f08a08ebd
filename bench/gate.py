#!/usr/bin/env python3
"""Runs the gate and prints, as a Markdown table, the processor seconds that each crate took: for its check, its tests and its must-fail
edits.

    bench/gate.py [ARGUMENT..]

The arguments are those of `rt ci`. What an earlier run on this machine has kept costs nothing, so a whole table wants a machine without
such a run, or `--anew`. The processes are looked at once a second: what began and ended in between isn't counted."""
import os
import subprocess
import sys
import time

KINDS = ["check", "tests", "edits"]
TICKS = os.sysconf("SC_CLK_TCK")


def stats_of_all():
    """What /proc tells of each process, from its state on."""
    found = {}
    for name in os.listdir("/proc"):
        if name.isdigit():
            try:
                with open(f"/proc/{name}/stat") as file:
                    found[int(name)] = file.read().rsplit(")", 1)[1].split()
            except OSError:
                pass
    return found


def descends(pid, root, stats):
    """Whether a process was started by another, or by one that this started."""
    while pid in stats and pid != root:
        pid = int(stats[pid][1])
    return pid == root


def look(root, spent):
    """Notes what each prover process has taken so far."""
    stats = stats_of_all()
    provers = {}
    for pid, fields in stats.items():
        try:
            with open(f"/proc/{pid}/cmdline") as file:
                words = file.read().split("\0")
            folder = os.readlink(f"/proc/{pid}/cwd")
        except OSError:
            continue
        if os.path.basename(words[0]) == "rattle" and "--crate-name" in words and descends(pid, root, stats):
            provers[pid] = (words, folder)
    for pid, (words, folder) in provers.items():
        fields = stats[pid]
        # A prover's own processes are counted with it, as they end: utime, stime, and the same of its children.
        if int(fields[1]) in provers:
            continue
        crate = words[words.index("--crate-name") + 1]
        kind = "edits" if "/rt-edit" in folder else "tests" if "--test" in words else "check"
        # The process by its number and the time of its start.
        spent[pid, fields[19]] = (crate, kind, sum(int(fields[i]) for i in (11, 12, 13, 14)) / TICKS)


def main():
    spent = {}
    began = time.monotonic()
    gate = subprocess.Popen(["rt", "ci", *sys.argv[1:]])
    while gate.poll() is None:
        look(gate.pid, spent)
        time.sleep(1)
    crates = {}
    for crate, kind, seconds in spent.values():
        crates.setdefault(crate, dict.fromkeys(KINDS, 0.0))[kind] += seconds
    print(f"| crate | {' | '.join(KINDS)} |\n|---|{'---|' * len(KINDS)}")
    for crate, costs in sorted(crates.items()):
        print(f"| `{crate}` | {' | '.join(str(round(costs[kind])) for kind in KINDS)} |")
    print(f"| all | {' | '.join(str(round(sum(costs[kind] for costs in crates.values()))) for kind in KINDS)} |")
    print(f"{(time.monotonic() - began) / 60:.0f} minutes")
    sys.exit(gate.returncode)


main()
