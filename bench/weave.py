#!/usr/bin/env python3
"""Replays woven scripts and compares them with the program's summaries.

    bench/weave.py PROGRAM [SEEDS [COUNT]]     weaves SEEDS seeds, 100 where it isn't said, of COUNT operations, 1,000 where it isn't said
    bench/weave.py - SEED COUNT                prints the summary of one replay

It is written from docs/WEAVE.md alone, and keeps dictionaries where the program has a store in regions and calls over any rows."""
import bisect
import subprocess
import sys

FIRST = 1356998400
KINDS = ("metric", "tagk", "tagv")


class Stopped(Exception):
    pass


class Weave:
    def __init__(self, seed, count):
        self.state = seed
        self.count = count
        self.length = 3  # the openings of the three callers
        self.accepted = 0
        self.counter = dict.fromkeys(KINDS, 0)
        self.ids = {kind: {} for kind in KINDS}
        self.names = {kind: {} for kind in KINDS}
        self.rows = {}  # the bytes of a row: {its items: the place that wrote them}
        self.order = []  # the rows, rising
        self.queues = {1: [], 2: [], 3: []}

    def draw(self, bound):
        self.state = (self.state * 6364136223846793005 + 1442695040888963407) % 2**64
        return (self.state >> 33) % bound

    def step(self, daemon):
        """What comes before a step of a daemon; daemon 0 draws nothing. Answers the place of the step."""
        if daemon:
            drawn = self.draw(8)
            if drawn == 0 and daemon < 3:
                self.operate(daemon + 1)
            elif drawn == 1 and self.draw(32) == 0:
                raise Stopped
        self.length += 1
        return self.length

    def operate(self, daemon):
        drawn = self.draw(16)
        try:
            if drawn <= 10:
                metric, host, second, form = self.draw(4), self.draw(8), self.draw(7200), self.draw(4)
                self.put(daemon, metric, host, second, form == 0)
            elif drawn <= 13:
                if self.queues[daemon]:
                    self.compact(daemon, self.queues[daemon].pop(0)[1])
            elif drawn == 14:
                self.ask(daemon, f"m{self.draw(4)}")
        except Stopped:
            pass

    def assign(self, daemon, kind, name):
        self.step(daemon)
        if name in self.ids[kind]:
            return self.ids[kind][name]
        self.step(daemon)
        self.counter[kind] += 1
        own = self.counter[kind]
        self.step(daemon)
        self.names[kind][own] = name
        self.step(daemon)
        return self.ids[kind].setdefault(name, own)

    def put(self, daemon, metric, host, second, fine):
        of_metric = self.assign(daemon, "metric", f"m{metric}")
        of_key = self.assign(daemon, "tagk", "host")
        of_value = self.assign(daemon, "tagv", f"h{host}")
        time = FIRST + second
        base = time - time % 3600
        value = (31 * second + 7 * metric + host) % 2001 - 1000
        row = of_metric.to_bytes(3, "big") + base.to_bytes(4, "big") + of_key.to_bytes(3, "big") + of_value.to_bytes(3, "big")
        width = 1 if -128 <= value < 128 else 2
        place = self.step(daemon)
        if row not in self.rows:
            bisect.insort(self.order, row)
        self.rows.setdefault(row, {})[((time % 3600 * 1000, fine, width, value),)] = place
        self.accepted += 1
        queued = (base, row)
        queue = self.queues[daemon]
        at = bisect.bisect_left(queue, queued)
        if at == len(queue) or queue[at] != queued:
            queue.insert(at, queued)

    def compact(self, daemon, row):
        self.step(daemon)
        read = dict(self.rows.get(row, {}))
        if len(read) < 2:
            return
        best = {}
        for items in read:
            for offset, fine, width, value in items:
                rank = (not fine, width)
                if offset in best and best[offset][3] != value:
                    raise AssertionError("a series has two values at one time")
                if offset not in best or (not best[offset][1], best[offset][2]) < rank:
                    best[offset] = (offset, fine, width, value)
        merged = tuple(best[offset] for offset in sorted(best))
        place = self.step(daemon)
        self.rows[row][merged] = place
        self.step(daemon)
        for items, version in read.items():
            if items != merged and self.rows[row].get(items, version + 1) <= version:
                del self.rows[row][items]

    def ask(self, daemon, metric):
        self.step(daemon)
        if metric not in self.ids["metric"]:
            return
        start = self.ids["metric"][metric].to_bytes(3, "big") + FIRST.to_bytes(4, "big")
        end = start[:3] + (FIRST + 7200).to_bytes(4, "big")
        named = set()
        while True:
            self.step(daemon)
            at = bisect.bisect_left(self.order, start)
            if at == len(self.order) or self.order[at] >= end:
                return
            row = self.order[at]
            start = row + b"\0"
            for named_id in (("tagk", row[7:10]), ("tagv", row[10:13])):
                if named_id not in named:
                    self.step(daemon)
                    named.add(named_id)

    def run(self):
        for _ in range(self.count):
            self.operate(1)
        for daemon in (1, 2, 3):
            for _, row in self.queues[daemon]:
                self.compact(0, row)
        counters = [self.counter[kind] for kind in KINDS]
        wasted = sum(counters) - sum(len(set(self.ids[kind].values())) for kind in KINDS)
        cells = sum(len(cells) for cells in self.rows.values())
        ids = " ".join(map(str, counters))
        return f"operations {self.count}\naccepted {self.accepted}\nids {ids}\nwasted {wasted}\ncells {cells}\n"


def main():
    if len(sys.argv) == 4 and sys.argv[1] == "-":
        woven = Weave(int(sys.argv[2]), int(sys.argv[3]))
        print(woven.run(), end="")
        print(f"{woven.length} entries", file=sys.stderr)
        return
    if not 2 <= len(sys.argv) <= 4:
        sys.exit(__doc__)
    seeds = int(sys.argv[2]) if len(sys.argv) > 2 else 100
    count = int(sys.argv[3]) if len(sys.argv) > 3 else 1000
    for seed in range(seeds):
        told = subprocess.run([sys.argv[1], "weave", str(seed), str(count)], capture_output=True, text=True)
        wanted = Weave(seed, count).run()
        if (told.returncode, told.stdout) != (0, wanted):
            sys.exit(f"seed {seed}: status {told.returncode}\n{told.stdout}and not\n{wanted}")
    print(f"{seeds} seeds of {count} operations: the same summaries")


if __name__ == "__main__":
    main()
