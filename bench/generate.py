#!/usr/bin/env python3
"""Writes import lines of one metric, as collectors send them: for each time in turn all series.

Each line is `sys.cpu.user TIME VALUE host=webNNNN cpu=C`, with further tags on request. With `--bodies N` the points come in requests
`POST /api/put`, each with a list of N of them.
"""

import argparse
import itertools
import json
import random
import sys

FIRST_TIME = 1356998400
STEP = 10
CPUS = 4


def tags(series, count):
    """The tags of one series; the first two alone tell it from the others."""
    host, cpu = divmod(series, CPUS)
    pairs = [
        ("host", f"web{host:04d}"),
        ("cpu", str(cpu)),
        ("dc", ("lga", "ams", "sin")[host % 3]),
        ("rack", f"r{host % 40:02d}"),
        ("role", ("frontend", "storage")[host % 2]),
        ("env", "production"),
        ("kernel", f"6.{host % 7}.{host % 11}"),
        ("owner", f"team-{host % 16}"),
    ]
    if count == 1:
        pairs = [("host", f"web{series:04d}")]
    return " ".join(f"{key}={value}" for key, value in pairs[:count])


def element(line):
    """A line as an element of a put."""
    metric, time, value, *pairs = line.split()
    return {"metric": metric, "timestamp": int(time), "value": int(value), "tags": dict(pair.split("=") for pair in pairs)}


def batches(lines, size):
    """Lists of so many lines, the last one perhaps shorter."""
    lines = iter(lines)
    while batch := list(itertools.islice(lines, size)):
        yield batch


def requests(lines, size):
    """Requests, each of which puts as many points."""
    for chunk in batches(lines, size):
        body = json.dumps([element(line) for line in chunk], separators=(",", ":"))
        yield f"POST /api/put HTTP/1.1\r\nContent-Length: {len(body)}\r\n\r\n{body}"


def main():
    parser = argparse.ArgumentParser(description=__doc__)
    parser.add_argument("series", type=int)
    parser.add_argument("points", type=int, help="points of each series")
    parser.add_argument("--tags", type=int, default=2, choices=range(1, 9))
    parser.add_argument("--seed", type=int, default=1)
    parser.add_argument("--shuffle", action="store_true", help="put the lines into a random order")
    parser.add_argument("--bodies", type=int, help="points of each body, as HTTP requests")
    options = parser.parse_args()

    values = random.Random(options.seed)
    ends = [tags(series, options.tags) for series in range(options.series)]
    lines = (
        f"sys.cpu.user {FIRST_TIME + point * STEP} {values.randrange(-1000, 1000000)} {end}\n"
        for point in range(options.points)
        for end in ends
    )
    if options.shuffle:
        lines = list(lines)
        values.shuffle(lines)
    if options.bodies:
        lines = requests(lines, options.bodies)
    sys.stdout.writelines(lines)


if __name__ == "__main__":
    main()
