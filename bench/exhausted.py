#!/usr/bin/env python3
"""Tries what `tsd stdio` answers where a kind has no id left, by telnet, by a put and by an assignment over HTTP, for each kind.

    bench/exhausted.py PROGRAM

PROGRAM is the built `tsd_main`. Ids have two bytes, so 65,535 names of a kind have all of them. Prints each case, and ends with status 1
where a reply isn't the wanted one."""
import json
import subprocess
import sys

NAMES = 65_535
KINDS = ("metric", "tagk", "tagv")


def words(metric, key, value):
    return f"put {metric} 1 1 {key}={value}\n"


def element(metric, key, value):
    return {"metric": metric, "timestamp": 1, "value": 1, "tags": {key: value}}


def filled(number):
    return f"m{number}", f"k{number}", f"v{number}"


# Of each kind a new name, and last a point whose names have ids.
NEW = [("n", "k0", "v1"), ("m1", "n", "v0"), ("m0", "k1", "n"), ("m0", "k1", "v0")]


def ran(program, data):
    run = subprocess.run([program, "stdio", "--auto-metric", "--widths", "2,2,2"], input=data, capture_output=True, check=True)
    return run.stdout.decode()


def post(path, value):
    body = json.dumps(value, separators=(",", ":"))
    return f"POST {path} HTTP/1.1\r\nContent-Length: {len(body)}\r\n\r\n{body}"


def bodies(replies):
    """The JSON of each reply, by the lengths in their heads."""
    found = []
    while replies:
        head, replies = replies.split("\r\n\r\n", 1)
        length = int(next(line for line in head.split("\r\n") if line.startswith("Content-Length: ")).split(": ")[1])
        found.append((head.split("\r\n")[0].split(" ", 1)[1], json.loads(replies[:length])))
        replies = replies[length:]
    return found


def by_telnet(program):
    lines = [words(*filled(number)) for number in range(NAMES)] + [words(*names) for names in NEW] + ["stats\n"]
    told = ran(program, "".join(lines).encode())
    refusals = "".join(f"put: ids of {kind} are exhausted\n" for kind in KINDS)
    return told, f"{refusals}requests {NAMES + len(NEW)}\nputs {NAMES + 1}\nrefused 3\n"


def by_http(program):
    exhausted = [f"ids of {kind} are exhausted" for kind in KINDS]
    asked = post("/api/put?summary", [element(*filled(number)) for number in range(NAMES)]) + post("/api/put?details", [element(*names) for names in NEW])
    asked += "GET /api/uid/assign?metric=n,m0&tagk=n,k0&tagv=n,v0 HTTP/1.1\r\n\r\n"
    errors = [{"index": index, "error": error} for index, error in enumerate(exhausted)]
    assigned = {}
    for kind, error in zip(KINDS, exhausted):
        assigned[kind] = {}
        assigned[f"{kind}_errors"] = {"n": error, f"{kind[3] if kind != 'metric' else 'm'}0": "already has id 0001"}
    return bodies(ran(program, asked.encode())), [
        ("200 OK", {"success": NAMES, "failed": 0}),
        ("400 Bad Request", {"success": 1, "failed": 3, "errors": errors}),
        ("400 Bad Request", assigned),
    ]


def main():
    failed = False
    for title, case in (("telnet", by_telnet), ("HTTP", by_http)):
        told, wanted = case(sys.argv[1])
        print(f"{title}: {'as wanted' if told == wanted else f'not as wanted: {told!r}'}")
        failed |= told != wanted
    sys.exit(1 if failed else 0)


if __name__ == "__main__":
    main()
