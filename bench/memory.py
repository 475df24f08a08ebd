#!/usr/bin/env python3
"""Refuses each growth of a run in turn, one in a run, and looks at what comes.

    bench/memory.py PROGRAM [SERVES]

Runs jobs of one caller with every number of a growth: `batch`, `import --compact`, and HTTP puts and queries by `stdio`. Then `serve` with one
daemon and one worker, by SERVES times the growths of a usual run, 1 where it isn't said: threads make a number there unrepeatable, so what
comes is judged alone. Builds drivers/refuse.c, which needs `cc`. Prints a table, and ends with status 1 where an answer is wrong."""
import json
import os
import re
import socket
import subprocess
import sys
import tempfile

TOP = os.path.dirname(os.path.dirname(os.path.abspath(__file__)))
NO_MEMORY = "tsd: there is no memory"
LINES = "m 1356998400 10 h=a\nm 1356998405 7 h=b\nm 1356998410 20 h=a\n"
TWICE = "m 1356998400 5 h=a\nm 1356998400000 5 h=a\n"
ELEMENTS = [{"metric": "m", "timestamp": 1356998400 + at, "value": value, "tags": {"h": "a"}} for at, value in ((0, 1), (1, 1.5), (2, "3"))]
BODY = json.dumps(ELEMENTS, separators=(",", ":"))
PUT = f"POST /api/put?details HTTP/1.1\r\nContent-Length: {len(BODY)}\r\n\r\n{BODY}"
ASK = "GET /api/query?start=1356998400&end=1356998410&m=sum:m HTTP/1.1\r\n\r\n"
SUGGEST = "GET /api/suggest?type=metrics HTTP/1.1\r\n\r\n"
TELNET = "put m 1356998400 1 h=a\nput m 1356998410 x h=a\nstats\ndropcaches\nput m 1356998411 2 h=b\nversion\nexit\n"
JOBS = [
    ("`batch`, three points and their sum", ["batch", "1356998400", "1356998410", "sum:m"], LINES),
    ("`batch`, the same in buckets and groups", ["batch", "1356998400", "1356998410", "sum:5s-avg-zero:m{h=*}"], LINES),
    ("`import`, three points", ["import"], LINES),
    ("`import --compact`, one point in two forms", ["import", "--compact"], TWICE),
    ("`stdio`, a telnet session", ["stdio", "--auto-metric"], TELNET),
    ("`stdio`, an HTTP put of 200 bytes", ["stdio", "--auto-metric"], PUT),
    ("`stdio`, the put, a query and a suggestion", ["stdio", "--auto-metric"], PUT + ASK + SUGGEST),
]
wrong = []


def settings(library, number, growths):
    return {**os.environ, "LD_PRELOAD": library, "REFUSE": str(number), "GROWTHS": growths}


def growths_in(path):
    with open(path, "rb") as file:
        return int.from_bytes(file.read(), sys.byteorder)


def judged(status, printed, error, usual, fronts):
    """What came, in words, and whether it may come. Where fronts are printed, a front of the usual text may be."""
    if (status, printed, error) == (*usual, ""):
        return "as usual", True
    told = "nothing printed" if not printed else "a front printed" if usual[1].startswith(printed) else "something else printed"
    may_come = told == "nothing printed" or fronts and told == "a front printed"
    return f"status {status}, {told}" + (f", `{error}`" if error else ""), status == 5 and may_come and error == NO_MEMORY


def ranges(found):
    """For each answer the numbers that gave it, as ranges."""
    ends = {}
    for number, answer in found:
        parts = ends.setdefault(answer, [])
        if parts and parts[-1][1] == number - 1:
            parts[-1][1] = number
        else:
            parts.append([number, number])
    return {answer: ", ".join(f"{first}" if first == last else f"{first} to {last}" for first, last in parts) for answer, parts in ends.items()}


def row(*cells):
    print("| " + " | ".join(str(cell) for cell in cells) + " |", flush=True)


def try_job(program, library, folder, name, words, text):
    def run(number):
        done = subprocess.run([program, *words], input=text.encode(), capture_output=True, timeout=60, env=settings(library, number, f"{folder}/growths"))
        return done.returncode, done.stdout.decode(), done.stderr.decode().strip()

    usual = run(0)[:2]
    count = growths_in(f"{folder}/growths")
    found = []
    for number in range(1, count + 1):
        answer, good = judged(*run(number), usual, words[0] != "batch")
        found.append((number, answer))
        if not good:
            wrong.append(f"{name}, growth {number}: {answer}")
    for answer, numbers in ranges(found).items():
        row(name, count, numbers, answer)


# A server


def said(port, text):
    """What is replied on a connection that says this and no more."""
    with socket.create_connection(("127.0.0.1", port), timeout=20) as client:
        heard = b""
        try:
            client.sendall(text.encode())
            client.shutdown(socket.SHUT_WR)
            while piece := client.recv(65536):
                heard += piece
        except TimeoutError:
            raise
        except OSError:
            pass
        return heard.decode()


def points_of(reply):
    """The points of a query's reply; None where it has none."""
    found = re.search(r'"dps":(\{.*?\})', reply)
    return json.loads(found[1]) if found else None


def serve_once(program, library, folder, number):
    """The status of a server, what it printed, and the replies on three connections; the last one is asked until it answers."""
    words = [program, "serve", "0", "--daemons", "1", "--workers", "1", "--auto-metric"]
    with subprocess.Popen(words, stdin=subprocess.DEVNULL, stdout=subprocess.PIPE, stderr=subprocess.PIPE, text=True, env=settings(library, number, f"{folder}/growths")) as server:
        first = server.stdout.readline()
        replies = []
        try:
            if first:
                port = int(first.split()[1])
                replies = [said(port, PUT), said(port, TELNET), said(port, ASK)]
                for _ in range(3):
                    if "exiting" in said(port, "diediedie\n"):
                        break
        except (ConnectionRefusedError, TimeoutError) as fault:
            replies.append(repr(fault))
        try:
            rest, error = server.communicate(timeout=20)
        except subprocess.TimeoutExpired:
            server.kill()
            server.communicate()
            return None, "", "it doesn't end", replies
    return server.returncode, first + rest, error.strip(), replies


def judged_serve(usual, status, printed, error, replies):
    """What came of a server, in words, and whether it may come."""
    if status == 5 and not printed and re.match(r"tsd: \d of 2 threads can be made", error):
        return "status 5, a trial of threads failed", True
    if status == 5 and error == NO_MEMORY:
        return "status 5, " + ("the port isn't told" if not printed else "the port is told, and nothing is accepted" if len(replies) < 3 else "behind three connections"), True
    if status == 7 and error.endswith("can't be bound: out of memory"):
        return f"status 7, `{error}`", True
    if status is None:
        return "no end, and a connection without a reply", False
    if status != 0 or len(replies) != 3:
        return f"status {status}, `{error}`, {len(replies)} replies", False
    short = [at for at, (old, new) in enumerate(zip(usual[3][:2], replies)) if old != new]
    fronts = all(usual[3][at].startswith(replies[at]) for at in short)
    asked = points_of(replies[2])
    shown = points_of(usual[3][2])
    subset = not replies[2] or asked is None and "unknown metric" in replies[2] or asked is not None and all(key in shown for key in asked)
    cells, before = (int(re.search(r"cells (\d+)", text)[1]) for text in (printed, usual[1]))
    ended = len(short) + (not replies[2])
    words = f"status 0, {['each connection as usual', 'a connection ended', 'two connections ended', 'three connections ended'][ended]}"
    if not ended and cells > before:
        words += ", more cells"
    return words, fronts and subset and (not short or ended <= 1)


def try_serve(program, library, folder, times):
    usual = serve_once(program, library, folder, 0)
    count = growths_in(f"{folder}/growths")
    found = {}
    for number in [it for _ in range(times) for it in range(1, count + 1)]:
        came = serve_once(program, library, folder, number)
        answer, good = judged_serve(usual, *came)
        found[answer] = found.get(answer, 0) + 1
        if not good:
            wrong.append(f"serve, growth {number}: {answer}: {came}")
    for answer, runs in found.items():
        row("`serve`, an HTTP put, a telnet session and a query", count, f"{runs} of {times * count} runs", answer)


def main():
    if len(sys.argv) not in (2, 3):
        sys.exit("usage: memory.py PROGRAM [SERVES]")
    program = os.path.abspath(sys.argv[1])
    with tempfile.TemporaryDirectory() as folder:
        library = f"{folder}/refuse.so"
        subprocess.run(["cc", "-O1", "-shared", "-fPIC", "-o", library, f"{TOP}/bench/drivers/refuse.c"], check=True)
        row("what", "growths", "the one refused", "what came")
        row("---", "---", "---", "---")
        for job in JOBS:
            try_job(program, library, folder, *job)
        try_serve(program, library, folder, int(sys.argv[2]) if len(sys.argv) == 3 else 1)
    for line in wrong:
        print(f"WRONG: {line}")
    print(f"\n{len(wrong)} wrong")
    sys.exit(1 if wrong else 0)


main()
