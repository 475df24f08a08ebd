#!/usr/bin/env python3
"""Writes docs/PROTOCOL.md from the cases of crates/test_cases/data/protocol.txt, so that what the page tells is what the gate runs.

    docs/protocol.py            writes the page
    docs/protocol.py --check    tells whether the page is the one that would be written

A block of comments is text. A case is an example: its title, its comments, the bytes of its `input` and `tail` lines as a line to copy, and
the output that its run is to have. What its clock shows stands in its comments."""
import pathlib
import re
import sys

DOCS = pathlib.Path(__file__).resolve().parent
CASES = DOCS.parent / "crates/test_cases/data/protocol.txt"
PAGE = DOCS / "PROTOCOL.md"
HOST = "localhost:4242"
ESCAPES = {"n": "\n", "r": "\r", "t": "\t", "\\": "\\", '"': '"'}


def meant(text):
    """What a text of a case stands for: itself, or pieces in quotes."""
    if not text.startswith('"'):
        return text
    whole = ""
    for piece, times in re.findall(r'"((?:[^"\\]|\\.)*)"(?:\*(\d+))?', text):
        plain = re.sub(r"\\(x[0-9a-f]{2}|.)", lambda found: chr(int(found[1][1:], 16)) if found[1][0] == "x" else ESCAPES[found[1]], piece)
        whole += plain * int(times or 1)
    return whole


def requests_of(asked):
    """The requests of an HTTP connection: method, target, fields and body."""
    requests = []
    while asked:
        head, asked = asked.split("\r\n\r\n", 1)
        first, *fields = head.split("\r\n")
        method, target, version = first.split(" ")
        fields = dict(field.split(": ", 1) for field in fields)
        length = fields.pop("Content-Length", None)
        body, asked = asked[: int(length or 0)], asked[int(length or 0) :]
        if version != "HTTP/1.1" or (length is None) != (method != "POST"):
            return None
        requests.append((method, target, fields, body))
    return requests


def quoted(text):
    """A word of a shell."""
    return "'" + text.replace("'", "'\\''") + "'"


def curl_line(requests):
    """A line of curl for these requests, which it makes over one connection."""
    calls = []
    for method, target, fields, body in requests:
        words = ["-si"]
        if method == "POST":
            words += ["-d", quoted(body)]
        elif method != "GET":
            words += ["-X", method]
        for field in fields.items():
            words += ["-H", quoted(": ".join(field))]
        calls.append(" ".join(words + [quoted(f"http://{HOST}{target}")]))
    return "curl " + " \\\n  --next ".join(calls)


def nc_line(asked):
    """A line of nc for these bytes."""
    text = asked.replace("\\", "\\\\").replace("%", "%%").replace("\r", "\\r").replace("\n", "\\n")
    return f"printf {quoted(text)} | nc -N {HOST.replace(':', ' ')}"


def asking(asked):
    """The line to copy."""
    requests = requests_of(asked) if asked[:1].isupper() else None
    return nc_line(asked) if requests is None else curl_line(requests)


def replies_of(output):
    """The output, each reply of HTTP on lines of its own."""
    replies = ""
    while output.startswith("HTTP/1.1 "):
        head, output = output.split("\n\n", 1)
        length = re.search(r"^Content-Length: (\d+)$", head, re.MULTILINE)
        count = int(length[1]) if length else 0
        replies += f"{head}\n\n" + (output[:count] + "\n" if count else "")
        output = output[count:]
    return replies + output


def example(lines):
    """An example: what is asked and what is replied."""
    title, text, asked, output, words = "", [], "", [], None
    for line in lines:
        verb, _, rest = line.partition(" ")
        if verb == "case":
            title = rest
        elif verb == "#":
            text.append(rest)
        elif verb == "input":
            asked += meant(rest) + "\n"
        elif verb == "tail":
            asked += meant(rest)
        elif verb == "run_pieces":
            words = rest
        elif verb == "=":
            output.append(meant(rest))
        elif verb != "clock":
            sys.exit(f"protocol.txt: no line of an example: {line}")
    if not words.endswith(" stdio --auto-metric") or output[:1] != ["status 0"]:
        sys.exit(f"protocol.txt: {title}: not a run of the daemon that the page names")
    output = "\n".join(output[1:]) + "\n" if output[1:] else ""
    output = replies_of(output.replace("(no end of line)\n", ""))
    if output and not output.endswith("\n"):
        output += "\n"
    page = [f"### {title}", ""]
    page += text + [""] if text else []
    page += ["```sh", asking(asked), "```", ""]
    page += ["```", *output.rstrip("\n").split("\n"), "```"] if output else ["No reply."]
    return page


def page_of(text):
    """The page of a file of cases."""
    parts = []
    for block in re.split(r"\n\s*\n", text.strip("\n")):
        lines = block.split("\n")
        if lines[0].startswith("case "):
            parts.append("\n".join(example(lines)))
        else:
            parts.append("\n".join(line[2:] for line in lines))
    return "\n\n".join(parts) + "\n"


def main():
    page = page_of(CASES.read_text())
    if sys.argv[1:] == ["--check"]:
        if not PAGE.exists() or PAGE.read_text() != page:
            sys.exit("docs/PROTOCOL.md isn't what docs/protocol.py writes")
    elif sys.argv[1:]:
        sys.exit(__doc__)
    else:
        PAGE.write_text(page)


if __name__ == "__main__":
    main()
