#!/usr/bin/env python3
"""Lists, in the order of reading, the definitions from the headline of `run` down to its leaves, with the lines of each.

    docs/theorem.py            writes the list into docs/THEOREM.md
    docs/theorem.py --check    tells whether it is the one that would be written

It fails where a definition of the list is gone, where one names a definition that is neither in the list nor a leaf, where a leaf is named by none,
and where more than 300 lines are to be read. A type of the code is no definition: its declaration in `src` says what it is."""
import pathlib
import re
import sys

DOCS = pathlib.Path(__file__).resolve().parent
CRATES = DOCS.parent / "crates"
PAGE = DOCS / "THEOREM.md"
MOST_LINES = 300
CLAUSE = ("tsd_run", "run.rt", "headline")
BEGIN, END = "<!-- the list of docs/theorem.py -->", "<!-- the list ends -->"

# each module with its definitions, in the order of reading
PATH = [
    ("tsd_run", "RunHeadlines", "RunHeadline LoneHeadline FleetHeadline BeginsSo IsOwnHistory LinkHeadline StdioHeadline"),
    ("batch_run", "BatchHeadlines", "BatchHeadline PrintsPlainly IsPlainOver reads_in"),
    ("command_words", "CommandWords", "fleet_asked"),
    ("tsd_daemon", "Headline", "Headline OneIdEach RepliedPlainly IsPlain ArePlain AnsweredFrom"),
    ("tsd_daemon", "TakenInTurn", "TakenInTurn InTurn answers_all"),
    ("query_run", "Invisible", "AcceptedFor IsOneValued"),
    ("row_scan", "RowReadings", "Chosen"),
    ("query_run", "AskedQueries", "wanted is_wanted as_point answer_over"),
    ("http_api", "HttpAnswers", "IsReplyTo QueryTells Told told"),
    ("tsd_daemon", "Exchanges", "Exchange requests_in replies_in moments_in moment_by moment_for"),
    ("tsd_daemon", "ConnRequests", "ConnRequest asks_clock point_asked conn_requests begins_http is_capital telnet_asks http_asks"),
    ("tsd_daemon", "ServedConns", "ConnTold Passes"),
    ("tsd_daemon", "ConnClocks", "Gave"),
    ("conn_workers", "ServedLinks", "ServedLink GaveSome AllTell"),
    ("worker_returns", "GatheredLinks", "CallerLinks links_of returned_by"),
    ("link_workers", "Returns", "AllEnd"),
    ("tsd_fleet", "FleetServes", "IsTally"),
    ("tsd_run", "Runs", "HasStatus"),
    ("batch_run", "BatchQueries", "query_of"),
    ("batch_run", "Outcomes", "replied refused_query refused Outcome"),
]

# what isn't read further, by the name of its paragraph
LEAVES = {
    "A lawful history": [("cell_model", "History", "History base_of first len store_after"), ("cell_model", "Lawful", "IsLawful")],
    "Names and ids": [("cell_model", "IdRows", "id_of NameOf IsResolved")],
    "Points and readings": [("cell_model", "Readings", "Reading OneValued Accepted reading_of"), ("tsd_base", "Points", "DataPoint")],
    "The plain answer": [("series_groups", "QueryAnswers", "answer"), ("tag_match", "Patterns", "passes"), ("tsd_base", "Tags", "is_same")],
    "The reply's text": [
        ("json_reply", "Replies", "Group text_of"),
        ("json_reply", "ErrorBodies", "error_body"),
        ("metric_scan", "AskFaultTexts", "ask_fault_text"),
        ("http_reply", "ReplyBytes", "reply_bytes"),
        ("http_reply", "ReplyStatuses", "code_of"),
    ],
    "What bytes ask": [
        ("telnet_put", "Requests", "Request requests_of"),
        ("http_requests", "HttpRequests", "requests_of"),
        ("http_api", "CallWork", "work_of asks_clock Work"),
        ("command_words", "CommandWords", "asked_of Asked Batch Serve"),
        ("query_text", "Subs", "sub_of"),
        ("batch_job", "PointLines", "points_of"),
    ],
    "What devices tell": [
        ("tsd_run", "RunDevices", "Devices LoneDevices InputTold lone conn_told"),
        ("tsd_io", "Ticks", "Ticks"),
        ("tsd_doors", "Links", "Shut"),
    ],
    "What is published": [("stdio_job", "LoneConnections", "TellsBehind")],
    "An image": [("tsd_run", "FleetStatuses", "TakesStore")],
    "The last lines": [("serve_job", "FleetRuns", "last_lines")],
    "The numbers of a store": [("cell_model", "Counts", "counters_of point_rows point_entries"), ("cell_model", "Store", "Store")],
}

HEAD = re.compile(r"^(?:abbrev pub|unfoldable pub|pub record|pub data|pub abbrev) ([^\s:({]+)")
WORD = re.compile(r"[A-Za-z_][A-Za-z_0-9]*(?:\.[A-Za-z_][A-Za-z_0-9]*)?")
USE = re.compile(r"^(?:pub |ghost )?use Rattle\.([a-z_0-9]+)\.specs\.([^{\s]+?)(?:\.\{(.*)\})?(?: as (\w+))?;?$", re.M)


class Module:
    """A file of definitions: what it imports, and each definition with its lines, its comment among them."""

    def __init__(self, crate, name):
        self.crate, self.name = crate, name
        lines = (CRATES / crate / "specs" / f"{name}.antt").read_text().split("\n")
        self.blocks = {}
        for at, line in enumerate(lines):
            found = HEAD.match(line)
            if found:
                first, last = at, at
                while lines[first - 1].startswith("-- ") and not lines[first - 1].startswith("-- ----"):
                    first -= 1
                while last + 1 < len(lines) and lines[last + 1] and not HEAD.match(lines[last + 1]) and not lines[last + 1].startswith("-- "):
                    last += 1
                self.blocks[found[1]] = (first + 1, lines[first : last + 1])
        self.words = imported("\n".join(lines)) | {name: (crate, self.name, name) for name in self.blocks}

    def named(self, definition):
        """The definitions that one names."""
        return named_in(self.words, self.blocks[definition][1])


def imported(text):
    """What the names that a text imports stand for; those of a type's variants stand for the type, and an alias of a module for its definitions."""
    words = {}
    for crate, path, names, alias in USE.findall(text):
        if not (CRATES / crate).is_dir() or path.startswith("declared."):
            continue
        module, _, variants_of = path.partition(".")
        if alias:
            words[alias] = (crate, module, None)
        for one in filter(None, re.split(r",\s*", names)):
            whole, _, short = one.partition(" as ")
            words[short or whole] = (crate, module, variants_of or whole)
    return words


def named_in(words, lines):
    """The definitions that lines name."""
    for word in WORD.findall("\n".join(line for line in lines if not line.strip().startswith(("--", "//")))):
        front, _, back = word.partition(".")
        if front in words:
            crate, module, definition = words[front]
            yield crate, module, definition or back


def clause():
    """The lines of the clause itself, the comment above it among them, and the definitions that it names."""
    crate, name, word = CLAUSE
    text = (CRATES / crate / "src" / name).read_text()
    lines = text.split("\n")
    first = next(at for at, line in enumerate(lines) if line.strip().startswith(f"ensures {word} "))
    last = first
    while not lines[last].rstrip().endswith("}"):
        last += 1
    while lines[first - 1].strip().startswith("//"):
        first -= 1
    return last - first + 1, list(named_in(imported(text), lines[first : last + 1]))


def rows_of():
    """The rows of the list, and what is wrong with it."""
    lines, names = clause()
    rows, wrong, total = [], [], lines
    listed = {(crate, module, word) for crate, module, words in PATH for word in words.split()}
    leaves = {(crate, module, word) for leaf in LEAVES.values() for crate, module, words in leaf for word in words.split()}
    used = set(names)
    wrong += [f"the clause names {crate}: {module}.{word}, which is neither listed nor a leaf" for crate, module, word in used - listed - leaves]
    for crate, module, words in PATH:
        file = Module(crate, module)
        count = 0
        for word in words.split():
            if word not in file.blocks:
                wrong.append(f"{crate}: {module}.{word} is no definition")
                continue
            count += len(file.blocks[word][1])
            for other in file.named(word):
                used.add(other)
                if other not in listed and other not in leaves:
                    wrong.append(f"{crate}: {module}.{word} names {other[0]}: {other[1]}.{other[2]}, which is neither listed nor a leaf")
        total += count
        path = f"../crates/{crate}/specs/{module}.antt"
        rows.append(f"| `{crate}`: [{module}]({path}) | {', '.join(f'`{word}`' for word in words.split())} | {count} |")
    wrong += [f"{crate}: {module}.{word} is a leaf that no definition of the list names" for crate, module, word in sorted(leaves - used)]
    if total > MOST_LINES:
        wrong.append(f"{total} lines are more than {MOST_LINES}")
    first = f"| `{CLAUSE[0]}`: [{CLAUSE[1]}](../crates/{CLAUSE[0]}/src/{CLAUSE[1]}) | the clause `{CLAUSE[2]}` | {lines} |"
    return ["| Module | Definitions | Lines |", "|---|---|---|", first, *rows, f"| all | | {total} |"], sorted(set(wrong))


def main():
    rows, wrong = rows_of()
    page = PAGE.read_text()
    front, rest = page.split(BEGIN)
    written = front + BEGIN + "\n\n" + "\n".join(rows) + "\n\n" + END + rest.split(END)[1]
    wrong += [f"docs/THEOREM.md has no paragraph for the leaf '{leaf}'" for leaf in LEAVES if f"**{leaf}.**" not in page]
    if wrong:
        sys.exit("\n".join(wrong))
    if "--check" in sys.argv[1:]:
        if written != page:
            sys.exit("docs/THEOREM.md isn't what docs/theorem.py writes")
    else:
        PAGE.write_text(written)


if __name__ == "__main__":
    main()
