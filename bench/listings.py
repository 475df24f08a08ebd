#!/usr/bin/env python3
"""Reckons what the commands on listings and images print, by a program of its own in plain Python, to have their cases from outside.

    bench/listings.py --check                   tells whether the cases of listings.txt, imports.txt and images.txt have the answers that it reckons
    bench/listings.py --write                   writes these answers
    bench/listings.py --against PROGRAM COUNT   compares PROGRAM, a built `tsd_main`, with it, over so many listings and inputs made by chance

The rules are those of docs/LISTINGS.md, docs/IMAGES.md and docs/PROGRAM.md. Nothing here is made for speed, and nothing was looked up in the program."""
import collections
import functools
import pathlib
import random
import re
import subprocess
import sys

DATA = pathlib.Path(__file__).resolve().parent.parent / "crates/test_cases/data"
FILES = ["listings.txt", "imports.txt", "images.txt"]
USAGE = "usage: tsd batch START END M | stdio | serve PORT | import | dump | fsck | fix | weave SEED N | pack | unpack\n"
TABLES = ["ids", "names", "points"]
KINDS = {b"metrics": "metric", b"tagk": "tagk", b"tagv": "tagv"}
ALPHABET = b"abcdefghijklmnopqrstuvwxyzABCDEFGHIJKLMNOPQRSTUVWXYZ0123456789-_./"
LONGEST_LINE, LONGEST_POINT = 2_097_152, 8_192
COLUMN = bytes.fromhex("050000")
COUNTERS = b"\0"
MARK = b"tsdimg01"
I64 = range(-(2**63), 2**63)

Cell = collections.namedtuple("Cell", "table row qual value")
Dot = collections.namedtuple("Dot", "offset fine length value item")
Point = collections.namedtuple("Point", "metric time fine value tags")


# ---- lines

def lines_of(text):
    """Lines end with LF; a last one without it counts where it has a byte."""
    lines = text.split(b"\n")
    return lines if lines[-1] else lines[:-1]


def cell_in(line):
    """The cell that a line tells, if it tells one."""
    words = line.split(b" ")
    if len(line) > LONGEST_LINE or len(words) != 4 or words[0] not in (b"ids", b"names", b"points"):
        return None
    if any(len(word) % 2 or not re.fullmatch(rb"[0-9a-f]+", word) for word in words[1:]):
        return None
    return Cell(TABLES.index(words[0].decode()), *(bytes.fromhex(word.decode()) for word in words[1:]))


def place_of(cell):
    return cell.table, cell.row, cell.qual


def line_text(cell):
    return " ".join([TABLES[cell.table], cell.row.hex(), cell.qual.hex(), cell.value.hex()]) + "\n"


def counted(lines):
    """The cells of lines, with None for each that tells none or isn't above the last cell that counts."""
    last, cells = None, []
    for line in lines:
        cell = cell_in(line)
        if cell and last is not None and place_of(cell) <= last:
            cell = None
        last = place_of(cell) if cell else last
        cells.append(cell)
    return cells


# ---- what cells say

def is_name(text):
    return 1 <= len(text) <= 255 and all(byte in ALPHABET for byte in text)


def greatest(widths, kind):
    return 256 ** widths[kind] - 1


def id_in(widths, kind, text):
    """The number of an id, or 0 where it is none."""
    return int.from_bytes(text, "big") if len(text) == widths[kind] else 0


def uid_in(widths, cell):
    """What a cell of ids or of names says: a counter, the id of a name, or the name of an id; None where it doesn't read."""
    kind = KINDS.get(cell.qual)
    if kind is None:
        return None
    if cell.table == 0 and cell.row == COUNTERS:
        number = int.from_bytes(cell.value, "big")
        return ("counter", kind, number, None) if len(cell.value) == 8 and 1 <= number <= greatest(widths, kind) else None
    name, number = (cell.row, cell.value) if cell.table == 0 else (cell.value, cell.row)
    if not is_name(name) or id_in(widths, kind, number) == 0:
        return None
    return ("forward" if cell.table == 0 else "reverse", kind, id_in(widths, kind, number), name)


class Uids:
    """What cells of ids and of names say together."""

    def __init__(self, widths, cells):
        self.counter, self.forward, self.reverse = {}, {}, {}
        for cell in cells:
            said = uid_in(widths, cell) if cell.table < 2 else None
            if said and said[0] == "counter":
                self.counter[said[1]] = said[2]
            elif said and said[0] == "forward":
                self.forward[said[1], said[3]] = said[2]
            elif said:
                self.reverse[said[1], said[2]] = said[3]

    def is_named(self, kind, number):
        name = self.reverse.get((kind, number))
        return name is not None and self.forward.get((kind, name)) == number


def key_in(widths, row):
    """Metric, base and pairs of a row of points, or None."""
    metric, pair = widths["metric"], widths["tagk"] + widths["tagv"]
    rest = row[metric + 4:]
    if len(row) < metric + 4 or len(rest) % pair or not 1 <= len(rest) // pair <= 8:
        return None
    base = int.from_bytes(row[metric:metric + 4], "big")
    pairs = []
    for at in range(0, len(rest), pair):
        key, value = rest[at:at + widths["tagk"]], rest[at + widths["tagk"]:at + pair]
        pairs.append((int.from_bytes(key, "big"), int.from_bytes(value, "big")))
    number = int.from_bytes(row[:metric], "big")
    rises = all(one[0] < next_one[0] for one, next_one in zip(pairs, pairs[1:]))
    if number == 0 or any(0 in it for it in pairs) or base % 3600 or not rises:
        return None
    return number, base, pairs


@functools.lru_cache(4096)
def item_in(text):
    """The first item of these bytes, without a value, or None."""
    fine = text[:1] != b"" and text[0] >> 4 == 15
    size = 4 if fine else 2
    if len(text) < size:
        return None
    bits = int.from_bytes(text[:size], "big")
    offset = (bits >> 6) % 2**22 if fine else (bits >> 4) * 1000
    length = bits % 8 + 1
    if offset > 3_599_999 or bits & 8 or (fine and bits & 0x30) or length not in (1, 2, 4, 8):
        return None
    return Dot(offset, fine, length, None, text[:size])


def with_value(dot, text):
    return dot._replace(value=int.from_bytes(text, "big", signed=True))


def column_dots(value):
    """The dots of a column: item, value, item, value."""
    dots, at = [], 0
    while at < len(value):
        dot = item_in(value[at:at + 4])
        end = at + len(dot.item) + dot.length if dot else 0
        if dot is None or end > len(value):
            return None
        dots.append(with_value(dot, value[at + len(dot.item):end]))
        at = end
    return dots or None


@functools.lru_cache(64)
def dots_in(qual, value):
    """The dots of a cell, or None where it doesn't read."""
    if qual == COLUMN:
        return column_dots(value)
    dots = []
    while qual:
        dot = item_in(qual)
        if dot is None or (dots and dot.offset <= dots[-1].offset):
            return None
        dots.append(dot)
        qual = qual[len(dot.item):]
    if len(dots) > 1:
        mixed = len({dot.fine for dot in dots}) - 1
        if value[-1:] != bytes([mixed]):
            return None
        value = value[:-1]
    if not dots or len(value) != sum(dot.length for dot in dots):
        return None
    read = []
    for dot in dots:
        read.append(with_value(dot, value[:dot.length]))
        value = value[dot.length:]
    return read


# ---- fsck

def flaw_of(widths, uids, cell):
    """The first that is wrong with a cell among others."""
    if cell.table == 2:
        return point_flaw(widths, uids, cell)
    said = uid_in(widths, cell)
    if said is None:
        return "bad uid cell"
    what, kind, number, name = said
    if what != "counter" and number > uids.counter.get(kind, 0):
        return "id above counter"
    if what == "forward" and uids.reverse.get((kind, number)) != name:
        return "id without name"
    return None


def point_flaw(widths, uids, cell):
    key = key_in(widths, cell.row)
    if key is None:
        return "bad key"
    ids = [("metric", key[0])] + [it for pair in key[2] for it in (("tagk", pair[0]), ("tagv", pair[1]))]
    if not all(uids.is_named(*it) for it in ids):
        return "row id without name"
    return "bad cell" if dots_in(cell.qual, cell.value) is None else None


def clashes(cells):
    """Whether the last of these cells has at some offset another value than one of them, which may be itself."""
    values = collections.defaultdict(set)
    for cell in cells:
        for dot in dots_in(cell.qual, cell.value):
            values[dot.offset].add(dot.value)
    return any(values[dot.offset] != {dot.value} for dot in dots_in(cells[-1].qual, cells[-1].value))


def notes_of(widths, uids, cell, before):
    """What is noted of a cell without a fault, behind those of its row without one."""
    if cell.table == 1:
        kind, number, name = uid_in(widths, cell)[1:]
        return None if uids.forward.get((kind, name)) == number else "wasted id"
    return "clash" if cell.table == 2 and clashes(before + [cell]) else None


def found(widths, text):
    """Each fault and note of a listing, as (number of the line, whether it is a fault, text)."""
    return found_in(widths, counted(lines_of(text)))


def found_in(widths, cells):
    """The same of cells, with None for a line that counts for none."""
    uids = Uids(widths, [cell for cell in cells if cell])
    told, rows = [], collections.defaultdict(list)
    for number, cell in enumerate(cells, 1):
        flaw = "bad line" if cell is None else flaw_of(widths, uids, cell)
        if flaw:
            told.append((number, True, flaw))
            continue
        note = notes_of(widths, uids, cell, rows[cell.table, cell.row])
        rows[cell.table, cell.row].append(cell)
        if note:
            told.append((number, False, note))
    return told


def fsck(widths, text):
    told = found(widths, text)
    faults = sum(is_fault for _, is_fault, _ in told)
    report = "".join(f"line {number}: {what}\n" for number, _, what in told)
    return (2, f"{report}unsound {faults}\n") if faults else (0, f"{report}sound\n")


# ---- fix

def fix(widths, text):
    cells = [cell for cell in map(cell_in, lines_of(text)) if cell]
    store = {}
    for cell in cells:
        store.setdefault(place_of(cell), cell)
    store = {place: store[place] for place in sorted(store)}
    store = {place: cell for place, cell in store.items() if cell.table == 2 or uid_in(widths, cell)}
    mend_names(widths, store)
    mend_counters(widths, store)
    uids = Uids(widths, store.values())
    left = [cell for _, cell in sorted(store.items()) if cell.table < 2 or point_flaw(widths, uids, cell) is None]
    return 0, "".join(line_text(cell) for cell in left)


def mend_names(widths, store):
    """Names from the least one on: one whose id has no name gives it its own, one whose id has another name goes."""
    for place, cell in list(store.items()):
        what, kind, number, name = uid_in(widths, cell) if cell.table == 0 else (None,) * 4
        if what != "forward":
            continue
        there = (1, cell.value, cell.qual)
        if there not in store:
            store[there] = Cell(1, cell.value, cell.qual, name)
        elif store[there].value != name:
            del store[place]


def mend_counters(widths, store):
    """Each counter is the greatest number of its kind that stands."""
    numbers = collections.defaultdict(int)
    for cell in store.values():
        said = uid_in(widths, cell) if cell.table < 2 else None
        if said:
            numbers[cell.qual] = max(numbers[cell.qual], said[2])
    for qual, number in numbers.items():
        store[0, COUNTERS, qual] = Cell(0, COUNTERS, qual, number.to_bytes(8, "big"))


# ---- dump

def rank(dot):
    """The less, the better is the item: seconds before milliseconds, then the greater length."""
    return dot.fine, -dot.length


def staying(dots):
    """Of dots of one offset and one value the first of the best ones stays, in its place."""
    best = {}
    for at, dot in enumerate(dots):
        same = dot.offset, dot.value
        if same not in best or rank(dot) < rank(dots[best[same]]):
            best[same] = at
    return [dots[at] for at in sorted(best.values())]


def time_text(milliseconds, fine):
    return f"{milliseconds // 1000:010}.{milliseconds % 1000:03}" if fine else str(milliseconds // 1000)


def points_in(widths, cells):
    """The points of a sound listing, in the order of a dump."""
    uids = Uids(widths, cells)
    rows = collections.defaultdict(list)
    for cell in cells:
        if cell.table == 2:
            rows[cell.row] += dots_in(cell.qual, cell.value)
    points = []
    for row, dots in rows.items():
        metric, base, pairs = key_in(widths, row)
        tags = sorted((uids.reverse["tagk", key], uids.reverse["tagv", value]) for key, value in pairs)
        for dot in staying(dots):
            points.append(Point(uids.reverse["metric", metric], base * 1000 + dot.offset, dot.fine, dot.value, tags))
    return sorted(points, key=lambda it: (it.metric, it.tags, it.time))


def point_line(point):
    tags = "".join(f" {key.decode()}={value.decode()}" for key, value in point.tags)
    return f"{point.metric.decode()} {time_text(point.time, point.fine)} {point.value}{tags}\n"


def dump(widths, text):
    faults = [f"line {number}: {what}\n" for number, is_fault, what in found(widths, text) if is_fault]
    if faults:
        return 2, faults[0]
    return 0, "".join(point_line(point) for point in points_in(widths, counted(lines_of(text))))


class Refused(Exception):
    pass


# ---- images

def part_bytes(size, part):
    return len(part).to_bytes(size, "big") + part


def image_of(widths, cells):
    head = MARK + bytes(widths[kind] for kind in ["metric", "tagk", "tagv"]) + len(cells).to_bytes(8, "big")
    bodies = [bytes([cell.table]) + part_bytes(2, cell.row) + part_bytes(4, cell.qual) + part_bytes(4, cell.value) for cell in cells]
    return head + b"".join(bodies)


class Image:
    """The fields of an image, read one after the other."""

    def __init__(self, whole):
        self.whole, self.at = whole, 0

    def field(self, size):
        """The next so many bytes."""
        if self.at + size > len(self.whole):
            raise Refused(f"cut short at {self.at}")
        self.at += size
        return self.whole[self.at - size:self.at]

    def part(self, size):
        """A part behind its length, which has so many bytes."""
        at = self.at
        length = int.from_bytes(self.field(size), "big")
        if length == 0:
            raise Refused(f"empty part at {at}")
        return self.field(length)

    def cell(self, last):
        at = self.at
        table = self.field(1)[0]
        if table > 2:
            raise Refused(f"bad table at {at}")
        cell = Cell(table, self.part(2), self.part(4), self.part(4))
        if last is not None and place_of(cell) <= place_of(last):
            raise Refused(f"not rising at {at}")
        return cell

    def read(self):
        """The widths and the cells of a whole image."""
        if self.field(8) != MARK:
            raise Refused("bad mark")
        widths = dict(zip(["metric", "tagk", "tagv"], self.field(3)))
        if not set(widths.values()) <= {2, 3, 4}:
            raise Refused("bad widths")
        cells = []
        for _ in range(int.from_bytes(self.field(8), "big")):
            cells.append(self.cell(cells[-1] if cells else None))
        if self.at < len(self.whole):
            raise Refused(f"trailing bytes at {self.at}")
        return widths, cells


def pack(widths, text):
    """The image, a byte as a character, or the first fault's line."""
    faults = [f"line {number}: {what}\n" for number, is_fault, what in found(widths, text) if is_fault]
    if faults:
        return 2, faults[0]
    return 0, image_of(widths, counted(lines_of(text))).decode("latin-1")


def unpack(whole):
    try:
        widths, cells = Image(whole).read()
    except Refused as why:
        return 2, f"image: {why}\n"
    faults = [f"image: cell {number}: {what}\n" for number, is_fault, what in found_in(widths, cells) if is_fault]
    return (2, faults[0]) if faults else (0, "".join(line_text(cell) for cell in cells))


# ---- import


def name_in(kind, text):
    """A name, or why it is none."""
    if not text:
        raise Refused(f"{kind} name is empty")
    if len(text) > 255:
        raise Refused(f"{kind} name has {len(text)} bytes (255 at most)")
    for at, byte in enumerate(text):
        if byte not in ALPHABET:
            raise Refused(f"{kind} name has byte 0x{byte:02x} at {at}")
    return text


def time_in(text):
    """Milliseconds, and whether they were given."""
    if re.fullmatch(rb"[0-9]+", text):
        number = int(text)
        if 1 <= number < 2**32:
            return number * 1000, False
        if 2**32 <= number <= 4_294_967_295_999:
            return number, True
    elif re.fullmatch(rb"[0-9]{10}\.[0-9]{3}", text):
        number = int(text[:10]) * 1000 + int(text[11:])
        if 1 <= number <= 4_294_967_295_999:
            return number, True
    raise Refused("bad time")


def value_in(text):
    if re.fullmatch(rb"[+-]?[0-9]+", text):
        if int(text) not in I64:
            raise Refused("value too large")
        return int(text)
    raise Refused("floats are not stored" if re.match(rb"[+-]?[0-9]+[.eE]", text) else "bad value")


def tag_in(number, text):
    if b"=" not in text:
        raise Refused(f"tag {number} has no =")
    key, value = text.split(b"=", 1)
    try:
        return name_in("tagk", key), name_in("tagv", value)
    except Refused as why:
        raise Refused(f"tag {number}: {why}") from None


def point_in(line):
    """The point of a line that isn't blank."""
    words = [word for word in line.split(b" ") if word]
    if len(words) < 4:
        raise Refused(f"not enough words (4 needed, {len(words)} found)")
    metric, (time, fine), value = name_in("metric", words[0]), time_in(words[1]), value_in(words[2])
    tags = {}
    pairs = [tag_in(number, word) for number, word in enumerate(words[3:], 1)]
    for key, named in pairs:
        if tags.setdefault(key, named) != named:
            raise Refused(f"two values for tagk {key.decode()}")
    if len(tags) > 8:
        raise Refused(f"{len(tags)} tags (8 at most)")
    return Point(metric, time, fine, value, sorted(tags.items()))


def points_of(text):
    """The points of the lines of an input, each with its line's number, and the text of the first line that doesn't read."""
    points = []
    ended = text.count(b"\n")
    for number, line in enumerate(lines_of(text), 1):
        try:
            if len(line) > LONGEST_POINT:
                raise Refused("line too long")
            line = line[:-1] if number <= ended and line.endswith(b"\r") else line
            if line.strip(b" "):
                points.append((number, point_in(line)))
        except Refused as why:
            return points, f"line {number}: {why}\n"
    return points, None


class Site:
    """The store that points are put into, and the steps that it took."""

    def __init__(self, widths):
        self.widths, self.steps = widths, 0
        self.ids = {kind: {} for kind in KINDS.values()}
        self.rows = collections.defaultdict(dict)

    def assign(self, kind, name):
        ids = self.ids[kind]
        if name not in ids:
            if len(ids) == greatest(self.widths, kind):
                raise Refused(f"ids of {kind} are exhausted")
            ids[name] = len(ids) + 1
            self.steps += 4
        return ids[name].to_bytes(self.widths[kind], "big")

    def put(self, point):
        metric = self.assign("metric", point.metric)
        pairs = sorted((self.assign("tagk", key), self.assign("tagv", value)) for key, value in point.tags)
        offset = point.time % 3_600_000
        length = next(size for size in (1, 2, 4, 8) if -(256**size) // 2 <= point.value < 256**size // 2)
        bits = 0xF << 28 | offset << 6 | length - 1 if point.fine else offset // 1000 << 4 | length - 1
        row = metric + (point.time // 3_600_000 * 3600).to_bytes(4, "big") + b"".join(key + value for key, value in pairs)
        self.rows[row][bits.to_bytes(4 if point.fine else 2, "big")] = point.value.to_bytes(length, "big", signed=True)
        self.steps += 1

    def compact(self, row):
        """The one cell that the cells of a row become, where no two of them clash."""
        cells = sorted(self.rows[row].items())
        dots = sorted(staying([dot for cell in cells for dot in dots_in(*cell)]), key=lambda dot: dot.offset)
        if len(cells) < 2 or len({dot.offset for dot in dots}) < len(dots):
            return
        value = b"".join(dot.value.to_bytes(dot.length, "big", signed=True) for dot in dots)
        tail = bytes([len({dot.fine for dot in dots}) - 1]) if len(dots) > 1 else b""
        self.rows[row] = {b"".join(dot.item for dot in dots): value + tail}

    def cells(self):
        quals = {kind: qual for qual, kind in KINDS.items()}
        for kind, ids in self.ids.items():
            if ids:
                yield Cell(0, COUNTERS, quals[kind], len(ids).to_bytes(8, "big"))
            for name, number in ids.items():
                text = number.to_bytes(self.widths[kind], "big")
                yield Cell(0, name, quals[kind], text)
                yield Cell(1, text, quals[kind], name)
        for row, cells in self.rows.items():
            for qual, value in cells.items():
                yield Cell(2, row, qual, value)

    def listing(self):
        return "".join(line_text(cell) for cell in sorted(self.cells()))


def imported(widths, text, compact, stops):
    points, refused = points_of(text)
    site = Site(widths)
    for number, point in points:
        try:
            site.put(point)
        except Refused as why:
            return 2, f"line {number}: {why}\n"
        if any(stop <= site.steps for stop in stops):
            return 6, ""
    if refused:
        return 2, refused
    if compact:
        if stops:
            return 6, ""
        for row in site.rows:
            site.compact(row)
    return 0, site.listing()


# ---- the words of a run, and what surrounds it

COMMANDS = {"fsck": fsck, "fix": fix, "dump": dump, "pack": pack}


def words_read(words):
    """The widths, and whether rows are compacted; None where the words are no command."""
    said, compact, at = None, False, 1
    while at < len(words):
        word = words[at]
        if word == "--compact" and words[0] == "import" and not compact:
            compact = True
        elif said is None and (word == "--widths" and at + 1 < len(words) or word.startswith("--widths=")):
            at += word == "--widths"
            said = words[at].removeprefix("--widths=") if word != "--widths" else words[at]
            if not re.fullmatch(r"[2-4],[2-4],[2-4]", said):
                return None
        else:
            return None
        at += 1
    return dict(zip(["metric", "tagk", "tagv"], map(int, (said or "3,3,3").split(",")))), compact


def output_of(words, text, stops=()):
    """The status and the text of a run whose devices don't fail."""
    if words == ["unpack"]:
        return unpack(text)
    read = words_read(words) if words and words[0] in (*COMMANDS, "import") else None
    if read is None:
        return 1, USAGE
    widths, compact = read
    return imported(widths, text, compact, stops) if words[0] == "import" else COMMANDS[words[0]](widths, text)


class Devices:
    def __init__(self):
        self.input, self.cuts, self.source_fails, self.sink_fails, self.room, self.stops = b"", [], [], [], 65_536, []

    def change(self, verb, rest):
        if verb in ("input", "tail"):
            self.input += meant(rest) + (b"\n" if verb == "input" else b"")
        elif verb == "image":
            self.input += bytes.fromhex(rest)
        elif verb == "room":
            self.room = int(rest)
        elif verb in ("cuts", "source_fails", "sink_fails", "stops"):
            numbers = [re.fullmatch(r"(\d+)(?:\*(\d+))?", word).groups() for word in rest.split()]
            getattr(self, verb).extend(int(number) for number, times in numbers for _ in range(int(times or 1)))
        elif verb not in ("case", "setup", "clock", "clock_fails"):
            sys.exit(f"no verb of a run: {verb}")

    def before_failure(self):
        """What was taken before the first take that fails, or None where that isn't reached."""
        at = 0
        for take in range(1, max(self.source_fails, default=0) + 1):
            if take in self.source_fails:
                return self.input[:at]
            if at == len(self.input):
                return None
            at = min(len(self.input), at + self.cuts[take - 1]) if take <= len(self.cuts) else len(self.input)
        return None

    def run(self, words):
        """What a run tells: its status, and the lines that it printed."""
        status, text = output_of(words, self.input, self.stops)
        taken = self.before_failure()
        if status != 1 and taken is not None and not is_decided(words, taken):
            status, text = 3, ""
        if text and 1 in self.sink_fails:
            status, text = 4, ""
        elif len(text) > self.room:
            status, text = 4, text[: self.room]
        if text.startswith(MARK.decode()):
            text = f"image {text.encode('latin-1').hex()}"
        elif text and not text.endswith("\n"):
            text += "(no end of line)"
        return [f"status {status}"] + [line.strip() for line in text.removesuffix("\n").split("\n") if text]


    def flipped(self, mask, words):
        """What runs tell of which each has the bits of the mask changed in one byte of the input."""
        whole, told = self.input, []
        for place, byte in enumerate(whole):
            self.input = whole[:place] + bytes([byte ^ mask]) + whole[place + 1:]
            told += [f"byte {place}"] + self.run(words)
        self.input = whole
        return told


def is_decided(words, taken):
    """Whether an import or an image of which this alone was taken is refused whatever comes."""
    if words == ["unpack"]:
        try:
            return Image(taken).read() is None
        except Refused as why:
            return "cut short" not in str(why)
    whole = taken[: taken.rfind(b"\n") + 1]
    return words[0] == "import" and (points_of(whole)[1] is not None or len(taken) - len(whole) > LONGEST_POINT)


# ---- files of cases

ESCAPES = {"n": b"\n", "r": b"\r", "t": b"\t", "\\": b"\\", '"': b'"'}


def meant(text):
    """What a text of a case stands for: itself, or pieces in quotes."""
    if not text.startswith('"'):
        return text.encode()
    whole = b""
    for piece, times in re.findall(r'"((?:[^"\\]|\\.)*)"(?:\*(\d+))?', text):
        parts = re.findall(r"\\x([0-9a-f]{2})|\\(.)|([^\\]+)", piece)
        read = [bytes.fromhex(byte) if byte else ESCAPES[escape] if escape else plain.encode() for byte, escape, plain in parts]
        whole += b"".join(read) * int(times or 1)
    return whole


def shown(line):
    """A line of an answer as a case names it: a piece that comes again and again is told by its number."""
    if len(line) < 1000:
        return line if line and not line.startswith('"') else '"' + line.replace("\\", "\\\\").replace('"', '\\"') + '"'
    pieces, rest = [], line
    while again := re.search(r"(.{2,16}?)\1{99,}", rest):
        pieces += [f'"{rest[:again.start()]}"'] * (again.start() > 0) + [f'"{again[1]}"*{len(again[0]) // len(again[1])}']
        rest = rest[again.end():]
    return " ".join(pieces + [f'"{rest}"'] * bool(rest))


def with_answers(text, check):
    """The text of a file of cases with the answers that are reckoned, but for runs of `batch` and `stdio`, and what differs of those that it has."""
    lines, written, differs, at = text.splitlines(), [], [], 0
    setup, head, devices = [], "", Devices()
    while at < len(lines):
        line, at = lines[at], at + 1
        written.append(line)
        if not line.strip():
            head, devices = "", Devices()
        if not line.strip() or line.startswith(("#", "=")):
            continue
        verb, _, rest = line.partition(" ")
        rest = rest.strip()
        if not head:
            head = verb
            setup = [] if verb == "setup" else setup
            for one in setup if verb == "case" else []:
                devices.change(*one)
        if head == "setup":
            setup.append((verb, rest))
        elif verb not in ("run", "run_pieces", "run_flips"):
            devices.change(verb, rest)
        else:
            words = [meant(word).decode() for word in rest.split()[verb != "run":]]
            if words[0] in ("batch", "stdio"):
                continue
            told, number = devices.flipped(int(rest.split()[0]), words) if verb == "run_flips" else devices.run(words), at
            check(words, devices.input)
            named = []
            while at < len(lines) and lines[at].startswith("="):
                named.append(meant(lines[at][1:].strip()).decode())
                at += 1
            if named != told:
                differs.append(f"{number}: {line[:100]}")
            written += [f"= {shown(one)}" for one in told]
    return "\n".join(written) + "\n", differs


# ---- what holds of all listings

def laws(words, text):
    """Mending makes a sound listing, and leaves a sound one, which its image gives back; what a dump prints is imported as the same points."""
    read = words_read(words) if words and words[0] in COMMANDS else None
    if read is None:
        return
    widths = read[0]
    mended = fix(widths, text)[1].encode()
    assert fsck(widths, mended)[0] == 0 and fix(widths, mended)[1].encode() == mended, text
    if fsck(widths, text)[0] == 0:
        assert mended == (text + b"\n" if lines_of(text) and not text.endswith(b"\n") else text), text
    if len(mended) < 100_000:
        assert unpack(pack(widths, mended)[1].encode("latin-1")) == (0, mended.decode()), text
    if b"clash" not in fsck(widths, mended)[1].encode() and len(mended) < 100_000:
        points = dump(widths, mended)[1].encode()
        status, listing = imported(widths, points, False, ())
        assert status == 2 or dump(widths, listing.encode())[1].encode() == points, text


# ---- listings and inputs made by chance

def some_input(chance):
    """Lines of points, seldom with a fault."""
    def name(kind):
        return chance.choice(["a", "B", "a-b", "a.b", "z", kind])
    lines = []
    for _ in range(chance.choice([0, 1, 2, 5, 12, 30])):
        tags = [f"{name('k')}={name('v')}" for _ in range(chance.choice([1, 1, 2, 3]))]
        time = chance.choice([1356998400, 1357002000]) + chance.choice([0, 1, 80, 255, 3599])
        text = chance.choice([str(time), str(time), f"{time}.{chance.choice(['000', '250'])}", str(time * 1000)])
        value = chance.choice([0, 5, 5, 6, -1, 127, 128, 300, -(2**63), chance.randrange(-(2**40), 2**40)])
        lines.append(chance.choice(["{} {} {} {}"] * 60 + ["", " ", " {}  {} {}   {}"]).format(name("m"), text, value, " ".join(tags)))
        if chance.random() < 0.02:
            lines[-1] = lines[-1][: chance.randrange(len(lines[-1]) + 1)]
    return "".join(line + chance.choice(["\n"] * 9 + ["\r\n"]) for line in lines).encode()


ITEMS = ["0000", "0010", "0500", "f0000000", "f0003e80", "f000fa00"]
WRONG_ITEMS = ["0503", "0011", "0008", "f0003e90", "e100"]


def some_cell(chance, rows):
    """A cell of a row, which may clash with others or not read."""
    items = chance.sample(ITEMS, chance.choice([1, 1, 2, 3])) + chance.choice([[]] * 9 + [[chance.choice(WRONG_ITEMS)]])
    if chance.random() < 0.5:
        return Cell(2, chance.choice(rows), COLUMN, bytes.fromhex("".join(item + chance.choice(["05", "06"]) for item in items)))
    items.sort(key=lambda item: item_in(bytes.fromhex(item)).offset if item in ITEMS else 0)
    mixed = "01" if len({len(item) for item in items}) > 1 else "00"
    value = "".join(chance.choice(["05", "06"]) for _ in items) + (mixed if len(items) > 1 else "")
    return Cell(2, chance.choice(rows), bytes.fromhex("".join(items)), bytes.fromhex(value))


def some_listing(chance, widths):
    """What an import makes, with a few lines changed."""
    text = imported(widths, some_input(chance), chance.random() < 0.5, ())[1]
    cells = [cell for cell in map(cell_in, text.encode().splitlines()) if cell]
    rows = [cell.row for cell in cells if cell.table == 2]
    for _ in range(chance.choice([0, 0, 1, 2, 4]) if rows else 0):
        cells.append(some_cell(chance, rows))
    lines = [line_text(cell).encode() for cell in (sorted(set(cells)) if chance.random() < 0.8 else cells)]
    for _ in range(chance.choice([0, 0, 1, 1, 2, 4])):
        if lines:
            change(chance, lines)
    text = b"".join(lines)
    return text[:-1] if chance.random() < 0.1 else text


def change(chance, lines):
    """Drops a line, doubles or moves one, or changes a digit or a word."""
    at = chance.randrange(len(lines))
    what = chance.randrange(7)
    if what == 0:
        del lines[at]
    elif what == 1:
        lines.insert(chance.randrange(len(lines) + 1), lines[at])
    elif what == 2:
        lines.insert(chance.randrange(len(lines)), lines.pop(at))
    elif what == 3:
        place = chance.randrange(len(lines[at]))
        lines[at] = lines[at][:place] + bytes([chance.choice(b"0123456789abcf A\r\xff")]) + lines[at][place + 1:]
    elif what == 4:
        changes = [(b"000001", b"000002"), (b"0001", b"0003"), (b"7461676b", b"74616776"), (b"000002", b"000001")]
        lines[at] = lines[at].replace(*chance.choice(changes))
    elif what == 5:
        words = lines[at].split(b" ")
        other = chance.choice(lines).split(b" ")
        place = min(chance.randrange(4), len(words) - 1, len(other) - 1)
        words[place] = other[place]
        lines[at] = b" ".join(words)
    else:
        lines[at] = chance.choice([b"\n", b"ids\n", lines[at][:-1] + b"\r\n", b" " + lines[at], lines[at].upper()])


def some_image(chance, widths, listing):
    """The image of a listing that was mended, with a byte changed, left out or added now and then."""
    whole = bytearray(pack(widths, fix(widths, listing)[1].encode())[1].encode("latin-1"))
    for _ in range(chance.choice([0, 0, 1, 1, 2])):
        at = chance.randrange(len(whole))
        what = chance.randrange(5)
        if what == 0:
            del whole[at:]
        elif what == 1:
            whole.insert(at, chance.randrange(256))
        elif what == 2:
            whole[at] = chance.choice([0, 1, 2, 3, 255])
        else:
            whole[at] ^= 1 << chance.randrange(8)
        if not whole:
            break
    return bytes(whole)


def against(program, count):
    """Runs a built program over listings and inputs made by chance."""
    seen = collections.Counter()
    for seed in range(count):
        chance = random.Random(seed)
        said = chance.choice(["3,3,3", "3,3,3", "2,2,2", "4,4,4", "2,3,4", "4,3,2"])
        widths = dict(zip(["metric", "tagk", "tagv"], map(int, said.split(","))))
        listing, points = some_listing(chance, widths), some_input(chance)
        laws(["fix", f"--widths={said}"], listing)
        image = some_image(chance, widths, listing)
        runs = [(["fsck"], listing), (["fix"], listing), (["dump"], listing), (["pack"], listing), (["import"], points), (["import", "--compact"], points)]
        for words, text in [(words + ["--widths", said], text) for words, text in runs] + [(["unpack"], image)]:
            wanted = output_of(words, text)
            ran = subprocess.run([program, *words], input=text, capture_output=True)
            if (ran.returncode, ran.stdout) != (wanted[0], wanted[1].encode("latin-1")):
                print(f"seed {seed}: {' '.join(words)}\n{text}\nwanted {wanted}\ngave   {(ran.returncode, ran.stdout)}")
                sys.exit(1)
            seen[words[0], wanted[0]] += 1
            for line in wanted[1].splitlines() if words[0] == "fsck" else []:
                seen[line.split(": ")[-1]] += 1
            if words == ["unpack"] and wanted[0] == 2:
                seen[re.sub(r"\d+", "N", wanted[1].strip())] += 1
    print(", ".join(f"{what}: {times}" for what, times in sorted(seen.items(), key=str)))


def main():
    match sys.argv[1:]:
        case ["--against", program, count]:
            against(program, int(count))
        case ["--check" | "--write" as how]:
            for file in FILES:
                old = (DATA / file).read_text()
                new, differs = with_answers(old, laws)
                if how == "--write":
                    (DATA / file).write_text(new)
                elif differs:
                    sys.exit("".join(f"{file}:{it}\n" for it in differs))
        case _:
            sys.exit(__doc__)


main()
