#!/usr/bin/env python3
"""Tells which form of packed rows the points of real agents take, and the memory that each form saves.

    bench/forms.py listen FILE PORT            keeps the put lines that come to this port of 127.0.0.1
    bench/forms.py tell [OPTIONS] FILE..       models the rows of those lines

Options of `tell`: `--round` takes a value that isn't an integer as the nearest one, where it is refused without it. `--days N` adds to each
counter, a series that only rises, what it would have gained in so many days before. `--shift S` adds so many seconds to each time, which is
then rounded to a whole one. `--hour T` takes the hour that begins at this second alone, `--only TAG` the lines that
have this tag. `--records OUT` writes the cells as they are put, for `drivers/row_forms.sh`, which compares the model with the crate.

A line is a time of arrival or none, then `put METRIC TIME VALUE TAG=VALUE..`. Memory is what malloc gives for the lists of a row's cells. The
first table tells what share of rows each form takes, and the memory of all rows, as it is and with forms left out. The second tells the same
memory with other forms."""
import argparse
import asyncio
import collections
import os
import struct
import sys
import time

HOUR = 3600
# Bytes of a slot: the version, the qualifier where it is kept, and the value with a byte that tells its length.
EVEN, NARROW, FOUR, WIDE, HEAD = 8 + 3, 8 + 2 + 3, 8 + 2 + 5, 8 + 2 + 9, 16


def chunk(size):
    """The bytes that malloc takes for so many."""
    return max(32, (size + 8 + 15) // 16 * 16) if size else 0


def room_by_quarters(count, start=0):
    """The room of a list that grew by a quarter, one after the other, from a list without room to spare."""
    room = start
    while room < count:
        room += room // 4 + 4
    return room


def room_to_hour(count, first, step):
    """The same, with no more room than the hour has steps."""
    room = 0
    while room < count:
        more = room // 4 + 4
        if room >= 2:
            left = (HOUR - 1 - first) // step + 1 - room
            if 0 < left < more:
                more = left
        room += more
    return room


def width(value):
    """The bytes of an integer's value, and None of one that is too large."""
    return next((n for n in (1, 2, 4, 8) if -(1 << 8 * n - 1) <= value < 1 << 8 * n - 1), None)


class Row:
    """The cells of a row, by what `packed_cells` says: in what form they are, and where the row left the even form."""

    def __init__(self):
        self.cells = {}  # qualifier: bytes of its value
        self.first, self.step, self.next, self.slots = 0, 1, 0, 0
        self.even, self.left, self.why = True, 0, ""
        self.values = set()

    def put(self, second, value):
        length = width(value)
        qual = second * 16 + length - 1
        if self.even and qual not in self.cells and not self.push(second, length):
            self.even, self.left = False, self.slots if self.slots > 1 else 0
        self.cells[qual] = length
        self.values.add(value)

    def push(self, second, length):
        if length > 2:
            self.why = "value"
            return False
        if self.slots == 0:
            self.first = second
        elif self.slots == 1 and second > self.first:
            self.step = second - self.first
        elif self.slots > 1 and second == self.next:
            pass
        else:
            self.why = "time"
            return False
        self.slots += 1
        self.next = second + self.step
        return True

    def most(self):
        return max(self.cells.values())

    def steps(self):
        """The seconds from one cell to the next, rising."""
        seconds = sorted(qual >> 4 for qual in self.cells)
        return [b - a for a, b in zip(seconds, seconds[1:])]

    def form(self):
        return "even" if self.even else "narrow" if self.most() <= 2 else "wide"

    def as_strip(self, start=0, widths=(NARROW, WIDE)):
        """The bytes of the strip that suits all, with its room, where it began with a copy of so many cells."""
        slot = next(size for size in (NARROW, FOUR, WIDE) if size in widths and self.most() <= {NARROW: 2, FOUR: 4, WIDE: 8}[size])
        return slot * room_by_quarters(len(self.cells), start if slot == NARROW else 0)

    def as_mixed(self):
        """What malloc gives for heads of 16 bytes, a block of qualifiers and values, and the box of both."""
        length = room = 0
        for value in self.cells.values():
            if room - length < 2 + value:
                room = length + max(length // 4 + 4, 2 + value)
            length += 2 + value
        return chunk(HEAD * room_by_quarters(len(self.cells))) + chunk(room) + chunk(80)

    def bytes_now(self):
        if len(self.cells) == 1:
            return 0  # The only cell of a row stands in the row itself.
        if self.even:
            return EVEN * room_to_hour(self.slots, self.first, self.step)
        return self.as_strip(self.left)

    def bytes_to_hour(self, slot):
        """The bytes of slots of this size with no more room than the hour has steps like those that came."""
        seconds = sorted(qual >> 4 for qual in self.cells)
        step = max(1, (seconds[-1] - seconds[0]) // max(1, len(seconds) - 1))
        return slot * room_to_hour(len(self.cells), seconds[0], step)

    def fits_even(self):
        """Whether slots at even steps would hold all cells, were values of 4 and 8 bytes slots too."""
        return len(set(self.steps())) <= 1 and len({qual >> 4 for qual in self.cells}) == len(self.cells)


def points_of(path, shift, only):
    """The points of a file by series, in the order in which they came. A time in seconds of which a part is left is rounded."""
    series = collections.defaultdict(list)
    with open(path, errors="replace") as file:
        for line in file:
            words = line.split()
            if "put" not in words[:2] or not line.endswith("\n") or only and only not in words:
                continue
            words = words[words.index("put") + 1 :]
            series[words[0], tuple(sorted(words[3:]))].append((int(float(words[1]) + shift + 0.5), words[2]))
    return series


def integers(points, rounds):
    """The points that are accepted, and how many are refused."""
    kept = []
    for at, text in points:
        try:
            value = int(text)
        except ValueError:
            if not rounds or "nan" in text.lower() or "inf" in text.lower():
                continue
            value = round(float(text))
        if width(value) is not None and at > 0:
            kept.append((at, value))
    return kept, len(points) - len(kept)


def aged(points, days):
    """The points of a counter that was up for so many days more at the same rate, and other points as they are."""
    values = [value for _, value in points]
    if not days or len(points) < 2 or values[-1] == values[0] or any(b < a for a, b in zip(values, values[1:])):
        return points
    more = (values[-1] - values[0]) * days * 86400 // max(1, points[-1][0] - points[0][0])
    return [(at, min(value + more, 2**63 - 1)) for at, value in points]


def rows_of(path, options):
    """The rows of a file, how many points were refused, and the cells as they were put."""
    rows, refused, records = {}, 0, []
    for name, points in sorted(points_of(path, options.shift, options.only).items()):
        points, lost = integers(points, options.round)
        refused += lost
        for at, value in aged(points, options.days):
            base = at - at % HOUR
            if options.hour in (None, base):
                row = rows.setdefault((name, base), Row())
                row.put(at - base, value)
                records.append((name, base, at - base, value))
    return rows, refused, records


def share(part, whole):
    return f"{100 * part / max(whole, 1):.1f}"


def sizes(rows):
    """The bytes of all rows: as they are, with forms left out, and with other forms."""
    slots = [NARROW if row.most() <= 2 else WIDE for row in rows]
    wide_even = {1: EVEN, 2: EVEN, 4: 8 + 5, 8: 8 + 9}

    def each(size):
        return sum(chunk(size(row, slot)) for row, slot in zip(rows, slots))

    def uneven(size):
        return each(lambda row, slot: row.bytes_now() if row.even else size(row, slot))

    yield "as it is", each(lambda row, _: row.bytes_now())
    yield "without even", each(lambda row, _: row.as_strip())
    yield "without narrow", uneven(lambda row, _: row.as_strip(widths=(WIDE,)))
    yield "without wide", sum(row.as_mixed() if row.form() == "wide" else chunk(row.bytes_now()) for row in rows)
    yield "without strips", sum(chunk(row.bytes_now()) if row.even else row.as_mixed() for row in rows)
    yield "rooms end with the hour", uneven(lambda row, slot: row.bytes_to_hour(slot))
    yield "rooms so, without even", each(lambda row, slot: row.bytes_to_hour(slot))
    yield "strips of 4 bytes too", uneven(lambda row, _: row.as_strip(row.left, (NARROW, FOUR, WIDE)))
    yield "even of up to 8 bytes", each(lambda row, _: row.bytes_to_hour(wide_even[row.most()]) if row.fits_even() else row.as_strip(row.left))
    yield "offsets of one byte", uneven(lambda row, slot: row.bytes_to_hour(slot - 1))
    yield "versions of 4 bytes", each(lambda row, slot: row.bytes_to_hour((EVEN if row.even else slot) - 4))


def tell(options):
    first, second = [], []
    for path in options.files:
        rows, refused, records = rows_of(path, options)
        if options.records:
            write_records(options.records, list(rows), records)
        rows = list(rows.values())
        cells = sum(len(row.cells) for row in rows)
        forms = collections.Counter(row.form() for row in rows)
        moving = [row for row in rows if len(row.values) > 1]
        bytes_of = dict(sizes(rows))
        now = bytes_of["as it is"]
        shares = [share(forms[form], len(rows)) for form in ("even", "narrow", "wide")]
        shares += [share(len(moving), len(rows)), share(sum(row.even for row in moving), len(moving))]
        left = collections.Counter(row.why for row in rows if not row.even)
        left = [share(left[why], len(rows)) for why in ("time", "value")]
        name = os.path.basename(path).split(".")[0]
        more = [f"{100 * (size - now) / now:+.1f}" for size in bytes_of.values()]
        first.append([name, len(rows), cells, refused, *shares, *left, f"{now / cells:.1f}", *more[1:5]])
        second.append([name, *more[5:]])
        asked = {form: sum(row.bytes_now() for row in rows if row.form() == form) for form in forms}
        print(f"{name}: bytes asked of malloc by form: {asked}")
    heads = "points of|rows|cells|refused|even, %|narrow, %|wide, %|values change, %|even of these, %|left even for a time, %|for a value, %|bytes a cell"
    print_table([*heads.split("|"), *(f"{name}, %" for name in list(bytes_of)[1:5])], first)
    print_table(["points of", *(f"{name}, %" for name in list(bytes_of)[5:])], second)


def print_table(head, lines):
    print("", "| " + " | ".join(head) + " |", "|---" * len(head) + "|", sep="\n")
    for line in lines:
        print("| " + " | ".join(map(str, line)) + " |")


def write_records(path, keys, records):
    numbers = {key: number for number, key in enumerate(keys)}
    with open(path, "wb") as out:
        for name, base, second, value in records:
            length = width(value)
            out.write(struct.pack(">IHB", numbers[name, base], second * 16 + length - 1, length))
            out.write(value.to_bytes(length, "big", signed=True).ljust(8, b"\0"))


async def listen(path, port):
    with open(path, "ab") as out:

        async def on(reader, _):
            while line := await reader.readline():
                out.write(b"%.3f " % time.time() + line)

        await asyncio.start_server(on, "127.0.0.1", port)
        while True:
            await asyncio.sleep(5)
            out.flush()


def main():
    words = argparse.ArgumentParser()
    jobs = words.add_subparsers(dest="job", required=True)
    job = jobs.add_parser("listen")
    job.add_argument("file")
    job.add_argument("port", type=int)
    job = jobs.add_parser("tell")
    job.add_argument("--round", action="store_true")
    job.add_argument("--days", type=int, default=0)
    job.add_argument("--shift", type=float, default=0)
    job.add_argument("--hour", type=int)
    job.add_argument("--only")
    job.add_argument("--records")
    job.add_argument("files", nargs="+")
    options = words.parse_args()
    if options.job == "tell":
        tell(options)
    else:
        asyncio.run(listen(options.file, options.port))


main()
