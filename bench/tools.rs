//! The jobs of `tsd import`, `fsck`, `fix`, `dump`, `pack` and `unpack` in plain Rust with `std` alone: what their speed is measured against.
//! Ids have three bytes, and no line is told as bad by its length. It prints the same bytes for lines of points in either form, for listings
//! and for images. `restart` reads an image into maps, says so by a line, and prints their image.

use std::collections::{BTreeMap, HashMap};
use std::io::{self, BufRead, Read, Write};
use std::process::ExitCode;

const HOUR: u64 = 3600;
const COLUMN: &[u8] = &[5, 0, 0];
const KINDS: [&[u8]; 3] = [b"metrics", b"tagk", b"tagv"];

#[derive(Clone, PartialEq, Eq, PartialOrd, Ord)]
struct Cell {
    table: u8,
    row: Vec<u8>,
    qual: Vec<u8>,
    value: Vec<u8>,
}

/// A value at a time of an hour, in milliseconds, and whether it is in that form; the place of its item's form among others.
#[derive(Clone, Copy)]
struct Dot {
    offset: u32,
    fine: bool,
    len: u8,
    value: i64,
}

fn digit(byte: u8) -> Option<u8> {
    match byte {
        b'0'..=b'9' => Some(byte - b'0'),
        b'a'..=b'f' => Some(byte - b'a' + 10),
        _ => None,
    }
}

fn unhex(text: &[u8]) -> Option<Vec<u8>> {
    if text.is_empty() || text.len() % 2 != 0 {
        return None;
    }
    text.chunks_exact(2)
        .map(|pair| Some(digit(pair[0])? * 16 + digit(pair[1])?))
        .collect()
}

fn hex(bytes: &[u8], text: &mut Vec<u8>) {
    const DIGITS: &[u8; 16] = b"0123456789abcdef";
    for b in bytes {
        text.push(DIGITS[(b >> 4) as usize]);
        text.push(DIGITS[(b & 15) as usize]);
    }
}

fn cell_of(line: &[u8]) -> Option<Cell> {
    let mut words = line.split(|b| *b == b' ');
    let table = match words.next()? {
        b"ids" => 0,
        b"names" => 1,
        b"points" => 2,
        _ => return None,
    };
    let row = unhex(words.next()?)?;
    let qual = unhex(words.next()?)?;
    let value = unhex(words.next()?)?;
    match words.next() {
        Some(_) => None,
        None => Some(Cell { table, row, qual, value }),
    }
}

fn print_cell(out: &mut impl Write, cell: &Cell, text: &mut Vec<u8>) {
    text.clear();
    text.extend_from_slice([&b"ids "[..], b"names ", b"points "][cell.table as usize]);
    hex(&cell.row, text);
    text.push(b' ');
    hex(&cell.qual, text);
    text.push(b' ');
    hex(&cell.value, text);
    text.push(b'\n');
    out.write_all(text).unwrap();
}

fn kind_of(qual: &[u8]) -> Option<usize> {
    KINDS.iter().position(|kind| *kind == qual)
}

fn is_name(bytes: &[u8]) -> bool {
    !bytes.is_empty() && bytes.len() <= 255 && bytes.iter().all(|b| b.is_ascii_alphanumeric() || b"-_./".contains(b))
}

fn id_of(bytes: &[u8]) -> Option<u32> {
    match bytes {
        [0, 0, 0] => None,
        [a, b, c] => Some(u32::from_be_bytes([0, *a, *b, *c])),
        _ => None,
    }
}

/// The base time and the ids of a row: the metric, and keys and values by turns.
fn key_of(row: &[u8]) -> Option<(u64, Vec<u32>)> {
    if row.len() < 13 || (row.len() - 7) % 6 != 0 || row.len() > 55 {
        return None;
    }
    let mut ids = vec![id_of(&row[..3])?];
    let base = u64::from(u32::from_be_bytes(row[3..7].try_into().unwrap()));
    if base % HOUR != 0 {
        return None;
    }
    let mut last = 0;
    for pair in row[7..].chunks_exact(6) {
        let key = id_of(&pair[..3])?;
        if key <= last {
            return None;
        }
        last = key;
        ids.push(key);
        ids.push(id_of(&pair[3..])?);
    }
    Some((base, ids))
}

fn number(bytes: &[u8]) -> i64 {
    let mut all = [if bytes[0] >= 128 { 255 } else { 0 }; 8];
    all[8 - bytes.len()..].copy_from_slice(bytes);
    i64::from_be_bytes(all)
}

/// The item at the front of bytes: its offset, form, length of its value, and its own length.
fn item_of(bytes: &[u8]) -> Option<(u32, bool, u8, usize)> {
    if bytes.first()? >> 4 == 15 {
        let all = u32::from_be_bytes(bytes.get(..4)?.try_into().ok()?);
        let offset = (all >> 6) & 0x3f_ffff;
        let len = (all & 7) as u8 + 1;
        (all & 0x38 == 0 && offset < 3_600_000 && matches!(len, 1 | 2 | 4 | 8)).then_some((offset, true, len, 4))
    } else {
        let all = u16::from_be_bytes(bytes.get(..2)?.try_into().ok()?);
        let offset = u32::from(all >> 4);
        let len = (all & 7) as u8 + 1;
        (all & 8 == 0 && offset < 3600 && matches!(len, 1 | 2 | 4 | 8)).then_some((offset * 1000, false, len, 2))
    }
}

fn dots_of(qual: &[u8], value: &[u8], dots: &mut Vec<Dot>) -> bool {
    let begin = dots.len();
    if qual == COLUMN {
        let mut rest = value;
        while !rest.is_empty() {
            let Some((offset, fine, len, taken)) = item_of(rest) else { return false };
            let Some(bytes) = rest.get(taken..taken + len as usize) else { return false };
            dots.push(Dot { offset, fine, len, value: number(bytes) });
            rest = &rest[taken + len as usize..];
        }
        return dots.len() > begin;
    }
    let mut items = qual;
    let mut values = value;
    let mut last = None;
    while !items.is_empty() {
        let Some((offset, fine, len, taken)) = item_of(items) else { return false };
        if last.is_some_and(|l| offset <= l) || values.len() < len as usize {
            return false;
        }
        last = Some(offset);
        dots.push(Dot { offset, fine, len, value: number(&values[..len as usize]) });
        values = &values[len as usize..];
        items = &items[taken..];
    }
    let count = dots.len() - begin;
    count == 1 && values.is_empty() || count > 1 && values == [0]
}

/// What cells of ids and names say: counters, ids of names, names of ids, by kind.
#[derive(Default)]
struct Uids<'a> {
    counters: [u64; 3],
    ids: [HashMap<&'a [u8], u32>; 3],
    names: [HashMap<u32, &'a [u8]>; 3],
}

fn counter_of(cell: &Cell) -> Option<u64> {
    let n = u64::from_be_bytes(cell.value.as_slice().try_into().ok()?);
    (1..=0xff_ffff).contains(&n).then_some(n)
}

impl<'a> Uids<'a> {
    fn of(cells: &'a [Cell]) -> Uids<'a> {
        let mut uids = Uids::default();
        for cell in cells {
            let Some(kind) = kind_of(&cell.qual) else { continue };
            match cell.table {
                0 if cell.row == [0] => uids.counters[kind] = counter_of(cell).unwrap_or(0),
                0 if is_name(&cell.row) => {
                    if let Some(id) = id_of(&cell.value) {
                        uids.ids[kind].insert(&cell.row, id);
                    }
                }
                1 if is_name(&cell.value) => {
                    if let Some(id) = id_of(&cell.row) {
                        uids.names[kind].insert(id, &cell.value);
                    }
                }
                _ => {}
            }
        }
        uids
    }

    fn is_named(&self, kind: usize, id: u32) -> bool {
        self.names[kind].get(&id).is_some_and(|name| self.ids[kind].get(name) == Some(&id))
    }

    fn row_named(&self, ids: &[u32]) -> bool {
        self.is_named(0, ids[0]) && ids[1..].chunks_exact(2).all(|p| self.is_named(1, p[0]) && self.is_named(2, p[1]))
    }

    fn flaw(&self, cell: &Cell, row: &mut (Vec<u8>, Option<&'static str>), dots: &mut Vec<Dot>) -> Option<&'static str> {
        if cell.table == 2 {
            if row.0 != cell.row {
                row.0.clone_from(&cell.row);
                row.1 = match key_of(&cell.row) {
                    None => Some("bad key"),
                    Some((_, ids)) if !self.row_named(&ids) => Some("row id without name"),
                    Some(_) => None,
                };
                dots.clear();
            }
            if row.1.is_some() {
                return row.1;
            }
            let begin = dots.len();
            if !dots_of(&cell.qual, &cell.value, dots) {
                dots.truncate(begin);
                return Some("bad cell");
            }
            return None;
        }
        let Some(kind) = kind_of(&cell.qual) else { return Some("bad uid cell") };
        if cell.table == 0 && cell.row == [0] {
            return counter_of(cell).is_none().then_some("bad uid cell");
        }
        let (name, id) = if cell.table == 0 { (&cell.row, &cell.value) } else { (&cell.value, &cell.row) };
        let (true, Some(id)) = (is_name(name), id_of(id)) else { return Some("bad uid cell") };
        if u64::from(id) > self.counters[kind] {
            return Some("id above counter");
        }
        (cell.table == 0 && self.names[kind].get(&id) != Some(&name.as_slice())).then_some("id without name")
    }
}

/// The lines of the input, each a cell that counts or none.
fn read_listing() -> (Vec<Cell>, Vec<u64>, u64) {
    let mut input = io::stdin().lock();
    let (mut cells, mut bad, mut number) = (Vec::<Cell>::new(), Vec::new(), 0);
    let mut line = Vec::new();
    while input.read_until(b'\n', &mut line).unwrap() > 0 {
        number += 1;
        if line.last() == Some(&b'\n') {
            line.pop();
        }
        match cell_of(&line) {
            Some(cell) if cells.last().is_none_or(|last| (last.table, &last.row, &last.qual) < (cell.table, &cell.row, &cell.qual)) => cells.push(cell),
            _ => bad.push(number),
        }
        line.clear();
    }
    (cells, bad, number)
}

fn fsck() -> u8 {
    let (cells, bad, count) = read_listing();
    let uids = Uids::of(&cells);
    let mut out = io::BufWriter::with_capacity(65_536, io::stdout().lock());
    let (mut next_bad, mut next, mut faults) = (0, 0, 0);
    let (mut row, mut dots) = ((Vec::new(), None), Vec::new());
    let mut values: HashMap<u32, i64> = HashMap::new();
    for number in 1..=count {
        if bad.get(next_bad) == Some(&number) {
            next_bad += 1;
            faults += 1;
            writeln!(out, "line {number}: bad line").unwrap();
            continue;
        }
        let cell = &cells[next];
        next += 1;
        let begin = if cell.table == 2 && row.0 == cell.row { dots.len() } else { 0 };
        if let Some(text) = uids.flaw(cell, &mut row, &mut dots) {
            faults += 1;
            writeln!(out, "line {number}: {text}").unwrap();
        } else if cell.table == 2 {
            if begin == 0 {
                values.clear();
            }
            let mut clash = false;
            for dot in &dots[begin..] {
                clash |= *values.entry(dot.offset).or_insert(dot.value) != dot.value;
            }
            if clash {
                writeln!(out, "line {number}: clash").unwrap();
            }
        } else if cell.table == 1 {
            let kind = kind_of(&cell.qual).unwrap();
            if uids.ids[kind].get(cell.value.as_slice()).copied() != id_of(&cell.row) {
                writeln!(out, "line {number}: wasted id").unwrap();
            }
        }
    }
    if faults == 0 {
        writeln!(out, "sound").unwrap();
        0
    } else {
        writeln!(out, "unsound {faults}").unwrap();
        2
    }
}

/// The first fault of a listing, by the number of its line.
fn first_fault<'a>(cells: &'a [Cell], bad: &[u64], uids: &Uids<'a>) -> Option<(u64, &'static str)> {
    let (mut row, mut dots) = ((Vec::new(), None), Vec::new());
    let mut number = 0;
    let fault = bad.first().map(|n| (*n, "bad line"));
    for cell in cells {
        number += 1;
        while bad.binary_search(&number).is_ok() {
            number += 1;
        }
        if fault.is_some_and(|f| f.0 < number) {
            break;
        }
        if let Some(text) = uids.flaw(cell, &mut row, &mut dots) {
            return Some((number, text));
        }
    }
    fault
}

fn print_head(out: &mut impl Write, number: usize) {
    out.write_all(b"tsdimg01\x03\x03\x03").unwrap();
    out.write_all(&(number as u64).to_be_bytes()).unwrap();
}

fn print_image_cell(out: &mut impl Write, table: u8, row: &[u8], qual: &[u8], value: &[u8]) {
    out.write_all(&[table]).unwrap();
    out.write_all(&(row.len() as u16).to_be_bytes()).unwrap();
    out.write_all(row).unwrap();
    out.write_all(&(qual.len() as u32).to_be_bytes()).unwrap();
    out.write_all(qual).unwrap();
    out.write_all(&(value.len() as u32).to_be_bytes()).unwrap();
    out.write_all(value).unwrap();
}

fn pack() -> u8 {
    let (cells, bad, _) = read_listing();
    let mut out = io::BufWriter::with_capacity(65_536, io::stdout().lock());
    if let Some((number, text)) = first_fault(&cells, &bad, &Uids::of(&cells)) {
        writeln!(out, "line {number}: {text}").unwrap();
        return 2;
    }
    print_head(&mut out, cells.len());
    for cell in &cells {
        print_image_cell(&mut out, cell.table, &cell.row, &cell.qual, &cell.value);
    }
    0
}

/// The next part of an image, whose length has so many bytes.
fn part(input: &mut impl Read, width: usize) -> Vec<u8> {
    let mut length = [0; 8];
    input.read_exact(&mut length[8 - width..]).unwrap();
    let mut part = vec![0; u64::from_be_bytes(length) as usize];
    assert!(!part.is_empty());
    input.read_exact(&mut part).unwrap();
    part
}

/// The cells of the image of the input, which is to be one.
fn image_cells(mut each: impl FnMut(Cell)) {
    let mut input = io::BufReader::with_capacity(65_536, io::stdin().lock());
    let mut head = [0; 19];
    input.read_exact(&mut head).unwrap();
    assert!(head.starts_with(b"tsdimg01\x03\x03\x03"));
    for _ in 0..u64::from_be_bytes(head[11..].try_into().unwrap()) {
        let mut table = [0];
        input.read_exact(&mut table).unwrap();
        let (row, qual, value) = (part(&mut input, 2), part(&mut input, 4), part(&mut input, 4));
        each(Cell { table: table[0], row, qual, value });
    }
    assert_eq!(input.read(&mut [0]).unwrap(), 0);
}

fn unpack() -> u8 {
    let mut cells = Vec::<Cell>::new();
    image_cells(|cell| {
        assert!(cells.last().is_none_or(|last| (last.table, &last.row, &last.qual) < (cell.table, &cell.row, &cell.qual)));
        cells.push(cell);
    });
    let mut out = io::BufWriter::with_capacity(65_536, io::stdout().lock());
    if let Some((number, text)) = first_fault(&cells, &[], &Uids::of(&cells)) {
        writeln!(out, "image: cell {number}: {text}").unwrap();
        return 2;
    }
    let mut text = Vec::new();
    for cell in &cells {
        print_cell(&mut out, cell, &mut text);
    }
    0
}

fn restart() -> u8 {
    let mut tables: [BTreeMap<Vec<u8>, BTreeMap<Vec<u8>, Vec<u8>>>; 3] = Default::default();
    image_cells(|cell| {
        tables[cell.table as usize].entry(cell.row).or_default().insert(cell.qual, cell.value);
    });
    let mut out = io::BufWriter::with_capacity(65_536, io::stdout().lock());
    out.write_all(b"loaded\n").unwrap();
    out.flush().unwrap();
    print_head(&mut out, tables.iter().flat_map(|rows| rows.values()).map(|cells| cells.len()).sum());
    for (table, rows) in tables.iter().enumerate() {
        for (row, cells) in rows {
            for (qual, value) in cells {
                print_image_cell(&mut out, table as u8, row, qual, value);
            }
        }
    }
    out.flush().unwrap();
    drop(out);
    // As the server does, it ends without giving back what it holds.
    std::process::exit(0);
}

fn dump() -> u8 {
    let (cells, bad, _) = read_listing();
    let uids = Uids::of(&cells);
    let mut out = io::BufWriter::with_capacity(65_536, io::stdout().lock());
    let mut dots = Vec::new();
    let fault = first_fault(&cells, &bad, &uids);
    if let Some((number, text)) = fault {
        writeln!(out, "line {number}: {text}").unwrap();
        return 2;
    }
    // Rows by metric, tags and hour.
    let mut rows: Vec<((&[u8], Vec<(&[u8], &[u8])>, u64), std::ops::Range<usize>)> = Vec::new();
    let mut at = cells.partition_point(|cell| cell.table < 2);
    while at < cells.len() {
        let mut end = at + 1;
        while end < cells.len() && cells[end].row == cells[at].row {
            end += 1;
        }
        let (base, ids) = key_of(&cells[at].row).unwrap();
        let mut tags: Vec<(&[u8], &[u8])> = ids[1..].chunks_exact(2).map(|p| (uids.names[1][&p[0]], uids.names[2][&p[1]])).collect();
        tags.sort_unstable();
        rows.push(((uids.names[0][&ids[0]], tags, base), at..end));
        at = end;
    }
    rows.sort_unstable_by(|a, b| a.0.cmp(&b.0));
    let mut tags_text = Vec::new();
    for ((metric, tags, base), range) in &rows {
        dots.clear();
        for cell in &cells[range.clone()] {
            dots_of(&cell.qual, &cell.value, &mut dots);
        }
        let mut places: Vec<usize> = (0..dots.len()).collect();
        places.sort_by_key(|i| dots[*i].offset);
        tags_text.clear();
        for (key, value) in tags {
            tags_text.push(b' ');
            tags_text.extend_from_slice(key);
            tags_text.push(b'=');
            tags_text.extend_from_slice(value);
        }
        let mut i = 0;
        while i < places.len() {
            let mut end = i;
            while end < places.len() && dots[places[end]].offset == dots[places[i]].offset {
                end += 1;
            }
            let group = &places[i..end];
            for place in group {
                let dot = dots[*place];
                // Of one value the best item is printed: seconds before milliseconds, then the shorter.
                let best = group.iter().filter(|p| dots[**p].value == dot.value).min_by_key(|p| (dots[**p].fine, dots[**p].len, **p));
                if best != Some(place) {
                    continue;
                }
                out.write_all(metric).unwrap();
                let time = base * 1000 + u64::from(dot.offset);
                if dot.fine {
                    write!(out, " {:010}.{:03} {}", time / 1000, time % 1000, dot.value).unwrap();
                } else {
                    write!(out, " {} {}", time / 1000, dot.value).unwrap();
                }
                out.write_all(&tags_text).unwrap();
                out.write_all(b"\n").unwrap();
            }
            i = end;
        }
    }
    0
}

fn fix() -> u8 {
    let mut input = io::stdin().lock();
    let mut cells: Vec<Cell> = Vec::new();
    let mut line = Vec::new();
    let mut rising = true;
    while input.read_until(b'\n', &mut line).unwrap() > 0 {
        if line.last() == Some(&b'\n') {
            line.pop();
        }
        if let Some(cell) = cell_of(&line) {
            rising &= cells.last().is_none_or(|last| (last.table, &last.row, &last.qual) < (cell.table, &cell.row, &cell.qual));
            cells.push(cell);
        }
        line.clear();
    }
    if !rising {
        cells.sort_by(|a, b| (a.table, &a.row, &a.qual).cmp(&(b.table, &b.row, &b.qual)));
        cells.dedup_by(|b, a| (a.table, &a.row, &a.qual) == (b.table, &b.row, &b.qual));
    }
    cells.retain(|cell| {
        cell.table == 2
            || kind_of(&cell.qual).is_some()
                && if cell.table == 0 && cell.row == [0] {
                    counter_of(cell).is_some()
                } else {
                    let (name, id) = if cell.table == 0 { (&cell.row, &cell.value) } else { (&cell.value, &cell.row) };
                    is_name(name) && id_of(id).is_some()
                }
    });
    let mut added = Vec::new();
    let mut wrong = Vec::new();
    {
        let mut uids = Uids::of(&cells);
        for (at, cell) in cells.iter().enumerate().filter(|(_, cell)| cell.table == 0 && cell.row != [0]) {
            let kind = kind_of(&cell.qual).unwrap();
            let id = id_of(&cell.value).unwrap();
            match uids.names[kind].get(&id) {
                None => {
                    uids.names[kind].insert(id, &cell.row);
                    added.push(Cell { table: 1, row: cell.value.clone(), qual: cell.qual.clone(), value: cell.row.clone() });
                }
                Some(name) if *name != cell.row.as_slice() => wrong.push(at),
                Some(_) => {}
            }
        }
    }
    for at in wrong.iter().rev() {
        cells.remove(*at);
    }
    if !added.is_empty() {
        cells.append(&mut added);
        cells.sort();
    }
    let mut greatest = [0u64; 3];
    for cell in cells.iter().filter(|cell| cell.table < 2) {
        let kind = kind_of(&cell.qual).unwrap();
        let n = match (cell.table, cell.row.as_slice()) {
            (0, [0]) => counter_of(cell).unwrap(),
            (0, _) => u64::from(id_of(&cell.value).unwrap()),
            _ => u64::from(id_of(&cell.row).unwrap()),
        };
        greatest[kind] = greatest[kind].max(n);
    }
    cells.retain(|cell| cell.table != 0 || cell.row != [0]);
    let counters: Vec<Cell> = (0..3).filter(|kind| greatest[*kind] > 0).map(|kind| Cell { table: 0, row: vec![0], qual: KINDS[kind].to_vec(), value: greatest[kind].to_be_bytes().to_vec() }).collect();
    cells.splice(0..0, counters);
    let mut out = io::BufWriter::with_capacity(65_536, io::stdout().lock());
    let mut text = Vec::new();
    let uids = Uids::of(&cells);
    let (mut row, mut dots) = ((Vec::new(), None), Vec::new());
    for cell in &cells {
        if cell.table < 2 || uids.flaw(cell, &mut row, &mut dots).is_none() {
            print_cell(&mut out, cell, &mut text);
        }
    }
    0
}

fn import() -> u8 {
    let mut input = io::stdin().lock();
    let mut ids: [HashMap<Vec<u8>, u32>; 3] = Default::default();
    let mut rows: BTreeMap<Vec<u8>, BTreeMap<Vec<u8>, Vec<u8>>> = BTreeMap::new();
    let mut line = Vec::new();
    while input.read_until(b'\n', &mut line).unwrap() > 0 {
        let mut words = line.split(|b| matches!(b, b' ' | b'\n')).filter(|word| !word.is_empty());
        let Some(metric) = words.next() else { continue };
        let time = std::str::from_utf8(words.next().unwrap()).unwrap();
        let value: i64 = std::str::from_utf8(words.next().unwrap()).unwrap().parse().unwrap();
        let mut tags: Vec<(&[u8], &[u8])> = words
            .map(|word| {
                let at = word.iter().position(|b| *b == b'=').unwrap();
                (&word[..at], &word[at + 1..])
            })
            .collect();
        tags.sort_unstable();
        let mut id = |kind: usize, name: &[u8]| -> u32 {
            if let Some(id) = ids[kind].get(name) {
                return *id;
            }
            let id = ids[kind].len() as u32 + 1;
            ids[kind].insert(name.to_vec(), id);
            id
        };
        let (seconds, fine) = match time.split_once('.') {
            Some((s, ms)) => (s.parse::<u64>().unwrap(), Some(ms.parse::<u32>().unwrap())),
            None => (time.parse::<u64>().unwrap(), None),
        };
        let mut row = Vec::with_capacity(7 + 6 * tags.len());
        row.extend_from_slice(&id(0, metric).to_be_bytes()[1..]);
        let base = seconds - seconds % HOUR;
        row.extend_from_slice(&(base as u32).to_be_bytes());
        let mut pairs: Vec<(u32, u32)> = tags.iter().map(|(key, value)| (id(1, key), id(2, value))).collect();
        pairs.sort_unstable();
        for (key, value) in pairs {
            row.extend_from_slice(&key.to_be_bytes()[1..]);
            row.extend_from_slice(&value.to_be_bytes()[1..]);
        }
        let bytes = value.to_be_bytes();
        let len = [1, 2, 4, 8].into_iter().find(|n| number(&bytes[8 - n..]) == value).unwrap();
        let offset = (seconds - base) as u32;
        let qual = match fine {
            None => (((offset << 4) as u16) | (len as u16 - 1)).to_be_bytes().to_vec(),
            Some(ms) => (0xf000_0000 | ((offset * 1000 + ms) << 6) | (len as u32 - 1)).to_be_bytes().to_vec(),
        };
        rows.entry(row).or_default().insert(qual, bytes[8 - len..].to_vec());
        line.clear();
    }
    let mut out = io::BufWriter::with_capacity(65_536, io::stdout().lock());
    let mut text = Vec::new();
    let mut uid_cells = Vec::new();
    for kind in 0..3 {
        let qual = KINDS[kind].to_vec();
        if !ids[kind].is_empty() {
            uid_cells.push(Cell { table: 0, row: vec![0], qual: qual.clone(), value: (ids[kind].len() as u64).to_be_bytes().to_vec() });
        }
        for (name, id) in &ids[kind] {
            let id = id.to_be_bytes()[1..].to_vec();
            uid_cells.push(Cell { table: 0, row: name.clone(), qual: qual.clone(), value: id.clone() });
            uid_cells.push(Cell { table: 1, row: id, qual: qual.clone(), value: name.clone() });
        }
    }
    uid_cells.sort();
    for cell in &uid_cells {
        print_cell(&mut out, cell, &mut text);
    }
    for (row, cells) in rows {
        for (qual, value) in cells {
            print_cell(&mut out, &Cell { table: 2, row: row.clone(), qual, value }, &mut text);
        }
    }
    0
}

fn main() -> ExitCode {
    let job = std::env::args().nth(1);
    ExitCode::from(match job.as_deref() {
        Some("import") => import(),
        Some("fsck") => fsck(),
        Some("fix") => fix(),
        Some("dump") => dump(),
        Some("pack") => pack(),
        Some("unpack") => unpack(),
        Some("restart") => restart(),
        _ => 1,
    })
}
