//! The work of `compactor::drain` in plain Rust, timed, over a map of rows that are maps of cells, with no list of steps: drain.sh runs
//! it beside the crates.
use std::collections::{BTreeMap, BTreeSet};
use std::time::Instant;

type Row = BTreeMap<Vec<u8>, Vec<u8>>;

#[derive(Clone, Copy)]
struct Dot {
    offset: u32,
    fine: bool,
    len: u8,
    value: i64,
}

fn item(bytes: &[u8]) -> Option<(u32, bool, u8, usize)> {
    let (offset, fine, low, size) = match *bytes {
        [a, b, ..] if a < 240 => {
            let number = u32::from(u16::from_be_bytes([a, b]));
            (number / 16 * 1000, false, number % 16, 2)
        }
        [a, b, c, d, ..] => {
            let number = u32::from_be_bytes([a, b, c, d]);
            (number / 64 % (1 << 22), true, number % 64, 4)
        }
        _ => return None,
    };
    (offset < 3_600_000 && matches!(low, 0 | 1 | 3 | 7)).then_some((offset, fine, low as u8 + 1, size))
}

fn number(bytes: &[u8]) -> i64 {
    match *bytes {
        [a] => i64::from(a as i8),
        [a, b] => i64::from(i16::from_be_bytes([a, b])),
        [a, b, c, d] => i64::from(i32::from_be_bytes([a, b, c, d])),
        [a, b, c, d, e, f, g, h] => i64::from_be_bytes([a, b, c, d, e, f, g, h]),
        _ => 0,
    }
}

fn read_onto(qual: &[u8], value: &[u8], dots: &mut Vec<Dot>) -> Option<()> {
    let (mut rest, mut left) = (qual, value);
    let mut least = 0;
    let (mut any_fine, mut any_coarse) = (false, false);
    let before = dots.len();
    if rest.is_empty() {
        return None;
    }
    while !rest.is_empty() {
        let (offset, fine, len, size) = item(rest)?;
        if offset < least {
            return None;
        }
        let (value, behind) = left.split_at_checked(usize::from(len))?;
        dots.push(Dot { offset, fine, len, value: number(value) });
        any_fine |= fine;
        any_coarse |= !fine;
        least = offset + 1;
        rest = &rest[size..];
        left = behind;
    }
    let tail = [u8::from(any_fine && any_coarse)];
    let wanted = if dots.len() - before > 1 { &tail[..] } else { &[] };
    (left == wanted).then_some(())
}

/// The merged cell of a row, or none where a cell doesn't read or two have different values at one offset.
fn merged(row: &Row) -> Option<(Vec<u8>, Vec<u8>)> {
    let mut dots = Vec::with_capacity(row.keys().map(|qual| qual.len() / 2).sum());
    for (qual, value) in row {
        read_onto(qual, value, &mut dots)?;
    }
    dots.sort_by_key(|dot| dot.offset);
    let mut end = 0;
    for i in 0..dots.len() {
        let dot = dots[i];
        if end > 0 && dots[end - 1].offset == dot.offset {
            let last = dots[end - 1];
            if last.value != dot.value {
                return None;
            }
            if (!dot.fine, dot.len) >= (!last.fine, last.len) {
                dots[end - 1] = dot;
            }
        } else {
            dots[end] = dot;
            end += 1;
        }
    }
    Some(write_cell(&dots[..end]))
}

fn write_cell(kept: &[Dot]) -> (Vec<u8>, Vec<u8>) {
    let mut qual = Vec::with_capacity(kept.len() * 4);
    let mut value = Vec::with_capacity(kept.iter().map(|dot| usize::from(dot.len)).sum::<usize>() + 1);
    let (mut fine, mut coarse) = (false, false);
    for dot in kept {
        let low = u32::from(dot.len) - 1;
        if dot.fine {
            qual.extend_from_slice(&(15 << 28 | dot.offset << 6 | low).to_be_bytes());
        } else {
            qual.extend_from_slice(&((dot.offset / 1000 * 16 + low) as u16).to_be_bytes());
        }
        match dot.len {
            1 => value.extend_from_slice(&(dot.value as i8).to_be_bytes()),
            2 => value.extend_from_slice(&(dot.value as i16).to_be_bytes()),
            4 => value.extend_from_slice(&(dot.value as i32).to_be_bytes()),
            _ => value.extend_from_slice(&dot.value.to_be_bytes()),
        }
        fine |= dot.fine;
        coarse |= !dot.fine;
    }
    if kept.len() > 1 {
        value.push(u8::from(fine && coarse));
    }
    (qual, value)
}

fn drain(rows: &mut BTreeMap<Vec<u8>, Row>, queue: &mut BTreeSet<(u32, Vec<u8>)>) -> usize {
    let mut done = 0;
    while let Some((_, key)) = queue.pop_first() {
        if let Some(row) = rows.get_mut(&key)
            && row.len() > 1
            && let Some((qual, value)) = merged(row)
        {
            row.clear();
            row.insert(qual, value);
        }
        done += 1;
    }
    done
}

fn filled(rows: u32, points: u32, step: u32, fine: bool) -> BTreeMap<Vec<u8>, Row> {
    let mut store = BTreeMap::new();
    for series in 0..rows {
        let mut key = vec![0, 0, 1];
        key.extend(1_356_998_400u32.to_be_bytes());
        key.extend([0, 0, 1]);
        key.extend(&(series + 1).to_be_bytes()[1..]);
        let row: &mut Row = store.entry(key).or_default();
        for place in 0..points {
            let offset = place * step;
            let qual = if fine {
                (15 << 28 | offset << 6).to_be_bytes().to_vec()
            } else {
                ((offset / 1000 * 16) as u16).to_be_bytes().to_vec()
            };
            row.insert(qual, vec![(place % 100) as u8]);
        }
    }
    store
}

/// The best of so many rounds, since others may use the machine too.
fn timed(name: &str, rows: u32, points: u32, step: u32, fine: bool, rounds: u32) {
    let mut best = u128::MAX;
    let mut done = 0;
    for _ in 0..rounds {
        let mut store = filled(rows, points, step, fine);
        let mut queue = store.keys().map(|key| (1_356_998_400, key.clone())).collect();
        let begin = Instant::now();
        done = drain(&mut store, &mut queue);
        best = best.min(begin.elapsed().as_nanos());
    }
    println!("{name}: {} ps an item ({done} rows)", best * 1000 / (u128::from(rows) * u128::from(points)));
}

fn main() {
    timed("100,000 rows of 60 cells", 100_000, 60, 60_000, false, 3);
    timed("a row of 360,000 cells", 1, 360_000, 10, true, 1);
    timed("a row of 3,600,000 cells", 1, 3_600_000, 1, true, 1);
}
