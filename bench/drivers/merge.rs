//! The work of `qual_codec::merge_cells` in plain Rust, timed: merge.sh runs it beside the crate.
use std::time::Instant;

#[derive(Clone, Copy)]
struct Dot {
    offset: u32,
    fine: bool,
    len: u8,
    value: i64,
}

struct Cell {
    qual: Vec<u8>,
    value: Vec<u8>,
}

#[derive(Debug, PartialEq, Eq)]
enum Fault {
    Unread,
    Conflict { offset: u32, a: i64, b: i64 },
}

/// An item, and how many bytes it has.
fn item(bytes: &[u8]) -> Option<(u32, bool, u8, usize)> {
    let (offset, fine, low, size) = match *bytes {
        [a, b, ..] if a < 240 => {
            let number = u32::from(u16::from_be_bytes([a, b]));
            (number / 16 * 1000, false, number % 16, 2)
        }
        [a, b, c, d, ..] => {
            let number = u32::from_be_bytes([a, b, c, d]);
            (number / 64 % (1 << 22), true, number % 64, 4)
        }
        _ => return None,
    };
    (offset < 3_600_000 && matches!(low, 0 | 1 | 3 | 7)).then_some((offset, fine, low as u8 + 1, size))
}

fn number(bytes: &[u8]) -> i64 {
    match *bytes {
        [a] => i64::from(a as i8),
        [a, b] => i64::from(i16::from_be_bytes([a, b])),
        [a, b, c, d] => i64::from(i32::from_be_bytes([a, b, c, d])),
        [a, b, c, d, e, f, g, h] => i64::from_be_bytes([a, b, c, d, e, f, g, h]),
        _ => 0,
    }
}

fn read_onto(cell: &Cell, dots: &mut Vec<Dot>) -> Option<()> {
    let (mut rest, mut left) = (&cell.qual[..], &cell.value[..]);
    let mut least = 0;
    let (mut any_fine, mut any_coarse) = (false, false);
    let before = dots.len();
    if rest.is_empty() {
        return None;
    }
    while !rest.is_empty() {
        let (offset, fine, len, size) = item(rest)?;
        if offset < least {
            return None;
        }
        let (value, behind) = left.split_at_checked(usize::from(len))?;
        dots.push(Dot { offset, fine, len, value: number(value) });
        any_fine |= fine;
        any_coarse |= !fine;
        least = offset + 1;
        rest = &rest[size..];
        left = behind;
    }
    let tail = [u8::from(any_fine && any_coarse)];
    let wanted = if dots.len() - before > 1 { &tail[..] } else { &[] };
    (left == wanted).then_some(())
}

fn merge_cells(cells: &[Cell]) -> Result<(Vec<u8>, Vec<u8>), Fault> {
    let mut dots = Vec::with_capacity(cells.iter().map(|cell| cell.qual.len() / 2).sum());
    for cell in cells {
        read_onto(cell, &mut dots).ok_or(Fault::Unread)?;
    }
    dots.sort_by_key(|dot| dot.offset);
    let mut end = 0;
    for i in 0..dots.len() {
        let dot = dots[i];
        if end > 0 && dots[end - 1].offset == dot.offset {
            let last = dots[end - 1];
            if last.value != dot.value {
                return Err(Fault::Conflict { offset: dot.offset, a: last.value, b: dot.value });
            }
            if (!dot.fine, dot.len) >= (!last.fine, last.len) {
                dots[end - 1] = dot;
            }
        } else {
            dots[end] = dot;
            end += 1;
        }
    }
    dots.truncate(end);
    let kept = dots;
    let mut qual = Vec::with_capacity(kept.len() * 4);
    let mut value = Vec::with_capacity(kept.iter().map(|dot| usize::from(dot.len)).sum::<usize>() + 1);
    let (mut fine, mut coarse) = (false, false);
    for dot in &kept {
        let low = u32::from(dot.len) - 1;
        if dot.fine {
            qual.extend_from_slice(&(15 << 28 | dot.offset << 6 | low).to_be_bytes());
        } else {
            qual.extend_from_slice(&((dot.offset / 1000 * 16 + low) as u16).to_be_bytes());
        }
        match dot.len {
            1 => value.extend_from_slice(&(dot.value as i8).to_be_bytes()),
            2 => value.extend_from_slice(&(dot.value as i16).to_be_bytes()),
            4 => value.extend_from_slice(&(dot.value as i32).to_be_bytes()),
            _ => value.extend_from_slice(&dot.value.to_be_bytes()),
        }
        fine |= dot.fine;
        coarse |= !dot.fine;
    }
    if kept.len() > 1 {
        value.push(u8::from(fine && coarse));
    }
    Ok((qual, value))
}

fn cell_of(from: u32, count: u32, step: u32, fine: bool) -> Cell {
    let (mut qual, mut value) = (Vec::new(), Vec::new());
    for place in from..from + count {
        let offset = place * step;
        if fine {
            qual.extend((15 << 28 | offset << 6).to_be_bytes());
        } else {
            qual.extend(((offset / 1000 * 16) as u16).to_be_bytes());
        }
        value.push((place % 100) as u8);
    }
    if count > 1 {
        value.push(0);
    }
    Cell { qual, value }
}

/// The best of ten rounds, since others may use the machine too.
fn timed(name: &str, cells: &[Cell], items: u32, turns: u32) {
    let mut sum = 0;
    let mut best = u128::MAX;
    for _ in 0..10 {
        let begin = Instant::now();
        for _ in 0..turns {
            match merge_cells(std::hint::black_box(cells)) {
                Ok((qual, _)) => sum += qual.len(),
                Err(fault) => println!("{fault:?}"),
            }
        }
        best = best.min(begin.elapsed().as_nanos());
    }
    println!("{name}: {} ps an item ({sum})", best * 1000 / (u128::from(turns) * u128::from(items)));
}

fn main() {
    let seconds: Vec<Cell> = (0..3_600).map(|i| cell_of(i, 1, 1_000, false)).collect();
    timed("3,600 cells of one second item", &seconds, 3_600, 200);
    let fine: Vec<Cell> = (0..100_000).map(|i| cell_of(i, 1, 36, true)).collect();
    timed("100,000 cells of one millisecond item", &fine, 100_000, 10);
    let hour = [cell_of(0, 3_600_000, 1, true), cell_of(1_800_000, 1, 1, true)];
    timed("a cell of 3,600,000 items and one of one", &hour, 3_600_001, 1);
}
