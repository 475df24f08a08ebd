//! The work of `qual_codec::read_cell` in plain Rust, timed: cells.sh runs it beside the crate.
use std::time::Instant;

#[derive(Clone, Copy, Debug, PartialEq, Eq)]
struct Item {
    offset: u32,
    fine: bool,
    len: u8,
}

#[derive(Clone, Copy, Debug, PartialEq, Eq)]
struct Dot {
    item: Item,
    value: i64,
}

#[derive(Clone, Copy, Debug, PartialEq, Eq)]
enum CellFault {
    OddLength,
    CutItem { at: usize },
    OffsetTooLarge { at: usize },
    FloatFlag { at: usize },
    ReservedBits { at: usize },
    BadLength { at: usize, len: u8 },
    NotRising { at: usize },
    ValueShort { need: usize },
    ValueLong { need: usize },
    BadTail { found: u8 },
}

fn checked(
    at: usize,
    least: u32,
    fine: bool,
    offset: u32,
    reserved: u8,
    flags: u8,
) -> Result<Item, CellFault> {
    if offset > 3_599_999 {
        return Err(CellFault::OffsetTooLarge { at });
    }
    if flags >= 8 {
        return Err(CellFault::FloatFlag { at });
    }
    if reserved > 0 {
        return Err(CellFault::ReservedBits { at });
    }
    let len = flags + 1;
    if !matches!(len, 1 | 2 | 4 | 8) {
        return Err(CellFault::BadLength { at, len });
    }
    if offset < least {
        return Err(CellFault::NotRising { at });
    }
    Ok(Item { offset, fine, len })
}

fn next_item(bytes: &[u8], at: usize, least: u32) -> Result<(Item, &[u8]), CellFault> {
    match bytes {
        [a, b, rest @ ..] if *a < 240 => {
            let number = u16::from_be_bytes([*a, *b]);
            let item = checked(
                at,
                least,
                false,
                u32::from(number / 16) * 1000,
                0,
                (number % 16) as u8,
            )?;
            Ok((item, rest))
        }
        [a, b, c, d, rest @ ..] => {
            let number = u32::from_be_bytes([*a, *b, *c, *d]);
            let item = checked(
                at,
                least,
                true,
                number / 64 % (1 << 22),
                (number / 16 % 4) as u8,
                (number % 16) as u8,
            )?;
            Ok((item, rest))
        }
        _ => Err(CellFault::CutItem { at }),
    }
}

fn next_value(bytes: &[u8], len: u8) -> (i64, &[u8]) {
    match (len, bytes) {
        (1, [a, rest @ ..]) => (i64::from(i8::from_be_bytes([*a])), rest),
        (2, [a, b, rest @ ..]) => (i64::from(i16::from_be_bytes([*a, *b])), rest),
        (4, [a, b, c, d, rest @ ..]) => (i64::from(i32::from_be_bytes([*a, *b, *c, *d])), rest),
        (8, [a, b, c, d, e, f, g, h, rest @ ..]) => {
            (i64::from_be_bytes([*a, *b, *c, *d, *e, *f, *g, *h]), rest)
        }
        _ => (0, bytes),
    }
}

fn read_cell(qual: &[u8], value: &[u8]) -> Result<Vec<Dot>, CellFault> {
    if qual.is_empty() || qual.len() % 2 == 1 {
        return Err(CellFault::OddLength);
    }
    let mut dots = Vec::with_capacity(qual.len() / 2);
    let mut rest = qual;
    let mut left = value;
    let mut least = 0;
    let mut len = 0;
    let mut fine = false;
    let mut coarse = false;
    while !rest.is_empty() {
        let (item, after) = next_item(rest, qual.len() - rest.len(), least)?;
        let (value, behind) = next_value(left, item.len);
        dots.push(Dot { item, value });
        if item.fine {
            fine = true
        } else {
            coarse = true
        }
        len += usize::from(item.len);
        least = item.offset + 1;
        rest = after;
        left = behind;
    }
    let need = if dots.len() > 1 { len + 1 } else { len };
    if value.len() < need {
        return Err(CellFault::ValueShort { need });
    }
    if value.len() > need {
        return Err(CellFault::ValueLong { need });
    }
    if dots.len() > 1 && value[len] != u8::from(fine && coarse) {
        return Err(CellFault::BadTail { found: value[len] });
    }
    Ok(dots)
}

/// Items of each length in turn, every `step` milliseconds.
fn cell(count: u32, step: u32, fine: bool) -> (Vec<u8>, Vec<u8>) {
    let mut qual = Vec::new();
    let mut value = Vec::new();
    for i in 0..count {
        let len = [1u32, 2, 1, 4, 2, 1, 8, 1][i as usize % 8];
        let offset = i * step;
        if fine {
            qual.extend((15 << 28 | offset << 6 | (len - 1)).to_be_bytes());
        } else {
            qual.extend(((offset / 1000 * 16 + len - 1) as u16).to_be_bytes());
        }
        value.extend(&u64::from(i).to_be_bytes()[8 - len as usize..]);
    }
    value.push(0);
    (qual, value)
}

/// The best of ten rounds, since others may use the machine too.
fn timed(name: &str, count: u32, step: u32, fine: bool, turns: u32) {
    let (qual, value) = cell(count, step, fine);
    let mut sum = 0i64;
    let mut best = u128::MAX;
    for _ in 0..10 {
        let start = Instant::now();
        for _ in 0..turns {
            match read_cell(std::hint::black_box(&qual), std::hint::black_box(&value)) {
                Ok(dots) => sum = sum.wrapping_add(dots[dots.len() - 1].value),
                Err(fault) => println!("{fault:?}"),
            }
        }
        best = best.min(start.elapsed().as_nanos());
    }
    let each = best * 1000 / (u128::from(turns) * u128::from(count));
    println!("{name}: {each} ps an item ({sum})");
}

fn main() {
    timed("3,600 second items", 3_600, 1_000, false, 2_000);
    timed("100,000 millisecond items", 100_000, 36, true, 100);
}
