//! The job of `down` on 1,000 series of 1,000 points each, in plain Rust.

use std::time::Instant;

type Series = Vec<(u64, i64)>;

const START: u64 = 1_356_998_400_000;
const END: u64 = 1_357_008_390_000;

/// One value for each bucket: `made` makes it of the bucket's values, and `zero` stands for a bucket without one.
fn down(series: &Series, interval: u64, zero: bool, made: impl Fn(&[(u64, i64)]) -> Option<i64>) -> Option<Series> {
    let mut points = Vec::new();
    let mut rest = series.as_slice();
    let mut next = START - START % interval;
    while !rest.is_empty() {
        let bucket = rest[0].0 - rest[0].0 % interval;
        while zero && next < bucket {
            points.push((next, 0));
            next += interval;
        }
        let len = rest.iter().take_while(|point| point.0 - bucket < interval).count();
        points.push((bucket, made(&rest[..len])?));
        next = bucket + interval;
        rest = &rest[len..];
    }
    while zero && next <= END {
        points.push((next, 0));
        next += interval;
    }
    Some(points)
}

fn sum(points: &[(u64, i64)]) -> i128 {
    points.iter().map(|point| i128::from(point.1)).sum()
}

/// Prints the microseconds of the fastest of ten rounds, and how many points were made.
fn timed(list: &[Series], name: &str, interval: u64, zero: bool, made: impl Fn(&[(u64, i64)]) -> Option<i64>) {
    let mut best = u128::MAX;
    let mut count = 0;
    for _ in 0..10 {
        let begin = Instant::now();
        count = 0;
        for series in list {
            count += std::hint::black_box(down(series, interval, zero, &made)).map_or(0, |points| points.len());
        }
        best = best.min(begin.elapsed().as_micros());
    }
    println!("{name}: {best} ({count} points)");
}

fn main() {
    let list: Vec<Series> =
        (0..1000u64).map(|number| (0..1000).map(|k| (START + k * 10_000, ((number * 31 + k) % 1000) as i64)).collect()).collect();
    timed(&list, "1m-avg", 60_000, false, |points| i64::try_from(sum(points) / points.len() as i128).ok());
    timed(&list, "1m-sum-zero", 60_000, true, |points| i64::try_from(sum(points)).ok());
    timed(&list, "10s-last", 10_000, false, |points| points.last().map(|point| point.1));
    timed(&list, "1s-max-zero", 1_000, true, |points| points.iter().map(|point| point.1).max());
}
