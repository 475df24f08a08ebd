//! The job of `aggregate` on 1,000 series of 1,000 points each, all at the same times, in plain Rust: a cursor for each
//! series, and all of them looked at for each time of the union.

use std::time::Instant;

type Series = Vec<(u64, i64)>;

/// What stands for a series at a time: its own value, or, where `between`, the one between its neighbours.
fn value_at(series: &Series, place: &mut usize, between: bool, time: u64) -> Option<i64> {
    let next = series.get(*place)?;
    if next.0 == time {
        *place += 1;
        return Some(next.1);
    }
    if !between || *place == 0 {
        return None;
    }
    let (x0, y0) = series[*place - 1];
    let (x1, y1) = *next;
    let rise = i128::from(time - x0) * (i128::from(y1) - i128::from(y0)) / i128::from(x1 - x0);
    Some((i128::from(y0) + rise) as i64)
}

/// One value at each time of the union: `more` joins the values, and `ends` makes the answer of these and their number.
fn aggregate(list: &[Series], between: bool, more: impl Fn(i128, i128) -> i128, ends: impl Fn(i128, i128) -> i128) -> Option<Series> {
    let mut places = vec![0usize; list.len()];
    let mut made = Vec::new();
    let mut next = list.iter().filter_map(|series| series.first()).map(|point| point.0).min();
    while let Some(time) = next {
        let mut value: Option<i128> = None;
        let mut count = 0;
        next = None;
        for (series, place) in list.iter().zip(places.iter_mut()) {
            if let Some(one) = value_at(series, place, between, time) {
                let one = i128::from(one);
                value = Some(value.map_or(one, |value| more(value, one)));
                count += 1;
            }
            if let Some(point) = series.get(*place) {
                next = Some(next.map_or(point.0, |least: u64| least.min(point.0)));
            }
        }
        made.push((time, i64::try_from(ends(value?, count)).ok()?));
    }
    Some(made)
}

/// Prints the microseconds of the fastest of ten rounds.
fn timed(name: &str, work: impl Fn() -> Option<Series>) {
    let mut best = u128::MAX;
    for _ in 0..10 {
        let begin = Instant::now();
        let made = std::hint::black_box(work());
        let elapsed = begin.elapsed().as_micros();
        assert!(made.is_some_and(|made| made.len() == 1000));
        best = best.min(elapsed);
    }
    println!("{name}: {best}");
}

fn main() {
    let list: Vec<Series> = (0..1000u64)
        .map(|number| {
            (0..1000u64)
                .map(|k| (1_356_998_400_000 + k * 10_000, (number * 31 + k) as i64 % 1000))
                .collect()
        })
        .collect();
    timed("zimsum", || aggregate(&list, false, |a, b| a + b, |value, _| value));
    timed("sum", || aggregate(&list, true, |a, b| a + b, |value, _| value));
    timed("avg", || aggregate(&list, true, |a, b| a + b, |value, count| value / count));
    timed("max", || aggregate(&list, true, |a, b| a.max(b), |value, _| value));
}
