//! The work of `span_merge::spans::Spans::add` in plain Rust, timed, with a map from the ids of series to their points: spans.sh runs
//! it beside the crate.
use std::collections::BTreeMap;
use std::time::Instant;

fn rows(from: u64) -> Vec<Vec<(u64, i64)>> {
    let row = |series: u64| (0..60).map(|minute| (from + series * 60 + minute, minute as i64)).collect();
    (0..1000).map(row).collect()
}

fn timed() -> u128 {
    let mut spans: BTreeMap<Vec<(u32, u32)>, Vec<(u64, i64)>> = BTreeMap::new();
    let mut nanos = 0;
    for hour in 0..100 {
        let list = rows(hour * 60_000);
        let begin = Instant::now();
        for (series, row) in list.into_iter().enumerate() {
            let series = series as u32;
            let pairs = [(1, series), (2, series / 10)];
            match spans.get_mut(&pairs[..]) {
                Some(dots) => dots.extend_from_slice(&row),
                None => {
                    spans.insert(pairs.to_vec(), row);
                }
            }
        }
        nanos += begin.elapsed().as_nanos();
    }
    assert_eq!(spans.len(), 1000);
    nanos
}

fn main() {
    let best = (0..10).map(|_| timed()).min().unwrap_or(0);
    println!("Spans::add: {} ps a point", best / 6000);
}
