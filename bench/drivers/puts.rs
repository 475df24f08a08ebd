//! The least that a put of a known series can be, in plain Rust: the key of its metric and tags, found in a hash map, and the point
//! pushed onto a list. puts.sh runs it beside the crates.
//!
//!     puts TAGS       1,000,000 points of 1,000 series in order of time, their texts made beforehand; 5 rounds
use std::collections::HashMap;
use std::hint::black_box;
use std::time::Instant;

const SERIES: u32 = 1000;
const TIMES: u32 = 1000;

#[derive(Default)]
struct Store {
    index: HashMap<Vec<u8>, usize>,
    dots: Vec<Vec<(u64, i64)>>,
}

impl Store {
    fn put(&mut self, metric: &[u8], tags: &[u8], key: &mut Vec<u8>, time: u64, value: i64) {
        key.clear();
        key.extend(metric);
        key.push(b' ');
        key.extend(tags);
        let place = match self.index.get(key.as_slice()) {
            Some(place) => *place,
            None => {
                let place = self.dots.len();
                self.index.insert(key.clone(), place);
                self.dots.push(vec![]);
                place
            }
        };
        self.dots[place].push((time, value));
    }
}

/// The tags of a series, as generate.py has them.
fn tags_of(series: u32, count: usize) -> String {
    let (host, cpu) = (series / 4, series % 4);
    let pairs = [
        format!("host=web{host:04}"),
        format!("cpu={cpu}"),
        format!("dc={}", ["lga", "ams", "sin"][host as usize % 3]),
        format!("rack=r{:02}", host % 40),
        format!("role={}", ["frontend", "storage"][host as usize % 2]),
        "env=production".to_string(),
        format!("kernel=6.{}.{}", host % 7, host % 11),
        format!("owner=team-{}", host % 16),
    ];
    pairs[..count].join(" ")
}

fn main() {
    let count = std::env::args().nth(1).and_then(|word| word.parse().ok()).unwrap_or(2);
    let tags: Vec<String> = (0..SERIES).map(|series| tags_of(series, count)).collect();
    let mut best = u128::MAX;
    for _ in 0..5 {
        let (mut store, mut key) = (Store::default(), vec![]);
        let begin = Instant::now();
        for time in 0..TIMES {
            for series in 0..SERIES {
                let value = i64::from((31 * time + 7 * (series % 4) + series / 4) % 2001) - 1000;
                let seconds = 1_356_998_400 + 10 * u64::from(time);
                store.put(b"sys.cpu.user", tags[series as usize].as_bytes(), &mut key, seconds, value);
            }
        }
        best = best.min(begin.elapsed().as_nanos());
        black_box(&store);
    }
    println!("plain: {} ps a point", best * 1000 / u128::from(SERIES * TIMES));
}
