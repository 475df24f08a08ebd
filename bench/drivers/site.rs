//! Threads that put points of known series into one map under a lock, in plain Rust: site.sh runs it beside the crates.
//!
//!     site own|one THREADS    whether each thread has a metric of its own or all have one; 1, 2 or 4 threads, each with 1,000,000 points
use std::collections::HashMap;
use std::sync::Mutex;
use std::thread;
use std::time::Instant;

const FIRST: u32 = 1_356_998_400;
const SERIES: u32 = 100;
const TURNS: u32 = 10_000;

#[derive(Default)]
struct Store {
    index: HashMap<Vec<u8>, usize>,
    dots: Vec<Vec<(u64, i64)>>,
}

impl Store {
    fn put(&mut self, key: &[u8], time: u64, value: i64) {
        let place = match self.index.get(key) {
            Some(place) => *place,
            None => {
                let place = self.dots.len();
                self.index.insert(key.to_vec(), place);
                self.dots.push(vec![]);
                place
            }
        };
        self.dots[place].push((time, value));
    }
}

fn push_number(text: &mut Vec<u8>, number: u32, mut scale: u32) {
    while scale > 0 {
        text.push(b'0' + (number / scale % 10) as u8);
        scale /= 10;
    }
}

fn write_line(text: &mut Vec<u8>, metric: u32, turn: u32, host: u32) {
    text.clear();
    text.extend(b"m");
    push_number(text, metric, 1);
    text.push(b' ');
    push_number(text, FIRST + 10 * turn, 1_000_000_000);
    text.push(b' ');
    push_number(text, turn % 100, 10);
    text.extend(b" host=web");
    push_number(text, host, 1000);
    text.extend(b" cpu=0");
}

fn number(text: &[u8]) -> Option<u64> {
    let mut number = 0u64;
    for byte in text {
        let digit = byte.wrapping_sub(b'0');
        if digit > 9 {
            return None;
        }
        number = number.checked_mul(10)?.checked_add(u64::from(digit))?;
    }
    (!text.is_empty()).then_some(number)
}

/// Reads a line, and puts its point under the lock. The key is the metric and the tags, as they stand.
fn put_text(store: &Mutex<Store>, key: &mut Vec<u8>, text: &[u8]) -> Option<()> {
    let mut words = text.splitn(4, |byte| *byte == b' ');
    let (metric, time, value, tags) = (words.next()?, words.next()?, words.next()?, words.next()?);
    let (time, value) = (number(time)?, number(value)?);
    key.clear();
    key.extend(metric);
    key.push(b' ');
    key.extend(tags);
    store.lock().unwrap().put(key, time * 1000, value as i64);
    Some(())
}

fn put_share(store: &Mutex<Store>, metric: u32, thread: u32) -> u64 {
    let (mut text, mut key) = (vec![], vec![]);
    let mut accepted = 0;
    for turn in 0..TURNS {
        for host in 0..SERIES {
            write_line(&mut text, metric, turn, thread * SERIES + host);
            accepted += u64::from(put_text(store, &mut key, &text).is_some());
        }
    }
    accepted
}

unsafe extern "C" {
    fn clock_gettime(clock: i32, time: *mut [i64; 2]) -> i32;
}

/// The nanoseconds that all threads of the process used of processors, as Linux tells them.
fn processors() -> u128 {
    let mut time = [0; 2];
    // The clock of the process, whose time is two words.
    let answer = unsafe { clock_gettime(2, &mut time) };
    assert_eq!(answer, 0);
    time[0] as u128 * 1_000_000_000 + time[1] as u128
}

fn main() {
    let words: Vec<String> = std::env::args().skip(1).collect();
    let has_own = words[0] == "own";
    let threads: u32 = words[1].parse().unwrap();
    let store = Mutex::new(Store::default());
    let (begin, before) = (Instant::now(), processors());
    thread::scope(|scope| {
        for thread in 0..threads {
            let store = &store;
            scope.spawn(move || {
                let metric = if has_own { thread } else { 0 };
                assert_eq!(put_share(store, metric, thread), u64::from(SERIES * TURNS));
            });
        }
    });
    drop(store);
    let (took, spent) = (begin.elapsed().as_nanos(), processors() - before);
    let points = u128::from(threads * SERIES * TURNS);
    println!("plain {} {threads}: {} ps a point, {} ps of processors a point", words[0], took * 1000 / points, spent * 1000 / points);
}
