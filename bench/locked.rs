//! A server of put lines that does little more than keep them: serve.py times it beside `tsd serve`.
//!
//!     locked
//!
//! It listens on a port of 127.0.0.1 that the system picks, prints `listening PORT`, and serves each connection on a thread of its own. A
//! line is split into its words, its time and its value are read, and it goes into a hash map from a series' text to its points, behind one
//! lock that is taken for each line. A line that isn't a put is answered `put: bad`.
use std::collections::HashMap;
use std::io::{Read, Write};
use std::net::{TcpListener, TcpStream};
use std::sync::Mutex;

#[derive(Default)]
struct Store {
    places: HashMap<Vec<u8>, usize>,
    series: Vec<Vec<(u64, i64)>>,
}

impl Store {
    fn put(&mut self, text: &[u8], time: u64, value: i64) {
        let place = match self.places.get(text) {
            Some(&place) => place,
            None => {
                self.places.insert(text.to_vec(), self.series.len());
                self.series.push(Vec::new());
                self.series.len() - 1
            }
        };
        self.series[place].push((time, value));
    }
}

fn digits(text: &[u8]) -> Option<u64> {
    if text.is_empty() || text.len() > 18 || !text.iter().all(u8::is_ascii_digit) {
        return None;
    }
    Some(text.iter().fold(0, |number, digit| number * 10 + u64::from(digit - b'0')))
}

fn integer(text: &[u8]) -> Option<i64> {
    match text.strip_prefix(b"-") {
        Some(text) => digits(text).map(|number| -(number as i64)),
        None => digits(text).map(|number| number as i64),
    }
}

fn put(store: &Mutex<Store>, line: &[u8], text: &mut Vec<u8>) -> Option<()> {
    let mut words = line.splitn(5, |byte| *byte == b' ');
    if words.next()? != b"put" {
        return None;
    }
    let (metric, time, value, tags) = (words.next()?, digits(words.next()?)?, integer(words.next()?)?, words.next()?);
    text.clear();
    text.extend_from_slice(metric);
    text.push(b' ');
    text.extend_from_slice(tags);
    store.lock().unwrap().put(text, time, value);
    Some(())
}

fn serve(store: &Mutex<Store>, mut stream: TcpStream) {
    let (mut block, mut held, mut text) = (vec![0; 1 << 16], 0, Vec::new());
    loop {
        let taken = stream.read(&mut block[held..]).unwrap_or(0);
        if taken == 0 {
            return;
        }
        let (end, mut at) = (held + taken, 0);
        while let Some(length) = block[at..end].iter().position(|byte| *byte == b'\n') {
            if put(store, &block[at..at + length], &mut text).is_none() {
                let _ = stream.write_all(b"put: bad\n");
            }
            at += length + 1;
        }
        block.copy_within(at..end, 0);
        held = end - at;
    }
}

fn main() {
    let store = Mutex::new(Store::default());
    let listener = TcpListener::bind(("127.0.0.1", 0)).unwrap();
    println!("listening {}", listener.local_addr().unwrap().port());
    std::thread::scope(|scope| {
        for stream in listener.incoming() {
            let store = &store;
            scope.spawn(move || serve(store, stream.unwrap()));
        }
    });
}
