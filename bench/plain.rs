//! The job of `tsd batch START END M` in plain Rust with `std` alone: what the speed of `tsd` is measured against. M is
//! `sum:` or `zimsum:`, perhaps `Nm-avg:` or `Ns-avg:`, a metric, and perhaps one filter that groups, `{KEY=*}` or `{KEY=VALUE}`.
//! It accepts and refuses the same lines, but those in milliseconds, and prints the same bytes.
//!
//! With the word `stdio` it does that of `tsd stdio --auto-metric` for the requests `put` and `exit` alone, and with `http` for
//! `POST /api/put` without flags, whose body is a list of points.

use std::collections::{BTreeMap, HashMap};
use std::io::{self, BufRead, BufReader, Read, Write};
use std::process::ExitCode;

const LONGEST_LINE: usize = 8192;
const LONGEST_NAME: usize = 255;
const MOST_TAGS: usize = 8;
const LAST_SECOND: u64 = 4_294_967_295;
const LAST_MILLISECOND: u64 = 4_294_967_295_999;

const USAGE: &str =
    "usage: tsd batch START END M | stdio | serve PORT | import | dump | fsck | fix | weave SEED N | pack | unpack";

/// Points with rising times.
type Points = Vec<(u64, i64)>;

/// The points of each series. The key is the metric and then the tags in order, between spaces.
type Store = HashMap<Vec<u8>, Points>;

/// What ends the program early: the line to print, if it isn't empty, and the exit status.
struct Stop {
    text: String,
    status: u8,
}

fn refused(text: impl Into<String>) -> Stop {
    Stop {
        text: text.into(),
        status: 2,
    }
}

/// What a series has at a time where it has no point: with `Sum` what stands on the line between its points, if it has
/// some before and after.
#[derive(Clone, Copy, PartialEq)]
enum Aggregator {
    Sum,
    Zimsum,
}

struct Words {
    start: u64,
    end: u64,
    aggregator: Aggregator,
    /// The seconds of a bucket, whose points make their average.
    interval: Option<u64>,
    metric: Vec<u8>,
    /// A key, and the value that is asked for, or any.
    filter: Option<(Vec<u8>, Option<Vec<u8>>)>,
}

/// The parts of a line that are a point in seconds. The tags rise by key.
struct Point<'a> {
    metric: &'a [u8],
    time: u64,
    value: i64,
    tags: Vec<(&'a [u8], &'a [u8])>,
}

fn main() -> ExitCode {
    let (text, status) = match run() {
        Ok(text) => (text, 0),
        Err(stop) => (stop.text, stop.status),
    };
    if text.is_empty() {
        return ExitCode::from(status);
    }
    let mut output = io::stdout().lock();
    match writeln!(output, "{text}").and_then(|()| output.flush()) {
        Ok(()) => ExitCode::from(status),
        Err(_) => ExitCode::from(4),
    }
}

fn run() -> Result<String, Stop> {
    let args: Vec<String> = std::env::args().skip(1).collect();
    if args == ["stdio"] {
        return session(BufReader::with_capacity(1 << 16, io::stdin().lock()));
    }
    if args == ["http"] {
        return http_session(BufReader::with_capacity(1 << 16, io::stdin().lock()));
    }
    let words = read_words(&args)?;
    let store = read_lines(BufReader::with_capacity(1 << 16, io::stdin().lock()))?;
    answer(&store, &words)
}

fn read_words(args: &[String]) -> Result<Words, Stop> {
    let usage = || Stop {
        text: USAGE.into(),
        status: 1,
    };
    let [command, start, end, m] = args else {
        return Err(usage());
    };
    let second = |text: &str| number(text.as_bytes()).filter(|second| *second <= LAST_SECOND);
    let (Some(start), Some(end)) = (second(start), second(end)) else {
        return Err(usage());
    };
    if command != "batch" || end < start {
        return Err(usage());
    }
    let not_here = || refused("not in the plain program");
    let (aggregator, rest) = match m.split_once(':') {
        Some(("sum", rest)) => (Aggregator::Sum, rest),
        Some(("zimsum", rest)) => (Aggregator::Zimsum, rest),
        _ => return Err(not_here()),
    };
    let (rest, filter) = match rest.split_once('{') {
        None => (rest, None),
        Some((rest, filter)) => {
            let filter = filter.strip_suffix('}').ok_or_else(not_here)?;
            let (key, value) = filter.split_once('=').ok_or_else(not_here)?;
            (rest, Some((key.into(), (value != "*").then(|| value.into()))))
        }
    };
    let (interval, metric) = match rest.split_once(':') {
        None => (None, rest),
        Some((down, metric)) => {
            let number = down.strip_suffix("-avg").ok_or_else(not_here)?;
            let (number, unit) = number.split_at(number.len() - 1);
            let unit = match unit {
                "s" => 1,
                "m" => 60,
                _ => return Err(not_here()),
            };
            let number: u64 = number.parse().map_err(|_| not_here())?;
            (Some(number * unit), metric)
        }
    };
    if name_fault(metric.as_bytes()).is_some() {
        return Err(refused(format!("query: bad query at byte {}", m.len() - metric.len())));
    }
    Ok(Words {
        start,
        end,
        aggregator,
        interval,
        metric: metric.into(),
        filter,
    })
}

fn read_lines(mut input: impl BufRead) -> Result<Store, Stop> {
    let mut store = Store::new();
    let mut line = Vec::new();
    let mut key = Vec::new();
    let mut count: u64 = 0;
    loop {
        line.clear();
        match input.read_until(b'\n', &mut line) {
            Ok(0) => return Ok(store),
            Ok(_) => count += 1,
            Err(_) => {
                return Err(Stop {
                    text: String::new(),
                    status: 3,
                });
            }
        }
        let Some(text) = line_text(&line).map_err(|fault| refused(format!("line {count}: {fault}")))? else {
            continue;
        };
        let point = read_point(text).map_err(|fault| refused(format!("line {count}: {fault}")))?;
        keep(&mut store, &mut key, &point);
    }
}

/// Keeps a point with those of its series.
fn keep(store: &mut Store, key: &mut Vec<u8>, point: &Point<'_>) {
    write_key(key, point);
    match store.get_mut(key) {
        Some(points) => put(points, point.time, point.value),
        None => {
            store.insert(key.clone(), vec![(point.time, point.value)]);
        }
    }
}

/// Keeps the points of a session up to its `exit`, and answers those that it refuses.
fn session(mut input: impl BufRead) -> Result<String, Stop> {
    let mut output = io::stdout().lock();
    let mut store = Store::new();
    let mut line = Vec::new();
    let mut key = Vec::new();
    loop {
        line.clear();
        match input.read_until(b'\n', &mut line) {
            Ok(0) => return Ok(String::new()),
            Ok(_) if line == b"exit\n" => return Ok(String::new()),
            Ok(_) => {}
            Err(_) => {
                return Err(Stop {
                    text: String::new(),
                    status: 3,
                });
            }
        }
        let told = match line_text(&line) {
            Ok(None) => continue,
            Ok(Some(text)) => match text.strip_prefix(b"put ") {
                Some(words) => read_point(words).map(|point| keep(&mut store, &mut key, &point)),
                None => Err("unknown command".into()),
            },
            Err(fault) => Err(fault),
        };
        if let Err(fault) = told
            && writeln!(output, "put: {fault}").is_err()
        {
            return Err(Stop {
                text: String::new(),
                status: 4,
            });
        }
    }
}

/// Keeps the points of each body, up to the input's end.
fn http_session(mut input: impl BufRead) -> Result<String, Stop> {
    let mut output = io::stdout().lock();
    let mut store = Store::new();
    let mut key = Vec::new();
    let mut body = Vec::new();
    let failed = |status| Stop {
        text: String::new(),
        status,
    };
    while let Some(length) = read_head(&mut input).map_err(|_| failed(3))? {
        body.clear();
        match input.by_ref().take(length).read_to_end(&mut body) {
            Ok(count) if count as u64 == length => {}
            Ok(_) => break,
            Err(_) => return Err(failed(3)),
        }
        let reply: &[u8] = match put_body(&body, &mut store, &mut key) {
            Some(0) => b"HTTP/1.1 204 No Content\r\n\r\n",
            _ => b"HTTP/1.1 400 Bad Request\r\n\r\n",
        };
        output.write_all(reply).map_err(|_| failed(4))?;
    }
    Ok(String::new())
}

/// The length of the body whose head comes next, or nothing where no head comes.
fn read_head(input: &mut impl BufRead) -> io::Result<Option<u64>> {
    let mut line = Vec::new();
    let mut length = None;
    loop {
        line.clear();
        if input.read_until(b'\n', &mut line)? == 0 {
            return Ok(None);
        }
        let text = line.trim_ascii_end();
        if text.is_empty() {
            return Ok(length);
        }
        if let Some(at) = text.iter().position(|b| *b == b':')
            && text[..at].eq_ignore_ascii_case(b"content-length")
        {
            length = number(text[at + 1..].trim_ascii());
        }
    }
}

/// Keeps the points of a body, and answers how many of its elements are none, if it is a list.
fn put_body(body: &[u8], store: &mut Store, key: &mut Vec<u8>) -> Option<usize> {
    let text = std::str::from_utf8(body).ok()?;
    let mut reader = Json { text, at: 0 };
    let Value::List(elements) = reader.value(0)? else {
        return None;
    };
    reader.blanks();
    if reader.at != text.len() {
        return None;
    }
    let mut bad = 0;
    for element in &elements {
        match element_point(element) {
            Some(point) => keep(store, key, &point),
            None => bad += 1,
        }
    }
    Some(bad)
}

/// The point in seconds that an element is, if it is one.
fn element_point<'a>(element: &'a Value) -> Option<Point<'a>> {
    let Value::Object(members) = element else {
        return None;
    };
    let Value::Text(metric) = members.get("metric")? else {
        return None;
    };
    let time = match members.get("timestamp")? {
        Value::Text(text) | Value::Number(text) => read_time(text.as_bytes())?,
        _ => return None,
    };
    let value = match members.get("value")? {
        Value::Text(text) | Value::Number(text) => read_value(text.as_bytes()).ok()?,
        _ => return None,
    };
    let Value::Object(tags) = members.get("tags")? else {
        return None;
    };
    let mut pairs: Vec<(&[u8], &[u8])> = Vec::with_capacity(tags.len());
    for (key, value) in tags {
        let Value::Text(value) = value else {
            return None;
        };
        pairs.push((key.as_bytes(), value.as_bytes()));
    }
    let named = pairs.iter().all(|tag| name_fault(tag.0).is_none() && name_fault(tag.1).is_none());
    let whole = named && name_fault(metric.as_bytes()).is_none() && !time.1 && (1..=MOST_TAGS).contains(&pairs.len());
    whole.then_some(Point {
        metric: metric.as_bytes(),
        time: time.0,
        value,
        tags: pairs,
    })
}

/// A JSON value. Numbers stay as they are written.
enum Value {
    Null,
    Truth,
    Number(String),
    Text(String),
    List(Vec<Value>),
    Object(BTreeMap<String, Value>),
}

/// Reads JSON from the left.
struct Json<'a> {
    text: &'a str,
    at: usize,
}

impl Json<'_> {
    fn peek(&self) -> Option<u8> {
        self.text.as_bytes().get(self.at).copied()
    }

    fn blanks(&mut self) {
        while matches!(self.peek(), Some(b' ' | b'\t' | b'\n' | b'\r')) {
            self.at += 1;
        }
    }

    /// Goes behind a byte, if it is the next behind blanks.
    fn take(&mut self, byte: u8) -> bool {
        self.blanks();
        let is_there = self.peek() == Some(byte);
        self.at += usize::from(is_there);
        is_there
    }

    fn value(&mut self, depth: usize) -> Option<Value> {
        self.blanks();
        if depth > 127 {
            return None;
        }
        match self.peek()? {
            b'{' => self.object(depth),
            b'[' => self.list(depth),
            b'"' => self.string().map(Value::Text),
            b'-' | b'0'..=b'9' => self.number(),
            _ => self.word(),
        }
    }

    fn object(&mut self, depth: usize) -> Option<Value> {
        self.at += 1;
        let mut members = BTreeMap::new();
        if self.take(b'}') {
            return Some(Value::Object(members));
        }
        loop {
            self.blanks();
            let key = self.string()?;
            if !self.take(b':') {
                return None;
            }
            members.insert(key, self.value(depth + 1)?);
            if self.take(b'}') {
                return Some(Value::Object(members));
            }
            if !self.take(b',') {
                return None;
            }
        }
    }

    fn list(&mut self, depth: usize) -> Option<Value> {
        self.at += 1;
        let mut items = Vec::new();
        if self.take(b']') {
            return Some(Value::List(items));
        }
        loop {
            items.push(self.value(depth + 1)?);
            if self.take(b']') {
                return Some(Value::List(items));
            }
            if !self.take(b',') {
                return None;
            }
        }
    }

    /// A string, in which of the escapes those of one letter are read.
    fn string(&mut self) -> Option<String> {
        if self.peek() != Some(b'"') {
            return None;
        }
        self.at += 1;
        let mut text = String::new();
        loop {
            let rest = &self.text[self.at..];
            let stop = rest.bytes().position(|b| b == b'"' || b == b'\\' || b < b' ')?;
            text.push_str(&rest[..stop]);
            self.at += stop;
            match self.peek()? {
                b'"' => {
                    self.at += 1;
                    return Some(text);
                }
                b'\\' => {
                    let escaped = *self.text.as_bytes().get(self.at + 1)?;
                    text.push(match escaped {
                        b'"' | b'\\' | b'/' => char::from(escaped),
                        b'n' => '\n',
                        b'r' => '\r',
                        b't' => '\t',
                        _ => return None,
                    });
                    self.at += 2;
                }
                _ => return None,
            }
        }
    }

    fn number(&mut self) -> Option<Value> {
        let rest = &self.text[self.at..];
        let end = rest
            .bytes()
            .position(|b| !matches!(b, b'0'..=b'9' | b'-' | b'+' | b'.' | b'e' | b'E'))
            .unwrap_or(rest.len());
        rest[..end].parse::<f64>().ok()?;
        self.at += end;
        Some(Value::Number(rest[..end].to_string()))
    }

    fn word(&mut self) -> Option<Value> {
        for (word, value) in [("null", Value::Null), ("true", Value::Truth), ("false", Value::Truth)] {
            if self.text[self.at..].starts_with(word) {
                self.at += word.len();
                return Some(value);
            }
        }
        None
    }
}

/// What stands before the line's end, or nothing where the line is blank.
fn line_text(line: &[u8]) -> Result<Option<&[u8]>, String> {
    let (text, ended) = match line.strip_suffix(b"\n") {
        Some(text) => (text, true),
        None => (line, false),
    };
    if text.len() > LONGEST_LINE {
        return Err("line too long".into());
    }
    let text = match text.strip_suffix(b"\r") {
        Some(text) if ended => text,
        _ => text,
    };
    Ok(text.iter().any(|b| *b != b' ').then_some(text))
}

fn read_point(text: &[u8]) -> Result<Point<'_>, String> {
    let mut words = text.split(|b| *b == b' ').filter(|word| !word.is_empty());
    let (Some(metric), Some(time), Some(value), Some(first)) =
        (words.next(), words.next(), words.next(), words.next())
    else {
        let found = text.split(|b| *b == b' ').filter(|word| !word.is_empty()).count();
        return Err(format!("not enough words (4 needed, {found} found)"));
    };
    if let Some(fault) = name_fault(metric) {
        return Err(format!("metric name {fault}"));
    }
    let (time, fine) = read_time(time).ok_or("bad time")?;
    let value = read_value(value)?;
    let tags = read_tags(std::iter::once(first).chain(words))?;
    if fine {
        return Err("not built".into());
    }
    Ok(Point {
        metric,
        time,
        value,
        tags,
    })
}

/// The number of one or more digits, which stops at the last `u64`.
fn number(digits: &[u8]) -> Option<u64> {
    if digits.is_empty() {
        return None;
    }
    digits.iter().try_fold(0u64, |number, digit| {
        digit
            .is_ascii_digit()
            .then(|| number.saturating_mul(10).saturating_add(u64::from(digit - b'0')))
    })
}

/// The time, and whether it is in milliseconds.
fn read_time(text: &[u8]) -> Option<(u64, bool)> {
    if text.len() == 14 && text[10] == b'.' {
        let second = number(&text[..10])?;
        let millisecond = number(&text[11..])?;
        return (second <= LAST_SECOND && 0 < second + millisecond)
            .then_some((second * 1000 + millisecond, true));
    }
    match number(text)? {
        0 => None,
        second if second <= LAST_SECOND => Some((second, false)),
        millisecond if millisecond <= LAST_MILLISECOND => Some((millisecond, true)),
        _ => None,
    }
}

fn read_value(text: &[u8]) -> Result<i64, &'static str> {
    let (negative, text) = match text {
        [b'-', digits @ ..] => (true, digits),
        [b'+', digits @ ..] => (false, digits),
        _ => (false, text),
    };
    let digits = text.iter().take_while(|b| b.is_ascii_digit()).count();
    match text.get(digits) {
        _ if digits == 0 => return Err("bad value"),
        Some(b'.' | b'e' | b'E') => return Err("floats are not stored"),
        Some(_) => return Err("bad value"),
        None => {}
    }
    let size = number(text).unwrap_or(u64::MAX);
    if negative {
        0i64.checked_sub_unsigned(size).ok_or("value too large")
    } else {
        i64::try_from(size).map_err(|_| "value too large")
    }
}

/// The tags in order of their keys. A pair that stands twice counts once.
fn read_tags<'a>(words: impl Iterator<Item = &'a [u8]>) -> Result<Vec<(&'a [u8], &'a [u8])>, String> {
    let mut tags: Vec<(&[u8], &[u8])> = Vec::with_capacity(MOST_TAGS);
    let mut contradicted = None;
    for (index, word) in (1..).zip(words) {
        let Some(at) = word.iter().position(|b| *b == b'=') else {
            return Err(format!("tag {index} has no ="));
        };
        let (key, value) = (&word[..at], &word[at + 1..]);
        if let Some(fault) = name_fault(key) {
            return Err(format!("tag {index}: tagk name {fault}"));
        }
        if let Some(fault) = name_fault(value) {
            return Err(format!("tag {index}: tagv name {fault}"));
        }
        match tags.binary_search_by(|tag| tag.0.cmp(key)) {
            Ok(at) if tags[at].1 == value => {}
            Ok(_) => contradicted = contradicted.or(Some(key)),
            Err(at) => tags.insert(at, (key, value)),
        }
    }
    if let Some(key) = contradicted {
        return Err(format!("two values for tagk {}", text_of(key)));
    }
    if tags.len() > MOST_TAGS {
        return Err(format!("{} tags (8 at most)", tags.len()));
    }
    Ok(tags)
}

/// What is wrong with a name.
fn name_fault(name: &[u8]) -> Option<String> {
    if name.is_empty() {
        return Some("is empty".into());
    }
    if name.len() > LONGEST_NAME {
        return Some(format!("has {} bytes (255 at most)", name.len()));
    }
    let at = name.iter().position(|b| !is_name_byte(*b))?;
    Some(format!("has byte 0x{:02x} at {at}", name[at]))
}

fn is_name_byte(b: u8) -> bool {
    b.is_ascii_alphanumeric() || matches!(b, b'-' | b'_' | b'.' | b'/')
}

/// A name, which is ASCII.
fn text_of(name: &[u8]) -> &str {
    std::str::from_utf8(name).unwrap_or_default()
}

fn write_key(key: &mut Vec<u8>, point: &Point) {
    key.clear();
    key.extend_from_slice(point.metric);
    for (tag, value) in &point.tags {
        key.push(b' ');
        key.extend_from_slice(tag);
        key.push(b'=');
        key.extend_from_slice(value);
    }
}

/// Puts a point in, over one that has its time. Points mostly come in order.
fn put(points: &mut Points, time: u64, value: i64) {
    if points.last().is_none_or(|last| last.0 < time) {
        points.push((time, value));
        return;
    }
    match points.binary_search_by_key(&time, |point| point.0) {
        Ok(at) => points[at].1 = value,
        Err(at) => points.insert(at, (time, value)),
    }
}

/// What the series of one group make.
#[derive(Default)]
struct Group<'a> {
    shared: Shared<'a>,
    sums: BTreeMap<u64, i128>,
    series: Vec<Points>,
}

fn answer(store: &Store, words: &Words) -> Result<String, Stop> {
    let metric = text_of(&words.metric);
    let mut is_known = false;
    let mut groups: BTreeMap<&[u8], Group> = BTreeMap::new();
    for (key, points) in store {
        let mut parts = key.split(|b| *b == b' ');
        if parts.next() != Some(&words.metric) {
            continue;
        }
        is_known = true;
        let Some(value) = group_of(parts.clone(), words) else {
            continue;
        };
        let from = points.partition_point(|point| point.0 < words.start);
        let to = points.partition_point(|point| point.0 <= words.end);
        if from == to {
            continue;
        }
        let chosen = match words.interval {
            Some(interval) => averages(&points[from..to], interval),
            None => points[from..to].to_vec(),
        };
        let group = groups.entry(value).or_default();
        for (time, value) in &chosen {
            *group.sums.entry(*time).or_default() += i128::from(*value);
        }
        group.series.push(chosen);
        group.shared.add(parts);
    }
    if !is_known {
        return Err(refused(format!("query: unknown metric {metric}")));
    }
    let mut texts = Vec::new();
    for group in groups.values_mut() {
        if words.aggregator == Aggregator::Sum {
            for chosen in &group.series {
                add_between(chosen, &mut group.sums);
            }
        }
        for (time, sum) in &group.sums {
            if i64::try_from(*sum).is_err() {
                // In milliseconds, as all times of refusals are.
                return Err(refused(format!("query: overflow at {}", time * 1000)));
            }
        }
        texts.push(json(metric, &group.shared, &group.sums));
    }
    Ok(format!("[{}]", texts.join(",")))
}

/// The value by which a series belongs to a group, if it passes the filter.
fn group_of<'a>(mut tags: impl Iterator<Item = &'a [u8]>, words: &Words) -> Option<&'a [u8]> {
    let Some((key, wanted)) = &words.filter else {
        return Some(b"");
    };
    let value = tags.find_map(|tag| tag.strip_prefix(key.as_slice())?.strip_prefix(b"="))?;
    wanted.as_ref().is_none_or(|wanted| wanted == value).then_some(value)
}

/// The average of each bucket's points, at the second at which it begins.
fn averages(points: &[(u64, i64)], interval: u64) -> Points {
    let mut averages = Vec::new();
    for bucket in points.chunk_by(|one, next| one.0 / interval == next.0 / interval) {
        let sum: i128 = bucket.iter().map(|point| i128::from(point.1)).sum();
        // Its points are 64-bit numbers, so their average is one.
        let average = (sum / bucket.len() as i128) as i64;
        averages.push((bucket[0].0 / interval * interval, average));
    }
    averages
}

/// Adds what stands on the lines between points that follow each other. The sums have each time of the points.
fn add_between(points: &[(u64, i64)], sums: &mut BTreeMap<u64, i128>) {
    for pair in points.windows(2) {
        let ((time, value), (next_time, next_value)) = (pair[0], pair[1]);
        if time + 1 == next_time {
            continue;
        }
        for (at, sum) in sums.range_mut(time + 1..next_time) {
            let rise = i128::from(next_value) - i128::from(value);
            *sum += i128::from(value) + i128::from(at - time) * rise / i128::from(next_time - time);
        }
    }
}

/// The keys that all series have, with their value where it is the same in all.
#[derive(Default)]
struct Shared<'a> {
    keys: Option<BTreeMap<&'a [u8], Option<&'a [u8]>>>,
}

impl<'a> Shared<'a> {
    fn add(&mut self, tags: impl Iterator<Item = &'a [u8]>) {
        let tags = tags.filter_map(|tag| {
            let at = tag.iter().position(|b| *b == b'=')?;
            Some((&tag[..at], &tag[at + 1..]))
        });
        match &mut self.keys {
            None => self.keys = Some(tags.map(|(key, value)| (key, Some(value))).collect()),
            Some(keys) => {
                let tags: Vec<_> = tags.collect();
                keys.retain(|key, shared| match tags.iter().find(|tag| tag.0 == *key) {
                    Some((_, value)) => {
                        *shared = shared.filter(|shared| shared == value);
                        true
                    }
                    None => false,
                });
            }
        }
    }
}

fn json(metric: &str, shared: &Shared, sums: &BTreeMap<u64, i128>) -> String {
    let keys = shared.keys.iter().flatten();
    let aggregated: Vec<String> = keys
        .clone()
        .filter(|(_, value)| value.is_none())
        .map(|(key, _)| format!("\"{}\"", text_of(key)))
        .collect();
    let tags: Vec<String> = keys
        .filter_map(|(key, value)| Some(format!("\"{}\":\"{}\"", text_of(key), text_of((*value)?))))
        .collect();
    let mut dps: Vec<String> = sums
        .iter()
        .map(|(time, sum)| format!("\"{time}\":{sum}"))
        .collect();
    // A quote stands below each digit, so this is the order of the times' texts.
    dps.sort_unstable();
    format!(
        "{{\"aggregateTags\":[{}],\"dps\":{{{}}},\"metric\":\"{metric}\",\"tags\":{{{}}}}}",
        aggregated.join(","),
        dps.join(","),
        tags.join(","),
    )
}
