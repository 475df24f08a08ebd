//! A query by hand over rows of an hour whose cells are two byte strings, with nothing else that a store has: scans.py times it beside
//! `tsd`.
//!
//!     scans START END M < LINES
//!
//! It reads well-formed lines of one metric, with times in seconds, and prints the answer, and on standard error the milliseconds from
//! the last line to the answer.
use std::collections::{BTreeMap, HashMap};
use std::io::Read;
use std::time::Instant;

struct Series {
    tags: Vec<(String, String)>,
    points: Vec<(u64, i64)>,
}

/// A row: its key, its series, and the qualifiers and the values of its cells.
struct Row {
    key: Vec<u8>,
    series: usize,
    quals: Vec<u8>,
    values: Vec<u8>,
}

/// What `sum:1m-avg:m{host=*}` says.
struct Query {
    aggregator: String,
    step: u64,
    function: String,
    metric: String,
    group: String,
}

fn number(text: &[u8]) -> i64 {
    let (negative, digits) = match text[0] {
        b'-' => (true, &text[1..]),
        _ => (false, text),
    };
    let number = digits.iter().fold(0, |number, digit| number * 10 + i64::from(digit - b'0'));
    if negative { -number } else { number }
}

fn query_of(text: &str) -> Query {
    let (head, group) = match text.split_once('{') {
        Some((head, group)) => (head, group.trim_end_matches("=*}")),
        None => (text, ""),
    };
    let parts: Vec<&str> = head.split(':').collect();
    let (step, function) = match parts[..] {
        [_, down, _] => {
            let (interval, function) = down.split_once('-').unwrap();
            let (count, unit) = interval.split_at(interval.len() - 1);
            (count.parse::<u64>().unwrap() * if unit == "m" { 60 } else { 1 }, function)
        }
        _ => (1, parts[0]),
    };
    Query {
        aggregator: parts[0].into(),
        step,
        function: function.into(),
        metric: parts[parts.len() - 1].into(),
        group: group.into(),
    }
}

/// The value of several.
fn fold(function: &str, values: &[i64]) -> i64 {
    match function {
        "sum" | "zimsum" => values.iter().fold(0i64, |sum, value| sum.checked_add(*value).unwrap()),
        "avg" => (values.iter().map(|value| i128::from(*value)).sum::<i128>() / values.len() as i128) as i64,
        "max" => *values.iter().max().unwrap(),
        _ => values[values.len() - 1],
    }
}

fn id(ids: &mut HashMap<String, u32>, name: &str) -> [u8; 3] {
    let next = ids.len() as u32 + 1;
    let [_, a, b, c] = ids.entry(name.into()).or_insert(next).to_be_bytes();
    [a, b, c]
}

/// The series and the rows of the lines of a metric.
fn load(input: &[u8], metric: &str) -> (Vec<Series>, Vec<Row>) {
    let (mut series, mut rows): (Vec<Series>, Vec<Row>) = (vec![], vec![]);
    let (mut places, mut last) = (HashMap::new(), vec![]);
    let (mut keys, mut values) = (HashMap::new(), HashMap::new());
    for line in input.split(|byte| *byte == b'\n').filter(|line| !line.is_empty()) {
        let mut words = line.splitn(4, |byte| *byte == b' ');
        let mut word = || words.next().unwrap();
        let (name, time, value, tags) = (word(), number(word()) as u64, number(word()), word());
        if name != metric.as_bytes() {
            continue;
        }
        let place = *places.entry(tags).or_insert_with(|| {
            let text = std::str::from_utf8(tags).unwrap();
            let mut tags: Vec<(String, String)> =
                text.split(' ').filter_map(|pair| pair.split_once('=')).map(|(key, value)| (key.into(), value.into())).collect();
            tags.sort();
            series.push(Series { tags, points: vec![] });
            last.push((u64::MAX, 0));
            series.len() - 1
        });
        let base = time - time % 3600;
        if last[place].0 != base {
            let mut key = vec![0, 0, 1];
            key.extend((base as u32).to_be_bytes());
            for (tag, value) in &series[place].tags {
                key.extend(id(&mut keys, tag));
                key.extend(id(&mut values, value));
            }
            last[place] = (base, rows.len());
            rows.push(Row { key, series: place, quals: vec![], values: vec![] });
        }
        let length = if i8::try_from(value).is_ok() {
            1
        } else if i16::try_from(value).is_ok() {
            2
        } else if i32::try_from(value).is_ok() {
            4
        } else {
            8
        };
        let row = &mut rows[last[place].1];
        row.quals.extend((((time - base) as u16) << 4 | (length as u16 - 1)).to_be_bytes());
        row.values.extend(&value.to_be_bytes()[8 - length..]);
    }
    (series, rows)
}

/// Reads the rows, in the order of their keys, as points of their series.
fn scan(series: &mut [Series], mut rows: Vec<Row>, start: u64, end: u64) {
    rows.sort_by(|one, other| one.key.cmp(&other.key));
    for row in &rows {
        let base = u64::from(u32::from_be_bytes(row.key[3..7].try_into().unwrap()));
        let mut at = 0;
        for qual in row.quals.chunks(2) {
            let time = base + u64::from(u16::from_be_bytes([qual[0], qual[1]]) >> 4);
            let length = usize::from(qual[1] & 7) + 1;
            let bytes = &row.values[at..at + length];
            at += length;
            let mut whole = [if bytes[0] & 0x80 != 0 { 0xff } else { 0 }; 8];
            whole[8 - length..].copy_from_slice(bytes);
            if time >= start && time <= end {
                series[row.series].points.push((time, i64::from_be_bytes(whole)));
            }
        }
    }
}

/// One value for each bucket of a series.
fn down(series: &mut Series, step: u64, function: &str) {
    let (mut made, mut at, mut values) = (vec![], 0, vec![]);
    let points = &series.points;
    while at < points.len() {
        let bucket = points[at].0 - points[at].0 % step;
        values.clear();
        while at < points.len() && points[at].0 - points[at].0 % step == bucket {
            values.push(points[at].1);
            at += 1;
        }
        made.push((bucket, fold(function, &values)));
    }
    series.points = made;
}

/// One value at each time of the group, with those of other series between two of their points.
fn aggregate(group: &[&Series], aggregator: &str) -> Vec<(String, i64)> {
    let mut times: Vec<u64> = group.iter().flat_map(|series| series.points.iter().map(|point| point.0)).collect();
    times.sort_unstable();
    times.dedup();
    let (mut places, mut values, mut made) = (vec![0usize; group.len()], vec![], vec![]);
    for time in times {
        values.clear();
        for (series, place) in group.iter().zip(&mut places) {
            let points = &series.points;
            while *place < points.len() && points[*place].0 < time {
                *place += 1;
            }
            if *place == points.len() {
                continue;
            }
            let (later, above) = points[*place];
            if later == time {
                values.push(above);
            } else if aggregator != "zimsum" && *place > 0 {
                let (earlier, below) = points[*place - 1];
                let rise = i128::from(time - earlier) * (i128::from(above) - i128::from(below));
                values.push((i128::from(below) + rise / i128::from(later - earlier)) as i64);
            }
        }
        made.push((time.to_string(), fold(aggregator, &values)));
    }
    made.sort();
    made
}

/// The text of a group.
fn text(group: &[&Series], query: &Query) -> String {
    let value = |series: &Series, key: &str| series.tags.iter().find(|tag| tag.0 == key).map(|tag| tag.1.clone());
    let (mut shared, mut differing) = (vec![], vec![]);
    for (key, first) in &group[0].tags {
        if group.iter().all(|series| value(series, key).as_ref() == Some(first)) {
            shared.push(format!("\"{key}\":\"{first}\""));
        } else if group.iter().all(|series| value(series, key).is_some()) {
            differing.push(format!("\"{key}\""));
        }
    }
    let points: Vec<String> = aggregate(group, &query.aggregator).iter().map(|(time, value)| format!("\"{time}\":{value}")).collect();
    format!(
        "{{\"aggregateTags\":[{}],\"dps\":{{{}}},\"metric\":\"{}\",\"tags\":{{{}}}}}",
        differing.join(","),
        points.join(","),
        query.metric,
        shared.join(",")
    )
}

fn main() {
    let words: Vec<String> = std::env::args().collect();
    let (start, end) = (words[1].parse().unwrap(), words[2].parse().unwrap());
    let query = query_of(&words[3]);
    let mut input = vec![];
    std::io::stdin().read_to_end(&mut input).unwrap();
    let (mut series, rows) = load(&input, &query.metric);
    let begin = Instant::now();
    scan(&mut series, rows, start, end);
    for one in &mut series {
        down(one, query.step, &query.function);
    }
    let mut groups: BTreeMap<Vec<&str>, Vec<&Series>> = BTreeMap::new();
    for one in series.iter().filter(|series| !series.points.is_empty()) {
        let key = one.tags.iter().filter(|tag| tag.0 == query.group).map(|tag| tag.1.as_str()).collect();
        groups.entry(key).or_default().push(one);
    }
    let texts: Vec<String> = groups.values().map(|group| text(group, &query)).collect();
    let answer = format!("[{}]", texts.join(","));
    eprintln!("{:.3}", begin.elapsed().as_secs_f64() * 1e3);
    println!("{answer}");
}
