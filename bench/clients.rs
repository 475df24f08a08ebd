//! Clients of a server of put lines or of HTTP requests: serve.py times servers by them.
//!
//!     clients telnet|http PORT FILE..
//!
//! Each file goes to 127.0.0.1 on a connection of its own, all at once. `telnet` writes the file in pieces of 64 KiB, shuts its side and
//! reads to the end; it refuses any reply. `http` writes the file's requests one after the other, each when the reply to the one before it
//! has come, and refuses a reply whose status isn't 204. The files are read first. It prints the microseconds from the first connection's
//! opening to the last one's end.
use std::io::{BufRead, BufReader, Read, Write};
use std::net::{Shutdown, TcpStream};
use std::time::Instant;

fn connect(port: u16) -> TcpStream {
    let stream = TcpStream::connect(("127.0.0.1", port)).unwrap();
    stream.set_nodelay(true).unwrap();
    stream
}

fn telnet(port: u16, lines: &[u8]) {
    let mut stream = connect(port);
    for piece in lines.chunks(1 << 16) {
        stream.write_all(piece).unwrap();
    }
    stream.shutdown(Shutdown::Write).unwrap();
    let mut replies = Vec::new();
    stream.read_to_end(&mut replies).unwrap();
    assert!(replies.is_empty(), "{}", String::from_utf8_lossy(&replies));
}

/// The length of the body that a head tells.
fn body_length(head: &str) -> usize {
    let length = |line: &str| line.strip_prefix("Content-Length: ")?.trim().parse().ok();
    head.lines().find_map(length).unwrap_or(0)
}

/// The head of a request or a reply, up to its blank line.
fn head(source: &mut impl BufRead) -> String {
    let mut head = String::new();
    while source.read_line(&mut head).unwrap() > 2 {}
    head
}

/// The requests of a file.
fn requests(mut file: &[u8]) -> Vec<&[u8]> {
    let mut found = Vec::new();
    while !file.is_empty() {
        let mut rest = file;
        let length = body_length(&head(&mut rest));
        let (request, after) = file.split_at(file.len() - rest.len() + length);
        found.push(request);
        file = after;
    }
    found
}

fn http(port: u16, file: &[u8]) {
    let mut stream = connect(port);
    let mut replies = BufReader::new(stream.try_clone().unwrap());
    for request in requests(file) {
        stream.write_all(request).unwrap();
        let head = head(&mut replies);
        replies.read_exact(&mut vec![0; body_length(&head)]).unwrap();
        assert!(head.starts_with("HTTP/1.1 204 "), "{head}");
    }
}

fn main() {
    let words: Vec<String> = std::env::args().collect();
    let client = if words[1] == "http" { http } else { telnet };
    let port = words[2].parse().unwrap();
    let files: Vec<Vec<u8>> = words[3..].iter().map(|path| std::fs::read(path).unwrap()).collect();
    let begin = Instant::now();
    std::thread::scope(|scope| {
        for file in &files {
            scope.spawn(move || client(port, file));
        }
    });
    println!("{}", begin.elapsed().as_micros());
}
