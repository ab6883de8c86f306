//! A client that puts load on a counting server over loopback: `client KIND PORT SESSIONS DEPTH ADDS [MIX]`.
//! KIND is `sketchd` or `redis`. Each session has a thread and a connection, and sends DEPTH requests in one write before
//! it reads their replies, each of which is checked against its request. With MIX every 100th request is an `ask` and
//! every 1,000th a `sync` (of Redis a `PFCOUNT`). It prints the seconds, and how many adds were busy and sent again.
use std::collections::VecDeque;
use std::io::{BufRead, BufReader, Write};
use std::net::TcpStream;
use std::time::{Duration, Instant};

#[derive(Clone, Copy, PartialEq)]
enum Kind {
    Sketchd,
    Redis,
}

#[derive(Clone, Copy)]
enum Request {
    Add(u64),
    Ask,
    Sync,
}

/// What one session sends.
#[derive(Clone, Copy)]
struct Load {
    kind: Kind,
    port: u16,
    depth: usize,
    first: u64,
    adds: u64,
    mix: bool,
}

fn connect(port: u16) -> TcpStream {
    let until = Instant::now() + Duration::from_secs(10);
    loop {
        match TcpStream::connect(("127.0.0.1", port)) {
            Ok(stream) => return stream,
            Err(_) if Instant::now() < until => std::thread::sleep(Duration::from_millis(20)),
            Err(why) => panic!("no server at port {port}: {why}"),
        }
    }
}

fn put(batch: &mut Vec<u8>, kind: Kind, request: Request) {
    let done = match (kind, request) {
        (Kind::Sketchd, Request::Add(id)) => writeln!(batch, "add {id:016x}"),
        (Kind::Sketchd, Request::Ask) => writeln!(batch, "ask"),
        (Kind::Sketchd, Request::Sync) => writeln!(batch, "sync"),
        (Kind::Redis, Request::Add(id)) => {
            write!(batch, "*3\r\n$5\r\nPFADD\r\n$3\r\nids\r\n$16\r\n{id:016x}\r\n")
        }
        (Kind::Redis, _) => write!(batch, "*2\r\n$7\r\nPFCOUNT\r\n$3\r\nids\r\n"),
    };
    done.unwrap();
}

/// Whether the reply is one to the request; an add that was busy is to be sent again.
fn is_busy(kind: Kind, request: Request, reply: &str) -> bool {
    let fits = match (kind, request) {
        (Kind::Sketchd, Request::Add(_)) => ["kept", "filtered", "busy"].contains(&reply),
        (Kind::Sketchd, Request::Ask) => reply.starts_with("estimate "),
        (Kind::Sketchd, Request::Sync) => ["synced", "busy"].contains(&reply),
        (Kind::Redis, _) => reply.starts_with(':'),
    };
    assert!(fits, "the reply to a request was {reply:?}");
    reply == "busy" && matches!(request, Request::Add(_))
}

/// Runs a session, and answers how many adds were busy.
fn run(load: Load) -> u64 {
    let mut stream = connect(load.port);
    stream.set_nodelay(true).unwrap();
    let mut replies = BufReader::with_capacity(1 << 16, stream.try_clone().unwrap());
    let (mut again, mut next, mut busy, mut sent) = (VecDeque::new(), 0, 0, 0u64);
    let (mut batch, mut requests, mut reply) = (Vec::new(), Vec::new(), String::new());
    while next < load.adds || !again.is_empty() {
        while requests.len() < load.depth && (next < load.adds || !again.is_empty()) {
            sent += 1;
            let request = match sent {
                n if load.mix && n % 1_000 == 0 => Request::Sync,
                n if load.mix && n % 100 == 0 => Request::Ask,
                _ => Request::Add(again.pop_front().unwrap_or_else(|| {
                    next += 1;
                    (load.first + next).wrapping_mul(0x9E37_79B9_7F4A_7C15)
                })),
            };
            put(&mut batch, load.kind, request);
            requests.push(request);
        }
        stream.write_all(&batch).unwrap();
        batch.clear();
        for request in requests.drain(..) {
            reply.clear();
            replies.read_line(&mut reply).unwrap();
            if is_busy(load.kind, request, reply.trim_end()) {
                busy += 1;
                if let Request::Add(id) = request {
                    again.push_back(id);
                }
            }
        }
    }
    if load.kind == Kind::Sketchd {
        stream.write_all(b"quit\n").unwrap();
    }
    busy
}

fn main() {
    let words: Vec<String> = std::env::args().skip(1).collect();
    let kind = if words[0] == "redis" { Kind::Redis } else { Kind::Sketchd };
    let port = words[1].parse().unwrap();
    let sessions: u64 = words[2].parse().unwrap();
    let depth = words[3].parse().unwrap();
    let adds = words[4].parse::<u64>().unwrap() / sessions;
    let mix = words.len() > 5;
    let start = Instant::now();
    let threads: Vec<_> = (0..sessions)
        .map(|i| Load { kind, port, depth, first: i * adds, adds, mix })
        .map(|load| std::thread::spawn(move || run(load)))
        .collect();
    let busy: u64 = threads.into_iter().map(|thread| thread.join().unwrap()).sum();
    println!("{:.3} {busy}", start.elapsed().as_secs_f64());
}
