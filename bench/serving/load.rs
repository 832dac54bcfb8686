//! load KIND ADDR FILE GREETED CONNECTIONS DEPTH SECONDS: connections that ask for as long, each with so many requests on the way.
//!
//! FILE has what is sent, each with its length in 4 bytes before it, high byte first: first what a connection begins with, to which GREETED
//! replies come, and then the requests, which are asked in turn and again. KIND is `frames` or `redis`, by which the ends of replies are told. Printed
//! are how many replies came a second, and the median of the microseconds from the write of a request to the read that ended its reply.
use std::collections::VecDeque;
use std::io::{Read, Write};
use std::net::TcpStream;
use std::time::{Duration, Instant};

/// The bytes of the first reply, where it is whole.
fn reply(frames: bool, bytes: &[u8]) -> Option<&[u8]> {
    let end = if frames {
        4 + u32::from_be_bytes(bytes.get(..4)?.try_into().ok()?) as usize
    } else {
        let line = bytes.windows(2).position(|pair| pair == b"\r\n")? + 2;
        match bytes[0] {
            b'$' => line + std::str::from_utf8(&bytes[1..line - 2]).ok()?.parse::<usize>().ok()? + 2,
            _ => line,
        }
    };
    bytes.get(..end)
}

/// Whether it is what was asked for: an Ok; of redis no error.
fn is_good(frames: bool, reply: &[u8]) -> bool {
    if frames { reply.get(4) == Some(&0) || matches!(reply.get(4), Some(0x81 | 0x82)) } else { reply[0] != b'-' }
}

struct Connection {
    stream: TcpStream,
    held: Vec<u8>,
    at: usize,
    frames: bool,
}

impl Connection {
    /// Reads until at least one reply is whole, and takes all that are; answers how many.
    fn hear(&mut self) -> usize {
        loop {
            let mut count = 0;
            while let Some(one) = reply(self.frames, &self.held[self.at..]) {
                assert!(is_good(self.frames, one), "a reply is none that was asked for: {one:x?}");
                self.at += one.len();
                count += 1;
            }
            if count > 0 {
                return count;
            }
            self.held.drain(..self.at);
            self.at = 0;
            let end = self.held.len();
            self.held.resize(end + 65_536, 0);
            let got = self.stream.read(&mut self.held[end..]).expect("a read");
            assert!(got > 0, "the server ended the connection");
            self.held.truncate(end + got);
        }
    }
}

/// What one connection sees: how many replies came, and how long each took.
fn run(words: &[String], all: &[Vec<u8>], first: usize) -> (u64, Vec<u32>) {
    let number = |place: usize| words[place].parse::<usize>().expect("a number");
    let (greeted, depth) = (number(4), number(6));
    let stream = TcpStream::connect(&words[2]).expect("a connection");
    stream.set_nodelay(true).unwrap();
    let mut one = Connection { stream, held: Vec::new(), at: 0, frames: words[1] == "frames" };
    one.stream.write_all(&all[0]).expect("a write");
    let mut heard = 0;
    while heard < greeted {
        heard += one.hear();
    }
    let (mut on_the_way, mut next, mut times) = (VecDeque::new(), first, Vec::new());
    let end = Instant::now() + Duration::from_secs_f64(words[7].parse().expect("seconds"));
    loop {
        let begin = Instant::now();
        if begin >= end {
            return (times.len() as u64, times);
        }
        let mut more = Vec::new();
        while on_the_way.len() < depth {
            more.extend_from_slice(&all[1 + next % (all.len() - 1)]);
            on_the_way.push_back(begin);
            next += 1;
        }
        one.stream.write_all(&more).expect("a write");
        for _ in 0..one.hear() {
            let begun: Instant = on_the_way.pop_front().expect("a request on the way");
            times.push(begun.elapsed().as_micros() as u32);
        }
    }
}

fn main() {
    let words: Vec<String> = std::env::args().collect();
    let (mut rest, mut all) = (&std::fs::read(&words[3]).expect("the file")[..], Vec::new());
    while let Some((length, more)) = rest.split_first_chunk() {
        let (one, behind) = more.split_at(u32::from_be_bytes(*length) as usize);
        all.push(one.to_vec());
        rest = behind;
    }
    let begin = Instant::now();
    let (mut count, mut times) = (0, Vec::new());
    std::thread::scope(|scope| {
        let threads: Vec<_> = (0..words[5].parse().expect("a number")).map(|i| (i, &words, &all)).map(|(i, words, all)| scope.spawn(move || run(words, all, 131 * i))).collect();
        for thread in threads {
            let (more, took) = thread.join().unwrap();
            count += more;
            times.extend(took);
        }
    });
    times.sort_unstable();
    println!("{:.0} {}", count as f64 / begin.elapsed().as_secs_f64(), times.get(times.len() / 2).unwrap_or(&0));
}
