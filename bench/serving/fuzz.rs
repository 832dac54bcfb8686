//! fuzz ADDR FILE STREAMS SEED THREADS PID: streams that were changed, sent to a server on loopback, each to its end.
//!
//! FILE has streams that a client might send, each with its length in 4 bytes before it, high byte first; each stands for itself: a Hello, a Proof, requests
//! that only look, and Bye. What the server writes to each is heard twice first, and has to be the same but for the challenge. Then so many times
//! one of them is changed at one place and sent, by so many threads, and what comes has to begin with the replies to all frames before the first
//! byte that is another one, and to go on with whole frames of a server, of which the last may be cut where the connection was reset. A stream that
//! is not over after 30 seconds is a failure. Meanwhile one more connection asks the first request of the first stream over and over.
//!
//! Printed are how many streams of each kind of change were sent, the requests of the other connection with the longest that one took, and the most
//! memory of the process PID so far. The status is 1 where anything came that may not, which is told with its seed.
use std::io::{ErrorKind, Read, Write};
use std::net::{Shutdown, TcpStream};
use std::sync::atomic::{AtomicBool, AtomicU64, Ordering};
use std::time::{Duration, Instant};

const KINDS: [&str; 10] = [
    "a bit", "a byte", "a length", "a cut", "a frame again", "two frames in the other order", "bytes between", "bytes left out", "2 MiB announced", "a frame of another stream",
];

/// Numbers by xorshift and a multiplication, from a seed.
struct Random(u64);

impl Random {
    fn next(&mut self) -> u64 {
        self.0 ^= self.0 >> 12;
        self.0 ^= self.0 << 25;
        self.0 ^= self.0 >> 27;
        self.0.wrapping_mul(0x2545_F491_4F6C_DD1D)
    }

    /// One of 0 to `count` - 1.
    fn below(&mut self, count: usize) -> usize {
        (self.next() >> 16) as usize % count.max(1)
    }
}

/// The ends of the whole frames of some bytes.
fn ends(bytes: &[u8]) -> Vec<usize> {
    let (mut at, mut found) = (0, Vec::new());
    while let Some(head) = bytes[at..].first_chunk::<4>() {
        let end = at + 4 + u32::from_be_bytes(*head) as usize;
        if end > bytes.len() {
            break;
        }
        found.push(end);
        at = end;
    }
    found
}

/// A stream, where its frames end, and what is written to it.
struct Stream {
    bytes: Vec<u8>,
    ends: Vec<usize>,
    replies: Vec<u8>,
    reply_ends: Vec<usize>,
}

/// What is heard of a stream that is sent whole, and how long it took.
fn speak(addr: &str, bytes: &[u8]) -> Result<Vec<u8>, String> {
    let mut stream = loop {
        match TcpStream::connect(addr) {
            Ok(stream) => break stream,
            // The system has no free port yet.
            Err(error) if error.kind() == ErrorKind::AddrNotAvailable => std::thread::sleep(Duration::from_millis(20)),
            Err(error) => return Err(format!("no connection: {error}")),
        }
    };
    stream.set_read_timeout(Some(Duration::from_secs(30))).unwrap();
    stream.set_write_timeout(Some(Duration::from_secs(30))).unwrap();
    // The server may end the connection before it has read all.
    let _ = stream.write_all(bytes);
    let _ = stream.shutdown(Shutdown::Write);
    let (mut heard, mut piece) = (Vec::new(), [0; 16_384]);
    loop {
        match stream.read(&mut piece) {
            Ok(0) => return Ok(heard),
            Ok(count) => heard.extend_from_slice(&piece[..count]),
            Err(error) if error.kind() == ErrorKind::ConnectionReset => return Ok(heard),
            Err(error) if error.kind() == ErrorKind::Interrupted => {}
            Err(error) => return Err(format!("it is not over: {error}, after {} bytes", heard.len())),
        }
    }
}

/// The same with zeros in place of the challenge.
fn masked(mut heard: Vec<u8>) -> Vec<u8> {
    if heard.starts_with(&[0, 0, 0, 33, 0x81]) {
        let end = heard.len().min(37);
        heard[5..end].fill(0);
    }
    heard
}

/// Whether the tag of a server's frame is one that the format has.
fn is_tag(tag: u8) -> bool {
    tag <= 0x11 || (0x81..=0x83).contains(&tag)
}

/// Says what is wrong with what was heard of a stream whose first `same` bytes are those of another one.
fn judge(stream: &Stream, same: usize, heard: &[u8]) -> Option<String> {
    let whole = stream.ends.iter().filter(|end| **end <= same).count();
    let due = whole.min(stream.reply_ends.len());
    let wanted = if due == 0 { &[][..] } else { &stream.replies[..stream.reply_ends[due - 1]] };
    if !heard.starts_with(wanted) {
        return Some(format!("the replies to its first {whole} frames are others, or fewer: {} bytes and not {}", heard.len(), wanted.len()));
    }
    let mut at = wanted.len();
    while at < heard.len() {
        let rest = &heard[at..];
        let Some(head) = rest.first_chunk::<4>() else { return Some("a reply is cut in its length".into()) };
        let length = u32::from_be_bytes(*head) as usize;
        if length == 0 || length > 67_108_864 {
            return Some(format!("a reply has the length {length}"));
        }
        match rest.get(4) {
            Some(tag) if !is_tag(*tag) => return Some(format!("a reply has the tag {tag:02X}")),
            _ => {}
        }
        if rest.len() < 4 + length {
            return Some("the last reply is cut".into());
        }
        at += 4 + length;
    }
    None
}

/// A changed stream, and how many of its first bytes are as they were.
fn changed(kind: usize, stream: &Stream, other: &Stream, random: &mut Random) -> (Vec<u8>, usize) {
    let (mut bytes, ends) = (stream.bytes.clone(), &stream.ends);
    let begin = |frame: usize| if frame == 0 { 0 } else { ends[frame - 1] };
    let (place, frame) = (random.below(bytes.len()), random.below(ends.len()));
    match kind {
        0 => bytes[place] ^= 1 << random.below(8),
        1 => bytes[place] = random.next() as u8,
        2 => {
            let lengths = [0, 1, 2, 16, 255, 65_536, 2_097_151, 2_097_152, 2_097_153, u32::MAX, random.next() as u32];
            bytes[begin(frame)..begin(frame) + 4].copy_from_slice(&lengths[random.below(lengths.len())].to_be_bytes());
        }
        3 => bytes.truncate(place),
        4 => {
            let again = bytes[begin(frame)..ends[frame]].to_vec();
            let at = ends[random.below(ends.len())];
            bytes.splice(at..at, again);
        }
        5 => {
            let (one, two) = (random.below(ends.len()), random.below(ends.len()));
            let (first, last) = (one.min(two), one.max(two));
            let (early, late) = (bytes[begin(first)..ends[first]].to_vec(), bytes[begin(last)..ends[last]].to_vec());
            bytes.splice(begin(last)..ends[last], early);
            bytes.splice(begin(first)..ends[first], late);
        }
        6 => {
            let count = 1 + random.below(64);
            let more: Vec<u8> = (0..count).map(|_| random.next() as u8).collect();
            bytes.splice(place..place, more);
        }
        7 => {
            let end = (place + 1 + random.below(64)).min(bytes.len());
            bytes.drain(place..end);
        }
        8 => {
            bytes.truncate(begin(frame));
            bytes.extend_from_slice(&2_097_152_u32.to_be_bytes());
            bytes.extend_from_slice(&stream.bytes[4..4 + random.below(40)]);
        }
        _ => {
            let taken = random.below(other.ends.len());
            let start = if taken == 0 { 0 } else { other.ends[taken - 1] };
            bytes.splice(begin(frame)..ends[frame], other.bytes[start..other.ends[taken]].to_vec());
        }
    }
    let same = bytes.iter().zip(&stream.bytes).take_while(|(new, old)| new == old).count();
    (bytes, same)
}

/// Asks a request over one connection until it is told to stop; answers how often, and the longest that it took.
fn meanwhile(addr: &str, stream: &Stream, stop: &AtomicBool) -> Result<(u64, Duration), String> {
    let told = |error: std::io::Error| format!("the other connection: {error}");
    let mut server = TcpStream::connect(addr).map_err(told)?;
    server.set_read_timeout(Some(Duration::from_secs(30))).unwrap();
    let mut hear = |sent: &[u8], count: usize| {
        server.write_all(sent).map_err(told)?;
        let mut heard = vec![0; count];
        server.read_exact(&mut heard).map_err(told).map(|()| heard)
    };
    hear(&stream.bytes[..stream.ends[1]], stream.reply_ends[1])?;
    let (request, reply) = (&stream.bytes[stream.ends[1]..stream.ends[2]], &stream.replies[stream.reply_ends[1]..stream.reply_ends[2]]);
    let (mut count, mut longest) = (0, Duration::ZERO);
    while !stop.load(Ordering::Relaxed) {
        let begin = Instant::now();
        if hear(request, reply.len())? != reply {
            return Err("the other connection got another reply".into());
        }
        longest = longest.max(begin.elapsed());
        count += 1;
        std::thread::sleep(Duration::from_millis(5));
    }
    Ok((count, longest))
}

fn main() {
    let words: Vec<String> = std::env::args().collect();
    let (addr, number) = (&words[1], |place: usize| words[place].parse::<u64>().expect("a number"));
    let (file, mut rest, mut all) = (std::fs::read(&words[2]).expect("the file"), 0, Vec::new());
    while let Some(length) = file[rest..].first_chunk::<4>() {
        let end = rest + 4 + u32::from_be_bytes(*length) as usize;
        let bytes = file[rest + 4..end].to_vec();
        let (once, again) = (masked(speak(addr, &bytes).unwrap()), masked(speak(addr, &bytes).unwrap()));
        assert!(once == again, "an unchanged stream is answered in two ways");
        let (ends, reply_ends) = (ends(&bytes), ends(&once));
        assert_eq!(ends.len(), reply_ends.len() + 1, "each frame but Bye has a reply");
        all.push(Stream { bytes, ends, replies: once, reply_ends });
        rest = end;
    }
    let (streams, seed, threads) = (number(3), number(4), number(5));
    let (next, failed, stop) = (AtomicU64::new(0), AtomicBool::new(false), AtomicBool::new(false));
    let counts: Vec<AtomicU64> = KINDS.iter().map(|_| AtomicU64::new(0)).collect();
    let begin = Instant::now();
    let other = std::thread::scope(|scope| {
        let other = scope.spawn(|| meanwhile(addr, &all[0], &stop));
        let workers: Vec<_> = (0..threads)
            .map(|_| {
                scope.spawn(|| {
                    while !failed.load(Ordering::Relaxed) {
                        let n = next.fetch_add(1, Ordering::Relaxed);
                        if n >= streams {
                            break;
                        }
                        let mut random = Random((seed + n).wrapping_mul(0x9E37_79B9_7F4A_7C15) | 1);
                        random.next();
                        let (kind, one, two) = (random.below(KINDS.len()), random.below(all.len()), random.below(all.len()));
                        let (bytes, same) = changed(kind, &all[one], &all[two], &mut random);
                        let wrong = match speak(addr, &bytes) {
                            Ok(heard) => judge(&all[one], same, &masked(heard)),
                            Err(why) => Some(why),
                        };
                        if let Some(why) = wrong {
                            println!("stream {} (seed {}, {}): {why}", one, seed + n, KINDS[kind]);
                            failed.store(true, Ordering::Relaxed);
                        }
                        counts[kind].fetch_add(1, Ordering::Relaxed);
                    }
                })
            })
            .collect();
        for worker in workers {
            worker.join().unwrap();
        }
        stop.store(true, Ordering::Relaxed);
        other.join().unwrap()
    });
    for (kind, count) in KINDS.iter().zip(&counts) {
        println!("{:>8} {kind}", count.load(Ordering::Relaxed));
    }
    let sent = next.load(Ordering::Relaxed).min(streams);
    println!("{sent} streams in {:.0} s", begin.elapsed().as_secs_f64());
    match other {
        Ok((count, longest)) => println!("meanwhile another connection asked {count} times, and waited {:.1} ms at most", longest.as_secs_f64() * 1e3),
        Err(why) => {
            println!("{why}");
            failed.store(true, Ordering::Relaxed);
        }
    }
    let status = std::fs::read_to_string(format!("/proc/{}/status", words[6])).unwrap_or_default();
    let most = status.lines().find(|line| line.starts_with("VmHWM")).unwrap_or("VmHWM: the server is gone");
    println!("most memory of the server: {}", most.split_once(':').map_or(most, |(_, rest)| rest.trim()));
    std::process::exit(i32::from(failed.load(Ordering::Relaxed)));
}
