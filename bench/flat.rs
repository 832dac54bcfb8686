//! A plain program beside `upspin script`, unproved, to time it by: it reads a script of the kind that `bench/script_lines` prints, keeps the items of one
//! tree in a flat map by their paths and the blocks in another by their references, and prints what `upspin script` does. It knows the lines
//! `host`, `enrol`, `open`, `N mkdir`, `N put` and `N lookup` of the owner alone, and no link, no Access and no Group file; it stops at any other.
use std::collections::HashMap;
use std::convert::TryInto;
use std::io::{Read, Write};
use std::process::exit;

struct Item {
    directory: bool,
    sequence: u64,
    time: i64,
    writer: String,
    block: Option<([u8; 32], usize)>,
}

#[derive(Default)]
struct Tree {
    owner: String,
    records: u64,
    items: HashMap<String, Item>,
    blocks: HashMap<[u8; 32], Vec<u8>>,
}

const ROUNDS: [u32; 64] = [
    0x428a2f98, 0x71374491, 0xb5c0fbcf, 0xe9b5dba5, 0x3956c25b, 0x59f111f1, 0x923f82a4, 0xab1c5ed5, 0xd807aa98, 0x12835b01, 0x243185be, 0x550c7dc3,
    0x72be5d74, 0x80deb1fe, 0x9bdc06a7, 0xc19bf174, 0xe49b69c1, 0xefbe4786, 0x0fc19dc6, 0x240ca1cc, 0x2de92c6f, 0x4a7484aa, 0x5cb0a9dc, 0x76f988da,
    0x983e5152, 0xa831c66d, 0xb00327c8, 0xbf597fc7, 0xc6e00bf3, 0xd5a79147, 0x06ca6351, 0x14292967, 0x27b70a85, 0x2e1b2138, 0x4d2c6dfc, 0x53380d13,
    0x650a7354, 0x766a0abb, 0x81c2c92e, 0x92722c85, 0xa2bfe8a1, 0xa81a664b, 0xc24b8b70, 0xc76c51a3, 0xd192e819, 0xd6990624, 0xf40e3585, 0x106aa070,
    0x19a4c116, 0x1e376c08, 0x2748774c, 0x34b0bcb5, 0x391c0cb3, 0x4ed8aa4a, 0x5b9cca4f, 0x682e6ff3, 0x748f82ee, 0x78a5636f, 0x84c87814, 0x8cc70208,
    0x90befffa, 0xa4506ceb, 0xbef9a3f7, 0xc67178f2,
];

fn compress(state: &mut [u32; 8], block: &[u8]) {
    let mut w = [0u32; 64];
    for (word, bytes) in w.iter_mut().zip(block.chunks_exact(4)) {
        *word = u32::from_be_bytes(bytes.try_into().unwrap());
    }
    for i in 16..64 {
        let (a, b) = (w[i - 15], w[i - 2]);
        let low = a.rotate_right(7) ^ a.rotate_right(18) ^ (a >> 3);
        let high = b.rotate_right(17) ^ b.rotate_right(19) ^ (b >> 10);
        w[i] = w[i - 16].wrapping_add(low).wrapping_add(w[i - 7]).wrapping_add(high);
    }
    let [mut a, mut b, mut c, mut d, mut e, mut f, mut g, mut h] = *state;
    for i in 0..64 {
        let high = e.rotate_right(6) ^ e.rotate_right(11) ^ e.rotate_right(25);
        let one = h.wrapping_add(high).wrapping_add((e & f) ^ (!e & g)).wrapping_add(ROUNDS[i]).wrapping_add(w[i]);
        let low = a.rotate_right(2) ^ a.rotate_right(13) ^ a.rotate_right(22);
        let two = low.wrapping_add((a & b) ^ (a & c) ^ (b & c));
        (h, g, f, e, d, c, b, a) = (g, f, e, d.wrapping_add(one), c, b, a, one.wrapping_add(two));
    }
    for (word, more) in state.iter_mut().zip([a, b, c, d, e, f, g, h]) {
        *word = word.wrapping_add(more);
    }
}

fn sha256(bytes: &[u8]) -> [u8; 32] {
    let mut state = [0x6a09e667, 0xbb67ae85, 0x3c6ef372, 0xa54ff53a, 0x510e527f, 0x9b05688c, 0x1f83d9ab, 0x5be0cd19];
    let whole = bytes.chunks_exact(64);
    let mut tail = whole.remainder().to_vec();
    whole.for_each(|block| compress(&mut state, block));
    tail.push(0x80);
    tail.resize((tail.len() + 8).next_multiple_of(64) - 8, 0);
    tail.extend((bytes.len() as u64 * 8).to_be_bytes());
    tail.chunks_exact(64).for_each(|block| compress(&mut state, block));
    let mut digest = [0; 32];
    for (bytes, word) in digest.chunks_exact_mut(4).zip(state) {
        bytes.copy_from_slice(&word.to_be_bytes());
    }
    digest
}

fn decoded(word: &str) -> Option<Vec<u8>> {
    if word == "-" {
        return Some(Vec::new());
    }
    let mut bytes = Vec::with_capacity(word.len());
    let mut rest = word.as_bytes();
    while let [first, after @ ..] = rest {
        if *first == b'%' {
            let digits = std::str::from_utf8(after.get(..2)?).ok()?;
            bytes.push(u8::from_str_radix(digits, 16).ok()?);
            rest = &after[2..];
        } else {
            bytes.push(*first);
            rest = after;
        }
    }
    Some(bytes)
}

fn put(tree: &mut Tree, path: String, directory: bool, time: i64, sequence: i64, block: Option<([u8; 32], usize)>, out: &mut Vec<u8>) {
    let root = path.len() == tree.owner.len() + 1;
    let parent = &path[..path.rfind('/').unwrap()];
    let parent = if parent.len() == tree.owner.len() { &path[..parent.len() + 1] } else { parent };
    let above = if root { None } else { Some(tree.items.get(parent).map(|item| item.directory)) };
    let there = tree.items.get(&path);
    let refusal = match (above, there) {
        (Some(None), _) => Some("notexist".to_string()),
        (_, None) if sequence > 0 => Some("notexist".to_string()),
        (Some(Some(false)), _) => Some("notdir".to_string()),
        (_, Some(item)) if item.directory && !directory => Some("isdir".to_string()),
        (_, Some(_)) if directory || sequence == -1 => Some("exist".to_string()),
        (_, Some(item)) if sequence > 0 && sequence as u64 != item.sequence => Some(format!("badsequence {}", item.sequence)),
        _ => None,
    };
    if let Some(refusal) = refusal {
        return writeln!(out, "1 {refusal}").unwrap();
    }
    tree.records += 1;
    let (sequence, writer) = (tree.records, tree.owner.clone());
    tree.items.insert(path, Item { directory, sequence, time, writer, block });
    writeln!(out, "1 ok {sequence}").unwrap();
}

fn lookup(tree: &Tree, path: &str, out: &mut Vec<u8>) {
    let Some(item) = tree.items.get(path) else {
        return writeln!(out, "1 notexist").unwrap();
    };
    let kind = if item.directory { "dir" } else { "file" };
    write!(out, "1 entry {path} {kind} {} {} {} 1 - - = ", item.sequence, item.time, item.writer).unwrap();
    match &item.block {
        None => writeln!(out, "-").unwrap(),
        Some((digest, size)) => {
            digest.iter().for_each(|byte| write!(out, "{byte:02X}").unwrap());
            writeln!(out, ":0:{size}:-:-").unwrap();
        }
    }
}

fn line(tree: &mut Tree, words: &[&str], out: &mut Vec<u8>) -> Option<()> {
    match words {
        ["host", name, _, owner] => {
            tree.owner = owner.to_string();
            writeln!(out, "host {name}").unwrap();
        }
        ["enrol", _, user, _] => writeln!(out, "enrolled {user}").unwrap(),
        ["open", "1", _, user, _] if *user == tree.owner => writeln!(out, "1 open").unwrap(),
        ["1", "mkdir", path, time, sequence] => {
            let path = String::from_utf8(decoded(path)?).ok()?;
            put(tree, path, true, time.parse().ok()?, sequence.parse().ok()?, None, out);
        }
        ["1", "put", path, time, sequence, bytes] => {
            let (path, bytes) = (String::from_utf8(decoded(path)?).ok()?, decoded(bytes)?);
            let block = (sha256(&bytes), bytes.len());
            tree.blocks.entry(block.0).or_insert(bytes);
            put(tree, path, false, time.parse().ok()?, sequence.parse().ok()?, Some(block), out);
        }
        ["1", "lookup", path] => lookup(tree, &String::from_utf8(decoded(path)?).ok()?, out),
        _ => return None,
    }
    Some(())
}

fn main() {
    let mut input = String::new();
    std::io::stdin().read_to_string(&mut input).unwrap();
    let (mut tree, mut out) = (Tree::default(), Vec::new());
    for (number, text) in input.lines().enumerate() {
        let words: Vec<&str> = text.split(' ').collect();
        if line(&mut tree, &words, &mut out).is_none() {
            eprintln!("flat: line {} is none of the kinds that are known", number + 1);
            exit(1);
        }
    }
    std::io::stdout().write_all(&out).unwrap();
}
