//! A plain walk of the kind of Glob, unproved, to time Glob beside: `walk ROUNDS` reads the paths of a tree's items from standard input, a line each,
//! keeps them as directories with ordered children, and matches the three elements `*/*/*` against them ROUNDS times. Each item that
//! matches is copied whole. It prints how many there were in a round, and the seconds of a round.
use std::collections::BTreeMap;
use std::io::Read;
use std::time::Instant;

#[derive(Clone)]
struct Block {
    location: String,
    offset: u64,
    size: u64,
    packdata: Vec<u8>,
}

#[derive(Clone)]
struct Entry {
    name: String,
    signed_name: String,
    writer: String,
    link: Option<String>,
    packdata: Vec<u8>,
    blocks: Vec<Block>,
    packing: u8,
    kind: u8,
    time: i64,
    sequence: u64,
}

struct Item {
    entry: Entry,
    children: BTreeMap<String, Item>,
}

enum Term {
    Any,
    One,
    Char(char),
}

fn item(name: &str, sequence: u64) -> Item {
    let entry = Entry {
        name: name.to_string(),
        signed_name: name.to_string(),
        writer: "ann@a.example".to_string(),
        link: None,
        packdata: Vec::new(),
        blocks: Vec::new(),
        packing: 1,
        kind: 0,
        time: 100,
        sequence,
    };
    Item { entry, children: BTreeMap::new() }
}

fn matches(terms: &[Term], text: &str) -> bool {
    match terms.split_first() {
        None => text.is_empty(),
        Some((Term::Any, rest)) => {
            (0..=text.len()).filter(|at| text.is_char_boundary(*at)).any(|at| matches(rest, &text[at..]))
        }
        Some((Term::One, rest)) => {
            let mut chars = text.chars();
            chars.next().is_some() && matches(rest, chars.as_str())
        }
        Some((Term::Char(c), rest)) => {
            let mut chars = text.chars();
            chars.next() == Some(*c) && matches(rest, chars.as_str())
        }
    }
}

fn walk(item: &Item, pattern: &[Vec<Term>], rows: &mut Vec<Entry>) {
    match pattern.split_first() {
        None => rows.push(item.entry.clone()),
        Some((first, rest)) => {
            for (name, child) in &item.children {
                if matches(first, name) {
                    walk(child, rest, rows);
                }
            }
        }
    }
}

fn main() {
    let rounds: u32 = std::env::args().nth(1).and_then(|it| it.parse().ok()).unwrap_or(1);
    let mut text = String::new();
    std::io::stdin().read_to_string(&mut text).expect("paths");
    let mut root = item("ann@a.example/", 1);
    for (at, path) in text.lines().filter(|it| !it.is_empty()).enumerate() {
        let mut place = &mut root;
        for element in path.split('/') {
            let name = format!("{}/{element}", place.entry.name.trim_end_matches('/'));
            place = place.children.entry(element.to_string()).or_insert_with(|| item(&name, at as u64 + 2));
        }
    }
    let pattern: Vec<Vec<Term>> = "*/*/*"
        .split('/')
        .map(|it| {
            it.chars()
                .map(|c| match c {
                    '*' => Term::Any,
                    '?' => Term::One,
                    c => Term::Char(c),
                })
                .collect()
        })
        .collect();
    let (began, mut found, mut sum) = (Instant::now(), 0, 0);
    for _ in 0..rounds {
        let mut rows = Vec::new();
        walk(&root, &pattern, &mut rows);
        rows.sort_by(|a, b| a.name.cmp(&b.name));
        found = rows.len();
        // what was copied is looked at, so that no copy is left out
        sum += rows.iter().map(|it| it.sequence as usize + it.signed_name.len() + it.writer.len() + it.link.is_some() as usize + it.packdata.len() + it.blocks.iter().map(|b| b.location.len() + b.packdata.len() + (b.offset + b.size) as usize).sum::<usize>() + it.packing as usize + it.kind as usize + it.time as usize).sum::<usize>();
    }
    println!("{found} {:.6} {sum}", began.elapsed().as_secs_f64() / f64::from(rounds));
}
