//! What the tables and lists of Rust's library take by themselves, as those of floor.rt.txt: `floor JOB COUNT WINDOW`.

use std::collections::{BTreeMap, HashMap};
use std::env;
use std::hash::{BuildHasherDefault, Hasher};

/// A hasher that folds a product, as the default one of floor.rt.txt's tables does.
#[derive(Clone, Copy, Default)]
struct Fold(u64);

impl Hasher for Fold {
    fn finish(&self) -> u64 {
        self.0
    }

    fn write(&mut self, bytes: &[u8]) {
        for byte in bytes {
            self.write_u64(u64::from(*byte));
        }
    }

    fn write_u64(&mut self, number: u64) {
        let product = u128::from(self.0 ^ number ^ 0x9E37_79B9_7F4A_7C15) * 0xD6E8_FEB8_6659_FD93;
        self.0 = product as u64 ^ (product >> 64) as u64;
    }
}

/// As a call is kept, in 96 bytes.
#[derive(Clone, Copy)]
struct Row {
    numbers: [u64; 12],
}

/// Numbers come and go in a table, of which a window is there at a time.
fn table(count: u64, window: u64) -> u64 {
    let mut waiting: HashMap<u64, u64, BuildHasherDefault<Fold>> = HashMap::default();
    let mut found = 0;
    for number in 0..count {
        waiting.insert(number, number);
        if let Some(there) = waiting.remove(&number.wrapping_sub(window)) {
            found ^= there;
        }
    }
    found
}

/// Numbers are put into a table, and each is looked up.
fn grow(count: u64) -> u64 {
    let mut known: HashMap<u64, u64, BuildHasherDefault<Fold>> = HashMap::default();
    for number in 0..count {
        known.insert(number, number);
    }
    (0..count).filter_map(|number| known.get(&number)).fold(0, |found, there| found ^ there)
}

/// Numbers are put into a list, and each is read.
fn list(count: u64) -> u64 {
    let mut numbers = Vec::new();
    for number in 0..count {
        numbers.push(number);
    }
    numbers.iter().fold(0, |found, number| found ^ number)
}

/// Rows of 96 bytes are put into a list, and a number of each is read.
fn rows(count: u64) -> u64 {
    let mut rows = Vec::new();
    for number in 0..count {
        rows.push(Row { numbers: [number; 12] });
    }
    rows.iter().fold(0, |found, row| found ^ row.numbers[3])
}

/// Numbers are put into a tree, and each is looked up.
fn tree(count: u64) -> u64 {
    let mut known = BTreeMap::new();
    for number in 0..count {
        known.insert(number, number);
    }
    (0..count).filter_map(|number| known.get(&number)).fold(0, |found, there| found ^ there)
}

fn main() {
    let words: Vec<String> = env::args().collect();
    let count = words[2].parse().expect("a number");
    let window = words[3].parse().expect("a number");
    let told = match words[1].as_str() {
        "table" => table(count, window),
        "grow" => grow(count),
        "list" => list(count),
        "rows" => rows(count),
        "tree" => tree(count),
        other => panic!("no job {other}"),
    };
    println!("{told}");
}
