//! A plain Rust table of the words that a pool keeps: the baseline of `bench/pool/run.py`, over std alone.
//! Usage: baseline (none | pairs | finds | chain | parts | probes) BITS COUNT
//!    or: baseline terms (none | build | view | cells) BITS COUNT

use std::env;

const FIRST_CELL: u32 = 1 << 30;

struct Table {
    words: Vec<u64>,
    bits: u32,
}

impl Table {
    fn new(bits: u32) -> Table {
        // The pages are written at once, as the pool's are.
        let mut words = vec![0u64; 1 << bits];
        for word in words.iter_mut() {
            *word = std::hint::black_box(0);
        }
        Table { words, bits }
    }

    fn start(&self, first: u32, second: u32) -> usize {
        ((first as u64 * 2654435761 + second as u64 * 40503) % (1u64 << self.bits)) as usize
    }

    fn intern(&mut self, first: u32, second: u32) -> Option<u32> {
        let wanted = (1 << 63) + first as u64 * (1 << 32) + second as u64;
        let mut at = self.start(first, second);
        for _ in 0..self.words.len() {
            let seen = self.words[at];
            if seen == wanted {
                return Some(FIRST_CELL + at as u32);
            }
            if seen == 0 {
                self.words[at] = wanted;
                return Some(FIRST_CELL + at as u32);
            }
            at = if at + 1 == self.words.len() { 0 } else { at + 1 };
        }
        None
    }

    fn parts(&self, r: u32) -> (u32, u32) {
        let word = self.words[(r - FIRST_CELL) as usize];
        (((word - (1 << 63)) / (1 << 32)) as u32, (word % (1 << 32)) as u32)
    }
}

fn pairs(table: &mut Table, count: u32) -> u64 {
    let mut sum: u64 = 0;
    for k in 0..count {
        sum = sum.wrapping_add(table.intern(k / 4096, k % 4096).expect("room") as u64);
    }
    sum
}

fn chain(table: &mut Table, count: u32) -> u32 {
    let mut last = 0;
    for k in 0..count {
        last = table.intern(last, k % 1024).expect("room");
    }
    last
}

fn walk(table: &Table, from: u32, count: u32) -> u64 {
    let mut r = from;
    let mut sum: u64 = 0;
    for _ in 0..count {
        if r < FIRST_CELL {
            break;
        }
        let (first, second) = table.parts(r);
        sum = sum.wrapping_add(second as u64);
        r = first;
    }
    sum
}

/// The mean number of words that a find of each cell of the table looks at.
fn probes(table: &Table) -> f64 {
    let (mut cells, mut looks) = (0u64, 0u64);
    for (place, &word) in table.words.iter().enumerate() {
        if word != 0 {
            let (first, second) = table.parts(FIRST_CELL + place as u32);
            let start = table.start(first, second);
            cells += 1;
            looks += ((place + table.words.len() - start) % table.words.len()) as u64 + 1;
        }
    }
    looks as f64 / cells as f64
}

// The leaves of the first functions and constants that a table of symbols declares.
const FUNCTIONS: [u32; 4] = [19, 20, 21, 22];
const CONSTANT: u32 = 23;

impl Table {
    /// The application of a leaf to arguments: its list from the end, and the cell of the head and the list.
    fn app(&mut self, head: u32, args: &[u32]) -> Option<u32> {
        if args.is_empty() {
            return Some(head);
        }
        let mut list = 0;
        for &arg in args.iter().rev() {
            list = self.intern(arg, list)?;
        }
        self.intern(head, list)
    }

    /// The head of a term, and the number of its arguments.
    fn shape(&self, r: u32) -> (u32, u32) {
        if r < FIRST_CELL {
            return (r, 0);
        }
        let (head, mut list) = self.parts(r);
        let mut count = 0;
        while list >= FIRST_CELL {
            list = self.parts(list).1;
            count += 1;
        }
        (head, count)
    }

    /// The argument at place `i`.
    fn nth_arg(&self, r: u32, i: u32) -> u32 {
        let mut list = self.parts(r).1;
        for _ in 0..i {
            list = self.parts(list).1;
        }
        self.parts(list).0
    }
}

fn place(k: u32, i: u32, count: usize) -> usize {
    ((k as u64 * 2654435761 + i as u64 * 40503) % count as u64) as usize
}

fn build(table: &mut Table, built: &mut Vec<u32>, count: u32) -> u64 {
    let mut sum: u64 = 0;
    for k in 0..count {
        let [a, b, c, d] = [0, 1, 2, 3].map(|i| built[place(k, i, built.len())]);
        let r = match k % 4 {
            0 => table.app(FUNCTIONS[0], &[a]),
            1 => table.app(FUNCTIONS[1], &[a, b]),
            2 => table.app(FUNCTIONS[2], &[a, b, c]),
            _ => table.app(FUNCTIONS[3], &[a, b, c, d]),
        }
        .expect("room");
        built.push(r);
        sum = sum.wrapping_add(r as u64);
    }
    sum
}

fn view(table: &Table, built: &[u32]) -> u64 {
    let mut sum: u64 = 0;
    for &r in built {
        let (head, count) = table.shape(r);
        let mut read = head as u64;
        for i in 0..count {
            read = read.wrapping_add(table.nth_arg(r, i) as u64);
        }
        sum = sum.wrapping_add(read);
    }
    sum
}

/// How many distinct cells the terms have: each is numbered by its place when it is met first.
fn cells(table: &Table, built: &[u32]) -> u64 {
    let mut numbers = vec![0u32; table.words.len()];
    let mut met = 0;
    let mut left = built.to_vec();
    while let Some(r) = left.pop() {
        if r >= FIRST_CELL && numbers[(r - FIRST_CELL) as usize] == 0 {
            met += 1;
            numbers[(r - FIRST_CELL) as usize] = met;
            let (first, second) = table.parts(r);
            left.push(first);
            left.push(second);
        }
    }
    met as u64
}

fn terms(case: &str, bits: u32, count: u32) {
    let mut table = Table::new(bits);
    let mut built = vec![CONSTANT];
    let sum = match case {
        "none" => 0,
        "build" => build(&mut table, &mut built, count),
        "view" => {
            let sum = build(&mut table, &mut built, count);
            sum.wrapping_add(view(&table, &built))
        }
        "cells" => {
            let sum = build(&mut table, &mut built, count);
            sum.wrapping_add(cells(&table, &built))
        }
        _ => panic!("no such case"),
    };
    println!("terms {case} {bits} {count}: {sum}");
}

fn main() {
    let words: Vec<String> = env::args().skip(1).collect();
    if words[0] == "terms" {
        return terms(&words[1], words[2].parse().expect("bits"), words[3].parse().expect("count"));
    }
    let bits: u32 = words[1].parse().expect("bits");
    let count: u32 = words[2].parse().expect("count");
    let mut table = Table::new(bits);
    let sum = match words[0].as_str() {
        "none" => 0,
        "pairs" => pairs(&mut table, count),
        "finds" => pairs(&mut table, count).wrapping_add(pairs(&mut table, count)),
        "chain" => chain(&mut table, count) as u64,
        "parts" => {
            let last = chain(&mut table, count);
            walk(&table, last, count)
        }
        "probes" => {
            chain(&mut table, count);
            println!("probes {:.3}", probes(&table));
            return;
        }
        _ => panic!("no such case"),
    };
    println!("pool {} {bits} {count}: {sum}", words[0]);
}
