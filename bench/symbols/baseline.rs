//! The same names in a `HashMap<Vec<u8>, u32>` of Rust's std.
use std::collections::HashMap;
use std::env;

fn main() {
    let words: Vec<String> = env::args().skip(1).collect();
    let count: u32 = words[1].parse().unwrap();
    let mut table: HashMap<Vec<u8>, u32> = HashMap::new();
    let sum = match words[0].as_str() {
        "declare" => declare(&mut table, count),
        "find" => {
            let sum = declare(&mut table, count);
            sum.wrapping_add(find(&table, count))
        }
        _ => 0,
    };
    println!("symbols {} {}: {}", words[0], count, sum);
}

fn declare(table: &mut HashMap<Vec<u8>, u32>, count: u32) -> u64 {
    let mut sum: u64 = 0;
    for number in 0..count {
        let leaf = table.len() as u32 + 19;
        if table.insert(name_of(number).to_vec(), leaf).is_some() {
            std::process::exit(1);
        }
        sum = sum.wrapping_add(u64::from(leaf));
    }
    sum
}

fn find(table: &HashMap<Vec<u8>, u32>, count: u32) -> u64 {
    let mut sum: u64 = 0;
    for turn in 0..5 {
        for number in 0..count {
            let mixed = (u64::from(number) * 2_654_435_761 + turn) % u64::from(count);
            if let Some(leaf) = table.get(name_of(mixed as u32).as_slice()) {
                sum = sum.wrapping_add(u64::from(*leaf));
            }
        }
    }
    sum
}

fn name_of(number: u32) -> [u8; 8] {
    let mut name = [b'a'; 8];
    let mut rest = number;
    for byte in name.iter_mut() {
        *byte = b'a' + (rest % 16) as u8;
        rest /= 16;
    }
    name
}
