// The same work in plain Rust: numbers with a flag each.
use std::env;

const ROWS: usize = 1_000_000;

#[allow(dead_code)]
enum Value {
    Null,
    Int(i128),
}

/// A segment of numbers below 10, each fifth null.
fn segment() -> Vec<u8> {
    let mut bytes = Vec::with_capacity(5 * ROWS);
    for i in 0..ROWS {
        bytes.push((i % 5 != 4) as u8);
    }
    for i in 0..ROWS {
        bytes.extend_from_slice(&((i % 10) as i32).to_le_bytes());
    }
    bytes
}

fn number(slot: &[u8]) -> i64 {
    i64::from(i32::from_le_bytes(slot.try_into().unwrap()))
}

/// The rows of a segment at which the mask is true.
#[inline(never)]
fn read(bytes: &[u8], mask: &[bool]) -> Option<(Vec<i64>, Vec<bool>)> {
    if bytes.len() != 5 * ROWS || mask.len() > ROWS {
        return None;
    }
    let (flags, slots) = bytes.split_at(ROWS);
    if flags.iter().fold(0, |a, b| a | b) >= 2 {
        return None;
    }
    let slots = slots.chunks_exact(4);
    if mask.iter().fold(true, |a, b| a & b) {
        return Some((slots.map(number).collect(), flags.iter().map(|f| *f != 0).collect()));
    }
    let mut numbers = Vec::with_capacity(ROWS);
    let mut valid = Vec::with_capacity(ROWS);
    for ((slot, flag), taken) in slots.zip(flags).zip(mask) {
        if *taken {
            numbers.push(number(slot));
            valid.push(*flag != 0);
        }
    }
    Some((numbers, valid))
}

/// How many rows the work gives.
fn work(word: &str) -> Option<usize> {
    let bytes = segment();
    let mask: Vec<bool> = (0..ROWS).map(|i| word != "half" || i % 2 == 0).collect();
    if word == "setup" {
        return Some(mask.len());
    }
    let (numbers, valid) = read(&bytes, &mask)?;
    if word == "values" {
        let pairs = numbers.iter().zip(&valid);
        let values: Vec<Value> = pairs.map(|(n, v)| if *v { Value::Int(i128::from(*n)) } else { Value::Null }).collect();
        return Some(values.len());
    }
    Some(numbers.len())
}

fn main() {
    for word in env::args().skip(1) {
        println!("{}", work(&word).unwrap_or(0));
    }
}
