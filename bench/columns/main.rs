// The same work over plain vectors: numbers with a flag each, and rows as vectors of values.
use std::env;

const ROWS: usize = 1_000_000;

#[allow(dead_code)]
enum Value {
    Null,
    Int(i128),
    Struct(Vec<Value>),
}

struct Numbers<T> {
    values: Vec<T>,
    valid: Vec<bool>,
}

/// Numbers between -1,000 and 1,000, each seventh null.
fn numbers<T: From<i16> + Default>(factor: usize) -> Numbers<T> {
    let mut values = Vec::with_capacity(ROWS);
    let mut valid = Vec::with_capacity(ROWS);
    for i in 0..ROWS {
        if i % 7 == 0 {
            values.push(T::default());
            valid.push(false);
        } else {
            let number = (i.wrapping_mul(factor) % 2001) as i16 - 1000;
            values.push(T::from(number));
            valid.push(true);
        }
    }
    Numbers { values, valid }
}

#[inline(never)]
fn at_least_5(c: &Numbers<i32>) -> Vec<bool> {
    c.values.iter().zip(&c.valid).map(|(v, ok)| *ok && *v >= 5).collect()
}

#[inline(never)]
fn filtered<T: Copy>(c: &Numbers<T>, mask: &[bool]) -> Numbers<T> {
    let count = mask.iter().filter(|b| **b).count();
    let mut values = Vec::with_capacity(count);
    let mut valid = Vec::with_capacity(count);
    for i in 0..mask.len() {
        if mask[i] {
            values.push(c.values[i]);
            valid.push(c.valid[i]);
        }
    }
    Numbers { values, valid }
}

struct Lists {
    ends: Vec<usize>,
    valid: Vec<bool>,
}

/// Lists of no, one or two numbers, each seventh null.
fn lists() -> Lists {
    let mut ends = Vec::with_capacity(ROWS);
    let mut valid = Vec::with_capacity(ROWS);
    let mut end = 0;
    for i in 0..ROWS {
        if i % 7 != 0 {
            end += i % 3;
        }
        ends.push(end);
        valid.push(i % 7 != 0);
    }
    Lists { ends, valid }
}

#[inline(never)]
fn lengths(lists: &Lists) -> Numbers<i64> {
    let mut start = 0;
    let values = lists.ends.iter().map(|end| {
        let length = (end - start) as i64;
        start = *end;
        length
    });
    Numbers { values: values.collect(), valid: lists.valid.clone() }
}

fn value(valid: bool, number: i128) -> Value {
    if valid { Value::Int(number) } else { Value::Null }
}

#[inline(never)]
fn packed(b: Numbers<i64>, c: Numbers<i32>) -> Vec<Value> {
    let mut rows = Vec::with_capacity(b.values.len());
    for i in 0..b.values.len() {
        let mut row = Vec::with_capacity(2);
        row.push(value(b.valid[i], b.values[i] as i128));
        row.push(value(c.valid[i], c.values[i] as i128));
        rows.push(Value::Struct(row));
    }
    rows
}

/// How many rows the work gives.
fn work(word: &str) -> usize {
    if word == "lists" {
        return lists().ends.len();
    }
    if word == "lengths" {
        return lengths(&lists()).values.len();
    }
    let a: Numbers<i32> = numbers(7919);
    let b: Numbers<i64> = numbers(104_729);
    let c: Numbers<i32> = numbers(1_299_709);
    match word {
        "setup" => c.values.len(),
        "pack" => packed(b, c).len(),
        _ => {
            let mask = at_least_5(&a);
            if word == "mask" {
                return mask.iter().filter(|b| **b).count();
            }
            let (x, y, z) = (filtered(&a, &mask), filtered(&b, &mask), filtered(&c, &mask));
            x.values.len() + y.values.len() + z.values.len()
        }
    }
}

fn main() {
    for word in env::args().skip(1) {
        println!("{}", work(&word));
    }
}
