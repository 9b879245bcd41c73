//! The questions of run.py written by hand over the same files: a filter and two columns, a filter that few rows pass, a
//! count, ten rows, and rows by place.
//! What a footer says comes as lines, `file FILE` and behind it `COLUMN OFFSET LENGTH ROWS` a segment of a column, since
//! JSON is not what is measured. A segment is read in one read, none is read whose rows no question needs, and no digest
//! is compared. A line of each row is written as the program writes it.
use std::collections::HashMap;
use std::fs::File;
use std::io::{self, BufWriter, Read, Write};
use std::ops::Range;
use std::os::unix::fs::FileExt;

struct Segment {
    offset: u64,
    length: usize,
    rows: usize,
}

struct Table {
    file: File,
    columns: HashMap<String, Vec<Segment>>,
}

impl Table {
    fn read(&self, column: &str, at: usize) -> io::Result<Vec<u8>> {
        let segment = &self.columns[column][at];
        let mut bytes = vec![0; segment.length];
        self.file.read_exact_at(&mut bytes, segment.offset)?;
        Ok(bytes)
    }

    fn rows(&self, column: &str, at: usize) -> usize {
        self.columns[column][at].rows
    }

    /// The segments that have rows of these, and which rows of each.
    fn cuts(&self, column: &str, rows: &Range<usize>) -> Vec<(usize, Range<usize>)> {
        let (mut first, mut found) = (0, Vec::new());
        for (at, segment) in self.columns[column].iter().enumerate() {
            let end = first + segment.rows;
            let cut = rows.start.max(first)..rows.end.min(end);
            if cut.start < cut.end {
                found.push((at, cut.start - first..cut.end - first));
            }
            first = end;
        }
        found
    }

    /// Numbers of one, four or eight bytes; before those that may be null stands a bit each.
    fn numbers(&self, column: &str, width: usize, nullable: bool, rows: &Range<usize>) -> io::Result<Vec<Option<i64>>> {
        let mut found = Vec::new();
        for (at, cut) in self.cuts(column, rows) {
            let bytes = self.read(column, at)?;
            let (there, slots) = bytes.split_at(if nullable { self.rows(column, at).div_ceil(8) } else { 0 });
            for row in cut {
                let is_there = !nullable || there[row / 8] >> (row % 8) & 1 == 1;
                found.push(is_there.then(|| number_at(slots, width, row)));
            }
        }
        Ok(found)
    }

    fn names(&self, rows: &Range<usize>) -> io::Result<Vec<String>> {
        let mut found = Vec::new();
        for (at, cut) in self.cuts("name", rows) {
            let bytes = self.read("name", at)?;
            found.extend(texts(&bytes, &cut.collect::<Vec<_>>()).into_iter().map(String::from));
        }
        Ok(found)
    }
}

fn tables(text: &str) -> io::Result<Vec<Table>> {
    let mut tables: Vec<Table> = Vec::new();
    for line in text.lines() {
        if let Some(path) = line.strip_prefix("file ") {
            tables.push(Table { file: File::open(path)?, columns: HashMap::new() });
            continue;
        }
        let words: Vec<&str> = line.split(' ').collect();
        let number = |i: usize| words[i].parse::<u64>().unwrap();
        let segment = Segment { offset: number(1), length: number(2) as usize, rows: number(3) as usize };
        let table = tables.last_mut().unwrap();
        table.columns.entry(words[0].to_string()).or_default().push(segment);
    }
    Ok(tables)
}

fn i32_at(bytes: &[u8], row: usize) -> i32 {
    i32::from_le_bytes(bytes[4 * row..4 * row + 4].try_into().unwrap())
}

fn i64_at(bytes: &[u8], row: usize) -> i64 {
    i64::from_le_bytes(bytes[8 * row..8 * row + 8].try_into().unwrap())
}

fn number_at(bytes: &[u8], width: usize, row: usize) -> i64 {
    match width {
        1 => i64::from(bytes[row]),
        4 => i64::from(i32_at(bytes, row)),
        _ => i64_at(bytes, row),
    }
}

/// The rows of a column of i32 that pass.
fn passing(bytes: &[u8], rows: usize, pass: impl Fn(i32) -> bool) -> Vec<usize> {
    let numbers = bytes[..4 * rows].as_chunks::<4>().0;
    numbers.iter().enumerate().filter(|(_, n)| pass(i32::from_le_bytes(**n))).map(|(row, _)| row).collect()
}

/// The texts of rows, which rise.
fn texts<'a>(bytes: &'a [u8], rows: &[usize]) -> Vec<&'a str> {
    let (mut at, mut row, mut found) = (0, 0, Vec::new());
    for wanted in rows {
        loop {
            let length = u32::from_le_bytes(bytes[at..at + 4].try_into().unwrap()) as usize;
            at += 4 + length;
            row += 1;
            if row > *wanted {
                found.push(std::str::from_utf8(&bytes[at - length..at]).unwrap());
                break;
            }
        }
    }
    found
}

fn write_text(out: &mut impl Write, text: &str) -> io::Result<()> {
    for c in text.chars() {
        match c {
            '"' | '\\' => write!(out, "\\{c}")?,
            _ => write!(out, "{c}")?,
        }
    }
    Ok(())
}

/// `score >= 990000`, and of these rows `id` and `name`.
fn filter(number: usize, table: &Table, out: &mut impl Write) -> io::Result<()> {
    let mut first = 0;
    for at in 0..table.columns["score"].len() {
        let rows = passing(&table.read("score", at)?, table.rows("score", at), |n| n >= 990_000);
        if !rows.is_empty() {
            let (ids, names) = (table.read("id", at)?, table.read("name", at)?);
            for (row, name) in rows.iter().zip(texts(&names, &rows)) {
                let id = i64_at(&ids, *row);
                write!(out, "{{\"file\":{number},\"row\":{},\"value\":{{\"id\":{id},\"name\":\"", first + row)?;
                write_text(out, name)?;
                out.write_all(b"\"}}\n")?;
            }
        }
        first += table.rows("score", at);
    }
    Ok(())
}

/// `age = 7 and score > 999000`, and of these rows `id`.
fn few(number: usize, table: &Table, out: &mut impl Write) -> io::Result<()> {
    let mut first = 0;
    for at in 0..table.columns["score"].len() {
        let count = table.rows("score", at);
        let mut rows = passing(&table.read("score", at)?, count, |n| n > 999_000);
        if !rows.is_empty() {
            let ages = table.read("age", at)?;
            let (there, numbers) = ages.split_at(count.div_ceil(8));
            rows.retain(|row| there[row / 8] >> (row % 8) & 1 == 1 && i32_at(numbers, *row) == 7);
        }
        if !rows.is_empty() {
            let ids = table.read("id", at)?;
            for row in rows {
                writeln!(out, "{{\"file\":{number},\"row\":{},\"value\":{{\"id\":{}}}}}", first + row, i64_at(&ids, row))?;
            }
        }
        first += count;
    }
    Ok(())
}

/// `score > 999900`, and of these rows `score`.
fn count(number: usize, table: &Table, out: &mut impl Write) -> io::Result<()> {
    let mut first = 0;
    for at in 0..table.columns["score"].len() {
        let scores = table.read("score", at)?;
        for row in passing(&scores, table.rows("score", at), |n| n > 999_900) {
            writeln!(out, "{{\"file\":{number},\"row\":{},\"value\":{{\"score\":{}}}}}", first + row, i32_at(&scores, row))?;
        }
        first += table.rows("score", at);
    }
    Ok(())
}

/// Rows with all their columns.
fn whole(number: usize, table: &Table, rows: Range<usize>, out: &mut impl Write) -> io::Result<()> {
    let ids = table.numbers("id", 8, false, &rows)?;
    let scores = table.numbers("score", 4, false, &rows)?;
    let ages = table.numbers("age", 4, true, &rows)?;
    let names = table.names(&rows)?;
    let ends: Vec<usize> = table.numbers("tags.offsets", 8, false, &(rows.start..rows.end + 1))?.into_iter().map(|n| n.unwrap() as usize).collect();
    let tags = table.numbers("tags.elements", 1, false, &(ends[0]..ends[ends.len() - 1]))?;
    for (i, row) in rows.enumerate() {
        let (id, score) = (ids[i].unwrap(), scores[i].unwrap());
        let age = ages[i].map_or("null".to_string(), |n| n.to_string());
        write!(out, "{{\"file\":{number},\"row\":{row},\"value\":{{\"id\":{id},\"score\":{score},\"age\":{age},\"name\":\"")?;
        write_text(out, &names[i])?;
        let own: Vec<String> = tags[ends[i] - ends[0]..ends[i + 1] - ends[0]].iter().map(|n| n.unwrap().to_string()).collect();
        writeln!(out, "\",\"tags\":[{}]}}}}", own.join(","))?;
    }
    Ok(())
}

fn main() -> io::Result<()> {
    let question = std::env::args().nth(1).unwrap();
    let mut text = String::new();
    io::stdin().read_to_string(&mut text)?;
    let mut out = BufWriter::new(io::stdout().lock());
    let tables = tables(&text)?;
    for (number, table) in tables.iter().enumerate() {
        match question.as_str() {
            "filter" => filter(number, table, &mut out)?,
            "few" => few(number, table, &mut out)?,
            "count" => count(number, table, &mut out)?,
            "ten" if number == 0 => whole(number, table, 0..10, &mut out)?,
            "place" if number + 1 == tables.len() => whole(0, table, 500_000..500_010, &mut out)?,
            _ => {}
        }
    }
    out.flush()
}
