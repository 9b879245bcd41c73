//! The program's `table` written by hand: a manifest of files of i32 columns without nulls, a key and a count and a sum
//! are read from standard input, and a line of each group is written. It refuses what is damaged, and reads the two columns
//! that are asked for alone. No cache, no filter, no other keys and measures, one worker.
#[path = "../plain.rs"]
mod shared;

use shared::{Json, Status, hex, read_input};
use std::collections::HashMap;
use std::hash::{BuildHasherDefault, Hasher};
use std::io::Write;

// ---- files
struct File {
    leaves: Vec<Vec<(u64, u64)>>,
    rows: u64,
    segments: HashMap<u64, Vec<u8>>,
}

fn leaf(json: &Json, rows: u64) -> Status<Vec<(u64, u64)>> {
    let keys = ["leaf", "rows"];
    let places = json.part(&keys, "leaf")?.list()?.iter().map(|place| {
        let (id, count) = place.pair()?;
        Ok((id.number()?, count.number()?))
    });
    let places = places.collect::<Status<Vec<_>>>()?;
    let count = places.iter().map(|place| place.1).sum::<u64>();
    if json.part(&keys, "rows")?.number()? == rows && count == rows { Ok(places) } else { Err(4) }
}

fn file(json: &Json) -> Status<File> {
    let keys = ["id", "layout", "segments"];
    json.part(&keys, "id")?.text()?;
    let root = json.part(&keys, "layout")?;
    let rows = root.part(&["struct", "rows"], "rows")?.number()?;
    let leaves = root.part(&["struct", "rows"], "struct")?.list()?.iter().map(|json| leaf(json, rows));
    let leaves = leaves.collect::<Status<_>>()?;
    let mut segments = HashMap::new();
    for segment in json.part(&keys, "segments")?.list()? {
        let (id, text) = segment.pair()?;
        if segments.insert(id.number()?, hex(text.text()?)?).is_some() {
            return Err(2);
        }
    }
    Ok(File { leaves, rows, segments })
}

fn column(file: &File, place: usize) -> Status<Vec<i32>> {
    let mut numbers = Vec::with_capacity(file.rows as usize);
    for (id, count) in file.leaves.get(place).ok_or(4)? {
        let (words, rest) = file.segments.get(id).ok_or(4)?.as_chunks::<4>();
        if words.len() as u64 != *count || !rest.is_empty() {
            return Err(4);
        }
        numbers.extend(words.iter().map(|word| i32::from_le_bytes(*word)));
    }
    Ok(numbers)
}

// ---- what is asked
/// The places of the key's and of the sum's field, and the names of the key, the count and the sum.
struct Asked {
    key: usize,
    value: usize,
    names: [String; 3],
}

/// The name in `{"get":[name,"$"]}`.
fn field<'a>(json: &'a Json) -> Status<&'a str> {
    let (name, root) = json.part(&["get"], "get")?.pair()?;
    if root.text()? == "$" { name.text() } else { Err(2) }
}

fn asked(json: &Json, fields: &[&str]) -> Status<Asked> {
    let place = |json: &Json| {
        let name = field(json)?;
        fields.iter().position(|field| *field == name).ok_or(3)
    };
    let keys = ["manifest", "keys", "measures"];
    let [key] = json.part(&keys, "keys")?.list()? else { return Err(2) };
    let (name, key) = key.pair()?;
    let [count, sum] = json.part(&keys, "measures")?.list()? else { return Err(2) };
    let (count, kind) = count.pair()?;
    let [total, sums, value] = sum.list()? else { return Err(2) };
    if kind.text()? != "count" || sums.text()? != "sum" {
        return Err(2);
    }
    let names = [name.text()?.to_owned(), count.text()?.to_owned(), total.text()?.to_owned()];
    Ok(Asked { key: place(key)?, value: place(value)?, names })
}

fn fields<'a>(json: &'a Json) -> Status<Vec<&'a str>> {
    let fields = json.part(&["struct"], "struct")?.list()?.iter().map(|field| {
        let (name, kind) = field.pair()?;
        if kind.text()? == "i32" { name.text() } else { Err(2) }
    });
    fields.collect()
}

fn job(json: &Json) -> Status<(Vec<File>, Asked)> {
    let manifest = json.part(&["manifest", "keys", "measures"], "manifest")?;
    let keys = ["dtype", "files", "request"];
    if manifest.part(&keys, "request")?.part(&["projection"], "projection")?.text()? != "$" {
        return Err(2);
    }
    let fields = fields(manifest.part(&keys, "dtype")?)?;
    let files = manifest.part(&keys, "files")?.list()?.iter().map(file).collect::<Status<_>>()?;
    Ok((files, asked(json, &fields)?))
}

// ---- the table
/// Hashes one number by a product. The default hasher withstands chosen keys and takes three times as much for all groups.
#[derive(Default)]
struct OfNumbers(u64);

impl Hasher for OfNumbers {
    fn write(&mut self, _: &[u8]) {
        unreachable!("numbers alone are hashed");
    }

    fn write_i32(&mut self, n: i32) {
        self.0 = u64::from(n.cast_unsigned()).wrapping_mul(0x9e37_79b9_7f4a_7c15);
    }

    fn finish(&self) -> u64 {
        self.0.rotate_left(26)
    }
}

/// The number of rows of a key, and the sum of their values, which the input's length keeps within 64 bits.
#[derive(Clone, Copy, Default)]
struct Group {
    rows: u64,
    sum: i64,
}

type Groups = HashMap<i32, Group, BuildHasherDefault<OfNumbers>>;

fn add(groups: &mut Groups, file: &File, asked: &Asked) -> Status<()> {
    for (key, value) in column(file, asked.key)?.into_iter().zip(column(file, asked.value)?) {
        let group = groups.entry(key).or_default();
        group.rows += 1;
        group.sum += i64::from(value);
    }
    Ok(())
}

fn print(groups: Groups, names: &[String; 3]) -> std::io::Result<()> {
    let mut groups: Vec<_> = groups.into_iter().collect();
    groups.sort_unstable_by_key(|group| group.0);
    let mut out = std::io::BufWriter::new(std::io::stdout().lock());
    let [key, count, sum] = names;
    for (k, group) in groups {
        writeln!(out, "{{\"{key}\":{k},\"{count}\":{},\"{sum}\":{}}}", group.rows, group.sum)?;
    }
    out.flush()
}

fn run() -> Status<()> {
    if !std::env::args().skip(1).eq(["table"]) {
        return Err(1);
    }
    let (files, asked) = read_input(job)?;
    let mut groups = Groups::default();
    for file in &files {
        add(&mut groups, file, &asked)?;
    }
    print(groups, &asked.names).map_err(|_| 6)
}

fn main() {
    if let Err(status) = run() {
        std::process::exit(status);
    }
}
