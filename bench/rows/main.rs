//! The program's `scan` written by hand: a manifest of one file of a struct without nulls is read from standard input, and
//! a line of each row is written. It reads all that such a manifest may have (i32, u8, texts and lists of these), refuses
//! what is damaged, and keeps columns as vectors. No cache, no request but `$`, no splits.
#[path = "../plain.rs"]
mod shared;

use shared::{Json, Status, hex, plain, read_input};
use std::collections::HashMap;
use std::io::Write;

// ---- the manifest
enum DType {
    I32,
    U8,
    Text,
    List(Box<DType>),
}

enum Layout {
    Leaf(Vec<(u64, u64)>, u64),
    List(Box<Layout>, Box<Layout>, u64),
}

struct Manifest {
    fields: Vec<(String, DType)>,
    layouts: Vec<Layout>,
    rows: u64,
    segments: HashMap<u64, Vec<u8>>,
}

fn dtype(json: &Json) -> Status<DType> {
    match json {
        Json::Text(name) => match &**name {
            "i32" => Ok(DType::I32),
            "u8" => Ok(DType::U8),
            "utf8" => Ok(DType::Text),
            _ => Err(2),
        },
        _ => Ok(DType::List(Box::new(dtype(json.part(&["list"], "list")?)?))),
    }
}

fn layout(json: &Json) -> Status<Layout> {
    const KEYS: [&str; 4] = ["leaf", "list", "offsets", "rows"];
    let map = json.map(&KEYS)?;
    let rows = map.get("rows").ok_or(2)?.number()?;
    if let Some(places) = map.get("leaf") {
        let places = places.list()?.iter().map(|place| {
            let (id, count) = place.pair()?;
            Ok((id.number()?, count.number()?))
        });
        return Ok(Layout::Leaf(places.collect::<Status<_>>()?, rows));
    }
    match map.get("list").ok_or(2)?.list()? {
        [elements, offsets] if map.get("offsets").ok_or(2)?.text()? == "u32" => {
            Ok(Layout::List(Box::new(layout(elements)?), Box::new(layout(offsets)?), rows))
        }
        _ => Err(2),
    }
}


fn manifest(json: &Json) -> Status<Manifest> {
    let keys = ["dtype", "files", "request"];
    if json.part(&keys, "request")?.part(&["projection"], "projection")?.text()? != "$" {
        return Err(2);
    }
    let fields = json.part(&keys, "dtype")?.part(&["struct"], "struct")?.list()?.iter().map(|field| {
        let (name, kind) = field.pair()?;
        Ok((name.text()?.to_owned(), dtype(kind)?))
    });
    let fields = fields.collect::<Status<Vec<_>>>()?;
    let [file] = json.part(&keys, "files")?.list()? else { return Err(2) };
    let file_keys = ["id", "layout", "segments"];
    file.part(&file_keys, "id")?.text()?;
    let root = file.part(&file_keys, "layout")?;
    let layouts = root.part(&["struct", "rows"], "struct")?.list()?.iter().map(layout).collect::<Status<_>>()?;
    let rows = root.part(&["struct", "rows"], "rows")?.number()?;
    let mut segments = HashMap::new();
    for segment in file.part(&file_keys, "segments")?.list()? {
        let (id, text) = segment.pair()?;
        if segments.insert(id.number()?, hex(text.text()?)?).is_some() {
            return Err(2);
        }
    }
    Ok(Manifest { fields, layouts, rows, segments })
}

// ---- columns
enum Column {
    Numbers(Vec<i32>),
    Bytes(Vec<u8>),
    /// The bytes of all texts, and where each ends.
    Texts(String, Vec<u32>),
    /// Where each list starts, and one end more.
    Lists(Vec<u32>, Box<Column>),
}

/// The segments of a leaf of so many rows, each with its rows.
fn parts<'a>(m: &'a Manifest, layout: &'a Layout, rows: u64) -> Status<Vec<(&'a [u8], usize)>> {
    let Layout::Leaf(places, count) = layout else { return Err(4) };
    if *count != rows || places.iter().map(|place| place.1).sum::<u64>() != rows {
        return Err(4);
    }
    places.iter().map(|(id, count)| Ok((&**m.segments.get(id).ok_or(4)?, *count as usize))).collect()
}

/// The bytes of the values of a leaf, of so many bytes each.
fn words<const WIDTH: usize>(m: &Manifest, layout: &Layout, rows: u64, mut each: impl FnMut(&[[u8; WIDTH]])) -> Status<()> {
    for (bytes, count) in parts(m, layout, rows)? {
        let (words, rest) = bytes.as_chunks::<WIDTH>();
        if words.len() != count || !rest.is_empty() {
            return Err(4);
        }
        each(words);
    }
    Ok(())
}

fn texts(m: &Manifest, layout: &Layout, rows: u64) -> Status<Column> {
    let mut ends = Vec::with_capacity(rows as usize);
    let mut made = String::new();
    for (mut bytes, count) in parts(m, layout, rows)? {
        made.reserve(bytes.len() - 4 * count.min(bytes.len() / 4));
        for _ in 0..count {
            let (len, rest) = bytes.split_first_chunk().ok_or(4)?;
            let (text, rest) = rest.split_at_checked(u32::from_le_bytes(*len) as usize).ok_or(4)?;
            made.push_str(std::str::from_utf8(text).map_err(|_| 4)?);
            ends.push(made.len() as u32);
            bytes = rest;
        }
        if !bytes.is_empty() {
            return Err(4);
        }
    }
    Ok(Column::Texts(made, ends))
}

fn column(m: &Manifest, dtype: &DType, layout: &Layout, rows: u64) -> Status<Column> {
    match (dtype, layout) {
        (DType::I32, _) => {
            let mut numbers = Vec::with_capacity(rows as usize);
            words(m, layout, rows, |words| numbers.extend(words.iter().map(|w| i32::from_le_bytes(*w))))?;
            Ok(Column::Numbers(numbers))
        }
        (DType::U8, _) => {
            let mut numbers = Vec::with_capacity(rows as usize);
            words::<1>(m, layout, rows, |words| numbers.extend_from_slice(words.as_flattened()))?;
            Ok(Column::Bytes(numbers))
        }
        (DType::Text, _) => texts(m, layout, rows),
        (DType::List(element), Layout::List(elements, offsets, count)) if *count == rows => {
            let mut ends = Vec::with_capacity(rows as usize + 1);
            words(m, offsets, rows + 1, |words| ends.extend(words.iter().map(|w| u32::from_le_bytes(*w))))?;
            if ends[0] != 0 || !ends.is_sorted() {
                return Err(4);
            }
            let elements = column(m, element, elements, u64::from(ends[rows as usize]))?;
            Ok(Column::Lists(ends, Box::new(elements)))
        }
        _ => Err(4),
    }
}

// ---- lines
/// The two digits of each number below a hundred.
static PAIRS: [[u8; 2]; 100] = {
    let mut pairs = [[0; 2]; 100];
    let mut n = 0;
    while n < 100 {
        pairs[n] = [b'0' + (n / 10) as u8, b'0' + (n % 10) as u8];
        n += 1;
    }
    pairs
};

/// Lines in a piece that is written when it is full.
struct Lines<'a> {
    piece: Vec<u8>,
    at: usize,
    out: std::io::StdoutLock<'a>,
}

/// How many bytes a number of 64 bits, or an escape, takes at most.
const SHORT: usize = 20;

impl Lines<'_> {
    /// Room for so many bytes more.
    fn room(&mut self, count: usize) -> std::io::Result<()> {
        if self.piece.len() - self.at < count {
            self.out.write_all(&self.piece[..self.at])?;
            self.at = 0;
            if self.piece.len() < count {
                self.piece.resize(count, 0);
            }
        }
        Ok(())
    }

    fn push(&mut self, bytes: &[u8]) {
        self.piece[self.at..self.at + bytes.len()].copy_from_slice(bytes);
        self.at += bytes.len();
    }

    fn push_number(&mut self, n: u64) {
        match u32::try_from(n) {
            Ok(n) => self.push_short(n),
            Err(_) => self.push(n.to_string().as_bytes()),
        }
    }

    #[inline(always)]
    fn push_short(&mut self, mut n: u32) {
        let mut len = (n | 1).ilog10() as usize + 1;
        let digits = &mut self.piece[self.at..self.at + len];
        self.at += len;
        while n >= 100 {
            digits[len - 2..len].copy_from_slice(&PAIRS[(n % 100) as usize]);
            n /= 100;
            len -= 2;
        }
        if n >= 10 {
            digits[..2].copy_from_slice(&PAIRS[n as usize]);
        } else {
            digits[0] = b'0' + n as u8;
        }
    }

    /// Writes a text in quotes, of which each byte takes six at most.
    fn quote(&mut self, text: &str) -> std::io::Result<()> {
        self.room(6 * text.len() + 2)?;
        self.push(b"\"");
        let mut rest = text.as_bytes();
        loop {
            let (front, more) = rest.split_at(plain(rest));
            self.push(front);
            let Some((byte, more)) = more.split_first() else { break };
            match byte {
                b'"' | b'\\' => self.push(&[b'\\', *byte]),
                8 => self.push(b"\\b"),
                9 => self.push(b"\\t"),
                10 => self.push(b"\\n"),
                12 => self.push(b"\\f"),
                13 => self.push(b"\\r"),
                _ => self.push(format!("\\u{byte:04x}").as_bytes()),
            }
            rest = more;
        }
        self.push(b"\"");
        Ok(())
    }

    fn value(&mut self, column: &Column, i: usize) -> std::io::Result<()> {
        match column {
            Column::Numbers(numbers) => {
                self.room(SHORT)?;
                if numbers[i] < 0 {
                    self.push(b"-");
                }
                self.push_short(numbers[i].unsigned_abs());
            }
            Column::Bytes(numbers) => {
                self.room(SHORT)?;
                self.push_short(u32::from(numbers[i]));
            }
            Column::Texts(texts, ends) => {
                let start = if i == 0 { 0 } else { ends[i - 1] as usize };
                self.quote(&texts[start..ends[i] as usize])?;
            }
            Column::Lists(ends, elements) => {
                self.room(SHORT)?;
                self.push(b"[");
                for k in ends[i]..ends[i + 1] {
                    self.room(SHORT)?;
                    if k > ends[i] {
                        self.push(b",");
                    }
                    self.value(elements, k as usize)?;
                }
                self.room(SHORT)?;
                self.push(b"]");
            }
        }
        Ok(())
    }
}

/// What stands before the value of each field.
fn heads(m: &Manifest) -> std::io::Result<Vec<Vec<u8>>> {
    let quoted = |name: &String| {
        let mut lines = Lines { piece: Vec::new(), at: 0, out: std::io::stdout().lock() };
        lines.quote(name)?;
        lines.piece.truncate(lines.at);
        Ok(lines.piece)
    };
    let names = m.fields.iter().map(|(name, _)| quoted(name)).collect::<std::io::Result<Vec<_>>>()?;
    Ok(names.into_iter().enumerate().map(|(k, name)| [if k > 0 { &b","[..] } else { b"" }, &name, b":"].concat()).collect())
}

fn print(m: &Manifest, columns: &[Column]) -> std::io::Result<()> {
    let heads = heads(m)?;
    let mut lines = Lines { piece: vec![0; 1 << 16], at: 0, out: std::io::stdout().lock() };
    for i in 0..m.rows {
        lines.room(64)?;
        lines.push(b"{\"file\":0,\"row\":");
        lines.push_number(i);
        lines.push(b",\"value\":{");
        for (head, column) in heads.iter().zip(columns) {
            lines.room(head.len())?;
            lines.push(head);
            lines.value(column, i as usize)?;
        }
        lines.room(SHORT)?;
        lines.push(b"}}\n");
    }
    lines.out.write_all(&lines.piece[..lines.at])?;
    lines.out.flush()
}

fn run() -> Status<()> {
    if !std::env::args().skip(1).eq(["scan"]) {
        return Err(1);
    }
    let m = read_input(manifest)?;
    if m.layouts.len() != m.fields.len() {
        return Err(4);
    }
    let columns = m.fields.iter().zip(&m.layouts).map(|((_, dtype), layout)| column(&m, dtype, layout, m.rows));
    print(&m, &columns.collect::<Status<Vec<_>>>()?).map_err(|_| 6)
}

fn main() {
    if let Err(status) = run() {
        std::process::exit(status);
    }
}
