//! The program's `generate N` written by hand: the same segments, made once, and two scans of them column by column. The
//! values are read first, and then the ids of the pieces in which a row passes.
use std::collections::HashMap;

const PIECE: usize = 1000;

/// The segments by their ids, and of each column the ids and the rows of its segments.
struct File {
    segments: HashMap<u32, Vec<u8>>,
    ids: Vec<(u32, usize)>,
    values: Vec<(u32, usize)>,
    offsets: Vec<(u32, usize)>,
}

/// Numbers segments as they are made.
struct Segments(HashMap<u32, Vec<u8>>);

impl Segments {
    fn put(&mut self, bytes: Vec<u8>) -> u32 {
        let id = self.0.len() as u32;
        self.0.insert(id, bytes);
        id
    }
}

/// The rows of each piece, as where it starts and how many it has.
fn pieces(rows: usize) -> impl Iterator<Item = (usize, usize)> {
    (0..rows).step_by(PIECE).map(move |start| (start, (rows - start).min(PIECE)))
}

fn make(first: usize, rows: usize) -> File {
    let mut segments = Segments(HashMap::new());
    let ids = pieces(rows)
        .map(|(start, count)| {
            let numbers = first + start..first + start + count;
            (segments.put(numbers.flat_map(|g| (g as u32).to_le_bytes()).collect()), count)
        })
        .collect();
    let values = pieces(rows)
        .map(|(start, count)| {
            let numbers = first + start..first + start + count;
            let mut bytes: Vec<u8> = numbers.clone().map(|g| u8::from(g % 5 != 4)).collect();
            bytes.extend(numbers.flat_map(|g| if g % 5 == 4 { [0; 4] } else { ((g % 10) as i32).to_le_bytes() }));
            (segments.put(bytes), count)
        })
        .collect();
    let mut elements = Vec::new();
    let mut ends = vec![0u32];
    for g in first..first + rows {
        elements.extend((0..g % 4).map(|j| (g + j) as u8));
        ends.push(elements.len() as u32);
    }
    for piece in elements.chunks(PIECE) {
        segments.put(piece.to_vec());
    }
    let offsets = ends
        .chunks(PIECE)
        .map(|piece| (segments.put(piece.iter().flat_map(|end| end.to_le_bytes()).collect()), piece.len()))
        .collect();
    File { segments: segments.0, ids, values, offsets }
}

fn numbers(bytes: &[u8]) -> impl Iterator<Item = u32> + '_ {
    bytes.chunks_exact(4).map(|word| u32::from_le_bytes(word.try_into().unwrap()))
}

#[derive(Debug, Default, PartialEq)]
struct Totals {
    rows: u64,
    ids: u64,
    lengths: u64,
    asked: u64,
}

/// Adds the rows of a file whose value is at least 5.
fn scan(file: &File, totals: &mut Totals) {
    let ends: Vec<u32> = file.offsets.iter().flat_map(|(id, _)| numbers(&file.segments[id])).collect();
    let mut offsets_asked = 0;
    let mut at = 0;
    for ((values, count), (ids, _)) in file.values.iter().zip(&file.ids) {
        let (flags, slots) = file.segments[values].split_at(*count);
        totals.asked += 1;
        let passing: Vec<bool> =
            flags.iter().zip(numbers(slots)).map(|(flag, slot)| *flag == 1 && slot as i32 >= 5).collect();
        if let Some(last) = passing.iter().rposition(|passes| *passes) {
            totals.asked += 1;
            offsets_asked = (at + last + 1) / PIECE + 1;
            for (i, id) in numbers(&file.segments[ids]).enumerate() {
                if passing[i] {
                    totals.rows += 1;
                    totals.ids += u64::from(id);
                    totals.lengths += u64::from(ends[at + i + 1] - ends[at + i]);
                }
            }
        }
        at += count;
    }
    totals.asked += offsets_asked as u64;
}

fn main() {
    let rows: usize = std::env::args().nth(1).unwrap().parse().unwrap();
    let files: Vec<File> = (0..3).map(|f| make(f * rows, rows)).collect();
    let [first, second] = [0; 2].map(|_| {
        let mut totals = Totals::default();
        for file in &files {
            scan(file, &mut totals);
        }
        totals
    });
    assert_eq!(first, second);
    let Totals { rows: given, ids, lengths, asked } = first;
    println!("n={rows} rows={given} ids={ids} lengths={lengths} asked={asked}");
}
