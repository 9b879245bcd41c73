//! What the programs of bench that are written by hand in plain Rust share: JSON without fractions, hex, and the input.
use std::borrow::Cow;
use std::collections::BTreeMap;
use std::io::Read;

const MOST: u64 = 67_108_864;

/// An exit status.
pub type Status<T> = Result<T, i32>;

pub enum Json<'a> {
    Null,
    Bool,
    Number(i128),
    Text(Cow<'a, str>),
    List(Vec<Json<'a>>),
    Map(BTreeMap<Cow<'a, str>, Json<'a>>),
}

struct Reader<'a> {
    text: &'a str,
    bytes: &'a [u8],
    at: usize,
}

fn is_special(byte: u8) -> bool {
    byte < 32 || byte == b'"' || byte == b'\\'
}

/// Whether one of eight bytes is a quote, a backslash or below a blank.
fn has_special(word: u64) -> bool {
    const ONES: u64 = 0x0101_0101_0101_0101;
    let zero = |x: u64| x.wrapping_sub(ONES) & !x;
    let low = word.wrapping_sub(ONES * 32) & !word;
    (zero(word ^ (ONES * 34)) | zero(word ^ (ONES * 92)) | low) & (ONES << 7) != 0
}

/// How many bytes at the front of a text that may be long stand for themselves in quotes. A block is looked through without
/// a way out, so that its bytes are compared side by side.
fn plain_far(bytes: &[u8]) -> usize {
    let blocks = bytes.as_chunks::<64>().0;
    let block = blocks.iter().position(|block| block.iter().fold(false, |seen, b| seen | is_special(*b)));
    let at = block.unwrap_or(blocks.len()) * 64;
    at + plain(&bytes[at..])
}

/// The same of a text that is short, a word at a time.
pub fn plain(bytes: &[u8]) -> usize {
    let words = bytes.as_chunks::<8>().0;
    let word = words.iter().position(|word| has_special(u64::from_le_bytes(*word)));
    let at = word.unwrap_or(words.len()) * 8;
    at + bytes[at..].iter().position(|b| is_special(*b)).unwrap_or(bytes.len() - at)
}

impl<'a> Reader<'a> {
    fn blanks(&mut self) {
        while let Some(b' ' | b'\n' | b'\t' | b'\r') = self.bytes.get(self.at) {
            self.at += 1;
        }
    }

    fn next(&self) -> Status<u8> {
        self.bytes.get(self.at).copied().ok_or(2)
    }

    fn word(&mut self, word: &str) -> Status<()> {
        if !self.bytes[self.at..].starts_with(word.as_bytes()) {
            return Err(2);
        }
        self.at += word.len();
        Ok(())
    }

    fn value(&mut self, depth: u32) -> Status<Json<'a>> {
        if depth == 0 {
            return Err(2);
        }
        self.blanks();
        match self.next()? {
            b'n' => self.word("null").map(|()| Json::Null),
            b't' => self.word("true").map(|()| Json::Bool),
            b'f' => self.word("false").map(|()| Json::Bool),
            b'"' => Ok(Json::Text(self.string()?)),
            b'[' => self.list(depth).map(Json::List),
            b'{' => self.map(depth).map(Json::Map),
            _ => self.number().map(Json::Number),
        }
    }

    /// Steps over the end of a list or map, or over a comma.
    fn ends(&mut self, end: u8, is_first: bool) -> Status<bool> {
        self.blanks();
        if self.next()? == end {
            self.at += 1;
            return Ok(true);
        }
        if !is_first {
            self.word(",")?;
        }
        Ok(false)
    }

    fn list(&mut self, depth: u32) -> Status<Vec<Json<'a>>> {
        self.at += 1;
        let mut items = Vec::new();
        while !self.ends(b']', items.is_empty())? {
            items.push(self.value(depth - 1)?);
        }
        Ok(items)
    }

    fn map(&mut self, depth: u32) -> Status<BTreeMap<Cow<'a, str>, Json<'a>>> {
        self.at += 1;
        let mut items = BTreeMap::new();
        while !self.ends(b'}', items.is_empty())? {
            self.blanks();
            let key = self.string()?;
            self.blanks();
            self.word(":")?;
            items.insert(key, self.value(depth - 1)?);
        }
        Ok(items)
    }

    fn number(&mut self) -> Status<i128> {
        let is_negative = self.next()? == b'-';
        self.at += usize::from(is_negative);
        let from = self.at;
        let mut n = 0u64;
        while let Some(digit @ b'0'..=b'9') = self.bytes.get(self.at) {
            n = n.checked_mul(10).and_then(|n| n.checked_add(u64::from(digit - b'0'))).ok_or(2)?;
            self.at += 1;
        }
        let len = self.at - from;
        let leads = len > 1 && self.bytes[from] == b'0';
        let goes_on = matches!(self.bytes.get(self.at), Some(b'.' | b'e' | b'E'));
        if len == 0 || leads || goes_on || (is_negative && (n == 0 || n > 1 << 63)) {
            return Err(2);
        }
        Ok(if is_negative { -i128::from(n) } else { i128::from(n) })
    }

    fn string(&mut self) -> Status<Cow<'a, str>> {
        self.word("\"")?;
        let from = self.at;
        self.at += plain_far(&self.bytes[from..]);
        if self.next()? == b'"' {
            self.at += 1;
            return Ok(Cow::Borrowed(&self.text[from..self.at - 1]));
        }
        let mut made = String::from(&self.text[from..self.at]);
        while self.next()? != b'"' {
            made.push(self.escape()?);
            let from = self.at;
            self.at += plain_far(&self.bytes[from..]);
            made.push_str(&self.text[from..self.at]);
        }
        self.at += 1;
        Ok(Cow::Owned(made))
    }

    fn escape(&mut self) -> Status<char> {
        self.word("\\")?;
        let letter = self.next()?;
        self.at += 1;
        match letter {
            b'"' | b'\\' | b'/' => Ok(char::from(letter)),
            b'b' => Ok('\u{8}'),
            b'f' => Ok('\u{c}'),
            b'n' => Ok('\n'),
            b'r' => Ok('\r'),
            b't' => Ok('\t'),
            b'u' => self.unit(),
            _ => Err(2),
        }
    }

    fn unit(&mut self) -> Status<char> {
        let first = self.four()?;
        if !(0xd800..0xdc00).contains(&first) {
            return char::from_u32(first).ok_or(2);
        }
        self.word("\\u")?;
        let second = self.four()?;
        if !(0xdc00..0xe000).contains(&second) {
            return Err(2);
        }
        char::from_u32(0x10000 + ((first - 0xd800) << 10) + (second - 0xdc00)).ok_or(2)
    }

    fn four(&mut self) -> Status<u32> {
        let digits = self.text.get(self.at..self.at + 4).ok_or(2)?;
        self.at += 4;
        if digits.starts_with('+') { Err(2) } else { u32::from_str_radix(digits, 16).map_err(|_| 2) }
    }
}

impl<'a> Json<'a> {
    pub fn map(&self, keys: &[&str]) -> Status<&BTreeMap<Cow<'a, str>, Json<'a>>> {
        match self {
            Json::Map(map) if map.keys().all(|key| keys.contains(&&**key)) => Ok(map),
            _ => Err(2),
        }
    }

    pub fn part(&self, keys: &[&str], key: &str) -> Status<&Json<'a>> {
        self.map(keys)?.get(key).ok_or(2)
    }

    pub fn list(&self) -> Status<&[Json<'a>]> {
        match self {
            Json::List(items) => Ok(items),
            _ => Err(2),
        }
    }

    pub fn pair(&self) -> Status<(&Json<'a>, &Json<'a>)> {
        match self.list()? {
            [first, second] => Ok((first, second)),
            _ => Err(2),
        }
    }

    pub fn text(&self) -> Status<&str> {
        match self {
            Json::Text(text) => Ok(text),
            _ => Err(2),
        }
    }

    pub fn number(&self) -> Status<u64> {
        match self {
            Json::Number(n) => u64::try_from(*n).map_err(|_| 2),
            _ => Err(2),
        }
    }
}

/// Whether each byte is a digit of base sixteen.
fn are_digits(bytes: &[u8]) -> bool {
    let is_digit = |b: u8| (b.wrapping_sub(b'0') < 10) | ((b | 32).wrapping_sub(b'a') < 6);
    bytes.iter().fold(true, |are, b| are & is_digit(*b))
}

pub fn hex(text: &str) -> Status<Vec<u8>> {
    let (pairs, rest) = text.as_bytes().as_chunks::<2>();
    if !rest.is_empty() || !are_digits(text.as_bytes()) {
        return Err(2);
    }
    let byte = |pair: &[u8; 2]| {
        let both = u16::from_le_bytes(*pair);
        let digits = (both & 0x0f0f) + (both >> 6 & 0x0101) * 9;
        (digits << 4 | digits >> 8) as u8
    };
    Ok(pairs.iter().map(byte).collect())
}

/// The value that the input is, read to its end, and what is made of it.
pub fn read_input<T>(make: impl FnOnce(&Json) -> Status<T>) -> Status<T> {
    let mut bytes = Vec::new();
    std::io::stdin().lock().take(MOST + 1).read_to_end(&mut bytes).map_err(|_| 6)?;
    if bytes.len() as u64 > MOST {
        return Err(6);
    }
    let text = std::str::from_utf8(&bytes).map_err(|_| 2)?;
    let mut reader = Reader { text, bytes: text.as_bytes(), at: 0 };
    let json = reader.value(128)?;
    reader.blanks();
    if reader.at != bytes.len() { Err(2) } else { make(&json) }
}
