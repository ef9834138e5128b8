//! Requests and answers as lines of text: README.md has the grammar.
use crate::maps::Row;

#[derive(Clone, Debug, PartialEq)]
pub enum Step {
    Empty,
    New(Vec<u8>, Vec<u8>),
    Store(u8, u32, Vec<u8>),
    Remove(u8, u32),
    Run(u8, Vec<Row>),
    Encode(u8),
}

#[derive(Clone, Debug, PartialEq)]
pub struct Reading {
    pub dictionary: usize,
    pub separator: u8,
    pub settings: u32,
    pub message: Vec<u8>,
}

#[derive(Clone, Debug, PartialEq)]
pub enum Request {
    Dictionary(usize, Vec<u8>),
    Build(Reading),
    Again(Reading, u8),
    Calls(Vec<Step>),
    Frames(Vec<Vec<u8>>),
}

/// The bit of a settings word that asks for validation. No other bit means anything.
pub const VALIDATE: u32 = 1;

/// How many dictionaries a side keeps.
pub const KEPT: usize = 16;

pub fn hex(bytes: &[u8]) -> String {
    const DIGITS: &[u8; 16] = b"0123456789abcdef";
    if bytes.is_empty() {
        return "-".to_string();
    }
    let mut text = String::with_capacity(bytes.len() * 2);
    for byte in bytes {
        text.push(char::from(DIGITS[usize::from(byte >> 4)]));
        text.push(char::from(DIGITS[usize::from(byte & 15)]));
    }
    text
}

pub fn unhex(text: &str) -> Option<Vec<u8>> {
    if text == "-" {
        return Some(vec![]);
    }
    let digits: Option<Vec<u8>> = text.chars().map(|c| c.to_digit(16).map(|d| d as u8)).collect();
    let digits = digits?;
    (digits.len() % 2 == 0).then(|| digits.chunks(2).map(|pair| pair[0] << 4 | pair[1]).collect())
}

fn byte(text: &str) -> Option<u8> {
    match unhex(text)?.as_slice() {
        [byte] => Some(*byte),
        _ => None,
    }
}

fn row(text: &str) -> Option<Row> {
    let words: Vec<&str> = text.split('.').collect();
    match words[..] {
        ["f", level, tag, value] => Some(Row::Field(level.parse().ok()?, tag.parse().ok()?, unhex(value)?)),
        ["h", level, start, delimiter] => Some(Row::Head(level.parse().ok()?, start.parse().ok()?, delimiter.parse().ok()?)),
        _ => None,
    }
}

pub fn row_text(row: &Row) -> String {
    match row {
        Row::Field(level, tag, value) => format!("f.{level}.{tag}.{}", hex(value)),
        Row::Head(level, start, delimiter) => format!("h.{level}.{start}.{delimiter}"),
    }
}

pub fn rows_text(rows: &[Row]) -> String {
    if rows.is_empty() {
        return "-".to_string();
    }
    rows.iter().map(row_text).collect::<Vec<_>>().join(",")
}

fn rows(text: &str) -> Option<Vec<Row>> {
    if text == "-" {
        return Some(vec![]);
    }
    text.split(',').map(row).collect()
}

fn step(text: &str) -> Option<Step> {
    if let Some(rest) = text.strip_prefix("run.") {
        let (part, run) = rest.split_once('.')?;
        return Some(Step::Run(part.parse().ok()?, rows(run)?));
    }
    let words: Vec<&str> = text.split('.').collect();
    match words[..] {
        ["empty"] => Some(Step::Empty),
        ["new", begin, kind] => Some(Step::New(unhex(begin)?, unhex(kind)?)),
        ["store", part, tag, value] => Some(Step::Store(part.parse().ok()?, tag.parse().ok()?, unhex(value)?)),
        ["remove", part, tag] => Some(Step::Remove(part.parse().ok()?, tag.parse().ok()?)),
        ["encode", separator] => Some(Step::Encode(byte(separator)?)),
        _ => None,
    }
}

fn step_text(step: &Step) -> String {
    match step {
        Step::Empty => "empty".to_string(),
        Step::New(begin, kind) => format!("new.{}.{}", hex(begin), hex(kind)),
        Step::Store(part, tag, value) => format!("store.{part}.{tag}.{}", hex(value)),
        Step::Remove(part, tag) => format!("remove.{part}.{tag}"),
        Step::Run(part, rows) => format!("run.{part}.{}", rows_text(rows)),
        Step::Encode(separator) => format!("encode.{separator:02x}"),
    }
}

fn reading(number: &str, separator: &str, settings: &str, message: &str) -> Option<Reading> {
    Some(Reading {
        dictionary: number.parse().ok().filter(|n| *n < KEPT)?,
        separator: byte(separator)?,
        settings: settings.parse().ok()?,
        message: unhex(message)?,
    })
}

impl Request {
    pub fn parse(line: &str) -> Option<Self> {
        let words: Vec<&str> = line.split(' ').collect();
        match words[..] {
            ["dictionary", number, bytes] => Some(Self::Dictionary(number.parse().ok().filter(|n| *n < KEPT)?, unhex(bytes)?)),
            ["build", number, separator, settings, message] => reading(number, separator, settings, message).map(Self::Build),
            ["again", number, separator, settings, second, message] => {
                Some(Self::Again(reading(number, separator, settings, message)?, byte(second)?))
            }
            ["calls", ref steps @ ..] => steps.iter().map(|text| step(text)).collect::<Option<_>>().map(Self::Calls),
            ["frames", ref chunks @ ..] => chunks.iter().map(|text| unhex(text)).collect::<Option<_>>().map(Self::Frames),
            _ => None,
        }
    }

    pub fn text(&self) -> String {
        match self {
            Self::Dictionary(number, bytes) => format!("dictionary {number} {}", hex(bytes)),
            Self::Build(r) => format!("build {} {:02x} {} {}", r.dictionary, r.separator, r.settings, hex(&r.message)),
            Self::Again(r, second) => {
                format!("again {} {:02x} {} {second:02x} {}", r.dictionary, r.separator, r.settings, hex(&r.message))
            }
            Self::Calls(steps) => format!("calls {}", steps.iter().map(step_text).collect::<Vec<_>>().join(" ")),
            Self::Frames(chunks) => format!("frames {}", chunks.iter().map(|c| hex(c)).collect::<Vec<_>>().join(" ")),
        }
    }
}

/// What a side says to a request. `others` are lines that count as equal: answers that the Rust gives in another hash order.
#[derive(Clone, Debug, Default)]
pub struct Answer {
    pub line: String,
    pub others: Vec<String>,
    /// 01's number of a build, of the last encoding, or of the dictionary's check; none for streams.
    pub number: Option<u32>,
}

impl Answer {
    pub fn plain(line: String, number: u32) -> Self {
        Self { line, others: vec![], number: Some(number) }
    }

    /// As one line: the others follow behind `|`.
    pub fn text(&self) -> String {
        let mut text = self.line.clone();
        for other in &self.others {
            text.push_str(" | ");
            text.push_str(other);
        }
        text
    }

    pub fn agrees_with(&self, line: &str) -> bool {
        self.line == line || self.others.iter().any(|other| other == line)
    }
}
