//! The sample programs' scripts and expected lines, read from the project's crates; crates/sample_kit/src/lib.rt says how a script is written.
//! Each test file uses a part of it.
#![allow(dead_code)]
use std::collections::HashMap;
use std::path::PathBuf;
use tinkoraba::{Dictionary, DictionaryWriter, Error};

pub fn crates() -> PathBuf {
    let root = std::env::var("TINKORABA_CRATES").map_or_else(|_| PathBuf::from(env!("CARGO_MANIFEST_DIR")).join("../../crates"), PathBuf::from);
    assert!(root.is_dir(), "the samples are read from the project's folder crates/");
    root
}

pub fn text(path: &str) -> String {
    std::fs::read_to_string(crates().join(path)).unwrap_or_else(|error| panic!("{path}: {error}"))
}

/// The expected lines of a program under `SECTION: NAME`, without the name.
pub fn expected(program: &str) -> HashMap<String, String> {
    let mut section = String::new();
    let mut lines = HashMap::new();
    for line in text(&format!("{program}/stdout")).lines() {
        match line.strip_prefix("- ") {
            Some(title) => section = title.to_string(),
            None => {
                let (name, rest) = line.split_once(':').unwrap_or((line, ""));
                lines.insert(format!("{section}: {name}"), rest.trim_start().to_string());
            }
        }
    }
    lines
}

/// A case of a script: its heading and name, its words with repeats written out, and the records of the dictionary that it stands over.
pub struct Case {
    pub section: String,
    pub name: String,
    pub words: Vec<String>,
    pub dictionary: String,
}

/// `{FIRST..LAST:TEXT}` is the text for each number from the first to the last, where `@` is the number and `<` the one before it.
fn repeated(line: &str) -> String {
    let Some((before, rest)) = line.split_once('{') else { return line.to_string() };
    let (inner, behind) = rest.split_once('}').expect("a repeat ends");
    let (range, text) = inner.split_once(':').expect("a repeat has a text");
    let (first, last) = range.split_once("..").expect("a repeat has numbers");
    let numbers = first.parse::<u32>().expect("a number")..=last.parse::<u32>().expect("a number");
    let texts: String = numbers.map(|n| text.replace('@', &n.to_string()).replace('<', &(n - 1).to_string())).collect();
    format!("{before}{texts}{}", repeated(behind))
}

/// The cases of a program's script.
pub fn cases(program: &str) -> Vec<Case> {
    let (mut section, mut dictionary, mut cases) = (String::new(), String::new(), Vec::new());
    for line in text(&format!("{program}/stdin")).lines().filter(|line| !line.is_empty() && !line.starts_with('#')) {
        if let Some(title) = line.strip_prefix("- ") {
            section = title.to_string();
        } else if let Some(records) = line.strip_prefix("*+") {
            dictionary.push_str(&repeated(records));
        } else if let Some(records) = line.strip_prefix('*') {
            dictionary = repeated(records);
        } else {
            let (name, words) = line.split_once(": ").expect("a name");
            let words = repeated(words).split_whitespace().map(str::to_string).collect();
            cases.push(Case { section: section.clone(), name: name.to_string(), words, dictionary: dictionary.clone() });
        }
    }
    cases
}

pub fn number<T>(answer: &Result<T, Error>) -> u32 {
    answer.as_ref().err().map_or(0, Error::number)
}

/// Bytes as the programs show them: `|` for 0x01, and `_` for a zero.
pub fn shown(bytes: &[u8]) -> String {
    String::from_utf8_lossy(bytes).replace('\x01', "|").replace('\0', "_")
}

/// The bytes of a text, `|` being the separator and `\` with two hexadecimal digits any byte.
pub fn spelled(text: &str, separator: u8) -> Vec<u8> {
    let mut pieces = text.split('\\');
    let plain = |text: &str| text.bytes().map(|byte| if byte == b'|' { separator } else { byte }).collect::<Vec<_>>();
    let mut bytes = plain(pieces.next().unwrap_or(""));
    for piece in pieces {
        bytes.push(u8::from_str_radix(&piece[..2], 16).expect("two hexadecimal digits"));
        bytes.extend(plain(&piece[2..]));
    }
    bytes
}

pub fn separated(text: &str) -> Vec<u8> {
    spelled(text, 1)
}

/// A message from its fields between BodyLength and CheckSum.
pub fn framed(fields: &[u8], separator: u8) -> Vec<u8> {
    let mut bytes = spelled(&format!("8=FIX.4.4|9={}|", fields.len()), separator);
    bytes.extend(fields);
    let sum = bytes.iter().fold(0u8, |sum, byte| sum.wrapping_add(*byte));
    bytes.extend(spelled(&format!("10={sum:03}|"), separator));
    bytes
}

pub fn whole(fields: &str) -> Vec<u8> {
    framed(&separated(fields), 1)
}

fn record(writer: DictionaryWriter, word: &str) -> Option<DictionaryWriter> {
    let rest = &word[1..];
    let number = || rest.parse().expect("a number");
    Some(match &word[..1] {
        "t" => writer.tags(&[number()]),
        "c" => writer.component(number() as u16),
        "m" => writer.message(rest),
        "f" => writer.field(number()),
        "F" => writer.required(number()),
        "g" => writer.group(number()),
        "G" => writer.required_group(number()),
        "i" | "I" => writer.items_of(number() as u16),
        "." => writer.close(),
        _ => return None,
    })
}

/// The dictionary of a script's records; nothing where it has bytes that the crate doesn't write.
pub fn dictionary(records: &str) -> Option<Result<Dictionary, Error>> {
    records.split_whitespace().try_fold(Dictionary::writer(), record).map(DictionaryWriter::finish)
}
