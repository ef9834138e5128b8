//! The marks of a request: what stands in it, and what it was answered. A mark is a text; requests with the same marks show the same.
use std::collections::BTreeSet;

use crate::maps::Row;
use crate::protocol::{Reading, Request, Step, VALIDATE};

pub fn marks_of(request: &Request, dictionary: &[u8], line: &str, either: bool) -> BTreeSet<String> {
    match request {
        Request::Dictionary(..) => BTreeSet::new(),
        Request::Build(reading) => reading_marks("build", reading, dictionary, line, either),
        Request::Again(reading, second) => {
            let mut marks = reading_marks("again", reading, dictionary, line, either);
            marks.insert(format!("again with {}", if *second == reading.separator { "the same" } else { "another" }));
            marks
        }
        Request::Calls(steps) => calls_marks(steps, line),
        Request::Frames(chunks) => frames_marks(chunks, line),
    }
}

/// Tag text and value of each field that can be read in sequence.
fn fields_of(reading: &Reading) -> Vec<(Vec<u8>, Vec<u8>)> {
    let (mut fields, mut at) = (vec![], 0);
    while let Some(equals) = reading.message[at..].iter().position(|byte| *byte == b'=').map(|place| at + place) {
        let Some(end) = reading.message[equals..].iter().position(|byte| *byte == reading.separator).map(|place| equals + place) else { break };
        fields.push((reading.message[at..equals].to_vec(), reading.message[equals + 1..end].to_vec()));
        at = end + 1;
    }
    fields
}

fn number_of(text: &[u8]) -> u64 {
    std::str::from_utf8(text).ok().and_then(|text| text.parse().ok()).unwrap_or(0)
}

fn leads_with_zero(text: &[u8]) -> bool {
    text.len() > 1 && text[0] == b'0'
}

fn some(count: usize) -> &'static str {
    ["none", "one", "two", "more"][count.min(3)]
}

fn reading_marks(kind: &str, reading: &Reading, dictionary: &[u8], line: &str, either: bool) -> BTreeSet<String> {
    let words: Vec<&str> = line.split([' ', ':']).collect();
    let (number, fields) = (words[0], fields_of(reading));
    let mut seen = in_fields(&fields);
    seen.extend(refusals(number, &words, reading, &fields));
    seen.extend(in_dictionary(dictionary));
    seen.push(if reading.separator == 1 { "0x01" } else { "another separator" }.to_string());
    let validated = if reading.settings & VALIDATE != 0 { "validated" } else { "not validated" };
    seen.push(validated.to_string());
    if either {
        seen.push("either by hash order".to_string());
    }
    if kind == "build" && number == "0" {
        let depth = words.iter().skip(4).filter_map(|record| record.split('.').nth(1)?.parse::<usize>().ok()).max();
        seen.push(format!("groups {} deep, {validated}", depth.unwrap_or(0)));
        let trailer = words.iter().filter(|record| record.starts_with("3.")).count();
        seen.push(format!("trailer fields {}", some(trailer)));
    }
    seen.into_iter().map(|mark| format!("{kind} {number}: {mark}")).collect()
}

fn in_fields(fields: &[(Vec<u8>, Vec<u8>)]) -> Vec<String> {
    let mut seen = vec![];
    let tags: Vec<u64> = fields.iter().map(|field| number_of(&field.0)).collect();
    let count = |tag: u64| tags.iter().filter(|held| **held == tag).count();
    let mut note = |holds: bool, mark: &str| {
        if holds {
            seen.push(mark.to_string());
        }
    };
    note(fields.iter().any(|field| leads_with_zero(&field.0)), "a tag with a leading zero");
    note(fields.get(1).is_some_and(|field| leads_with_zero(&field.1)), "a BodyLength with a leading zero");
    note(fields.iter().any(|field| field.1.is_empty()), "an empty value");
    note(fields.iter().any(|field| field.1.contains(&b'=')), "a value with =");
    note(count(35) > 1, "MsgType twice");
    note(count(9) > 1, "BodyLength twice");
    note(count(10) > 1, "CheckSum twice");
    note(tags.last().is_some_and(|tag| *tag != 10), "fields behind the CheckSum, or none");
    note(tags.iter().any(|tag| ![8, 9, 10, 35].contains(tag) && count(*tag) > 1), "a tag twice");
    note(tags.iter().any(|tag| *tag >= 5_000), "a user tag");
    note(tags.contains(&u64::from(u32::MAX)), "the highest tag");
    if let Some((_, sum)) = fields.iter().rev().find(|field| number_of(&field.0) == 10) {
        let digits = sum.iter().all(u8::is_ascii_digit);
        seen.push(format!("a CheckSum of {} bytes, {}", sum.len().min(5), if digits { "digits" } else { "others" }));
    }
    seen
}

/// Which of the ways to an answer was taken, as far as the message shows it.
fn refusals(number: &str, words: &[&str], reading: &Reading, fields: &[(Vec<u8>, Vec<u8>)]) -> Vec<String> {
    let tag_at = |place: usize| fields.get(place).map(|field| number_of(&field.0));
    let (first, second) = (words.get(1).map_or(0, |word| number_of(word.as_bytes())), words.get(2).map_or(0, |word| number_of(word.as_bytes())));
    let places = |tag: u64| (0..fields.len()).filter(move |place| tag_at(*place) == Some(tag)).collect::<Vec<_>>();
    let behind_count = places(first).iter().any(|place| *place > 0 && tag_at(place - 1) == Some(second));
    match number {
        "1" => vec![format!("tag {} of {}", if first < 5_000 { "below 5000" } else { "of users" }, some(places(first).len()))],
        "2" => vec![format!("{}, group tag {}", if behind_count { "behind the count" } else { "in an entry" }, some(places(second).len()))],
        "3" => vec![format!("length {}", second.min(9))],
        "4" => vec![format!("field {}, group {}", some(places(first).len()), some(places(second).len()))],
        "10" => vec![format!("after {} fields", fields.len().min(12))],
        "11" => vec![format!("first tag {:?}", tag_at(0).map(|tag| tag.min(9)))],
        "12" => {
            let digits = fields.get(1).is_some_and(|field| !field.1.is_empty() && field.1.iter().all(u8::is_ascii_digit));
            vec![format!("second tag {:?}, digits {digits}", tag_at(1).map(|tag| tag.min(9)))]
        }
        "13" => vec![format!("third tag {:?}", tag_at(2).map(|tag| tag.min(9)))],
        "14" => {
            let place = reading.message.len().saturating_sub(7);
            let stands = reading.message[place..].windows(3).next() == Some(b"10=".as_slice());
            vec![format!("10= at its place: {stands}")]
        }
        _ => vec![],
    }
}

/// What the flat records of a dictionary have.
fn in_dictionary(bytes: &[u8]) -> Vec<String> {
    let (mut at, mut depth, mut deepest, mut before) = (0, 0usize, 0, 0);
    let mut seen = BTreeSet::new();
    let mut items: Vec<BTreeSet<&[u8]>> = vec![];
    while let Some(kind) = bytes.get(at).copied() {
        let size = [0, 4, 2, 8, 5, 3, 5, 0][usize::from(kind.min(7))];
        match kind {
            2 | 3 | 6 => items.push(BTreeSet::new()),
            7 => drop(items.pop()),
            _ => {}
        }
        let level = items.len().saturating_sub(usize::from(kind == 6) + 1);
        if let (4 | 6, Some(held)) = (kind, items.get_mut(level))
            && !held.insert(&bytes[at + 1..at + 5])
        {
            seen.insert("a tag twice in a layout".to_string());
        }
        if kind == 6 && before == 6 {
            seen.insert("a group's tag as delimiter".to_string());
        }
        if kind == 5 {
            seen.insert(format!("a component {}", if items.len() > 1 { "in a group" } else { "in a layout" }));
        }
        depth = items.len();
        deepest = deepest.max(depth);
        before = kind;
        at += 1 + size;
    }
    seen.insert(format!("a layout {} deep", deepest.saturating_sub(1) + depth));
    seen.into_iter().collect()
}

fn depth_of(rows: &[Row]) -> u32 {
    rows.iter().map(|row| if let Row::Head(level, ..) = row { level + 1 } else { 0 }).max().unwrap_or(0)
}

fn calls_marks(steps: &[Step], line: &str) -> BTreeSet<String> {
    let mut marks = BTreeSet::new();
    let mut stored: BTreeSet<(u8, u32)> = BTreeSet::new();
    let mut hung: BTreeSet<(u8, u32)> = BTreeSet::new();
    let (mut encoded, mut removed) = (0, false);
    for (step, word) in steps.iter().zip(line.split(' ')) {
        let number = word.split(':').next().unwrap_or_default();
        let mark = match step {
            Step::Empty => "empty".to_string(),
            Step::New(begin, kind) => format!("new {} {}", begin.is_empty(), kind.is_empty()),
            Step::Store(part, tag, value) => {
                let again = !stored.insert((*part, *tag));
                if [8, 9, 10, 35, u32::MAX].contains(tag) {
                    marks.insert(format!("store {tag} in {part}, again {again}: {number}"));
                }
                format!("store in {part}, again {again}, value {}, after removing {removed}", some(value.len().min(1)))
            }
            Step::Remove(part, tag) => {
                removed = true;
                format!("remove from {part}, held {}, with a run {}", stored.remove(&(*part, *tag)), hung.contains(&(*part, *tag)))
            }
            Step::Run(part, rows) => {
                let start = if let Some(Row::Head(_, start, _)) = rows.first() { *start } else { 0 };
                let entries = rows.iter().filter(|row| matches!(row, Row::Head(0, ..))).count();
                let bare = rows.windows(2).any(|pair| matches!(pair, [Row::Head(..), Row::Head(..)]));
                let again = number == "0" && !hung.insert((*part, start));
                let counted = stored.contains(&(*part, start));
                marks.insert(format!("run in {part}, again {again}, counted {counted}: {number}"));
                format!("run {} deep, entries {}, bare {bare}: {number}", depth_of(rows), some(entries))
            }
            Step::Encode(separator) => {
                encoded += 1;
                format!("encode {}, separator {}", some(encoded), *separator == 1)
            }
        };
        marks.insert(format!("{mark}: {number}"));
    }
    marks
}

fn frames_marks(chunks: &[Vec<u8>], line: &str) -> BTreeSet<String> {
    let stream = chunks.concat();
    let frames: usize = line.split(' ').filter(|word| *word != "-").map(|word| word.split(',').count()).sum();
    let at_once = line.split(' ').filter(|word| *word != "-").map(|word| word.split(',').count()).max().unwrap_or(0);
    let bytewise = chunks.iter().all(|chunk| chunk.len() <= 1);
    let mut seen = vec![
        format!("chunks {}, bytewise {bytewise}, frames {}", some(chunks.len()), some(frames)),
        format!("frames at once {}", some(at_once)),
        format!("an empty chunk {}", chunks.iter().any(Vec::is_empty)),
    ];
    for text in ["=/\x01", "=:\x01", "=1x\x01", "=-5\x01", "=+5\x01", "=\x01", "=000", "=1844674407370955", "junk", "x=y=z"] {
        if stream.windows(text.len()).any(|window| window == text.as_bytes()) {
            seen.push(format!("{text:?}, frames {}", some(frames)));
        }
    }
    seen.into_iter().map(|mark| format!("frames: {mark}")).collect()
}
