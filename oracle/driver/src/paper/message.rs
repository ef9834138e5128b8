//! Modules 2 and 7: messages made by calls, and encoding.
use super::Ruling;
use crate::maps::{Entry, Map, Parts, entries_of};
use crate::protocol::{Answer, Step, hex, rows_text};

const FIELDS_AT_MOST: usize = 1_024;
const BYTES_AT_MOST: usize = 8_192;

/// Stored fields; an entry without any counts as one.
fn fields_in(map: &Map) -> usize {
    let entries = map.runs.iter().flat_map(|run| &run.entries);
    map.fields.len() + entries.map(|entry| fields_in(&entry.map) + usize::from(entry.map.fields.is_empty())).sum::<usize>()
}

fn values_in(map: &Map) -> usize {
    let entries = map.runs.iter().flat_map(|run| &run.entries);
    map.fields.iter().map(|field| field.1.len()).sum::<usize>() + entries.map(|entry| values_in(&entry.map)).sum::<usize>()
}

fn total(parts: &Parts, of: fn(&Map) -> usize) -> usize {
    parts.0.iter().map(of).sum()
}

fn has_tag_zero(entry: &Entry) -> bool {
    entry.start == 0
        || entry.delimiter == 0
        || entry.map.fields.iter().any(|field| field.0 == 0)
        || entry.map.runs.iter().any(|run| run.entries.iter().any(has_tag_zero))
}

/// "run empty, or of mixed start or delimiter tags", at any depth
fn is_run(entries: &[Entry]) -> bool {
    let Some(first) = entries.first() else { return false };
    entries
        .iter()
        .all(|entry| (entry.start, entry.delimiter) == (first.start, first.delimiter) && entry.map.runs.iter().all(|run| is_run(&run.entries)))
}

/// Whether every run of a map, and of the entries in it, has its count field.
fn has_counts(map: &Map) -> bool {
    map.runs.iter().all(|run| map.get(run.start).is_some() && run.entries.iter().all(|entry| has_counts(&entry.map)))
}

/// "the total of (tag digits + value + 2) over all fields and entries"
fn length_of(map: &Map) -> usize {
    let fields: usize = map.fields.iter().map(|field| field.0.to_string().len() + field.1.len() + 2).sum();
    fields + map.runs.iter().flat_map(|run| &run.entries).map(|entry| length_of(&entry.map)).sum::<usize>()
}

fn write(map: &Map, first: &[u32], separator: u8, out: &mut Vec<u8>) {
    let front = first.iter().filter_map(|tag| map.fields.iter().find(|field| field.0 == *tag));
    let rest = map.fields.iter().filter(|field| !first.contains(&field.0));
    for (tag, value) in front.chain(rest) {
        out.extend_from_slice(tag.to_string().as_bytes());
        out.push(b'=');
        out.extend_from_slice(value);
        out.push(separator);
        for entry in map.run(*tag).iter().flat_map(|run| &run.entries) {
            write(&entry.map, &[], separator, out);
        }
    }
}

/// "Encode: 22, 43, 20, 21, 23." The word of the answer and its number; the message is changed only with 0.
pub fn encode(parts: &mut Parts, separator: u8) -> (String, u32) {
    let refused = |number: u32| (number.to_string(), number);
    if separator == b'=' || separator.is_ascii_digit() {
        return refused(22);
    }
    let mut made = parts.clone();
    made.0[2].fields.retain(|field| field.0 != 10);
    let header = &made.0[0];
    if !made.0.iter().all(has_counts) || header.get(8).is_none() || header.get(35).is_none() {
        return refused(43);
    }
    let left_out: usize = [8, 9].iter().filter_map(|tag| header.get(*tag)).map(|value| value.len() + 3).sum();
    let body_length = total(&made, length_of) - left_out;
    made.0[0].store(9, body_length.to_string().into_bytes());
    let mut bytes = vec![];
    write(&made.0[0], &[8, 9, 35], separator, &mut bytes);
    write(&made.0[1], &[], separator, &mut bytes);
    write(&made.0[2], &[], separator, &mut bytes);
    let sum = format!("{:03}", bytes.iter().map(|byte| u32::from(*byte)).sum::<u32>() % 256);
    bytes.extend_from_slice(format!("10={sum}").as_bytes());
    bytes.push(separator);
    made.0[2].store(10, sum.into_bytes());
    if bytes.len() > BYTES_AT_MOST {
        return refused(20);
    }
    if total(&made, fields_in) > FIELDS_AT_MOST {
        return refused(21);
    }
    *parts = made;
    (format!("0:{}:{}", hex(&bytes), rows_text(&parts.rows())), 0)
}

/// "Store, judged by what it would leave: 41, 42, 21."
fn judged(made: &Parts, no_tag: bool, no_run: bool) -> u32 {
    if no_tag || total(made, values_in) > BYTES_AT_MOST {
        return 41;
    }
    if no_run {
        return 42;
    }
    if total(made, fields_in) > FIELDS_AT_MOST { 21 } else { 0 }
}

fn store(parts: &mut Parts, part: u8, tag: u32, value: &[u8]) -> u32 {
    let place = usize::from(part) - 1;
    let held = parts.0[place].get(tag).cloned();
    parts.0[place].store(tag, value.to_vec());
    let number = judged(parts, tag == 0, false);
    match held {
        _ if number == 0 => {}
        Some(before) => parts.0[place].store(tag, before),
        None => drop(parts.0[place].fields.pop()),
    }
    number
}

fn hang(parts: &mut Parts, part: u8, entries: Vec<Entry>) -> u32 {
    let (no_tag, no_run) = (entries.iter().any(has_tag_zero), !is_run(&entries));
    let mut made = parts.clone();
    if let Some(start) = entries.first().map(|entry| entry.start) {
        made.0[usize::from(part) - 1].hang(start, entries);
    }
    let number = judged(&made, no_tag, no_run);
    if number == 0 {
        *parts = made;
    }
    number
}

fn step(parts: &mut Parts, step: &Step) -> (String, u32) {
    let number = match step {
        Step::Empty => {
            *parts = Parts::default();
            0
        }
        Step::New(begin, kind) => {
            *parts = Parts::default();
            let numbers = [store(parts, 1, 8, begin), store(parts, 1, 35, kind)];
            numbers.into_iter().find(|number| *number > 0).unwrap_or(0)
        }
        Step::Store(part, tag, value) => store(parts, *part, *tag, value),
        Step::Remove(part, tag) => {
            parts.0[usize::from(*part) - 1].fields.retain(|field| field.0 != *tag);
            0
        }
        Step::Run(part, rows) => match entries_of(rows, 0) {
            Some(entries) => hang(parts, *part, entries),
            None => return ("norows".to_string(), 27),
        },
        Step::Encode(separator) => return encode(parts, *separator),
    };
    (number.to_string(), number)
}

/// A run that is refused (42) is refused by the Rust too; every other refusal is outside of the domain.
pub fn calls(steps: &[Step]) -> Ruling {
    let mut parts = Parts::default();
    let (mut words, mut last, mut outside) = (vec![], 0, None);
    for each in steps {
        let (word, number) = step(&mut parts, each);
        if number >= 20 && number != 42 {
            outside = Some("a refused call");
        }
        words.push(word);
        last = number;
    }
    Ruling { answer: Answer::plain(words.join(" "), last), outside }
}
