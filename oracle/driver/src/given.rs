//! The side of the Rust as it was given: its own builder, messages and framer, called in this process.
use std::panic::{AssertUnwindSafe, catch_unwind};
use std::sync::atomic::{AtomicBool, Ordering};

use hotfix::message::parser::Parser;
use hotfix_dictionary::Dictionary;
use hotfix_message::builder::MessageBuilder;
use hotfix_message::field_map::FieldMap;
use hotfix_message::message::{Config, Message};
use hotfix_message::parsed_message::{GarbledReason, InvalidReason, ParsedMessage};
use hotfix_message::{Part, RepeatingGroup, TagU32, open};

use crate::maps::{Entry, Map, Parts, Run, entries_of};
use crate::protocol::{Answer, KEPT, Reading, Request, Step, VALIDATE, hex, rows_text};

/// Whether the Rust is being asked: its panics are answers and print nothing.
static ASKING: AtomicBool = AtomicBool::new(false);

/// Flattening that visits more items than this is taken for one that never returns.
const FLATTENED_AT_MOST: u64 = 5_000_000;

/// One dictionary, and builders over it: `MessageBuilder` owns its setting, and its hash tables their order.
struct Kept {
    dictionary: Dictionary,
    header: Vec<u32>,
    siblings: Option<bool>,
    builders: Vec<(u8, bool, Vec<MessageBuilder>)>,
}

pub struct Given {
    kept: Vec<Option<Result<Kept, &'static str>>>,
    /// How often a build that answers 4 is built again, each time over hash tables in another order.
    pub orders: usize,
}

fn tag(number: u32) -> TagU32 {
    TagU32::new(number).expect("the Rust has no tag 0: such a request is answered without it")
}

fn map_of(fields: &FieldMap) -> Map {
    Map {
        fields: fields.fields.iter().map(|(tag, field)| (tag.get(), field.data.clone())).collect(),
        runs: fields
            .groups
            .iter()
            .map(|(start, entries)| Run {
                start: start.get(),
                entries: entries
                    .iter()
                    .map(|entry| Entry { start: start.get(), delimiter: open::delimiter_of(entry).get(), map: map_of(entry.get_fields()) })
                    .collect(),
            })
            .collect(),
    }
}

fn parts_of(message: &Message) -> Parts {
    Parts([1, 2, 3].map(|part| map_of(open::part(message, part))))
}

fn line(number: u32, first: u64, second: u64, parts: &Parts) -> String {
    let records = parts.records();
    let mut text = format!("{number} {first} {second} {}", records.len());
    for record in records {
        text.push(' ');
        text.push_str(&record);
    }
    text
}

fn config(separator: u8, validate: bool) -> Config {
    Config::with_separator(separator).validate_user_defined_fields(validate)
}

/// The Rust keeps no places: 01's place of MsgType is that of the last 35 among the fields up to the first that is no header tag.
fn place_of_msg_type(kept: &Kept, reading: &Reading) -> Option<usize> {
    let (mut at, mut found, mut index) = (0, None, 0);
    loop {
        let rest = &reading.message[at..];
        let equals = rest.iter().position(|byte| *byte == b'=')?;
        let length = rest[equals + 1..].iter().position(|byte| *byte == reading.separator)?;
        let tag: u32 = std::str::from_utf8(&rest[..equals]).ok()?.parse().ok()?;
        if index >= 3 && !kept.header.contains(&tag) {
            return found;
        }
        if tag == 35 && index >= 2 {
            found = Some(at + equals + 1);
        }
        at += equals + 1 + length + 1;
        index += 1;
    }
}

impl Kept {
    fn new(bytes: &[u8]) -> Result<Self, &'static str> {
        let dictionary = Dictionary::from_flat(bytes).ok_or("unreadable")?;
        if dictionary.flattening_cost().0 > FLATTENED_AT_MOST {
            return Err("never");
        }
        MessageBuilder::new(dictionary.clone(), config(1, true)).map_err(|_| "refused")?;
        let header = dictionary.header_tags();
        Ok(Self { dictionary, header, siblings: None, builders: vec![] })
    }

    fn builder(&mut self, separator: u8, validate: bool, order: usize) -> &MessageBuilder {
        let place = self.builders.iter().position(|kept| (kept.0, kept.1) == (separator, validate)).unwrap_or_else(|| {
            self.builders.push((separator, validate, vec![]));
            self.builders.len() - 1
        });
        while self.builders[place].2.len() <= order {
            let made = MessageBuilder::new(self.dictionary.clone(), config(separator, validate)).expect("it was made before");
            self.builders[place].2.push(made);
        }
        &self.builders[place].2[order]
    }

    fn build(&mut self, reading: &Reading, order: usize) -> ParsedMessage {
        self.builder(reading.separator, reading.settings & VALIDATE != 0, order).build(&reading.message)
    }

    /// The line of one build, its number, and the message where it is valid.
    fn answer(&mut self, reading: &Reading, order: usize) -> (String, u32, Option<Message>) {
        let (number, first, second, message) = match self.build(reading, order) {
            ParsedMessage::Valid(message) => (0, 0, 0, message),
            ParsedMessage::Invalid { message, reason } => {
                let (number, first, second) = match reason {
                    InvalidReason::InvalidField(tag) => (1, u64::from(tag), 0),
                    InvalidReason::InvalidOrderInGroup { tag, group_tag } => (2, u64::from(tag), u64::from(group_tag)),
                    InvalidReason::InvalidMsgType(text) => {
                        let place = place_of_msg_type(self, reading).filter(|p| reading.message[*p..].starts_with(text.as_bytes()));
                        let Some(place) = place else { return (format!("3 ? {}", text.len()), 3, None) };
                        (3, place as u64, text.len() as u64)
                    }
                    InvalidReason::RequiredFieldMissing { tag, group_tag } => (4, u64::from(tag), u64::from(group_tag.unwrap_or(0))),
                    InvalidReason::InvalidGroup(_) | InvalidReason::InvalidComponent(_) => return ("unforeseen".to_string(), 99, None),
                };
                (number, first, second, message)
            }
            ParsedMessage::Garbled(reason) => {
                let number = match reason {
                    GarbledReason::Malformed => 10,
                    GarbledReason::InvalidBeginString => 11,
                    GarbledReason::InvalidBodyLength => 12,
                    GarbledReason::InvalidMsgType => 13,
                    GarbledReason::InvalidChecksum => 14,
                };
                return (format!("{number} 0 0 0"), number, None);
            }
            ParsedMessage::UnexpectedError(_) => return ("unforeseen".to_string(), 99, None),
        };
        (line(number, first, second, &parts_of(&message)), number, (number == 0).then_some(message))
    }
}

fn repeating_group(entry: &Entry) -> Option<RepeatingGroup> {
    let mut group = open::entry(tag(entry.start), tag(entry.delimiter));
    for (number, value) in &entry.map.fields {
        group.store_field(hotfix_message::field_map::Field::new(tag(*number), value.clone()));
    }
    for run in &entry.map.runs {
        let entries = run.entries.iter().map(repeating_group).collect::<Option<Vec<_>>>()?;
        group.set_groups(entries).ok()?;
    }
    Some(group)
}

fn has_tag_zero(entry: &Entry) -> bool {
    entry.start == 0
        || entry.delimiter == 0
        || entry.map.fields.iter().any(|field| field.0 == 0)
        || entry.map.runs.iter().any(|run| run.entries.iter().any(has_tag_zero))
}

fn encode(message: &mut Message, separator: u8) -> String {
    match message.encode(&Config::with_separator(separator)) {
        Ok(bytes) => format!("0:{}:{}", hex(&bytes), rows_text(&parts_of(message).rows())),
        Err(_) => "unforeseen".to_string(),
    }
}

/// One step's answer. Tag 0 can't be handed to the Rust: `notag`.
fn step(message: &mut Message, step: &Step) -> String {
    match step {
        Step::Empty => *message = open::empty(),
        Step::New(begin, kind) => {
            let (Ok(begin), Ok(kind)) = (std::str::from_utf8(begin), std::str::from_utf8(kind)) else { return "notext".to_string() };
            *message = Message::new(begin, kind);
        }
        Step::Store(_, 0, _) | Step::Remove(_, 0) => return "notag".to_string(),
        Step::Store(part, number, value) => open::store(message, *part, tag(*number), value),
        Step::Remove(part, number) => open::remove(message, *part, tag(*number)),
        Step::Run(part, rows) => {
            let Some(entries) = entries_of(rows, 0) else { return "norows".to_string() };
            if entries.iter().any(has_tag_zero) {
                return "notag".to_string();
            }
            let groups = entries.iter().map(repeating_group).collect::<Option<Vec<_>>>();
            if !groups.is_some_and(|groups| open::hang(message, *part, groups)) {
                return "42".to_string();
            }
        }
        Step::Encode(separator) => return encode(message, *separator),
    }
    "0".to_string()
}

/// Whether the Rust would go round for ever: a length that wraps so that the message ends where it starts.
/// It follows the stream with its own sums, since the Rust can't be stopped once it is called.
fn never_ends(held: &mut Vec<u8>, chunk: &[u8]) -> bool {
    held.extend_from_slice(chunk);
    while let Some(end) = announced(held) {
        if end == 0 {
            return true;
        }
        if end > held.len() as u64 {
            return false;
        }
        held.drain(..end as usize);
    }
    false
}

fn announced(held: &[u8]) -> Option<u64> {
    let find = |from: usize, byte: u8| held[from..].iter().position(|b| *b == byte).map(|p| from + p);
    let first = find(find(0, b'=')? + 1, 1)?;
    let start = find(first + 1, b'=')? + 1;
    let end = find(start, 1)?;
    let length = held[start..end].iter().fold(0u64, |n, byte| n.wrapping_mul(10).wrapping_add(u64::from(byte.wrapping_sub(48))));
    Some((end as u64 + 8).wrapping_add(length))
}

fn frames(chunks: &[Vec<u8>]) -> String {
    let (mut parser, mut held) = (Parser::default(), vec![]);
    let mut words = vec![];
    for chunk in chunks {
        if never_ends(&mut held, chunk) {
            words.push("never".to_string());
            break;
        }
        let frames: Vec<String> = parser.parse(chunk).iter().map(|frame| hex(frame.as_bytes())).collect();
        words.push(if frames.is_empty() { "-".to_string() } else { frames.join(",") });
    }
    words.join(" ")
}

impl Default for Given {
    fn default() -> Self {
        let told = std::panic::take_hook();
        std::panic::set_hook(Box::new(move |panic| {
            if !ASKING.load(Ordering::Relaxed) {
                told(panic);
            }
        }));
        Self { kept: (0..KEPT).map(|_| None).collect(), orders: 8 }
    }
}

impl Given {
    pub fn answer(&mut self, request: &Request) -> Answer {
        ASKING.store(true, Ordering::Relaxed);
        let answer = catch_unwind(AssertUnwindSafe(|| self.answer_or_panic(request)));
        ASKING.store(false, Ordering::Relaxed);
        answer.unwrap_or_else(|_| Answer { line: "panic".to_string(), ..Answer::default() })
    }

    fn answer_or_panic(&mut self, request: &Request) -> Answer {
        match request {
            Request::Dictionary(number, bytes) => {
                let kept = Kept::new(bytes);
                let line = kept.as_ref().err().map_or("0 0", |reason| reason).to_string();
                self.kept[*number] = Some(kept);
                Answer { line, others: vec![], number: Some(0) }
            }
            Request::Build(reading) => match self.kept(reading) {
                Err(line) => Answer { line, ..Answer::default() },
                Ok(kept) => {
                    let (line, number, _) = kept.answer(reading, 0);
                    self.with_others(reading, Answer::plain(line, number))
                }
            },
            Request::Again(reading, second) => match self.kept(reading) {
                Err(line) => Answer { line, ..Answer::default() },
                Ok(kept) => match kept.answer(reading, 0) {
                    (_, _, Some(mut message)) => Answer::plain(encode(&mut message, *second), 0),
                    (line, number, None) => self.with_others(reading, Answer::plain(line, number)),
                },
            },
            Request::Calls(steps) => {
                let mut message = open::empty();
                let words: Vec<String> = steps.iter().map(|s| step(&mut message, s)).collect();
                Answer::plain(words.join(" "), 0)
            }
            Request::Frames(chunks) => Answer { line: frames(chunks), ..Answer::default() },
        }
    }

    fn kept(&mut self, reading: &Reading) -> Result<&mut Kept, String> {
        match &mut self.kept[reading.dictionary] {
            Some(Ok(kept)) => Ok(kept),
            Some(Err(reason)) => Err(reason.to_string()),
            None => Err("nodictionary".to_string()),
        }
    }

    /// Builds alone, for `timed`: whether there was a builder.
    pub fn build_only(&mut self, reading: &Reading) -> bool {
        self.kept(reading).is_ok_and(|kept| {
            std::hint::black_box(kept.build(reading, 0));
            true
        })
    }

    /// "When two nested groups of one entry both lack a field, the Rust reports either": a 4 is built again in other hash orders.
    fn with_others(&mut self, reading: &Reading, mut answer: Answer) -> Answer {
        if answer.number == Some(4) {
            answer.others = self.other_orders(reading, &answer.line, self.orders);
        }
        answer
    }

    pub fn other_orders(&mut self, reading: &Reading, line: &str, orders: usize) -> Vec<String> {
        let Ok(kept) = self.kept(reading) else { return vec![] };
        let dictionary = &kept.dictionary;
        if !*kept.siblings.get_or_insert_with(|| dictionary.has_sibling_groups()) {
            return vec![];
        }
        let mut others: Vec<String> = (1..=orders).map(|order| kept.answer(reading, order).0).filter(|other| other != line).collect();
        others.sort();
        others.dedup();
        others
    }
}
