//! Our static library, called through its exports. The answers are made into lines here, so that all sides are compared alike.
use super::exports::*;
use super::forms::Forms;
use super::{Ours, Unlike};
use crate::maps::Row;
use crate::protocol::{KEPT, Reading, Request, Step, hex, rows_text};

/// A number that stands everywhere before a call: what isn't written shows.
pub const UNTOUCHED: u32 = 9;
const UNTOUCHED_RECORD: FieldRecord = FieldRecord { part: 9, depth: 9, entry: 9, tag: 9, place: 9, length: 9 };
const BLANK_RECORD: FieldRecord = FieldRecord { part: 0, depth: 0, entry: 0, tag: 0, place: 0, length: 0 };

/// A call on a message, with its four words, none of which it returns anything in.
fn changed(call: impl FnOnce(*mut Out) -> u32) -> u32 {
    let mut out = [UNTOUCHED; 4];
    let number = call(&mut out);
    assert_eq!(out, [0; 4], "the four words of a call with number {number}");
    number
}

pub struct Built {
    pub number: u32,
    pub out: Out,
    pub records: [FieldRecord; RECORDS],
}

impl Default for Built {
    fn default() -> Self {
        Self { number: 0, out: [UNTOUCHED; 4], records: [UNTOUCHED_RECORD; RECORDS] }
    }
}

impl Built {
    pub fn count(&self) -> usize {
        (self.out[0] as usize).min(RECORDS)
    }

    /// What is wrong with the records past the count, and with the four words, whatever was built.
    pub fn flaws(&self) -> String {
        let rest = if matches!(self.number, 20 | 22 | 23 | 27) { UNTOUCHED_RECORD } else { BLANK_RECORD };
        let past = if self.records[self.count()..].iter().any(|record| *record != rest) { " records past the count" } else { "" };
        format!("{past}{}", if self.out[3] != 0 { " a fourth word" } else { "" })
    }

    pub fn line(&self, message: &[u8]) -> String {
        let mut line = format!("{} {} {} {}", self.number, self.out[1], self.out[2], self.out[0]);
        for record in &self.records[..self.count()] {
            let (place, length) = (usize::from(record.place), usize::from(record.length));
            let value = message.get(place..place + length).map_or("?".to_string(), hex);
            line.push_str(&format!(" {}.{}.{}.{}.{value}", record.part, record.depth, record.entry, record.tag));
        }
        line + &self.flaws()
    }
}

pub fn build(dictionary: &[u8], reading: &Reading) -> Built {
    let mut built = Built::default();
    build_into(dictionary, reading, &mut built);
    built
}

pub fn build_into(dictionary: &[u8], reading: &Reading, built: &mut Built) {
    // SAFETY: each pointer goes with the length of what it comes from, and each array has its size; so in every call of this file.
    built.number = unsafe {
        gateway_build(
            reading.message.as_ptr(),
            reading.message.len(),
            reading.separator,
            reading.settings,
            dictionary.as_ptr(),
            dictionary.len(),
            built.records.as_mut_ptr(),
            RECORDS,
            &mut built.out,
        )
    };
}

/// The check alone: every build makes it again.
pub fn check(dictionary: &[u8]) -> (u32, Out) {
    let mut out = [UNTOUCHED; 4];
    // SAFETY: see `build`.
    let number = unsafe { gateway_check(dictionary.as_ptr(), dictionary.len(), &mut out) };
    (number, out)
}

/// A message made by calls, as it is lent, or a draft.
pub struct Lent {
    words: Vec<u32>,
    values: Vec<u8>,
}

/// A run made by calls: each entry is added, its fields are stored, and heads of one start tag that follow each other are a run of their own, hung in it.
fn draft(rows: &[Row], level: u32) -> Result<Lent, u32> {
    let mut lent = Lent::draft();
    let mut number = 0;
    let mut at = 0;
    while at < rows.len() && number == 0 {
        match &rows[at] {
            Row::Head(here, start, delimiter) if *here == level => {
                number = lent.add_entry(*start, *delimiter);
                at += 1;
            }
            Row::Field(_, tag, value) => {
                number = lent.store_last(*tag, value);
                at += 1;
            }
            Row::Head(_, first, _) => {
                let behind = |row: &Row| match row {
                    Row::Head(here, start, _) => *here > level + 1 || *here == level + 1 && start == first,
                    Row::Field(here, ..) => *here > level + 1,
                };
                let end = at + rows[at..].iter().take_while(|row| behind(row)).count();
                let run = draft(&rows[at..end], level + 1)?;
                let (words, values) = (lent.words.as_mut_ptr(), lent.values.as_mut_ptr());
                // SAFETY: see `build`.
                number = changed(|out| unsafe {
                    gateway_hang_last(words, WORDS, values, VALUES, run.words.as_ptr(), WORDS, run.values.as_ptr(), VALUES, out)
                });
                at = end;
            }
        }
    }
    if number == 0 { Ok(lent) } else { Err(number) }
}

impl Lent {
    /// An empty message.
    #[allow(clippy::new_without_default)]
    pub fn new() -> Self {
        let mut lent = Self { words: vec![UNTOUCHED; WORDS], values: vec![UNTOUCHED as u8; VALUES] };
        lent.empty();
        lent
    }

    /// A draft without any entry.
    pub fn draft() -> Self {
        let mut lent = Self { words: vec![0; WORDS], values: vec![0; VALUES] };
        // SAFETY: see `build`.
        let number = changed(|out| unsafe { gateway_draft(lent.words.as_mut_ptr(), WORDS, lent.values.as_mut_ptr(), VALUES, out) });
        assert_eq!(number, 0, "a draft");
        lent
    }

    pub fn add_entry(&mut self, start: u32, delimiter: u32) -> u32 {
        // SAFETY: see `build`.
        changed(|out| unsafe { gateway_add_entry(self.words.as_mut_ptr(), WORDS, self.values.as_mut_ptr(), VALUES, start, delimiter, out) })
    }

    pub fn store_last(&mut self, tag: u32, value: &[u8]) -> u32 {
        // SAFETY: see `build`.
        changed(|out| unsafe {
            gateway_store_last(self.words.as_mut_ptr(), WORDS, self.values.as_mut_ptr(), VALUES, tag, value.as_ptr(), value.len(), out)
        })
    }

    fn empty(&mut self) -> u32 {
        // SAFETY: see `build`.
        changed(|out| unsafe { gateway_empty(self.words.as_mut_ptr(), WORDS, self.values.as_mut_ptr(), VALUES, out) })
    }

    fn renew(&mut self, begin: &[u8], kind: &[u8]) -> u32 {
        let (words, values) = (self.words.as_mut_ptr(), self.values.as_mut_ptr());
        // SAFETY: see `build`.
        changed(|out| unsafe { gateway_new(words, WORDS, values, VALUES, begin.as_ptr(), begin.len(), kind.as_ptr(), kind.len(), out) })
    }

    pub fn store(&mut self, part: u8, tag: u32, value: &[u8]) -> u32 {
        // SAFETY: see `build`.
        changed(|out| unsafe {
            gateway_store(self.words.as_mut_ptr(), WORDS, self.values.as_mut_ptr(), VALUES, part, tag, value.as_ptr(), value.len(), out)
        })
    }

    pub fn remove(&mut self, part: u8, tag: u32) -> u32 {
        // SAFETY: see `build`.
        changed(|out| unsafe { gateway_remove(self.words.as_mut_ptr(), WORDS, self.values.as_mut_ptr(), VALUES, part, tag, out) })
    }

    /// The row of a part's map.
    pub fn find_part(&self, part: u8) -> Option<usize> {
        let mut out = [UNTOUCHED; 4];
        // SAFETY: see `build`.
        let number = unsafe { gateway_find_part(self.words.as_ptr(), WORDS, self.values.as_ptr(), VALUES, part, &mut out) };
        (number == 0 && out[0] == 1).then_some(out[1] as usize)
    }

    /// The place and length of a field's value in a map.
    pub fn find_field(&self, map: usize, tag: u32) -> Option<(u32, u32)> {
        let mut out = [UNTOUCHED; 4];
        // SAFETY: see `build`.
        let number = unsafe { gateway_find_field(self.words.as_ptr(), WORDS, self.values.as_ptr(), VALUES, map, tag, &mut out) };
        (number == 0 && out[0] == 1).then_some((out[1], out[2]))
    }

    pub fn take_over(&mut self, built: &Built, message: &[u8]) -> u32 {
        let (words, values) = (self.words.as_mut_ptr(), self.values.as_mut_ptr());
        // SAFETY: see `build`.
        changed(|out| unsafe {
            gateway_take_over(
                built.records.as_ptr(),
                RECORDS,
                built.out[0] as usize,
                message.as_ptr(),
                message.len(),
                words,
                WORDS,
                values,
                VALUES,
                out,
            )
        })
    }

    /// Makes a run and hangs it; a refusal on the way is the call's.
    fn hang(&mut self, part: u8, rows: &[Row]) -> u32 {
        match draft(rows, 0) {
            Ok(run) => self.hang_draft(part, &run),
            Err(number) => number,
        }
    }

    pub fn hang_draft(&mut self, part: u8, run: &Lent) -> u32 {
        // SAFETY: see `build`.
        changed(|out| unsafe {
            gateway_hang(
                self.words.as_mut_ptr(),
                WORDS,
                self.values.as_mut_ptr(),
                VALUES,
                part,
                run.words.as_ptr(),
                WORDS,
                run.values.as_ptr(),
                VALUES,
                out,
            )
        })
    }

    fn rows(&self) -> Vec<Row> {
        let mut at = 0;
        self.words[1..]
            .chunks_exact(4)
            .take(self.words[0] as usize)
            .map(|row| {
                if row[0] == 2 {
                    return Row::Head(row[1], row[2], row[3]);
                }
                let value = self.values[at..at + row[3] as usize].to_vec();
                at += row[3] as usize;
                Row::Field(row[1], row[2], value)
            })
            .collect()
    }

    /// The number and the four words.
    pub fn encode_into(&mut self, output: &mut [u8], separator: u8) -> (u32, Out) {
        let mut out = [UNTOUCHED; 4];
        let (words, values) = (self.words.as_mut_ptr(), self.values.as_mut_ptr());
        // SAFETY: see `build`.
        let number = unsafe { gateway_encode(words, WORDS, values, VALUES, output.as_mut_ptr(), output.len(), separator, &mut out) };
        (number, out)
    }

    /// The encoding, or the number that refuses it.
    pub fn encoded(&mut self, separator: u8) -> Result<Vec<u8>, u32> {
        let mut output = vec![0; OUTPUT];
        let (number, out) = self.encode_into(&mut output, separator);
        output.truncate(out[1] as usize);
        if number == 0 { Ok(output) } else { Err(number) }
    }

    fn encode(&mut self, separator: u8) -> String {
        let mut output = vec![UNTOUCHED as u8; OUTPUT];
        let (number, out) = self.encode_into(&mut output, separator);
        let length = (out[1] as usize).min(OUTPUT);
        let others = if [out[0], out[2], out[3]] == [0; 3] { "" } else { " other words" };
        let rest = if output[length..].iter().all(|byte| *byte == UNTOUCHED as u8) { "" } else { " bytes past the length" };
        if number > 0 {
            return format!("{number}{others}{rest}");
        }
        format!("0:{}:{}{others}{rest}", hex(&output[..length]), rows_text(&self.rows()))
    }

    /// The word of a step; nothing where there is no export for it.
    fn step(&mut self, step: &Step) -> Option<String> {
        let number = match step {
            Step::Empty => self.empty(),
            Step::New(begin, kind) => self.renew(begin, kind),
            Step::Store(part, tag, value) => self.store(*part, *tag, value),
            Step::Remove(part, tag) => self.remove(*part, *tag),
            Step::Run(part, rows) => self.hang(*part, rows),
            Step::Encode(separator) => return Some(self.encode(*separator)),
        };
        Some(number.to_string())
    }
}

fn again_line(built: &Built, reading: &Reading, second: u8) -> String {
    if built.number > 0 {
        return built.line(&reading.message);
    }
    let mut lent = Lent::new();
    match lent.take_over(built, &reading.message) {
        0 => lent.encode(second),
        number => format!("taken over: {number}"),
    }
}

fn chunk_word(state: &mut PortedState, store: &mut [u8], chunk: &[u8]) -> String {
    // SAFETY: see `build`.
    let pushed = changed(|out| unsafe { gateway_ported_push(state, store.as_mut_ptr(), store.len(), chunk.as_ptr(), chunk.len(), out) });
    if pushed > 0 {
        return format!("!{pushed}");
    }
    let mut words = vec![];
    loop {
        let (mut output, mut out) = (vec![0; OUTPUT], [UNTOUCHED; 4]);
        // SAFETY: see `build`.
        let number = unsafe { gateway_ported_take(state, store.as_mut_ptr(), store.len(), output.as_mut_ptr(), OUTPUT, &mut out) };
        if number > 0 {
            words.push(format!("!{number}"));
            break;
        }
        if out[1] == 0 {
            break;
        }
        words.push(hex(&output[..out[1] as usize]));
    }
    if words.is_empty() { "-".to_string() } else { words.join(",") }
}

pub struct Library {
    dictionaries: Vec<Vec<u8>>,
    forms: Forms,
}

impl Default for Library {
    fn default() -> Self {
        Self { dictionaries: vec![vec![]; KEPT], forms: Forms::default() }
    }
}

impl Library {
    /// The plain build, with which builds over a prepared dictionary are compared.
    fn build(&mut self, reading: &Reading) -> Built {
        let dictionary = &self.dictionaries[reading.dictionary];
        let built = build(dictionary, reading);
        self.forms.build(dictionary, reading, &built);
        built
    }
}

impl Ours for Library {
    fn ask(&mut self, _: &str) {}

    fn answer(&mut self, request: &Request) -> Option<String> {
        match request {
            Request::Dictionary(number, bytes) => {
                self.dictionaries[*number] = bytes.clone();
                let (answer, out) = check(bytes);
                self.forms.dictionary(*number, bytes, (answer, out));
                let others = if [out[0], out[2], out[3]] == [0; 3] { "" } else { " other words" };
                Some(format!("{answer} {}{others}", out[1]))
            }
            Request::Build(reading) => Some(self.build(reading).line(&reading.message)),
            Request::Again(reading, second) => Some(again_line(&self.build(reading), reading, *second)),
            Request::Calls(steps) => {
                let mut lent = Lent::new();
                let words: Option<Vec<String>> = steps.iter().map(|step| lent.step(step)).collect();
                words.map(|words| words.join(" "))
            }
            Request::Frames(chunks) => {
                let (mut state, mut store) = (PortedState::default(), vec![0; STORE]);
                Some(chunks.iter().map(|chunk| chunk_word(&mut state, &mut store, chunk)).collect::<Vec<_>>().join(" "))
            }
        }
    }

    fn unlike(&mut self) -> Vec<Unlike> {
        self.forms.unlike()
    }

    fn held(&self) -> Option<String> {
        Some(self.forms.held())
    }
}
