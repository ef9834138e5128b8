//! builds [DICTIONARY [KINDS FLOW]]: builds of the same messages in one process: ours plain, ours over a dictionary that is prepared with its tables
//! and in the least memory, and the Rust's, whose dictionary is prepared in its builder. DICTIONARY (flat records) and KINDS, FLOW (a message a line, in
//! hexadecimal) take the place of the messages made in ../messages/sent.rs; DICTIONARY alone is measured without messages.
#[allow(dead_code)]
#[path = "../messages/sent.rs"]
mod sent;

use std::hint::black_box;

use driver::ours::library::{Built, build_into, check};
use driver::ours::prepared::{PREPARED_WORDS, Prepared};
use driver::protocol::{Reading, VALIDATE, unhex};
use driver::used;
use hotfix_dictionary::Dictionary;
use hotfix_message::builder::MessageBuilder;
use hotfix_message::message::Config;
use hotfix_message::parsed_message::ParsedMessage;
use sent::Sent;

const SEPARATOR: u8 = 1;
/// Words of memory that hold the tables of FIX 4.4 and of FIX 5.0 SP1 whole.
const ROOM: usize = 524_288;
/// As many known tags as a dictionary can have beside its header and its trailer, and what the tags of one tree have in common.
const MOST_TAGS: u32 = 11_998;
const REMAINDERS: u32 = 2_048;
/// The shortest of some rounds, each at least this many nanoseconds long; what is compared is timed in turn in each.
const ROUNDS: usize = 7;
const ROUND: f64 = 2e7;

/// Nanoseconds of one call of each work, many in a row.
fn timed<const N: usize>(mut works: [&mut dyn FnMut(); N]) -> [f64; N] {
    let round = |work: &mut dyn FnMut(), times: u32| {
        let start = used();
        (0..times).for_each(|_| work());
        (used() - start).as_secs_f64() * 1e9
    };
    let mut times = [1u32; N];
    for (work, times) in works.iter_mut().zip(&mut times) {
        while round(work, *times) < ROUND {
            *times *= 2;
        }
    }
    let mut best = [f64::MAX; N];
    for _ in 0..ROUNDS {
        for (i, work) in works.iter_mut().enumerate() {
            best[i] = best[i].min(round(work, times[i]) / f64::from(times[i]));
        }
    }
    best
}

/// One dictionary on all sides.
struct Sides {
    flat: Vec<u8>,
    /// With its tables, and without any.
    prepared: Prepared,
    least: Prepared,
    dictionary: Dictionary,
    builder: MessageBuilder,
}

fn builder(dictionary: &Dictionary) -> MessageBuilder {
    let config = Config::with_separator(SEPARATOR).validate_user_defined_fields(true);
    MessageBuilder::new(dictionary.clone(), config).expect("a dictionary with a header and a trailer")
}

fn prepared(flat: &[u8], words: usize) -> Prepared {
    let mut room = Prepared::room(flat.len(), words - PREPARED_WORDS);
    assert_eq!(room.prepare(flat).0, 0, "the dictionary is prepared");
    room
}

/// A dictionary of known tags alone, as many as there can be, so far apart.
fn tags(apart: u32) -> Vec<u8> {
    let known = (0..MOST_TAGS).flat_map(|i| [&[1], &(1 + apart * i).to_le_bytes()[..]].concat());
    known.chain([2, 0, 0, 7, 2, 1, 0, 7]).collect()
}

/// What the check costs where the tags are written against the index, so that all stand in one tree of it.
fn against_the_index() {
    let [usual, against] = [1, REMAINDERS].map(tags);
    assert!([&usual, &against].iter().all(|flat| check(flat).0 == 0), "the dictionaries pass their check");
    let [beside, shared] = timed([&mut || _ = black_box(check(&usual)), &mut || _ = black_box(check(&against))]);
    println!(
        "check of {MOST_TAGS} known tags in {} bytes, ns a call: tags one after the other {beside:.0}, of one remainder by {REMAINDERS} {shared:.0}",
        usual.len()
    );
}

impl Sides {
    fn new(flat: Vec<u8>) -> Self {
        let dictionary = Dictionary::from_flat(&flat).expect("a flat dictionary");
        let [prepared, least] = [ROOM, PREPARED_WORDS].map(|words| prepared(&flat, words));
        Self { builder: builder(&dictionary), dictionary, prepared, least, flat }
    }

    /// What a dictionary costs before the first message.
    fn dictionary(&self) {
        let (mut room, mut least) = (self.prepared.clone(), self.least.clone());
        let [checked, prepared, bare, cloned, made] = timed([
            &mut || _ = black_box(check(&self.flat)),
            &mut || _ = black_box(room.prepare(&self.flat)),
            &mut || _ = black_box(least.prepare(&self.flat)),
            &mut || _ = black_box(self.dictionary.clone()),
            &mut || _ = black_box(builder(&self.dictionary)),
        ]);
        println!(
            "dictionary of {} bytes, ns a call: check {checked:.0}, prepare with tables {prepared:.0}, in the least memory {bare:.0}; the Rust's builder \
             {:.0}",
            self.flat.len(),
            made - cloned
        );
        let used = self.prepared.used();
        println!("words of memory used: {used} of {ROOM}, of them directory and tables {}", used - PREPARED_WORDS);
    }

    /// A message that all build, and our forms alike.
    fn reading(&self, sent: &Sent) -> Reading {
        let reading = Reading { dictionary: 0, separator: SEPARATOR, settings: VALIDATE, message: sent.bytes.clone() };
        let mut plain = Built::default();
        build_into(&self.flat, &reading, &mut plain);
        let text = String::from_utf8_lossy(&sent.bytes);
        for over in [&self.prepared, &self.least].map(|prepared| prepared.build(&reading)) {
            assert!(plain.number == 0 && over.number == 0, "our builds of {text}");
            assert!(plain.out == over.out && plain.records == over.records, "our builds of {text} are alike");
        }
        assert!(matches!(self.builder.build(&sent.bytes), ParsedMessage::Valid(_)), "the Rust's build of {text}");
        reading
    }

    /// Nanoseconds a message: plain, over the dictionary with its tables, in the least memory, the Rust's.
    fn builds(&self, readings: &[Reading]) -> [f64; 4] {
        let (mut plain, mut over, mut bare) = (Built::default(), Built::default(), Built::default());
        let spent = timed([
            &mut || readings.iter().for_each(|reading| build_into(black_box(&self.flat), reading, &mut plain)),
            &mut || readings.iter().for_each(|reading| black_box(&self.prepared).build_into(reading, &mut over)),
            &mut || readings.iter().for_each(|reading| black_box(&self.least).build_into(reading, &mut bare)),
            &mut || readings.iter().for_each(|reading| _ = black_box(self.builder.build(&reading.message))),
        ]);
        spent.map(|spent| spent / readings.len() as f64)
    }

    fn row(&self, name: &str, sent: &[Sent]) {
        let readings: Vec<Reading> = sent.iter().map(|sent| self.reading(sent)).collect();
        let mean = |sum: usize| sum as f64 / readings.len() as f64;
        let bytes = mean(readings.iter().map(|reading| reading.message.len()).sum());
        let fields = mean(readings.iter().map(|reading| reading.message.iter().filter(|byte| **byte == SEPARATOR).count()).sum());
        let [plain, over, bare, given] = self.builds(&readings);
        let [fast, beside] = [over, given].map(|spent| fields * 1e3 / spent);
        println!(
            "{name:20} {bytes:>6.0} {fields:>6.0} {plain:>10.0} {over:>10.0} {bare:>10.0} {given:>10.0} {:>8.2} {:>8.2} {:>8.2} {fast:>8.2} {beside:>8.2}",
            plain / given,
            over / given,
            bare / given
        );
    }
}

fn lines(path: &str) -> Vec<Sent> {
    let text = std::fs::read_to_string(path).expect("a file of messages");
    text.lines().enumerate().map(|(i, line)| Sent { name: format!("line {}", i + 1), bytes: unhex(line).expect("hexadecimal") }).collect()
}

fn measured(sides: &Sides, kinds: &[Sent], flow: &[Sent]) {
    sides.dictionary();
    against_the_index();
    println!(
        "\nns a message: plain, over the dictionary prepared with its tables and in the least memory, the Rust's; each of ours / the Rust's; million \
         fields read a second, prepared with tables and the Rust's"
    );
    println!(
        "{:20} {:>6} {:>6} {:>10} {:>10} {:>10} {:>10} {:>8} {:>8} {:>8} {:>8} {:>8}",
        "", "bytes", "fields", "plain", "prepared", "least", "Rust", "plain/R", "prep/R", "least/R", "prep Mf", "Rust Mf"
    );
    for sent in kinds {
        sides.row(&sent.name, std::slice::from_ref(sent));
    }
    sides.row(&format!("flow of {}", flow.len()), flow);
}

fn main() {
    driver::on_large_stack(|| {
        let words: Vec<String> = std::env::args().skip(1).collect();
        match &words[..] {
            [flat] => Sides::new(std::fs::read(flat).expect("a dictionary")).dictionary(),
            [flat, kinds, flow] => measured(&Sides::new(std::fs::read(flat).expect("a dictionary")), &lines(kinds), &lines(flow)),
            _ => measured(&Sides::new(sent::dictionary(1_000, 1, 1)), &sent::kinds(), &sent::flow(400)),
        }
    });
}
