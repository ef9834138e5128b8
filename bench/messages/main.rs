//! messages [DICTIONARY KINDS FLOW]: calls on a message, ours and the Rust's in turn on the same messages in one process. A time is the mean of many calls,
//! the best of some rounds. DICTIONARY (flat records) and KINDS, FLOW (a message a line, in hexadecimal) take the place of the messages made in sent.rs.
mod sent;

use std::hint::black_box;
use std::time::Instant;

use driver::ours::library::{Built, Lent, build_into};
use driver::protocol::{Reading, VALIDATE, unhex};
use hotfix_dictionary::Dictionary;
use hotfix_message::builder::MessageBuilder;
use hotfix_message::field_map::{Field, FieldMap};
use hotfix_message::message::{Config, Message};
use hotfix_message::parsed_message::ParsedMessage;
use hotfix_message::{Part, RepeatingGroup, TagU32, open};
use sent::Sent;

const SEPARATOR: u8 = 1;
const BODY: u8 = 2;
/// The shortest of some rounds, each some milliseconds long.
const ROUNDS: usize = 7;

fn tag(number: u32) -> TagU32 {
    TagU32::new(number).expect("a tag")
}

/// Nanoseconds of one call, many in a row.
fn timed<T>(mut work: impl FnMut() -> T) -> f64 {
    let mut times = 1u32;
    let mut round = |times: u32| {
        let start = Instant::now();
        for _ in 0..times {
            black_box(work());
        }
        start.elapsed().as_secs_f64() * 1e9
    };
    while round(times) < 2e6 {
        times *= 2;
    }
    (0..ROUNDS).map(|_| round(times) / f64::from(times)).fold(f64::MAX, f64::min)
}

/// Nanoseconds of one call that is undone behind the clock: some ten of them are the clock's own.
fn timed_alone(mut work: impl FnMut(), mut undo: impl FnMut()) -> f64 {
    let mut round = || {
        let mut spent = 0.0;
        for _ in 0..500 {
            let start = Instant::now();
            work();
            spent += start.elapsed().as_secs_f64() * 1e9;
            undo();
        }
        spent / 500.0
    };
    (0..ROUNDS).map(|_| round()).fold(f64::MAX, f64::min)
}

/// A message on both sides.
struct Both {
    reading: Reading,
    built: Built,
    lent: Lent,
    given: Message,
}

struct Dictionaries {
    flat: Vec<u8>,
    builder: MessageBuilder,
}

impl Dictionaries {
    fn new(flat: Vec<u8>) -> Self {
        let config = Config::with_separator(SEPARATOR).validate_user_defined_fields(true);
        let dictionary = Dictionary::from_flat(&flat).expect("a flat dictionary");
        Self { builder: MessageBuilder::new(dictionary, config).expect("a dictionary with a header and a trailer"), flat }
    }

    fn both(&self, bytes: &[u8]) -> Both {
        let reading = Reading { dictionary: 0, separator: SEPARATOR, settings: VALIDATE, message: bytes.to_vec() };
        let mut built = Built::default();
        build_into(&self.flat, &reading, &mut built);
        assert_eq!(built.number, 0, "the build of {}", String::from_utf8_lossy(bytes));
        let mut lent = Lent::new();
        assert_eq!(lent.take_over(&built, bytes), 0);
        let ParsedMessage::Valid(given) = self.builder.build(bytes) else { panic!("the Rust's build of {}", String::from_utf8_lossy(bytes)) };
        let mut both = Both { reading, built, lent, given };
        let ours = both.lent.encoded(SEPARATOR);
        assert_eq!(both.given.encode(&Config::with_separator(SEPARATOR)).ok(), ours.ok(), "the encodings of {}", String::from_utf8_lossy(bytes));
        both
    }

    fn take_over(&self, both: &mut Both) -> [f64; 2] {
        let Both { reading, built, lent, .. } = both;
        [timed(|| lent.take_over(built, &reading.message)), timed(|| self.builder.build(&reading.message))]
    }
}

impl Both {
    fn encode(&mut self) -> [f64; 2] {
        let config = Config::with_separator(SEPARATOR);
        let mut output = vec![0; 8_192];
        [timed(|| self.lent.encode_into(&mut output, SEPARATOR)), timed(|| self.given.encode(&config).map(|bytes| bytes.len()).ok())]
    }

    fn store(&mut self, number: u32) -> [f64; 2] {
        [timed(|| self.lent.store(BODY, number, b"7")), timed(|| open::store(&mut self.given, BODY, tag(number), b"7"))]
    }

    fn find(&mut self, number: u32) -> [f64; 2] {
        let map = self.lent.find_part(BODY).expect("a body");
        assert!(self.lent.find_field(map, number).is_some() && open::part(&self.given, BODY).get_raw(tag(number)).is_some());
        [timed(|| self.lent.find_field(map, number)), timed(|| open::part(&self.given, BODY).get_raw(tag(number)).map(<[u8]>::len))]
    }

    fn remove(&mut self, number: u32) -> [f64; 2] {
        let (lent, given) = (std::cell::RefCell::new(&mut self.lent), std::cell::RefCell::new(&mut self.given));
        [
            timed_alone(|| assert_eq!(lent.borrow_mut().remove(BODY, number), 0), || assert_eq!(lent.borrow_mut().store(BODY, number, b"7"), 0)),
            timed_alone(
                || open::remove(&mut given.borrow_mut(), BODY, tag(number)),
                || open::store(&mut given.borrow_mut(), BODY, tag(number), b"7"),
            ),
        ]
    }

    /// Two entries of two fields, in the place of the run that hangs there.
    fn hang(&mut self) -> [f64; 2] {
        let entries: Vec<RepeatingGroup> = (0..2).map(|_| entry_given()).collect();
        let draft = draft();
        self.lent.store(BODY, 4_500, b"2");
        open::store(&mut self.given, BODY, tag(4_500), b"2");
        let mut next = None;
        let given = &mut self.given;
        let cell = std::cell::RefCell::new(&mut next);
        [
            timed(|| assert_eq!(self.lent.hang_draft(BODY, &draft), 0)),
            timed_alone(
                || {
                    if let Some(run) = cell.borrow_mut().take() {
                        assert!(open::hang(given, BODY, run))
                    }
                },
                || **cell.borrow_mut() = Some(entries.clone()),
            ),
        ]
    }
}

fn entry_given() -> RepeatingGroup {
    let mut group = open::entry(tag(4_500), tag(4_501));
    for number in [4_501, 4_502] {
        group.store_field(Field::new(tag(number), b"7".to_vec()));
    }
    group
}

fn draft() -> Lent {
    let mut draft = Lent::draft();
    for _ in 0..2 {
        assert_eq!(draft.add_entry(4_500, 4_501), 0);
        assert_eq!(draft.store_last(4_501, b"7"), 0);
        assert_eq!(draft.store_last(4_502, b"7"), 0);
    }
    draft
}

fn shown([ours, given]: [f64; 2]) -> String {
    format!("{:>9.0} {:>9.0} {:>5.2}", ours, given, ours / given)
}

fn last_field(map: &FieldMap) -> Option<u32> {
    map.fields.keys().last().map(|tag| tag.get())
}

fn by_kind(dictionaries: &Dictionaries, kinds: &[Sent], flow: &[Sent]) {
    println!("by message, ns a call: ours, the Rust, ours / the Rust; take-over is held against the Rust's build");
    println!("{:20} {:>6} {:^25} {:^25} {:^25} {:^25} {:^25} {:^25}", "", "fields", "encode", "take-over", "hang", "store", "find", "remove");
    for sent in kinds {
        let mut both = dictionaries.both(&sent.bytes);
        let last = last_field(open::part(&both.given, BODY));
        let columns = [both.encode(), dictionaries.take_over(&mut both), both.hang()];
        let body = last.map(|last| [both.store(last), both.find(last), both.remove(last)]);
        let columns: Vec<String> = columns.into_iter().chain(body.into_iter().flatten()).map(shown).collect();
        println!("{:20} {:>6} {}", sent.name, both.built.out[0], columns.join(" "));
    }
    let (mut fields, mut encode, mut take_over) = (0, [0.0; 2], [0.0; 2]);
    for sent in flow {
        let mut both = dictionaries.both(&sent.bytes);
        fields += both.built.out[0];
        for (sum, spent) in [(&mut encode, both.encode()), (&mut take_over, dictionaries.take_over(&mut both))] {
            (0..2).for_each(|side| sum[side] += spent[side] / flow.len() as f64);
        }
    }
    let name = format!("flow of {}", flow.len());
    println!("{name:20} {:>6} {} {}", fields as usize / flow.len().max(1), shown(encode), shown(take_over));
}

fn by_size() {
    println!("\nby N plain fields in the body, ns a call: ours, the Rust, ours / the Rust");
    println!("{:20} {:>6} {:^25} {:^25} {:^25} {:^25} {:^25} {:^25}", "", "N", "encode", "take-over", "store", "find", "remove", "hang");
    for (name, first, step) in [("plain", 1_000, 1), ("all in one chain", 2_048, 2_048)] {
        for fields in [16, 64, 256, if step == 1 { 900 } else { 700 }] {
            let dictionaries = Dictionaries::new(sent::dictionary(first, step, fields));
            let mut both = dictionaries.both(&sent::plain(first, step, fields));
            let last = first + step * (fields - 1);
            let columns = [both.encode(), dictionaries.take_over(&mut both), both.store(last), both.find(last), both.remove(last), both.hang()];
            println!("{name:20} {fields:>6} {}", columns.map(shown).join(" "));
        }
    }
}

/// Tags written against the table that finds them: calls on a message with 900 of them, beside 900 usual ones. Such a message is too long to be encoded.
fn against() {
    println!("\n900 fields made by calls, ns a call: store, find, remove, hang, and each as a multiple of the first row's");
    let mut usual: Option<[f64; 4]> = None;
    for (name, first, step) in
        [("one after the other", 1_000, 1), ("all in one chain", 2_048, 2_048), ("the low bits all alike", 4_194_304, 4_194_304)]
    {
        let mut lent = Lent::new();
        let mut given = open::empty();
        for i in 0..900 {
            assert_eq!(lent.store(BODY, first + step * i, b"7"), 0);
            open::store(&mut given, BODY, tag(first + step * i), b"7");
        }
        let reading = Reading { dictionary: 0, separator: SEPARATOR, settings: VALIDATE, message: vec![] };
        let mut both = Both { reading, built: Built::default(), lent, given };
        let last = first + step * 899;
        let times = [both.store(last), both.find(last), both.remove(last), both.hang()].map(|times| times[0]);
        let first = *usual.get_or_insert(times);
        let columns: Vec<String> = times.iter().zip(first).map(|(time, usual)| format!("{time:>9.0} {:>5.2}", time / usual)).collect();
        println!("{name:24} {}", columns.join(" "));
    }
}

fn lines(path: &str) -> Vec<Sent> {
    let text = std::fs::read_to_string(path).expect("a file of messages");
    text.lines().enumerate().map(|(i, line)| Sent { name: format!("line {}", i + 1), bytes: unhex(line).expect("hexadecimal") }).collect()
}

fn main() {
    driver::on_large_stack(|| {
        let words: Vec<String> = std::env::args().skip(1).collect();
        match &words[..] {
            [flat, kinds, flow] => by_kind(&Dictionaries::new(std::fs::read(flat).expect("a dictionary")), &lines(kinds), &lines(flow)),
            _ => by_kind(&Dictionaries::new(sent::dictionary(1_000, 1, 1)), &sent::kinds(), &sent::flow(2_000)),
        }
        by_size();
        against();
    });
}
