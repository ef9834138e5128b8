//! Dictionaries: what is prepared once serves every thread, in much memory or little, and a bad one is refused as its check refuses it.
/// The exports as the crate declares them: it gives no other memory to a dictionary than what it chose.
#[allow(dead_code)]
#[path = "../src/raw.rs"]
mod raw;
mod shared;

use shared::whole;
use tinkoraba::{build, Config, Dictionary, DictionaryWriter, Error, FieldRecord, Flaw, Opened, Records, RECORDS, SOH};

/// Orders with groups, the header alone, and two that are refused, with their numbers.
const FIELDS: [(&str, u32); 5] =
    [("35=D|38=600|58=x|", 0), ("35=0|", 0), ("35=D|78=2|79=a|80=1|79=b|80=2|", 0), ("35=D|78=1|79=a|", 4), ("35=D|59=0|", 1)];

/// Known tags, header and trailer.
fn begun() -> DictionaryWriter {
    let writer = Dictionary::writer().tags(&[8, 9, 35, 10, 38, 58, 78, 79, 80]);
    writer.component(0).field(8).field(9).field(35).close().component(1).field(10).close()
}

fn orders() -> Dictionary {
    let writer = begun().message("D").field(38).field(58).group(78).field(79).required(80).close().close();
    writer.message("0").close().finish().expect("it passes its check")
}

/// The number and the records.
fn built(bytes: &[u8], dictionary: &Dictionary, records: &mut Records) -> (u32, Vec<FieldRecord>) {
    match build(bytes, dictionary, Config::default(), records) {
        Ok(built) => (0, built.records().to_vec()),
        Err(refused) => (refused.number(), refused.header().records().to_vec()),
    }
}

/// The number and the records of a build over a dictionary that is prepared in the least memory, where no table has room.
fn built_over_the_least(bytes: &[u8], flat: &[u8]) -> (u32, Vec<FieldRecord>) {
    // SAFETY: it takes nothing.
    let words = unsafe { raw::gateway_prepared_words() } as usize;
    let (mut copy, mut memory, mut out) = (vec![0; flat.len()], vec![0; words], [0; 4]);
    let mut records = vec![FieldRecord::default(); RECORDS];
    let settings = Config::default().settings.word();
    // SAFETY: each pointer goes with the length of what it comes from, what is written to is borrowed for that alone, and `out` has its size.
    let (prepared, number) = unsafe {
        let prepared = raw::gateway_prepare(flat.as_ptr(), flat.len(), copy.as_mut_ptr(), copy.len(), memory.as_mut_ptr(), words, &mut out);
        let (lent, copied, kept) = (records.as_mut_ptr(), copy.as_ptr(), memory.as_ptr());
        let number =
            raw::gateway_build_prepared(bytes.as_ptr(), bytes.len(), SOH, settings, copied, copy.len(), kept, words, lent, records.len(), &mut out);
        (prepared, number)
    };
    assert_eq!(prepared, 0, "it passes its check");
    records.truncate(out[0] as usize);
    (number, records)
}

#[test]
fn the_least_memory_answers_the_same() {
    let dictionary = orders();
    for (fields, number) in FIELDS {
        let bytes = whole(fields);
        let answer = built(&bytes, &dictionary, &mut Records::new());
        assert_eq!((answer.0, &answer), (number, &built_over_the_least(&bytes, dictionary.as_bytes())), "{fields}");
    }
}

fn serves_threads<T: Send + Sync>(_: &T) {}

#[test]
fn threads_build_from_one_dictionary() {
    let dictionary = orders();
    serves_threads(&dictionary);
    let messages = FIELDS.map(|(fields, _)| whole(fields));
    let alone: Vec<_> = messages.iter().map(|bytes| built(bytes, &dictionary, &mut Records::new())).collect();
    assert_eq!(alone.iter().map(|answer| answer.0).collect::<Vec<_>>(), FIELDS.map(|(_, number)| number));
    std::thread::scope(|scope| {
        for thread in 0..2 {
            let (dictionary, messages, alone) = (&dictionary, &messages, &alone);
            scope.spawn(move || {
                let mut records = Records::new();
                for i in thread..1_000 {
                    let case = i % messages.len();
                    assert_eq!(built(&messages[case], dictionary, &mut records), alone[case]);
                }
            });
        }
    });
}

#[test]
fn a_dictionary_outlives_its_maker() {
    let (flat, bytes) = (orders().as_bytes().to_vec(), whole("35=D|38=600|"));
    let made = Dictionary::new(flat.clone()).expect("it passes its check");
    let cloned = made.clone();
    assert_eq!((made.as_bytes(), &made, format!("{made:?}")), (&flat[..], &cloned, format!("Dictionary {{ bytes: {flat:?} }}")));
    drop(made);
    let answer = std::thread::spawn(move || built(&bytes, &cloned, &mut Records::new())).join().expect("it ends");
    assert_eq!((answer.0, answer.1.len()), (0, 5));
}

/// What the check answers, number by number.
#[test]
fn a_bad_dictionary_is_refused_as_its_check_refuses_it() {
    let sized = |writer: DictionaryWriter| writer.finish().expect("it passes its check").as_bytes().len();
    let (place, plain) = (sized(begun()), sized(begun().message("D").close()));
    let items = |count| (0..count).fold(begun().message("D"), |writer, _| writer.field(38)).close();
    let deep = (0..5).fold(begun().message("D"), |writer, _| writer.group(78)).field(79);
    let refused = [
        (Dictionary::new(vec![0; 60_001]), Flaw::TooLong),
        (Dictionary::new(vec![9]), Flaw::BadRecord { place: 0 }),
        (begun().message("D12345678").close().finish(), Flaw::BadRecord { place }),
        (begun().message("D").finish(), Flaw::BadRecord { place: plain - 1 }),
        (Dictionary::new(vec![]), Flaw::NoComponent { number: 0 }),
        (Dictionary::writer().component(0).close().finish(), Flaw::NoComponent { number: 1 }),
        (begun().message("D").items_of(7).close().finish(), Flaw::NoComponent { number: 7 }),
        (begun().message("D").field(59).close().finish(), Flaw::UnknownTag { tag: 59 }),
        (begun().message("D").group(78).close().close().finish(), Flaw::EmptyGroup { tag: 78 }),
        (deep.close().close().close().close().close().close().finish(), Flaw::TooDeep { place: plain - 1 + 4 * 6 }),
        (begun().message("D").close().message("D").close().finish(), Flaw::Twice { opened: Opened::Message(b"D"[..].into()), place: plain }),
        (begun().component(1).close().finish(), Flaw::Twice { opened: Opened::Component(1), place }),
        (items(1_025).finish(), Flaw::TooManyItems { place: plain - 1 + 1_024 * 6 }),
    ];
    for (answer, flaw) in refused {
        assert_eq!(answer, Err(Error::Dictionary(flaw)));
    }
    assert!(items(1_024).finish().is_ok());
}
