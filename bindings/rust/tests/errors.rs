//! Errors own what they say: they outlive what was read, go to other threads, and show an unknown MsgType by its text.
/// The errors as the crate makes them from numbers: no call that is given no message answers 3.
#[allow(dead_code)]
#[path = "../src/error.rs"]
mod error;
#[allow(dead_code)]
#[path = "../src/raw.rs"]
mod raw;
mod shared;

use shared::whole;
use tinkoraba::{build, Config, Dictionary, Error, FieldRecord, Message, NotBuilt, Part, Records};

type Any = Box<dyn std::error::Error + Send + Sync + 'static>;

fn orders() -> Result<Dictionary, Error> {
    let writer = Dictionary::writer().tags(&[8, 9, 35, 49, 10, 38]).component(0).field(8).field(9).field(35).field(49).close();
    writer.component(1).field(10).close().message("D").field(38).close().finish()
}

/// Message, dictionary and records end here, and what was refused doesn't.
fn quantity(fields: &[u8]) -> Result<String, Any> {
    let (bytes, dictionary, mut records) = (shared::framed(fields, 1), orders()?, Records::new());
    let built = build(&bytes, &dictionary, Config::default(), &mut records)?;
    let mut message = Message::from_built(&built)?;
    message.store(Part::Body, 38, "600")?;
    Ok(String::from_utf8(message.encode()?)?)
}

fn refusal(fields: &[u8]) -> NotBuilt {
    *quantity(fields).expect_err("it is refused").downcast().expect("the build refused it")
}

#[test]
fn a_refused_build_goes_up_as_any_error() {
    assert!(quantity(b"35=D\x0138=5\x01").expect("it is an order").contains("38=600"));
    let refused = std::thread::spawn(|| quantity(b"35=ZZ\x0149=me\x0138=5\x01")).join().expect("it ends").expect_err("there is no ZZ");
    assert_eq!(refused.to_string(), "the dictionary has no message of MsgType `ZZ` (3)");
    let refused: NotBuilt = *refused.downcast().expect("the build refused it");
    assert_eq!((refused.number(), refused.error().values()), (3, (18, 2)));
    assert_eq!(refused.header().header().get(49), Some(&b"me"[..]));
    assert_eq!(
        format!("{refused:?}"),
        r#"NotBuilt { error: InvalidMsgType { msg_type: "ZZ", place: 18, length: 2 }, header: Built(8=FIX.4.4|9=17|35=ZZ|49=me|) }"#
    );
    let Error::InvalidMsgType { msg_type, place: 18, length: 2 } = Error::from(refused) else { panic!("it is 3") };
    assert_eq!(msg_type.as_bytes(), b"ZZ");
}

#[test]
fn a_refused_header_is_kept_without_the_body() {
    let refused = refusal(b"35=D\x0149=me\x0138=5\x0159=0\x01");
    assert_eq!((refused.number(), refused.to_string()), (1, "tag 59 has no place in this message (1)".to_string()));
    assert_eq!(refused.header().bytes(), b"8=FIX.4.4\x019=21\x0135=D\x0149=me\x01");
    assert!(refused.header().holds_every_field());
    assert!(!refusal(b"35=D\x0149=me\x0149=you\x0159=0\x01").header().holds_every_field());
    let garbled = refusal(b"38=5\x01");
    assert_eq!((garbled.number(), garbled.header().bytes(), garbled.header().records().len()), (13, &b""[..], 0));
}

#[test]
fn a_refusal_leaves_records_and_bytes_to_the_next_build() {
    let (dictionary, mut records, mut bytes) = (orders().expect("it passes its check"), Records::new(), whole("35=Z|"));
    let refused = build(&bytes, &dictionary, Config::default(), &mut records).expect_err("there is no Z");
    bytes = whole("35=D|38=5|");
    assert!(build(&bytes, &dictionary, Config::default(), &mut records).is_ok());
    assert_eq!(refused.header().header().get(35), Some(&b"Z"[..]));
}

/// Whatever bytes it has, it is one line of printable text and not a long one.
#[test]
fn an_unknown_msg_type_is_shown_by_its_text() {
    let shown = |value: &[u8]| refusal(&[b"35=", value, b"\x0138=5\x01"].concat()).to_string();
    let line = |text: &str| format!("the dictionary has no message of MsgType `{text}` (3)");
    assert_eq!(shown(b"AE"), line("AE"));
    assert_eq!(shown(b""), line(""));
    assert_eq!(shown(b"D\n\x00\x1b\xff"), line(r"D\n\x00\x1b\xff"));
    assert_eq!(shown(&[b'y'; 32]), line(&"y".repeat(32)));
    assert_eq!(shown(&[b'y'; 8_000]), line(&format!("{}..", "y".repeat(32))));
    let Error::InvalidMsgType { msg_type, .. } = refusal(&[b"35=", &[b'y'; 8_000][..], b"\x01"].concat()).into() else { panic!("it is 3") };
    assert_eq!(msg_type.as_bytes(), [b'y'; 8_000]);
}

#[test]
fn a_dictionary_names_what_stands_twice() {
    let twice = |writer: tinkoraba::DictionaryWriter| writer.finish().expect_err("it stands twice").to_string();
    let message = |writer: tinkoraba::DictionaryWriter| writer.message("AE").close();
    assert_eq!(twice(message(message(Dictionary::writer()))), "flaw in the dictionary: MsgType `AE` for the second time at place 10 (36)");
    let writer = Dictionary::writer().component(7).close().component(7).close();
    assert_eq!(twice(writer), "flaw in the dictionary: component 7 for the second time at place 4 (36)");
}

/// Without the bytes that a number's places are in, the number is all that is known.
#[test]
fn a_number_that_a_call_never_answers_stays_a_number() {
    let answers = |number, words, read: &[u8]| error::answered(number, &words, read).expect_err("it is no 0");
    for number in [3, 36] {
        let refused = answers(number, [0, 20, 2, 0], b"");
        assert_eq!((&refused, refused.number()), (&error::Error::Other(number), number));
    }
    assert_eq!(answers(3, [0, 1, u32::MAX, 0], b"abc"), error::Error::Other(3));
    assert_eq!(answers(3, [0, 1, 2, 0], b"abc").to_string(), "the dictionary has no message of MsgType `bc` (3)");
    assert_eq!(answers(43, [0; 4], b"").number(), 43);
}
