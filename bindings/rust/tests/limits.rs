//! The limits that callers meet, and what recovers from them.
use tinkoraba::{build, Bars, Config, Dictionary, Error, Flaw, Framer, Garbled, Hunter, Message, Part, Records, Run};

const HEARTBEAT: &[u8] = b"8=FIX.4.4\x019=5\x0135=0\x0110=163\x01";

fn heartbeats() -> Dictionary {
    let writer = Dictionary::writer().tags(&[8, 9, 35, 10]).component(0).field(8).field(9).field(35).close().component(1).field(10).close();
    writer.message("0").close().finish().expect("it passes its check")
}

#[test]
fn the_ported_framer_recovers_by_a_reset() {
    let mut framer = Framer::new();
    framer.push(b"8=FIX.4.4\x019=9000\x01").expect("it fits");
    assert_eq!(framer.take(), Err(Error::TooLong));
    assert_eq!(framer.push(HEARTBEAT), Err(Error::TooLong));
    assert_eq!(framer.end(), Err(Error::TooLong));
    framer.reset();
    framer.push(HEARTBEAT).expect("it fits");
    assert_eq!(framer.take(), Ok(Some(HEARTBEAT)));
    assert_eq!(framer.take(), Ok(None));
    framer.end().expect("the first end");
    assert_eq!(framer.push(b"8"), Err(Error::AfterEnd));
}

#[test]
fn a_full_store_keeps_what_it_holds() {
    let (mut framer, chunk) = (Framer::new(), vec![b'x'; 16_384]);
    framer.push(&chunk).expect("it fits");
    assert_eq!(framer.push(b"x"), Err(Error::StoreFull));
    assert_eq!(framer.held(), 16_384);
    let mut hunter = Hunter::new();
    hunter.push(&chunk).expect("it fits");
    assert_eq!(hunter.push(HEARTBEAT), Err(Error::StoreFull));
    assert_eq!(hunter.take(), None);
    hunter.push(HEARTBEAT).expect("the take made room");
    assert_eq!(hunter.take(), Some(HEARTBEAT));
    assert_eq!(hunter.dropped(), 16_384);
}

#[test]
fn refusals_say_what_happened() {
    let (dictionary, mut records) = (heartbeats(), Records::new());
    let told = |bytes: &[u8], separator, records: &mut Records| {
        let config = Config { separator, ..Config::default() };
        build(bytes, &dictionary, config, records).map(|built| built.to_string()).map_err(|refused| refused.to_string())
    };
    assert_eq!(told(HEARTBEAT, 1, &mut records), Ok("8=FIX.4.4|9=5|35=0|10=163|".to_string()));
    assert_eq!(told(HEARTBEAT, b'=', &mut records), Err("the separator is `=` or a digit (22)".to_string()));
    assert_eq!(told(&[0; 8_193], 1, &mut records), Err("a message of over 8,192 bytes (20)".to_string()));
    assert_eq!(told(b"", 1, &mut records), Err("garbled message: it doesn't start with BeginString (11)".to_string()));
    assert_eq!(Dictionary::new(vec![0; 60_001]), Err(Error::Dictionary(Flaw::TooLong)));
    assert_eq!(Dictionary::writer().message("D12345678").finish(), Err(Error::Dictionary(Flaw::BadRecord { place: 0 })));
}

#[test]
fn a_replaced_field_is_noticed() {
    let (dictionary, mut records) = (heartbeats(), Records::new());
    let mut holds =
        |bytes: &[u8]| build(bytes, &dictionary, Config::default(), &mut records).map(|built| built.holds_every_field()).map_err(Error::from);
    assert_eq!(holds(HEARTBEAT), Ok(true));
    assert_eq!(holds(b"8=FIX.4.4\x019=10\x0135=0\x0135=0\x0110=abc\x01"), Ok(false));
    assert_eq!(holds(b"8=FIX.4.4\x019=10\x0135=0\x0110=1\x0110=abc\x01"), Ok(false));
}

#[test]
fn a_refused_change_changes_nothing() {
    let mut message = Message::new("FIX.4.4", "0").expect("both fit");
    message.store(Part::Body, 58, vec![b'x'; 8_184]).expect("8,192 bytes in all");
    assert_eq!(message.store(Part::Body, 112, "x"), Err(Error::NotStorable));
    assert_eq!(message.get(Part::Body, 112), None);
    assert_eq!(message.encode(), Err(Error::TooLong));
    message.remove(Part::Body, 58);
    message.remove(Part::Header, 35);
    assert_eq!(message.encode(), Err(Error::Incomplete));
    message.store(Part::Header, 35, "0").expect("there is room");
    assert_eq!(message.hang(Part::Body, &Run::new(78, 79)), Err(Error::NoRun));
    assert_eq!(message.encode_into(&mut [0; 25], 1), Err(Error::NoRoom));
    assert_eq!(Bars(&message.encode().expect("it is whole")).to_string(), "8=FIX.4.4|9=5|35=0|10=163|");
}

/// A value is written as it is: what follows a separator in it is read as a field of its own, in an entry too.
#[test]
fn a_separator_in_a_value_ends_it_for_its_reader() {
    let writer = Dictionary::writer().tags(&[8, 9, 35, 10, 78, 79, 80]).component(0).field(8).field(9).field(35).close();
    let writer = writer.component(1).field(10).close().message("D").group(78).field(79).field(80).close().close();
    let (dictionary, mut records) = (writer.finish().expect("it passes its check"), Records::new());
    let mut read = |value: &str, separator| {
        let (mut run, mut message) = (Run::new(78, 79), Message::new("FIX.4.4", "D")?);
        run.add_entry()?;
        run.store(79, value)?;
        message.store(Part::Body, 78, "1")?;
        message.hang(Part::Body, &run)?;
        assert_eq!(message.part(Part::Body).entry(78, 0).and_then(|entry| entry.get(79)), Some(value.as_bytes()));
        let config = Config { separator, ..Config::default() };
        Ok::<_, Error>(build(&message.encode_with(separator)?, &dictionary, config, &mut records)?.body().entries(78).count())
    };
    assert_eq!(read("A", 1), Ok(1));
    assert_eq!(read("A\x0179=B", 1), Ok(2));
    assert_eq!(read("A\x0179=B", b'|'), Ok(1));
    assert_eq!(read("A\x01B", 1), Err(Error::Garbled(Garbled::Malformed)));
    assert_eq!(read("A\x01", 1), Err(Error::Garbled(Garbled::Malformed)));
}

#[test]
fn values_of_different_threads_never_meet() {
    let dictionary = heartbeats();
    std::thread::scope(|scope| {
        for _ in 0..4 {
            scope.spawn(|| {
                let (mut hunter, mut records) = (Hunter::new(), Records::new());
                for _ in 0..100 {
                    hunter.push(HEARTBEAT).expect("it fits");
                    let frame = hunter.take().expect("it is whole");
                    assert_eq!(build(frame, &dictionary, Config::default(), &mut records).expect("it is valid").records().len(), 4);
                }
            });
        }
    });
}
