//! The settings word: bit 0 decides, and no other bit changes anything.
mod shared;

use shared::whole;
use tinkoraba::{build, Config, Dictionary, FieldRecord, Records, Settings};

/// 5000 is known and stands in no layout; 5001 is unknown.
fn orders() -> Dictionary {
    let writer = Dictionary::writer().tags(&[8, 9, 35, 10, 38, 58, 78, 79, 80, 5_000]);
    let writer = writer.component(0).field(8).field(9).field(35).close().component(1).field(10).close();
    let writer = writer.message("D").field(38).field(58).group(78).field(79).required(80).close().close();
    writer.finish().expect("it passes its check")
}

/// The number, the values and the records.
fn built(fields: &str, dictionary: &Dictionary, settings: Settings) -> (u32, (u32, u32), Vec<FieldRecord>) {
    let (bytes, mut records) = (whole(fields), Records::new());
    let config = Config { settings, ..Config::default() };
    let answer = match build(&bytes, dictionary, config, &mut records) {
        Ok(built) => (0, (0, 0), built.records().to_vec()),
        Err(refused) => (refused.number(), refused.error().values(), refused.header().records().to_vec()),
    };
    answer
}

/// Fields of a message, and its numbers with validation on and off.
const MESSAGES: [(&str, u32, u32); 8] = [
    ("35=D|38=600|58=x|", 0, 0),
    ("35=D|38=600|5001=x|", 1, 0),
    ("35=D|38=600|5000=x|", 1, 1),
    ("35=D|38=600|59=0|", 1, 1),
    ("35=D|78=1|79=a|80=1|5001=x|", 1, 0),
    ("35=D|78=1|5001=x|79=a|80=1|", 2, 2),
    ("35=D|78=1|79=a|5001=x|", 4, 4),
    ("35=Z|38=600|", 3, 3),
];

#[test]
fn bit_0_decides() {
    let dictionary = orders();
    for (fields, validated, unvalidated) in MESSAGES {
        assert_eq!(built(fields, &dictionary, Settings::new()).0, validated, "{fields}");
        assert_eq!(built(fields, &dictionary, Settings::new().validating(false)).0, unvalidated, "{fields}");
    }
}

#[test]
fn other_bits_change_nothing() {
    let dictionary = orders();
    let others: Vec<u32> = (1..32).map(|bit| 1 << bit).chain([0xffff_fffe, 0xaaaa_aaaa, 0x5555_5554]).collect();
    for (fields, ..) in MESSAGES {
        for settings in [Settings::new(), Settings::from_word(0)] {
            let alone = built(fields, &dictionary, settings);
            for bits in &others {
                let word = Settings::from_word(settings.word() | bits);
                assert_eq!(word.validates(), settings.validates());
                assert_eq!(built(fields, &dictionary, word), alone, "{fields} with {:#x}", word.word());
            }
        }
    }
}

#[test]
fn turning_validation_on_and_off_keeps_the_other_bits() {
    assert_eq!(Settings::from_word(0xf0).validating(true).word(), 0xf1);
    assert_eq!(Settings::from_word(0xf1).validating(false).word(), 0xf0);
    assert_eq!(Config::default().settings.word(), Settings::VALIDATE);
    assert_eq!(Config::default().validating(false).settings.word(), 0);
}
