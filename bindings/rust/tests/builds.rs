//! Builds, played through this crate: the script of `sample_builds`, and the lines of its `stdout`, to which the proved program is held.
mod shared;

use shared::{cases, dictionary, expected, framed, shown, spelled, Case};
use tinkoraba::{build, Built, Config, Dictionary, Records};

/// An answer as `sample_builds` writes it. What became of the lent records behind those shown isn't seen through this crate: it goes by the number.
fn told(number: u32, values: (u32, u32), built: Option<&Built<'_>>, records: bool) -> String {
    let fields: Vec<String> = built.map_or(Vec::new(), |built| {
        let pairs = built.records().iter().zip(built.fields());
        pairs.map(|(record, field)| format!(" {}/{}/{}/{}/{}", record.part, record.depth, record.entry, field.tag, shown(field.value))).collect()
    });
    let rest = if matches!(number, 20 | 22 | 23) { "as they were" } else { "blank" };
    format!("{number} {} {} {} {rest}{}", fields.len(), values.0, values.1, if records { fields.concat() } else { String::new() })
}

/// The line of a case; nothing where the crate can't be asked: other numbers of lent records, or a refused dictionary and another answer.
fn played(case: &Case) -> Option<String> {
    let (mut config, mut shown, mut bytes) = (Config::default(), true, Vec::new());
    for word in &case.words {
        let rest = &word[1..];
        match &word[..1] {
            "s" => config.separator = rest.parse().expect("a byte"),
            "v" => config = config.validating(false),
            "q" => shown = false,
            "m" => bytes = spelled(rest, config.separator),
            "f" => bytes = framed(&spelled(rest, config.separator), config.separator),
            _ => return None,
        }
    }
    match dictionary(&case.dictionary)? {
        Err(flaw) => bytes.is_empty().then(|| told(flaw.number(), flaw.values(), None, shown)),
        Ok(dictionary) => Some(built_line(&bytes, &dictionary, config, shown)),
    }
}

fn built_line(bytes: &[u8], dictionary: &Dictionary, config: Config, shown: bool) -> String {
    let mut records = Records::new();
    let line = match build(bytes, dictionary, config, &mut records) {
        Ok(built) => told(0, (0, 0), Some(&built), shown),
        Err(refused) => told(refused.number(), refused.error().values(), Some(&refused.header()), shown),
    };
    line
}

#[test]
fn builds_answer_as_the_proved_program_does() {
    let expected = expected("sample_builds");
    let (mut seen, mut left_out) = (Vec::new(), Vec::new());
    for case in cases("sample_builds") {
        match played(&case) {
            Some(line) => {
                assert_eq!(Some(&line), expected.get(&format!("{}: {}", case.section, case.name)), "{}: {}", case.section, case.name);
                seen.push(case.name);
            }
            None => left_out.push(case.name),
        }
    }
    for case in 1..=11 {
        assert!(seen.contains(&format!("P{case}")), "P{case}");
    }
    println!("{} lines of sample_builds were compared; left out: {}", seen.len(), left_out.join("; "));
    assert!(seen.len() >= 150);
}
