//! Messages that are changed and encoded, played through this crate: the script of `sample_messages`, and the lines of its `stdout`, to which the
//! proved program is held.
mod shared;

use shared::{cases, dictionary, expected, number, separated, Case};
use tinkoraba::{build, Bars, Config, Dictionary, Held, Item, Message, Part, Records, Run};

/// What this crate can't be asked for: rows laid by hand, records that no build answered, a run of mixed tags.
struct Unplayable;

fn part(letter: &str) -> Part {
    match letter {
        "h" => Part::Header,
        "b" => Part::Body,
        _ => Part::Trailer,
    }
}

fn show(held: Held<'_>, line: &mut String) {
    for item in held.items() {
        match item {
            Item::Field(field) => line.push_str(&format!("{}={}|", field.tag, Bars(field.value))),
            Item::Entry { start, delimiter, entry } => {
                line.push_str(&format!("({start},{delimiter}:"));
                show(entry, line);
                line.push(')');
            }
        }
    }
}

fn shown(message: &Message) -> String {
    let mut line = String::new();
    for part in [Part::Header, Part::Body, Part::Trailer] {
        line.push('[');
        show(message.part(part), &mut line);
        line.push(']');
    }
    line
}

fn encoded(message: &mut Message, separator: u8, room: usize) -> String {
    let mut output = vec![b'_'; 8_300];
    let answer = message.encode_into(&mut output[..room], separator);
    let length = *answer.as_ref().unwrap_or(&0);
    assert!(output[length..].iter().all(|byte| *byte == b'_'), "bytes past the length");
    match answer {
        Ok(length) if length < 200 => format!("0 {length} {}", Bars(&output[..length])),
        Ok(length) => format!("0 {length}"),
        Err(error) => error.number().to_string(),
    }
}

fn changed(message: &mut Message, part: Part, text: &str) -> String {
    if let Some(tag) = text.strip_prefix('-') {
        message.remove(part, tag.parse().expect("a tag"));
        return "0".to_string();
    }
    let (tag, value) = text.split_once('=').expect("a field");
    number(&message.store(part, tag.parse().expect("a tag"), value)).to_string()
}

fn taken_over(message: &mut Message, dictionary: &Dictionary, text: &str) -> String {
    let (bytes, mut records) = (separated(text), Records::new());
    let answer = build(&bytes, dictionary, Config::default(), &mut records);
    let (first, built) = match &answer {
        Ok(built) => (0, *built),
        Err(refused) => (refused.number(), refused.header()),
    };
    let taken = Message::from_built(&built);
    let second = number(&taken);
    taken.into_iter().for_each(|taken| *message = taken);
    format!("{first} {second}")
}

fn found(value: Option<&[u8]>) -> String {
    value.map_or("none".to_string(), |value| format!("={}", Bars(value)))
}

fn looked_up(message: &Message, text: &str) -> String {
    let words: Vec<&str> = text[1..].split(',').collect();
    let held = message.part(part(&text[..1]));
    match words[..] {
        [tag] => found(held.get(tag.parse().expect("a tag"))),
        [start, entry, tag] => {
            let (start, entry) = (start.parse().expect("a tag"), entry.parse().expect("a number"));
            assert_eq!(held.entries(start).nth(entry).is_some(), held.entry(start, entry).is_some());
            found(held.entry(start, entry).and_then(|entry| entry.get(tag.parse().expect("a tag"))))
        }
        _ => panic!("a look-up: {text}"),
    }
}

/// A word on a message.
fn called(message: &mut Message, dictionary: &Dictionary, word: &str) -> Result<String, Unplayable> {
    let rest = &word[1..];
    Ok(match &word[..1] {
        letter @ ("h" | "b" | "t") => changed(message, part(letter), rest),
        "!" => encoded(message, 1, rest.parse().expect("a size")),
        "%" => encoded(message, rest.as_bytes()[0], 8_192),
        "<" => taken_over(message, dictionary, rest),
        "0" => {
            *message = Message::empty();
            "0".to_string()
        }
        "n" => {
            let (begin, kind) = rest.split_once(',').expect("two texts");
            let made = Message::new(begin, kind);
            let answer = number(&made).to_string();
            made.into_iter().for_each(|made| *message = made);
            answer
        }
        "/" | "&" => looked_up(message, rest),
        "?" => shown(message),
        _ => return Err(Unplayable),
    })
}

/// A word on a draft.
fn drafted(run: &mut Run, word: &str) -> Result<String, Unplayable> {
    let answer = match &word[..1] {
        "+" => run.add_entry(),
        "v" => {
            let (tag, value) = word[1..].split_once('=').expect("a field");
            run.store(tag.parse().expect("a tag"), value)
        }
        _ => return Err(Unplayable),
    };
    Ok(number(&answer).to_string())
}

/// What is in hand between one `;` and the next.
enum Hand {
    Message(Message),
    Draft(Run),
}

/// A draft of the tags that its entries have; any tags where it has none.
fn draft(words: &[String]) -> Result<Run, Unplayable> {
    let tags: Vec<&str> = words.iter().filter_map(|word| word.strip_prefix('+')).collect();
    if tags.windows(2).any(|pair| pair[0] != pair[1]) {
        return Err(Unplayable);
    }
    let (start, delimiter) = tags.first().copied().unwrap_or("78,79").split_once(',').expect("two tags");
    Ok(Run::new(start.parse().expect("a tag"), delimiter.parse().expect("a tag")))
}

/// Hangs what was laid aside, on a part or in a draft's last entry.
fn hung(hand: &mut Hand, aside: Option<&Run>, to: &str) -> Result<String, Unplayable> {
    let run = aside.ok_or(Unplayable)?;
    Ok(match hand {
        Hand::Message(message) => format!("hung {}", number(&message.hang(part(to), run))),
        Hand::Draft(draft) => format!("nested {}", number(&draft.hang(run))),
    })
}

fn played(case: &Case) -> Result<String, Unplayable> {
    let dictionary = dictionary(&case.dictionary).expect("it is written").expect("it passes its check");
    let (mut aside, mut told) = (None, Vec::new());
    for words in case.words.split(|word| word == ";") {
        let mut hand = Hand::Message(Message::empty());
        for word in words {
            told.push(match (&word[..1], &mut hand) {
                ("d", _) => {
                    hand = Hand::Draft(draft(words)?);
                    continue;
                }
                ("^", hand) => hung(hand, aside.as_ref(), &word[1..])?,
                (_, Hand::Message(message)) => called(message, &dictionary, word)?,
                (_, Hand::Draft(run)) => drafted(run, word)?,
            });
        }
        if let Hand::Draft(run) = hand {
            aside = Some(run);
        }
    }
    Ok(told.join(" "))
}

#[test]
fn messages_change_and_encode_as_in_the_proved_program() {
    let expected = expected("sample_messages");
    let (mut seen, mut left_out) = (Vec::new(), 0);
    for case in cases("sample_messages") {
        match played(&case) {
            Ok(line) => {
                assert_eq!(Some(&line), expected.get(&format!("{}: {}", case.section, case.name)), "{}: {}", case.section, case.name);
                seen.push(case.name);
            }
            Err(Unplayable) => left_out += 1,
        }
    }
    assert!(seen.contains(&"P5".to_string()) && seen.contains(&"P6".to_string()));
    println!("{} lines of sample_messages were compared, {left_out} left out", seen.len());
    assert!(seen.len() >= 76);
}
