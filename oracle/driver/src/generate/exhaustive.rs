//! Every short sequence of fields over a few awkward dictionaries, and every short head of a stream.
use super::Sink;
use super::shape::{Node, Shape};
use crate::protocol::{Reading, Request, VALIDATE};
use Node::{Component, Field, Group};

/// A dictionary, the tags of the sequences, and how long these get.
struct Case {
    shape: Shape,
    tags: Vec<u32>,
    longest: usize,
}

fn case(known: &[u32], components: Vec<(u16, Vec<Node>)>, message: Vec<Node>, tags: &[u32], longest: usize) -> Case {
    let shape =
        Shape { known: known.to_vec(), header: vec![8, 9, 35, 34], trailer: vec![10, 93], components, messages: vec![(b"D".to_vec(), message)] };
    Case { shape, tags: tags.to_vec(), longest }
}

fn cases() -> Vec<Case> {
    let known = [1, 2, 3, 4, 5, 6, 7, 8, 9, 10, 34, 35, 93, 5_000];
    let inner = || Group(3, false, vec![Field(4, true), Field(5, true)]);
    vec![
        // one group with a nested group behind its required fields
        case(&known, vec![], vec![Field(6, false), Group(1, true, vec![Field(2, true), inner(), Field(7, true)])], &[1, 2, 3, 4, 5, 7, 93], 6),
        // a tag twice in a layout: a plain item behind a group, marks at their own places, the delimiter once more
        case(
            &known,
            vec![],
            vec![Group(1, false, vec![Field(2, false), inner(), Field(3, true), Field(2, true), Field(4, false)])],
            &[1, 2, 3, 4, 5, 6],
            6,
        ),
        // two groups on one tag, the last counts; a group that starts with a group's tag
        case(
            &known,
            vec![],
            vec![Group(1, false, vec![Field(4, false)]), Field(6, false), Group(1, false, vec![inner(), Field(2, false)])],
            &[1, 2, 3, 4, 6, 93],
            6,
        ),
        // a group within itself: the same tag as count, delimiter and body field
        case(
            &known,
            vec![],
            vec![Field(2, false), Group(1, false, vec![Field(2, true), Group(1, false, vec![Field(2, true), Field(3, true)])])],
            &[1, 2, 3, 10],
            7,
        ),
        // components in a group and around one, required marks of the component items ignored
        case(
            &known,
            vec![(2, vec![Field(2, true), Field(4, false)]), (3, vec![Component(2, true), Group(1, true, vec![Component(2, true), inner()])])],
            vec![Component(3, true), Field(7, true)],
            &[1, 2, 3, 4, 5, 7],
            6,
        ),
        // user tags, known and unknown; header and trailer tags in the body
        case(
            &known,
            vec![],
            vec![Group(1, false, vec![Field(2, false), Field(34, false)]), Field(5_000, false), Field(93, false), Field(35, false)],
            &[1, 2, 34, 35, 93, 5_000, 5_001],
            5,
        ),
        // two nested groups that both may lack a field, the first of them once more behind the second: the Rust reports either
        case(
            &known,
            vec![],
            vec![Group(
                1,
                false,
                vec![
                    Field(2, false),
                    Group(3, false, vec![Field(4, false)]),
                    Group(6, false, vec![Field(4, false), Field(7, true)]),
                    Group(3, false, vec![Field(4, false), Field(5, true)]),
                ],
            )],
            &[1, 2, 3, 4, 6, 7],
            6,
        ),
        // the header's own tags again, an early 10, an unknown MsgType through a second 35
        case(&known, vec![], vec![Field(1, false), Field(10, false)], &[35, 34, 8, 9, 10, 1, 93], 5),
    ]
}

fn wrapped(tags: &[u32]) -> Vec<u8> {
    let mut inner = b"35=D\x01".to_vec();
    for (place, tag) in tags.iter().enumerate() {
        let value = if *tag == 35 && place % 2 == 0 { "D".to_string() } else { place.to_string() };
        inner.extend_from_slice(format!("{tag}={value}\x01").as_bytes());
    }
    let mut out = [format!("8=F\x019={}\x01", inner.len()).as_bytes(), &inner].concat();
    let sum = out.iter().fold(0u8, |sum, byte| sum.wrapping_add(*byte));
    out.extend_from_slice(format!("10={sum:03}\x01").as_bytes());
    out
}

/// Every sequence of at most `longest` of the letters, shorter ones first; `false` ends it.
fn sequences<T: Copy>(letters: &[T], longest: usize, each: &mut dyn FnMut(&[T]) -> bool) -> bool {
    for length in 0..=longest {
        let mut places = vec![0; length];
        loop {
            let word: Vec<T> = places.iter().map(|place| letters[*place]).collect();
            if !each(&word) {
                return false;
            }
            let Some(turn) = places.iter().rposition(|place| place + 1 < letters.len()) else { break };
            places[turn] += 1;
            places[turn + 1..].fill(0);
        }
    }
    true
}

pub fn exhaustive(sink: Sink) {
    for (number, case) in cases().iter().enumerate() {
        if !sink(Request::Dictionary(number, case.shape.bytes())) {
            return;
        }
        let user_tags = case.tags.iter().any(|tag| *tag >= 5_000);
        let went_on = sequences(&case.tags, case.longest, &mut |tags| {
            let reading = Reading { dictionary: number, separator: 1, settings: VALIDATE, message: wrapped(tags) };
            let unchecked = Request::Build(Reading { settings: 0, ..reading.clone() });
            let went_on = sink(if tags.len() % 4 == 3 { Request::Again(reading, 1) } else { Request::Build(reading) });
            went_on && (!user_tags || sink(unchecked))
        });
        if !went_on {
            return;
        }
    }
    sequences(b"=\x0110x", 6, &mut |head| {
        let stream = [head, b"\x01=\x01=2\x01=0=\x01=\x010123456789=\x01=1\x01"].concat();
        let bytewise = stream.iter().map(|byte| vec![*byte]).collect();
        sink(Request::Frames(vec![stream.clone()])) && (head.len() != 4 || sink(Request::Frames(bytewise)))
    });
}
