//! Messages made by calls: stored, removed, hung with runs, encoded, and changed and encoded again.
use super::messages::separator;
use super::random::Random;
use crate::maps::Row;
use crate::protocol::Step;

fn value(random: &mut Random) -> Vec<u8> {
    match random.below(10) {
        0 => vec![],
        1 => (0..random.below(12)).map(|_| random.byte()).collect(),
        2 => vec![1, b'=', b'1', b'0'],
        _ => vec![b'a' + random.below(26) as u8; 1 + random.below(4)],
    }
}

fn tag(random: &mut Random, domain: bool) -> u32 {
    match random.below(20) {
        0 => random.of(&[8, 9, 10, 35]),
        1 => random.of(&[u32::MAX, 1_000_000_000, 999_999_999, 99, 100, 9_999, 10_000]),
        2 if !domain => 0,
        _ => 1 + random.below(14) as u32,
    }
}

/// A run's rows: its entries with fields and nested runs; counts stand in their map unless left out on purpose.
fn run(random: &mut Random, level: u32, start: u32, domain: bool, rows: &mut Vec<Row>) {
    let delimiter = tag(random, true);
    let entries = 1 + random.below(3);
    for _ in 0..entries {
        rows.push(Row::Head(level, start, delimiter));
        if random.chance(90) {
            rows.push(Row::Field(level + 1, delimiter, value(random)));
        }
        for _ in 0..random.below(4) {
            rows.push(Row::Field(level + 1, tag(random, domain), value(random)));
        }
        if level < 6 && rows.len() < 120 && random.chance(30) {
            nested(random, level + 1, domain, rows);
        }
    }
}

/// A nested run with its count, which may stand before it or behind it.
fn nested(random: &mut Random, level: u32, domain: bool, rows: &mut Vec<Row>) {
    let start = 20 + random.below(6) as u32;
    let count = Row::Field(level, start, value(random));
    let (before, left_out) = (random.chance(60), !domain && random.chance(10));
    if before && !left_out {
        rows.push(count.clone());
    }
    run(random, level, start, domain, rows);
    if !before && !left_out {
        rows.push(count);
    }
}

/// A run that the Rust refuses as well: empty, or of mixed tags.
fn no_run(random: &mut Random) -> Vec<Row> {
    match random.below(3) {
        0 => vec![],
        1 => vec![Row::Head(0, 30, 31), Row::Field(1, 31, vec![b'x']), Row::Head(0, 30, 32)],
        _ => vec![Row::Head(0, 30, 31), Row::Head(0, 33, 31)],
    }
}

fn part(random: &mut Random) -> u8 {
    random.of(&[1, 2, 2, 2, 3])
}

fn change(random: &mut Random, domain: bool, steps: &mut Vec<Step>) {
    let part = part(random);
    match random.below(100) {
        0..=54 => steps.push(Step::Store(part, tag(random, domain), value(random))),
        55..=69 => steps.push(Step::Remove(part, tag(random, true))),
        70..=74 => steps.push(Step::Run(part, no_run(random))),
        _ => {
            let start = if random.chance(10) { tag(random, true) } else { 30 + random.below(4) as u32 };
            let mut rows = vec![];
            run(random, 0, start, domain, &mut rows);
            let count = Step::Store(part, start, value(random));
            let before = random.chance(50);
            if before {
                steps.push(count.clone());
            }
            steps.push(Step::Run(part, rows));
            if !before && (domain || random.chance(90)) {
                steps.push(count);
            }
        }
    }
}

/// Many stores, up to the limits of fields and bytes.
fn many(random: &mut Random, domain: bool, steps: &mut Vec<Step>) {
    let over = if domain { 0 } else { 12 };
    let fields = 990 + random.below(30 + over);
    let length = random.below(3);
    for number in 0..fields {
        steps.push(Step::Store(part(random), 40 + number as u32, vec![b'm'; length]));
    }
}

pub fn steps(random: &mut Random, domain: bool, small: bool) -> Vec<Step> {
    let mut steps = vec![];
    if random.chance(70) {
        let begin = random.of(&["FIX.4.4", "", "FIX.4.2", "é"]);
        steps.push(Step::New(begin.as_bytes().to_vec(), random.of(&["D", "", "AE"]).as_bytes().to_vec()));
    } else {
        steps.push(Step::Empty);
        let mut first = [(35, b"D".to_vec()), (8, b"FIX.4.4".to_vec()), (9, b"7".to_vec())];
        let other = random.below(3);
        first.swap(0, other);
        let wanted = if domain || random.chance(80) { 3 } else { random.below(3) };
        steps.extend(first.into_iter().take(wanted).map(|(tag, value)| Step::Store(1, tag, value)));
    }
    if !small && random.chance(1) {
        many(random, domain, &mut steps);
    }
    if !small && random.chance(1) {
        let size = if domain { 8_000 + random.below(100) } else { 8_100 + random.below(120) };
        steps.push(Step::Store(2, 39, vec![b'L'; size]));
    }
    for _ in 0..1 + random.below(2) {
        for _ in 0..random.below(9) {
            change(random, domain, &mut steps);
        }
        steps.push(Step::Encode(separator(random)));
    }
    steps
}
