//! Requests that mostly lie outside of the domain of equality: separators, dictionaries and texts that 01 refuses or reads in its own way.
use super::messages::{Draft, Wrapping};
use super::random::Random;
use super::shape::Shape;
use crate::protocol::{KEPT, Reading, Request, VALIDATE};

fn refused_separator(random: &mut Random, shape: &Shape, dictionary: usize) -> Request {
    let message = Draft::valid(random, shape, false).wrapped(&Wrapping::random(random));
    Request::Build(Reading { dictionary, separator: random.of(b"=0123456789"), settings: VALIDATE, message })
}

fn item(tag: u32) -> Vec<u8> {
    [&[4], tag.to_le_bytes().as_slice(), &[0]].concat()
}

fn group(tag: u32) -> Vec<u8> {
    [&[6], tag.to_le_bytes().as_slice(), &[0]].concat()
}

/// A dictionary with records behind it that are whole and yet refused: 30, 32, 34 to 37.
fn refused_dictionary(random: &mut Random, shape: &Shape) -> Vec<u8> {
    let mut bytes = shape.bytes();
    let tag = random.of(&shape.known);
    let message = [b"\x03ZZ".as_slice(), &[0; 6]].concat();
    let again = |name: &[u8]| [&[3], name, vec![0; 8 - name.len()].as_slice(), &[7]].concat();
    let more = match random.below(8) {
        0 => [message, group(tag), vec![7, 7]].concat(),
        1 => [message, group(tag), b"\x02\0\0\x07".to_vec()].concat(),
        2 => {
            let depth = 3 + random.below(4);
            [message, group(tag).repeat(depth), item(tag), vec![7; depth + 1]].concat()
        }
        3 => again(&shape.messages[0].0),
        4 => b"\x02\0\0\x07".to_vec(),
        5 => [message, item(tag).repeat(1_020 + random.below(10)), vec![7]].concat(),
        6 => [1, 7, 0, 0, 0].repeat(60_000usize.saturating_sub(bytes.len()) / 5 + random.below(2)),
        _ => {
            let number = (9_000 + random.below(2) as u16).to_le_bytes();
            [b"\x02\x28\x23\x05".as_slice(), &number, &[0, 7]].concat()
        }
    };
    bytes.extend(more);
    bytes
}

fn damaged_dictionary(random: &mut Random, shape: &Shape) -> Vec<u8> {
    let mut bytes = shape.bytes();
    let place = random.below(bytes.len());
    match random.below(4) {
        0 => bytes.truncate(place),
        1 => drop(bytes.remove(place)),
        2 => bytes.insert(place, random.below(9) as u8),
        _ => bytes[place] = random.below(9) as u8,
    }
    bytes
}

/// A dictionary that is mostly refused, a message over it, and the whole dictionary again.
fn over_a_refused_dictionary(random: &mut Random, shape: &Shape, dictionary: usize) -> Vec<Request> {
    let bytes = if random.chance(50) { refused_dictionary(random, shape) } else { damaged_dictionary(random, shape) };
    let message = Draft::valid(random, shape, false).wrapped(&Wrapping::random(random));
    let reading = Reading { dictionary, separator: 1, settings: VALIDATE, message };
    vec![Request::Dictionary(dictionary, bytes), Request::Build(reading), Request::Dictionary(dictionary, shape.bytes())]
}

/// Texts of BodyLength, CheckSum and MsgType that the domain leaves out.
fn strange_text(random: &mut Random, shape: &Shape, dictionary: usize) -> Request {
    let kind = random.of(&[shape.messages[0].0.clone(), vec![0xff], vec![b'D', 0xc3]]);
    let inner = [b"35=", kind.as_slice(), b"\x01", b"58=x\x01"].concat();
    let length = match random.below(6) {
        0 => format!("+{}", inner.len()),
        1 => format!("{} ", inner.len()),
        2 => (u128::from(u64::MAX) + 1 + inner.len() as u128).to_string(),
        3 => (u64::MAX - random.below(20) as u64).to_string(),
        4 => (u64::from(u32::MAX) + 1 + inner.len() as u64).to_string(),
        _ => inner.len().to_string(),
    };
    let mut message = [b"8=F\x019=", length.as_bytes(), b"\x01", &inner].concat();
    let sum = message.iter().map(|byte| u32::from(*byte)).sum::<u32>() % 256;
    let claimed = sum + 256 * random.below(4) as u32;
    message.extend_from_slice(format!("10={:03}\x01", claimed % 1_000).as_bytes());
    Request::Build(Reading { dictionary, separator: 1, settings: u32::from(random.chance(50)), message })
}

/// About 1,024 fields read, the trailer stopped by the CheckSum, by an early 10, or by nothing.
fn field_limit(random: &mut Random, shape: &Shape, dictionary: usize) -> Request {
    let (kind, nodes) = random.of(&shape.messages);
    let items = shape.flat(&nodes);
    let grouped: Vec<u32> = items.iter().filter(|item| item.group.is_some()).map(|item| item.tag).collect();
    let plain = items.iter().map(|item| item.tag).find(|tag| !grouped.contains(tag) && *tag < 100_000).unwrap_or(1);
    let end = random.of(&["", "93=\x01", "10=\x01", "93=\x0110=\x0193=\x01", "93=\x01=", "10=\x01=\x01"]);
    let body = format!("{plain}=\x01").repeat(1_016 + random.below(10));
    let inner = [b"35=", kind.as_slice(), b"\x01", body.as_bytes(), end.as_bytes()].concat();
    let mut message = [format!("8=\x019={}\x01", inner.len()).as_bytes(), &inner].concat();
    let sum = message.iter().fold(0u8, |sum, byte| sum.wrapping_add(*byte));
    message.extend_from_slice(format!("10={sum:03}\x01").as_bytes());
    Request::Build(Reading { dictionary, separator: 1, settings: VALIDATE, message })
}

pub fn requests(random: &mut Random, shapes: &[Shape]) -> Vec<Request> {
    let dictionary = random.below(KEPT.min(shapes.len()));
    let shape = &shapes[dictionary];
    match random.below(6) {
        0 => vec![refused_separator(random, shape, dictionary)],
        1 | 2 => over_a_refused_dictionary(random, shape, dictionary),
        3 => vec![field_limit(random, shape, dictionary)],
        _ => vec![strange_text(random, shape, dictionary)],
    }
}
