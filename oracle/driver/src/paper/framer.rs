//! Module 8: the ported framer, each chunk pushed and then taken from until nothing is ready.
use super::Ruling;
use crate::protocol::{Answer, hex};

const BYTES_AT_MOST: u128 = 8_192;
const STORE: usize = 16_384;

/// "Message end: second separator + 1 + that + 7, as a plain sum."
fn message_end(held: &[u8]) -> Option<u128> {
    let find = |from: usize, byte: u8| held[from..].iter().position(|b| *b == byte).map(|place| from + place);
    let first_separator = find(find(0, b'=')? + 1, 1)?;
    let value = find(first_separator + 1, b'=')? + 1;
    let second_separator = find(value, 1)?;
    let mut length = 0u64;
    for byte in &held[value..second_separator] {
        length = length.wrapping_mul(10).wrapping_add(u64::from(byte.wrapping_sub(48)));
    }
    Some(second_separator as u128 + 1 + u128::from(length) + 7)
}

/// The word of one chunk, and the number that refused something.
fn chunk_word(held: &mut Vec<u8>, over: &mut bool, chunk: &[u8]) -> (String, Option<u32>) {
    if *over {
        return ("!20".to_string(), Some(20));
    }
    if held.len() + chunk.len() > STORE {
        return ("!25".to_string(), Some(25));
    }
    held.extend_from_slice(chunk);
    let mut taken = vec![];
    while let Some(end) = message_end(held) {
        if end > BYTES_AT_MOST {
            *over = true;
            held.clear();
            taken.push("!20".to_string());
            return (taken.join(","), Some(20));
        }
        if end > held.len() as u128 {
            break;
        }
        taken.push(hex(&held[..end as usize]));
        held.drain(..end as usize);
    }
    (if taken.is_empty() { "-".to_string() } else { taken.join(",") }, None)
}

pub fn frames(chunks: &[Vec<u8>]) -> Ruling {
    let (mut held, mut over) = (vec![], false);
    let (mut words, mut refused) = (vec![], None);
    for chunk in chunks {
        let (word, number) = chunk_word(&mut held, &mut over, chunk);
        words.push(word);
        refused = refused.or(number);
    }
    let answer = Answer { line: words.join(" "), others: vec![], number: refused };
    Ruling { answer, outside: refused.map(|_| "a refused chunk or take") }
}
