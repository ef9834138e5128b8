//! Streams for the ported framer, cut in many ways.
use super::random::Random;

fn message(random: &mut Random, domain: bool, small: bool) -> Vec<u8> {
    let inner: Vec<u8> = match random.below(6) {
        0 => vec![],
        1 => (0..random.below(60)).map(|_| random.byte()).collect(),
        2 => vec![b'x'; if !small && random.chance(10) { 8_100 + random.below(60) } else { random.below(300) }],
        _ => b"35=0\x01112=x\x01".to_vec(),
    };
    let length = match random.below(12) {
        0 => format!("000{}", inner.len()),
        1 => (u128::from(u64::MAX) + 1 + inner.len() as u128).to_string(),
        2 => (inner.len() + random.below(9)).to_string(),
        3 => random.of(&["", "/", ":", "1x", "-5", "+5"]).to_string(),
        4 if !domain => random.of(&["9999", "8180", "18446744073709551615", "18446744073709551585", "99999999999999999999"]).to_string(),
        _ => inner.len().to_string(),
    };
    let begin = random.of(&["8=FIX.4.4", "8=", "=", "x=y=z", "junk8=FIX.4.4"]);
    let second = random.of(&["9=", "9=", "9=", "=", "zz="]);
    let mut out = [begin.as_bytes(), b"\x01", second.as_bytes(), length.as_bytes(), b"\x01", &inner].concat();
    let sum = out.iter().fold(0u8, |sum, byte| sum.wrapping_add(*byte));
    out.extend_from_slice(format!("10={sum:03}\x01").as_bytes());
    out
}

fn stream(random: &mut Random, domain: bool, small: bool) -> Vec<u8> {
    let mut out = vec![];
    for _ in 0..random.below(6) {
        out.extend(message(random, domain, small));
        if random.chance(8) {
            out.extend((0..random.below(10)).map(|_| random.of(&[1, b'=', b'x', b'0', b'9'])));
        }
    }
    if random.chance(20) {
        out.truncate(random.below(out.len() + 1));
    }
    if random.chance(15) && !out.is_empty() {
        let place = random.below(out.len());
        out[place] = random.byte();
    }
    out
}

pub fn chunks(random: &mut Random, domain: bool, small: bool) -> Vec<Vec<u8>> {
    if !domain && random.chance(1) {
        return vec![vec![b'x'; 16_384 - random.below(3)], vec![b'x'; random.below(4)], b"=\x01".to_vec()];
    }
    let stream = stream(random, domain, small);
    let most = match random.below(4) {
        0 => 1,
        1 => 1 + random.below(12),
        2 => 1 + random.below(200),
        _ => 16_384,
    };
    let most = if stream.len() > 2_000 { most.max(300) } else { most };
    let mut chunks = vec![];
    let mut rest = stream.as_slice();
    while !rest.is_empty() {
        let size = if random.chance(3) { 0 } else { (1 + random.below(most)).min(rest.len()) };
        chunks.push(rest[..size].to_vec());
        rest = &rest[size..];
    }
    if chunks.is_empty() {
        chunks.push(vec![]);
    }
    chunks
}
