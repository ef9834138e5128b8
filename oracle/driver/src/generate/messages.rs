//! Messages that follow a layout, and what can befall them.
use super::random::Random;
use super::shape::{Item, Shape};

/// The fields behind MsgType, and MsgType itself.
#[derive(Clone)]
pub struct Draft {
    kind: Vec<u8>,
    fields: Vec<(Vec<u8>, Vec<u8>)>,
    /// How often, of a hundred, a required field is there.
    care: usize,
}

pub struct Wrapping {
    pub separator: u8,
    begin: Vec<u8>,
    length_zeros: usize,
    sum: Sum,
}

#[derive(Clone, Copy, PartialEq)]
enum Sum {
    Right,
    Wrong,
    NoNumber,
    /// `010=12` and the separator: seven bytes, tag 10, not three digits
    Zeros,
    /// a field that ends early, and bytes behind it
    Early,
}

pub fn separator(random: &mut Random) -> u8 {
    random.of(&[1, 1, 1, 1, b'|', b'^', 0, 255, b'A', b' ', 0x80, b'/', b':', 2])
}

impl Wrapping {
    pub fn random(random: &mut Random) -> Self {
        let sum = match random.below(100) {
            0..=87 => Sum::Right,
            88..=90 => Sum::Wrong,
            91..=95 => Sum::NoNumber,
            96..=97 => Sum::Zeros,
            _ => Sum::Early,
        };
        Self {
            separator: separator(random),
            begin: random.of(&[b"FIX.4.4".to_vec(), b"FIX.4.2".to_vec(), vec![], b"FIXT.1.1".to_vec(), b"x=y".to_vec()]),
            length_zeros: if random.chance(8) { 1 + random.below(12) } else { 0 },
            sum,
        }
    }

    fn checksum(&self, before: &[u8]) -> Vec<u8> {
        let sum = before.iter().fold(0u8, |sum, byte| sum.wrapping_add(*byte));
        let s = self.separator;
        match self.sum {
            Sum::Right => [format!("10={sum:03}").as_bytes(), &[s]].concat(),
            Sum::Wrong => [format!("10={:03}", sum.wrapping_add(1)).as_bytes(), &[s]].concat(),
            Sum::NoNumber => [b"10=a", format!("{:02}", sum % 100).as_bytes(), &[s]].concat(),
            Sum::Zeros => [b"010=12".as_slice(), &[s]].concat(),
            Sum::Early => [b"10=".as_slice(), &[s], b"xy", &[s]].concat(),
        }
    }

    /// `8=..`, `9=..`, the bytes given, and the CheckSum.
    fn around(&self, inner: &[u8]) -> Vec<u8> {
        let s = [self.separator];
        let length = format!("{}{}", "0".repeat(self.length_zeros), inner.len());
        let mut out = [b"8=", self.begin.as_slice(), &s, b"9=", length.as_bytes(), &s, inner].concat();
        let sum = self.checksum(&out);
        out.extend_from_slice(&sum);
        out
    }
}

fn digits(tag: u32) -> Vec<u8> {
    tag.to_string().into_bytes()
}

fn value(random: &mut Random) -> Vec<u8> {
    match random.below(12) {
        0 => vec![],
        1 => b"a=b".to_vec(),
        2 => (0..random.below(20)).map(|_| random.byte()).collect(),
        3 => b"10=000".to_vec(),
        n => vec![b'A' + n as u8; 1 + random.below(3)],
    }
}

impl Draft {
    /// Fields in the order of a layout, required ones mostly there, groups with some entries.
    pub fn valid(random: &mut Random, shape: &Shape, user_tags: bool) -> Self {
        let (kind, nodes) = &shape.messages[random.below(shape.messages.len())];
        let mut draft = Self { kind: kind.clone(), fields: vec![], care: random.of(&[97, 97, 97, 97, 50]) };
        for tag in &shape.header {
            if ![8, 9, 35].contains(tag) && random.chance(60) {
                draft.add(random, *tag);
            }
        }
        let items = shape.flat(nodes);
        let wanted = 1 + random.below(items.len().min(24));
        let start = random.below(items.len());
        for step in 0..wanted {
            draft.item(random, &items[(start + step) % items.len()], user_tags);
        }
        for tag in &shape.trailer {
            if *tag != 10 && random.chance(40) {
                draft.add(random, *tag);
            }
        }
        draft
    }

    fn add(&mut self, random: &mut Random, tag: u32) {
        let text = if random.chance(2) { [b"00".as_slice(), &digits(tag)].concat() } else { digits(tag) };
        self.fields.push((text, value(random)));
    }

    fn item(&mut self, random: &mut Random, item: &Item, user_tags: bool) {
        if self.fields.len() > 1_400 {
            return;
        }
        self.add(random, item.tag);
        if let Some(inner) = &item.group {
            let entries = if random.chance(3) { 0 } else { 1 + random.below(3) };
            for _ in 0..entries {
                self.entry(random, inner, user_tags);
            }
        }
        if user_tags && random.chance(5) {
            let tag = 5_000 + random.below(8) as u32;
            self.add(random, tag);
        }
    }

    fn entry(&mut self, random: &mut Random, items: &[Item], user_tags: bool) {
        self.add(random, items[0].tag);
        for item in &items[1..] {
            if random.chance(if item.required { self.care } else { 40 }) {
                self.item(random, item, user_tags);
            }
        }
    }

    /// One change to the sequence of fields.
    pub fn mutate(&mut self, random: &mut Random, shape: &Shape, domain: bool) {
        let count = self.fields.len();
        let (here, there) = (random.below(count), random.below(count));
        match random.below(14) {
            0 if count > 0 => drop(self.fields.remove(here)),
            1 if count > 0 => self.fields.insert(there, self.fields[here].clone()),
            2 if count > 0 => self.fields.push(self.fields[here].clone()),
            3 if count > 0 => self.fields.swap(here, there),
            4 if count > 0 => {
                let moved = self.fields.remove(here);
                self.fields.insert(random.below(count), moved);
            }
            5 => {
                let tag = 5_000 + random.below(8) as u32;
                self.insert(random, here, tag);
            }
            6 => {
                let tag = random.of(&shape.known);
                self.insert(random, here, tag);
            }
            7 => {
                let tag = random.of(&[10, 8, 9, 35, 34, 49, 93, 89]);
                self.insert(random, here, tag);
            }
            8 => {
                let text = random.of(&["0", "", "4294967295", "00000000000000000000035", "1", "007"]);
                self.fields.insert(here.min(count), (text.as_bytes().to_vec(), value(random)));
            }
            9 if !domain => {
                let text = random.of(&["4294967296", "4294967297", "a", "+1", "-1", "1 ", "18446744073709551617", "\u{1}1"]);
                self.fields.insert(here.min(count), (text.as_bytes().to_vec(), value(random)));
            }
            10 if count > 1 => {
                let (from, to) = (here.min(there), here.max(there));
                let part = self.fields[from..=to].to_vec();
                self.fields.splice(to + 1..to + 1, part);
            }
            11 if count > 1 => drop(self.fields.drain(here.min(there)..here.max(there))),
            12 => {
                let other = random.of(&["zz", "", "D", "0", "8", "AE", "D\0", "toolongtype"]).as_bytes().to_vec();
                if random.chance(50) { self.kind = other } else { self.fields.insert(0, (b"35".to_vec(), other)) }
            }
            _ => {
                if let Some(field) = self.fields.get_mut(here) {
                    field.1 = value(random);
                }
            }
        }
    }

    fn insert(&mut self, random: &mut Random, place: usize, tag: u32) {
        self.fields.insert(place.min(self.fields.len()), (digits(tag), value(random)));
    }

    fn inner(&self, separator: u8) -> Vec<u8> {
        let s = [separator];
        let mut inner = [b"35=", self.kind.as_slice(), &s].concat();
        for (tag, value) in &self.fields {
            inner.extend_from_slice(&[tag.as_slice(), b"=", value, &s].concat());
        }
        inner
    }

    pub fn wrapped(&self, wrapping: &Wrapping) -> Vec<u8> {
        wrapping.around(&self.inner(wrapping.separator))
    }
}

/// The last seven bytes as a right CheckSum again.
fn mended(mut message: Vec<u8>, separator: u8) -> Vec<u8> {
    let Some(end) = message.len().checked_sub(7) else { return message };
    message.truncate(end);
    let sum = message.iter().fold(0u8, |sum, byte| sum.wrapping_add(*byte));
    message.extend_from_slice(format!("10={sum:03}").as_bytes());
    message.push(separator);
    message
}

fn other_byte(random: &mut Random, separator: u8) -> u8 {
    match random.below(6) {
        0 => separator,
        1 => b'=',
        2 => b'0' + random.below(10) as u8,
        _ => random.byte(),
    }
}

/// Each byte in turn replaced by another, half of them with the CheckSum mended.
pub fn damaged_at_each_byte(random: &mut Random, draft: &Draft, wrapping: &Wrapping) -> Vec<Vec<u8>> {
    let whole = draft.wrapped(wrapping);
    let step = 1 + whole.len() / 200;
    let mend = random.chance(70);
    (0..whole.len())
        .step_by(step)
        .map(|place| {
            let mut message = whole.clone();
            message[place] = other_byte(random, wrapping.separator);
            if mend { mended(message, wrapping.separator) } else { message }
        })
        .collect()
}

/// Every beginning, as it stands or wrapped again with a length and a sum that fit.
pub fn truncated_at_each_byte(random: &mut Random, draft: &Draft, wrapping: &Wrapping) -> Vec<Vec<u8>> {
    let again = random.chance(70);
    let whole = if again { draft.inner(wrapping.separator) } else { draft.wrapped(wrapping) };
    let step = 1 + whole.len() / 200;
    (0..whole.len()).step_by(step).map(|end| if again { wrapping.around(&whole[..end]) } else { whole[..end].to_vec() }).collect()
}

/// Bytes inserted, removed, exchanged or doubled at random, some mended.
pub fn damaged(random: &mut Random, draft: &Draft, wrapping: &Wrapping) -> Vec<Vec<u8>> {
    (0..4)
        .map(|_| {
            let inside = random.chance(60);
            let mut bytes = if inside { draft.inner(wrapping.separator) } else { draft.wrapped(wrapping) };
            for _ in 0..1 + random.below(3) {
                let (here, there) = (random.below(bytes.len()), random.below(bytes.len()));
                match random.below(4) {
                    0 => bytes.insert(here, other_byte(random, wrapping.separator)),
                    1 if bytes.len() > 1 => drop(bytes.remove(here)),
                    2 => bytes.swap(here, there),
                    _ => bytes[here] = other_byte(random, wrapping.separator),
                }
            }
            if inside { wrapping.around(&bytes) } else { bytes }
        })
        .collect()
}

/// Ends that are read in their own way: a tag 10 inside, no tag 10 at the end of the reading, separators missing.
pub fn odd_end(random: &mut Random, draft: &Draft, wrapping: &Wrapping) -> Vec<u8> {
    let mut inner = draft.inner(wrapping.separator);
    match random.below(5) {
        0 => drop(inner.pop()),
        1 => inner.extend_from_slice(b"93="),
        2 => inner.extend_from_slice(&[b"10=7".as_slice(), &[wrapping.separator]].concat()),
        3 => inner.extend_from_slice(&[b"93=7".as_slice(), &[wrapping.separator], b"x"].concat()),
        _ => inner.truncate(3 + random.below(4)),
    }
    let mut whole = wrapping.around(&inner);
    if random.chance(10) {
        whole.pop();
    }
    whole
}

/// Room for the fields behind BodyLength in a message of 8,192 bytes.
const ROOM: usize = 8_192 - 60;

/// Close to 1,024 fields or to 8,192 bytes: one long value, fields again and again, or many entries.
pub fn near_the_limits(random: &mut Random, shape: &Shape, wrapping: &Wrapping, domain: bool) -> Vec<u8> {
    let mut draft = Draft::valid(random, shape, false);
    let fields = if domain { 980 + random.below(40) } else { 1_010 + random.below(20) };
    let length = if domain { ROOM - random.below(8) } else { ROOM + random.below(90) };
    match random.below(3) {
        0 => draft.lengthen(random, length),
        1 => draft.repeat(random, shape, fields),
        _ => draft.crowd(random, shape, fields),
    }
    draft.wrapped(wrapping)
}

impl Draft {
    fn lengthen(&mut self, random: &mut Random, wanted: usize) {
        let missing = wanted.saturating_sub(self.inner(1).len());
        let place = random.below(self.fields.len());
        if let Some(field) = self.fields.get_mut(place) {
            field.1.extend(std::iter::repeat_n(b'L', missing));
        }
    }

    fn repeat(&mut self, random: &mut Random, shape: &Shape, wanted: usize) {
        let base = self.fields.clone();
        while self.fields.len() < wanted {
            let place = random.below(base.len() + 1);
            let mut more: Vec<_> = base[place.min(base.len())..].iter().map(|field| (field.0.clone(), vec![b'v'])).collect();
            if more.is_empty() {
                more.push((digits(random.of(&shape.known)), vec![b'v']));
            }
            let at = if random.chance(95) { self.fields.len() } else { random.below(self.fields.len() + 1) };
            self.fields.splice(at..at, more);
        }
        self.fields.truncate(wanted);
    }

    /// A body group with so many entries that about `wanted` fields stand in the message.
    fn crowd(&mut self, random: &mut Random, shape: &Shape, wanted: usize) {
        let groups: Vec<(&Vec<u8>, Item)> = shape
            .messages
            .iter()
            .flat_map(|(kind, nodes)| shape.flat(nodes).into_iter().map(move |item| (kind, item)))
            .filter(|(_, item)| item.group.is_some())
            .collect();
        if groups.is_empty() {
            return;
        }
        let (kind, item) = random.of(&groups);
        let user_tags = random.chance(20);
        (self.kind, self.fields, self.care) = (kind.clone(), vec![(digits(item.tag), vec![b'n'])], 100);
        let inner = item.group.expect("only groups were kept");
        loop {
            let before = self.fields.len();
            self.entry(random, &inner, user_tags);
            for field in &mut self.fields[before..] {
                field.1.truncate(1);
            }
            if self.fields.len() > wanted {
                self.fields.truncate(before.max(2));
                return;
            }
        }
    }
}
