//! Modules 1 and 4 to 6: field reading, integrity, header, body, trailer, groups.
use std::rc::Rc;

use super::dictionary::{Dictionary, Layout};
use crate::maps::{Entry, Parts};
use crate::protocol::Reading;

const FIELDS_AT_MOST: usize = 1_024;
const BYTES_AT_MOST: usize = 8_192;

pub struct Built {
    pub number: u32,
    pub first: u64,
    pub second: u64,
    pub parts: Parts,
    strange: Option<&'static str>,
}

impl Built {
    pub fn line(&self) -> String {
        let records = self.parts.records();
        let mut text = format!("{} {} {} {}", self.number, self.first, self.second, records.len());
        for record in records {
            text.push(' ');
            text.push_str(&record);
        }
        text
    }

    pub fn outside(&self) -> Option<&'static str> {
        self.strange.or((self.number >= 20).then_some("a limit of ours"))
    }
}

struct Field {
    tag: u32,
    place: usize,
    value: Vec<u8>,
    next: usize,
}

/// A value with its place.
type Placed = (usize, Vec<u8>);

/// A number that ends the build, with its values.
struct Stop(u32, u64, u64);

const MALFORMED: Stop = Stop(10, 0, 0);

struct Reader<'a> {
    dictionary: &'a Dictionary,
    reading: &'a Reading,
    at: usize,
    read: usize,
    /// What was met that the domain of equality leaves out.
    strange: Option<&'static str>,
}

fn worth(digits: &[u8]) -> Option<u64> {
    if digits.is_empty() || !digits.iter().all(u8::is_ascii_digit) {
        return None;
    }
    Some(digits.iter().fold(0u64, |n, digit| n.saturating_mul(10).saturating_add(u64::from(digit - 48))))
}

pub fn build(dictionary: &Result<Dictionary, (u32, u32)>, reading: &Reading) -> Built {
    let refused = |number, first| Built { number, first, second: 0, parts: Parts::default(), strange: None };
    if reading.separator == b'=' || reading.separator.is_ascii_digit() {
        return refused(22, 0);
    }
    if reading.message.len() > BYTES_AT_MOST {
        return refused(20, 0);
    }
    let dictionary = match dictionary {
        Ok(dictionary) => dictionary,
        Err((number, value)) => return refused(*number, u64::from(*value)),
    };
    let mut reader = Reader { dictionary, reading, at: 0, read: 0, strange: None };
    let mut parts = Parts::default();
    let Stop(number, first, second) = match reader.message(&mut parts) {
        Ok(()) => Stop(0, 0, 0),
        Err(stop) => stop,
    };
    if number > 0 {
        parts.0[1] = Default::default();
        parts.0[2] = Default::default();
    }
    if number >= 10 {
        parts = Parts::default();
    }
    Built { number, first, second, parts, strange: reader.strange }
}

impl Reader<'_> {
    /// "From a place: the first `=`, then the first separator after it." `None` where there is no field.
    fn field_at(&mut self, place: usize) -> Option<Field> {
        let rest = &self.reading.message[place..];
        let equals = rest.iter().position(|byte| *byte == b'=')?;
        let length = rest[equals + 1..].iter().position(|byte| *byte == self.reading.separator)?;
        let text = &rest[..equals];
        let tag = worth(text).filter(|tag| *tag <= u64::from(u32::MAX));
        if tag.is_none() && !text.is_empty() {
            self.strange = Some("tag text");
        }
        let start = equals + 1;
        let value = rest[start..start + length].to_vec();
        let tag = tag.filter(|tag| *tag > 0)? as u32;
        Some(Field { tag, place: place + start, value, next: place + start + length + 1 })
    }

    /// The next field in sequence; 21 "comes before any other verdict on that field".
    fn next(&mut self) -> Result<Option<Field>, Stop> {
        let Some(field) = self.field_at(self.at) else { return Ok(None) };
        self.count()?;
        self.at = field.next;
        Ok(Some(field))
    }

    fn count(&mut self) -> Result<(), Stop> {
        self.read += 1;
        if self.read > FIELDS_AT_MOST { Err(Stop(21, 0, 0)) } else { Ok(()) }
    }

    fn needed(&mut self) -> Result<Field, Stop> {
        self.next()?.ok_or(MALFORMED)
    }

    fn message(&mut self, parts: &mut Parts) -> Result<(), Stop> {
        let (verified, msg_type) = self.integrity(parts)?;
        let (stopped, kind) = self.header(parts, msg_type)?;
        let layout = self.dictionary.messages.get(&kind.1);
        if std::str::from_utf8(&kind.1).is_err() {
            self.strange = Some("MsgType");
        }
        let Some(layout) = layout else { return Err(Stop(3, kind.0 as u64, kind.1.len() as u64)) };
        let ended = self.body(&layout.clone(), parts, stopped)?;
        self.trailer(parts, ended, verified)
    }

    /// The verified CheckSum's value; place and value of MsgType.
    fn integrity(&mut self, parts: &mut Parts) -> Result<(Vec<u8>, Placed), Stop> {
        let header = &mut parts.0[0];
        let begin = self.next()?.filter(|field| field.tag == 8).ok_or(Stop(11, 0, 0))?;
        header.store(8, begin.value);
        let length = self.next()?.filter(|field| field.tag == 9).ok_or(Stop(12, 0, 0))?;
        let announced = worth(&length.value);
        if announced.is_none_or(|number| number > u64::from(u32::MAX)) {
            self.strange = Some("BodyLength text");
        }
        let total = self.reading.message.len();
        let fits = announced.is_some_and(|number| number.checked_add(self.at as u64 + 7) == Some(total as u64));
        if !fits {
            return Err(Stop(12, 0, 0));
        }
        header.store(9, length.value);
        let sum_at = total - 7;
        let sum = self.field_at(sum_at).filter(|field| field.tag == 10).ok_or(Stop(14, 0, 0))?;
        if let Some(claimed) = worth(&sum.value).filter(|_| sum.value.len() == 3) {
            if claimed > 255 {
                self.strange = Some("CheckSum over 255");
            }
            let bytes = &self.reading.message[..sum_at];
            if claimed != bytes.iter().map(|byte| u64::from(*byte)).sum::<u64>() % 256 {
                return Err(Stop(14, 0, 0));
            }
        }
        let kind = self.next()?.filter(|field| field.tag == 35).ok_or(Stop(13, 0, 0))?;
        header.store(35, kind.value.clone());
        Ok((sum.value, (kind.place, kind.value)))
    }

    /// The first field that is no header tag, and MsgType as it was stored last.
    fn header(&mut self, parts: &mut Parts, first: Placed) -> Result<(Field, Placed), Stop> {
        let mut kind = first;
        loop {
            let field = self.needed()?;
            if !self.dictionary.header.contains(&field.tag) {
                return Ok((field, kind));
            }
            if field.tag == 35 {
                kind = (field.place, field.value.clone());
            }
            parts.0[0].store(field.tag, field.value);
        }
    }

    /// "with validation off, tags of 5000 and above that the dictionary lacks"
    fn is_unknown_user_tag(&self, tag: u32) -> bool {
        !validates(self.reading.settings) && tag >= 5_000 && !self.dictionary.known.contains(&tag)
    }

    fn body(&mut self, layout: &Rc<Layout>, parts: &mut Parts, first: Field) -> Result<Field, Stop> {
        let mut field = first;
        loop {
            let tag = field.tag;
            let held = layout.position(tag).is_some();
            if !held && !self.is_unknown_user_tag(tag) {
                break;
            }
            parts.0[1].store(tag, field.value);
            field = match layout.group(tag) {
                Some(group) => {
                    let (entries, ended) = self.run(group, tag)?;
                    for entry in &entries {
                        required(entry, group, tag)?;
                    }
                    parts.0[1].hang(tag, entries);
                    ended
                }
                None => self.needed()?,
            };
        }
        if self.dictionary.trailer.contains(&field.tag) { Ok(field) } else { Err(Stop(1, u64::from(field.tag), 0)) }
    }

    /// "After a count field the delimiter must come, else 2. Each delimiter opens an entry."
    fn run(&mut self, group: &Rc<Layout>, start: u32) -> Result<(Vec<Entry>, Field), Stop> {
        let delimiter = group.delimiter();
        let mut field = self.needed()?;
        if field.tag != delimiter {
            return Err(Stop(2, u64::from(field.tag), u64::from(start)));
        }
        let mut entries = vec![];
        while field.tag == delimiter {
            let (entry, ended) = self.entry(group, start, field)?;
            entries.push(entry);
            field = ended;
        }
        Ok((entries, field))
    }

    /// One entry from its delimiter on, and the field that ended it.
    fn entry(&mut self, group: &Rc<Layout>, start: u32, first: Field) -> Result<(Entry, Field), Stop> {
        let mut entry = Entry { start, delimiter: first.tag, ..Entry::default() };
        entry.map.store(first.tag, first.value);
        let mut reached = 0;
        let mut field = self.needed()?;
        loop {
            let tag = field.tag;
            match group.position(tag) {
                Some(0) => return Ok((entry, field)),
                Some(place) if place <= reached => return Err(Stop(2, u64::from(tag), u64::from(start))),
                Some(place) => reached = place,
                None if self.is_unknown_user_tag(tag) => {}
                None => return Ok((entry, field)),
            }
            entry.map.store(tag, field.value);
            field = match group.group(tag) {
                Some(nested) => {
                    let (entries, ended) = self.run(nested, tag)?;
                    entry.map.hang(tag, entries);
                    ended
                }
                None => self.needed()?,
            };
        }
    }

    /// "The trailer takes every field up to the first tag 10 or until none can be read." The verified CheckSum stands first in it.
    fn trailer(&mut self, parts: &mut Parts, first: Field, verified: Vec<u8>) -> Result<(), Stop> {
        let trailer = &mut parts.0[2];
        trailer.store(10, verified);
        let mut field = first;
        while field.tag != 10 {
            trailer.store(field.tag, field.value);
            match self.next()? {
                Some(next) => field = next,
                None => return self.count(),
            }
        }
        Ok(())
    }
}

/// Bit 0 of a settings word is validation, and no other bit means anything.
fn validates(settings: u32) -> bool {
    settings % 2 == 1
}

/// "for each entry its required fields in layout order, then its nested runs"
fn required(entry: &Entry, group: &Layout, start: u32) -> Result<(), Stop> {
    let lacking = group.items.iter().find(|item| item.required && entry.map.get(item.tag).is_none());
    if let Some(item) = lacking {
        return Err(Stop(4, u64::from(item.tag), u64::from(start)));
    }
    for (place, item) in group.items.iter().enumerate() {
        let (Some(nested), Some(run)) = (group.group(item.tag), entry.map.run(item.tag)) else { continue };
        if group.position(item.tag) == Some(place) {
            for inner in &run.entries {
                required(inner, nested, item.tag)?;
            }
        }
    }
    Ok(())
}
