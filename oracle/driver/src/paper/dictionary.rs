//! The flat dictionary: 30 to 37, and the flattened layouts that it means.
use std::collections::{HashMap, HashSet};
use std::rc::Rc;

/// An item after flattening; a group has its layout.
#[derive(Clone)]
pub struct Item {
    pub tag: u32,
    pub required: bool,
    pub group: Option<Rc<Layout>>,
}

pub struct Layout {
    pub items: Vec<Item>,
    positions: HashMap<u32, usize>,
}

impl Layout {
    fn new(items: Vec<Item>) -> Self {
        let mut positions = HashMap::new();
        for (place, item) in items.iter().enumerate() {
            positions.entry(item.tag).or_insert(place);
        }
        Self { items, positions }
    }

    /// "its position is the first"
    pub fn position(&self, tag: u32) -> Option<usize> {
        self.positions.get(&tag).copied()
    }

    /// "its group the last"
    pub fn group(&self, tag: u32) -> Option<&Rc<Layout>> {
        self.positions.get(&tag)?;
        self.items.iter().rev().filter(|item| item.tag == tag).find_map(|item| item.group.as_ref())
    }

    pub fn delimiter(&self) -> u32 {
        self.items[0].tag
    }
}

#[derive(Default)]
pub struct Dictionary {
    pub known: HashSet<u32>,
    pub header: HashSet<u32>,
    pub trailer: HashSet<u32>,
    pub messages: HashMap<Vec<u8>, Rc<Layout>>,
    components: HashMap<u32, Closed>,
    named: HashSet<u32>,
}

/// A closed component: its items, how many there are on all levels, and how deep its groups nest.
struct Closed {
    items: Vec<Item>,
    total: usize,
    depth: usize,
}

enum Kind {
    Component(u32),
    Message(Vec<u8>),
    Group(u32, bool),
}

struct Open {
    kind: Kind,
    items: Vec<Item>,
}

/// What the component or message that is open amounts to so far.
#[derive(Default)]
struct Tally {
    total: usize,
    depth: usize,
}

fn number(bytes: &[u8]) -> u32 {
    bytes.iter().rev().fold(0, |worth, byte| worth * 256 + u32::from(*byte))
}

fn is_filled(name: &[u8]) -> bool {
    let end = name.iter().position(|byte| *byte == 0).unwrap_or(name.len());
    end > 0 && name[end..].iter().all(|byte| *byte == 0)
}

impl Dictionary {
    /// The dictionary, or the number that refuses it with its value.
    pub fn check(bytes: &[u8]) -> Result<Self, (u32, u32)> {
        if bytes.len() > 60_000 {
            return Err((30, 60_000));
        }
        let (mut dictionary, mut open, mut tally) = (Self::default(), vec![], Tally::default());
        let mut at = 0;
        while at < bytes.len() {
            at += dictionary.step(bytes, at, &mut open, &mut tally)?;
        }
        if !open.is_empty() {
            return Err((31, bytes.len() as u32));
        }
        for wanted in [0, 1] {
            if !dictionary.components.contains_key(&wanted) {
                return Err((32, wanted));
            }
        }
        Ok(dictionary)
    }

    /// One record; its length.
    fn step(&mut self, bytes: &[u8], at: usize, open: &mut Vec<Open>, tally: &mut Tally) -> Result<usize, (u32, u32)> {
        let place = at as u32;
        let kind = bytes[at];
        let length = match kind {
            1 => 4,
            2 => 2,
            3 => 8,
            4 | 6 => 5,
            5 => 3,
            7 => 0,
            _ => return Err((31, place)),
        };
        let body = bytes.get(at + 1..at + 1 + length).ok_or((31, place))?;
        if (kind <= 3) != open.is_empty() {
            return Err((31, place));
        }
        match kind {
            1 => {
                if number(body) == 0 {
                    return Err((31, place));
                }
                self.known.insert(number(body));
            }
            2 => {
                if !self.named.insert(number(body)) {
                    return Err((36, place));
                }
                *tally = Tally::default();
                open.push(Open { kind: Kind::Component(number(body)), items: vec![] });
            }
            3 => self.open_message(body, place, open, tally)?,
            4 => {
                let (tag, required) = self.tag_and_mark(body, place)?;
                add(tally, 1, place)?;
                self.note_direct(tag, open);
                open.last_mut().expect("inside").items.push(Item { tag, required, group: None });
            }
            5 => self.component_item(body, place, open, tally)?,
            6 => {
                let (tag, required) = self.tag_and_mark(body, place)?;
                deepen(tally, open.len(), place)?;
                add(tally, 1, place)?;
                open.push(Open { kind: Kind::Group(tag, required), items: vec![] });
            }
            _ => self.close(open, tally)?,
        }
        Ok(1 + length)
    }

    fn open_message(&mut self, body: &[u8], place: u32, open: &mut Vec<Open>, tally: &mut Tally) -> Result<(), (u32, u32)> {
        if !is_filled(body) {
            return Err((31, place));
        }
        let name: Vec<u8> = body.iter().copied().take_while(|byte| *byte != 0).collect();
        if self.messages.contains_key(&name) {
            return Err((36, place));
        }
        *tally = Tally::default();
        open.push(Open { kind: Kind::Message(name), items: vec![] });
        Ok(())
    }

    fn tag_and_mark(&self, body: &[u8], place: u32) -> Result<(u32, bool), (u32, u32)> {
        let tag = number(&body[..4]);
        if tag == 0 || body[4] > 1 {
            return Err((31, place));
        }
        if !self.known.contains(&tag) {
            return Err((33, tag));
        }
        Ok((tag, body[4] == 1))
    }

    /// "Header and trailer tags are the plain field items directly in components 0 and 1."
    fn note_direct(&mut self, tag: u32, open: &[Open]) {
        match open {
            [Open { kind: Kind::Component(0), .. }] => self.header.insert(tag),
            [Open { kind: Kind::Component(1), .. }] => self.trailer.insert(tag),
            _ => false,
        };
    }

    fn component_item(&mut self, body: &[u8], place: u32, open: &mut [Open], tally: &mut Tally) -> Result<(), (u32, u32)> {
        if body[2] > 1 {
            return Err((31, place));
        }
        let named = number(&body[..2]);
        let closed = self.components.get(&named).ok_or((32, named))?;
        if closed.depth > 0 {
            deepen(tally, open.len() - 1 + closed.depth, place)?;
        }
        add(tally, closed.total, place)?;
        open.last_mut().expect("inside").items.extend(closed.items.iter().cloned());
        Ok(())
    }

    fn close(&mut self, open: &mut Vec<Open>, tally: &mut Tally) -> Result<(), (u32, u32)> {
        let Open { kind, items } = open.pop().expect("inside");
        match kind {
            Kind::Group(tag, required) => {
                if items.is_empty() {
                    return Err((34, tag));
                }
                let group = Some(Rc::new(Layout::new(items)));
                open.last_mut().expect("a group stands in something").items.push(Item { tag, required, group });
            }
            Kind::Component(named) => {
                self.components.insert(named, Closed { items, total: tally.total, depth: tally.depth });
            }
            Kind::Message(name) => {
                self.messages.insert(name, Rc::new(Layout::new(items)));
            }
        }
        Ok(())
    }
}

fn add(tally: &mut Tally, more: usize, place: u32) -> Result<(), (u32, u32)> {
    tally.total += more;
    if tally.total > 1_024 { Err((37, place)) } else { Ok(()) }
}

fn deepen(tally: &mut Tally, depth: usize, place: u32) -> Result<(), (u32, u32)> {
    tally.depth = tally.depth.max(depth);
    if depth > 4 { Err((35, place)) } else { Ok(()) }
}
