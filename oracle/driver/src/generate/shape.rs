//! Dictionaries as trees, from tiny to full size, and their flat records.
use super::random::Random;
use Node::{Component, Field, Group};

#[derive(Clone, Debug)]
pub enum Node {
    Field(u32, bool),
    Component(u16, bool),
    Group(u32, bool, Vec<Node>),
}

/// An item after flattening, for making messages that follow a layout.
#[derive(Clone, Debug)]
pub struct Item {
    pub tag: u32,
    pub required: bool,
    pub group: Option<Vec<Item>>,
}

#[derive(Clone, Debug, Default)]
pub struct Shape {
    pub known: Vec<u32>,
    pub header: Vec<u32>,
    pub trailer: Vec<u32>,
    pub components: Vec<(u16, Vec<Node>)>,
    pub messages: Vec<(Vec<u8>, Vec<Node>)>,
}

const KINDS: [&str; 12] = ["D", "0", "8", "AE", "A", "5", "ABCDEFGH", "q", "é", "DD", "U1", "ABCDEFG"];

/// How many items a layout may still take, so that records and items stay within their limits.
struct Budget {
    items: usize,
    /// Whether a message takes all of it.
    filled: bool,
}

impl Shape {
    pub fn random(random: &mut Random, small: bool) -> Self {
        let (tags, messages, items) = match random.below(if small { 55 } else { 100 }) {
            0..=14 => return Self::towering(random),
            15..=54 => (4 + random.below(12), 1 + random.below(3), 14),
            55..=84 => (20 + random.below(80), 1 + random.below(6), 60),
            85..=95 => (200 + random.below(300), 4 + random.below(8), 300),
            _ => (1_000 + random.below(900), 24, 900),
        };
        Self::sized(random, tags, messages, items)
    }

    fn sized(random: &mut Random, tags: usize, messages: usize, items: usize) -> Self {
        let mut shape = Self { known: known_tags(random, tags), ..Self::default() };
        shape.header = with_some(random, &shape.known, &[8, 9, 35], &[34, 49, 56]);
        shape.trailer = with_some(random, &shape.known, &[10], &[93, 89]);
        shape.named_tags();
        for number in 0..random.below(5) {
            let mut budget = Budget { items: items / 4, filled: false };
            let nodes = shape.nodes(random, &mut budget, 2, true);
            shape.components.push((2 + number as u16 * 3, nodes));
        }
        for place in 0..messages {
            let mut budget = Budget { items: 1 + random.below(items), filled: items >= 900 || random.chance(20) };
            let nodes = shape.nodes(random, &mut budget, 4, true);
            let kind = KINDS.get(place).map_or_else(|| format!("M{place}"), |kind| kind.to_string());
            shape.messages.push((kind.into_bytes(), nodes));
        }
        shape.trim();
        shape
    }

    /// Groups four deep, each with groups beside each other, every tag once: messages that nest as deep as can be, and entries of which
    /// several nested groups lack a field.
    fn towering(random: &mut Random) -> Self {
        let mut shape = Self { header: vec![8, 9, 35, 34], trailer: vec![10, 93], ..Self::default() };
        let mut next = 100;
        let nodes = (0..1 + random.below(2)).map(|_| tower(random, &mut next, 4)).collect();
        shape.messages.push((b"D".to_vec(), nodes));
        shape.known = (100..next).collect();
        shape.named_tags();
        shape
    }

    /// Tags that the header and trailer name must be known.
    fn named_tags(&mut self) {
        let named: Vec<u32> = self.header.iter().chain(&self.trailer).copied().collect();
        self.known.extend(named);
        self.known.sort_unstable();
        self.known.dedup();
    }

    /// Every tag that an item names becomes known.
    pub fn know_all(&mut self) {
        let nodes: Vec<&[Node]> =
            self.components.iter().map(|named| named.1.as_slice()).chain(self.messages.iter().map(|named| named.1.as_slice())).collect();
        let mut tags = vec![];
        nodes.into_iter().for_each(|nodes| named_in(nodes, &mut tags));
        self.known.extend(tags);
        self.named_tags();
    }

    fn nodes(&self, random: &mut Random, budget: &mut Budget, depth: usize, outer: bool) -> Vec<Node> {
        let mut nodes = vec![];
        let wanted = if outer && budget.filled { budget.items } else { 1 + random.below(if outer { budget.items } else { 6 }) };
        while nodes.len() < wanted && budget.items > 0 {
            budget.items -= 1;
            let (tag, required) = (random.of(&self.known), random.chance(35));
            let node = match random.below(100) {
                0..=24 if depth > 0 => Group(tag, required, self.group(random, budget, depth - 1)),
                25..=32 if !self.components.is_empty() => {
                    let (number, _) = &self.components[random.below(self.components.len())];
                    self.component(*number, required, budget, depth).unwrap_or(Field(tag, required))
                }
                _ => Field(tag, required),
            };
            nodes.push(node);
        }
        nodes
    }

    /// A group never stays empty: it starts with a field, seldom with a group of its own.
    fn group(&self, random: &mut Random, budget: &mut Budget, depth: usize) -> Vec<Node> {
        let first = Field(random.of(&self.known), random.chance(50));
        let mut nodes = self.nodes(random, budget, depth, false);
        if random.chance(85) || nodes.is_empty() {
            nodes.insert(0, first);
        }
        if self.flat(&nodes).is_empty() {
            nodes.push(Field(random.of(&self.known), false));
        }
        nodes
    }

    fn component(&self, number: u16, required: bool, budget: &mut Budget, depth: usize) -> Option<Node> {
        let items = self.flat(self.component_nodes(number)?);
        let (size, deep) = (size_of(&items), depth_of(&items));
        if size > budget.items || deep > depth {
            return None;
        }
        budget.items -= size;
        Some(Component(number, required))
    }

    fn component_nodes(&self, number: u16) -> Option<&[Node]> {
        self.components.iter().find(|named| named.0 == number).map(|named| named.1.as_slice())
    }

    pub fn flat(&self, nodes: &[Node]) -> Vec<Item> {
        let mut items = vec![];
        for node in nodes {
            match node {
                Field(tag, required) => items.push(Item { tag: *tag, required: *required, group: None }),
                Group(tag, required, inner) => {
                    items.push(Item { tag: *tag, required: *required, group: Some(self.flat(inner)) });
                }
                Component(number, _) => items.extend(self.flat(self.component_nodes(*number).unwrap_or(&[]))),
            }
        }
        items
    }

    /// Messages are left out until the dictionary fits into 60,000 bytes.
    fn trim(&mut self) {
        while self.bytes().len() > 60_000 && self.messages.len() > 1 {
            self.messages.pop();
        }
    }

    pub fn bytes(&self) -> Vec<u8> {
        let mut out = vec![];
        for tag in &self.known {
            out.push(1);
            out.extend_from_slice(&tag.to_le_bytes());
        }
        let direct = |tags: &[u32]| tags.iter().map(|tag| Field(*tag, false)).collect::<Vec<_>>();
        let parts = [(0, direct(&self.header)), (1, direct(&self.trailer))];
        for (number, nodes) in parts.iter().chain(&self.components) {
            out.push(2);
            out.extend_from_slice(&number.to_le_bytes());
            records(nodes, &mut out);
            out.push(7);
        }
        for (kind, nodes) in &self.messages {
            let mut name = kind.clone();
            name.resize(8, 0);
            out.push(3);
            out.extend_from_slice(&name);
            records(nodes, &mut out);
            out.push(7);
        }
        out
    }
}

fn tower(random: &mut Random, next: &mut u32, depth: usize) -> Node {
    let mut tag = || {
        *next += 1;
        *next - 1
    };
    let count = tag();
    let mut nodes = vec![Field(tag(), random.chance(50)), Field(tag(), random.chance(70))];
    if depth > 1 {
        for _ in 0..1 + random.below(2) {
            nodes.push(tower(random, next, depth - 1));
        }
    }
    if random.chance(40) {
        nodes.push(Field(*next, true));
        *next += 1;
    }
    Group(count, random.chance(60), nodes)
}

fn named_in(nodes: &[Node], tags: &mut Vec<u32>) {
    for node in nodes {
        match node {
            Field(tag, _) => tags.push(*tag),
            Component(..) => {}
            Group(tag, _, inner) => {
                tags.push(*tag);
                named_in(inner, tags);
            }
        }
    }
}

fn records(nodes: &[Node], out: &mut Vec<u8>) {
    for node in nodes {
        match node {
            Field(tag, required) => {
                out.push(4);
                out.extend_from_slice(&tag.to_le_bytes());
                out.push(u8::from(*required));
            }
            Component(number, required) => {
                out.push(5);
                out.extend_from_slice(&number.to_le_bytes());
                out.push(u8::from(*required));
            }
            Group(tag, required, inner) => {
                out.push(6);
                out.extend_from_slice(&tag.to_le_bytes());
                out.push(u8::from(*required));
                records(inner, out);
                out.push(7);
            }
        }
    }
}

fn size_of(items: &[Item]) -> usize {
    items.iter().map(|item| 1 + item.group.as_ref().map_or(0, |inner| size_of(inner))).sum()
}

fn depth_of(items: &[Item]) -> usize {
    items.iter().filter_map(|item| item.group.as_ref()).map(|inner| 1 + depth_of(inner)).max().unwrap_or(0)
}

fn known_tags(random: &mut Random, count: usize) -> Vec<u32> {
    let mut tags = vec![];
    for _ in 0..count {
        tags.push(match random.below(100) {
            0..=4 => 5_000 + random.below(4) as u32,
            5 => 1 + random.next() as u32 % u32::MAX,
            6..=8 => random.of(&[8, 9, 10, 35, 34, 49]),
            9 => u32::MAX,
            _ => 1 + random.below(count * 2 + 40) as u32,
        });
    }
    tags
}

/// Most of the usual tags, seldom one of them missing, and now and then any known tag.
fn with_some(random: &mut Random, known: &[u32], usual: &[u32], more: &[u32]) -> Vec<u32> {
    let mut tags: Vec<u32> = usual.iter().copied().filter(|_| random.chance(96)).collect();
    tags.extend(more.iter().copied().filter(|_| random.chance(60)));
    if random.chance(30) {
        tags.push(random.of(known));
    }
    if random.chance(10) && !tags.is_empty() {
        tags.push(tags[0]);
    }
    tags
}
