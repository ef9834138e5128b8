//! A message as maps, and its two flat forms: records (part, depth, entry, tag, value) and rows (level, then a field or an entry's head).
use crate::protocol::hex;

#[derive(Clone, Debug, PartialEq)]
pub enum Row {
    /// level, tag, value
    Field(u32, u32, Vec<u8>),
    /// level, start tag, delimiter tag; what belongs to the entry stands one level deeper
    Head(u32, u32, u32),
}

#[derive(Clone, Debug, Default, PartialEq)]
pub struct Map {
    pub fields: Vec<(u32, Vec<u8>)>,
    pub runs: Vec<Run>,
}

#[derive(Clone, Debug, Default, PartialEq)]
pub struct Run {
    pub start: u32,
    pub entries: Vec<Entry>,
}

#[derive(Clone, Debug, Default, PartialEq)]
pub struct Entry {
    pub start: u32,
    pub delimiter: u32,
    pub map: Map,
}

/// Header, body, trailer.
#[derive(Clone, Debug, Default, PartialEq)]
pub struct Parts(pub [Map; 3]);

impl Map {
    /// "storing a held tag replaces the value and keeps the position"
    pub fn store(&mut self, tag: u32, value: Vec<u8>) {
        match self.fields.iter_mut().find(|field| field.0 == tag) {
            Some(held) => held.1 = value,
            None => self.fields.push((tag, value)),
        }
    }

    /// "a second run replaces the first"
    pub fn hang(&mut self, start: u32, entries: Vec<Entry>) {
        match self.runs.iter_mut().find(|run| run.start == start) {
            Some(held) => held.entries = entries,
            None => self.runs.push(Run { start, entries }),
        }
    }

    pub fn get(&self, tag: u32) -> Option<&Vec<u8>> {
        self.fields.iter().find(|field| field.0 == tag).map(|field| &field.1)
    }

    pub fn run(&self, start: u32) -> Option<&Run> {
        self.runs.iter().find(|run| run.start == start)
    }

    fn records(&self, part: usize, depth: usize, entry: usize, out: &mut Vec<String>) {
        for (tag, value) in &self.fields {
            out.push(format!("{part}.{depth}.{entry}.{tag}.{}", hex(value)));
            for (place, inner) in self.run(*tag).iter().flat_map(|run| run.entries.iter()).enumerate() {
                inner.map.records(part, depth + 1, place + 1, out);
            }
        }
    }

    fn rows(&self, level: u32, out: &mut Vec<Row>) {
        for (tag, value) in &self.fields {
            out.push(Row::Field(level, *tag, value.clone()));
            if let Some(run) = self.run(*tag) {
                run.rows(level, out);
            }
        }
        for run in self.runs.iter().filter(|run| self.get(run.start).is_none()) {
            run.rows(level, out);
        }
    }
}

impl Run {
    fn rows(&self, level: u32, out: &mut Vec<Row>) {
        for entry in &self.entries {
            out.push(Row::Head(level, entry.start, entry.delimiter));
            entry.map.rows(level + 1, out);
        }
    }
}

impl Parts {
    pub fn records(&self) -> Vec<String> {
        let mut out = vec![];
        for (place, map) in self.0.iter().enumerate() {
            map.records(place + 1, 0, 0, &mut out);
        }
        out
    }

    /// The three parts stand as entries at level 0 with the start tags 1, 2, 3.
    pub fn rows(&self) -> Vec<Row> {
        let mut out = vec![];
        for (place, map) in self.0.iter().enumerate() {
            out.push(Row::Head(0, place as u32 + 1, 0));
            map.rows(1, &mut out);
        }
        out
    }
}

/// The entries that rows mean: the heads of this level, each with the deeper rows behind it. `None` where they don't nest.
/// Among the rows of an entry, heads with one start tag that follow each other are one run.
pub fn entries_of(rows: &[Row], level: u32) -> Option<Vec<Entry>> {
    let mut entries = vec![];
    let mut rest = rows;
    while let Some((Row::Head(at, start, delimiter), after)) = rest.split_first().map(|(a, b)| (a.clone(), b)) {
        if at != level {
            return None;
        }
        let own = after.iter().take_while(|row| level_of(row) > level).count();
        entries.push(Entry { start, delimiter, map: map_of(&after[..own], level + 1)? });
        rest = &after[own..];
    }
    rest.is_empty().then_some(entries)
}

fn level_of(row: &Row) -> u32 {
    match row {
        Row::Field(level, ..) | Row::Head(level, ..) => *level,
    }
}

fn map_of(rows: &[Row], level: u32) -> Option<Map> {
    let mut map = Map::default();
    let mut rest = rows;
    while let Some(first) = rest.first() {
        match first {
            Row::Field(at, tag, value) if *at == level => {
                map.store(*tag, value.clone());
                rest = &rest[1..];
            }
            Row::Head(at, start, _) if *at == level => {
                let run =
                    rest.iter().take_while(|row| level_of(row) > level || matches!(row, Row::Head(l, s, _) if *l == level && s == start)).count();
                map.hang(*start, entries_of(&rest[..run], level)?);
                rest = &rest[run..];
            }
            _ => return None,
        }
    }
    Some(map)
}
