//! The two forms of a build held against each other: with the dictionary, which is then checked in it, and over memory that it was prepared in.
use std::time::Duration;

use super::Unlike;
use super::any_content::{self, STAMP};
use super::directory::{self, DIRECTORY};
use super::exports::*;
use super::library::{Built, UNTOUCHED, check};
use super::prepared::Prepared;
use crate::generate::random::Random;
use crate::protocol::{KEPT, Reading};
use crate::used;

/// Sizes of memory that each dictionary is prepared in: the least, more without a directory, with room for some tables, and for all.
pub const SIZES: usize = 4;
const SOME: usize = 2;
const ALL: usize = 3;

/// What memory has more than the least: too little for a directory; and enough for all tables.
const NO_DIRECTORY: usize = 77;
const EVERY_TABLE: usize = DIRECTORY + 200_000;

/// What a few tables take at the most, as those of the header's and the trailer's tags.
const FEW_TABLES: usize = 3_000;

/// One build of so many prepares its dictionary anew.
const ONE_OF: usize = 16;

/// A build over memory of any content takes no longer.
const LONGEST: Duration = Duration::from_millis(100);

/// What builds over a dictionary that is prepared in memory of every size are held against.
const OVER: [&str; SIZES] = [
    "a plain build and one over the least prepared memory",
    "a plain build and one over prepared memory without a directory",
    "a plain build and one over prepared memory with some tables",
    "a plain build and one over prepared memory with all tables",
];

/// What a build over memory of any content can answer.
const ANSWERS: [u32; 13] = [0, 1, 2, 3, 4, 10, 11, 12, 13, 14, 20, 21, 22];

/// A number and the four words.
type Told = (u32, Out);

#[derive(Default)]
struct Seen {
    builds: u64,
    /// In memory with room for all of them, and with room for some.
    tables: [usize; 2],
    preparations: u64,
    refusals: u64,
    astray: u64,
    any_content: u64,
    longest: Duration,
    not_prepared: u64,
}

pub struct Forms {
    /// What the check says of each dictionary.
    checked: Vec<Told>,
    /// What each was prepared in when it came, for all builds over it; nothing where it is refused.
    kept: Vec<Option<[Prepared; SIZES]>>,
    /// What dictionaries are prepared in anew, over what another one left.
    anew: [Prepared; SIZES],
    /// What a preparation must leave.
    must: Prepared,
    /// What no dictionary was ever prepared in.
    blank: Prepared,
    turn: usize,
    seen: Seen,
    unlike: Vec<Unlike>,
}

impl Default for Forms {
    fn default() -> Self {
        // SAFETY: it takes nothing.
        assert_eq!(unsafe { gateway_prepared_words() } as usize, PREPARED_WORDS, "the words of memory at the least");
        Self {
            checked: vec![check(&[]); KEPT],
            kept: (0..KEPT).map(|_| None).collect(),
            anew: [0, NO_DIRECTORY, DIRECTORY, EVERY_TABLE].map(|more| Prepared::room(0, more)),
            must: Prepared::room(0, 0),
            blank: Prepared::room(0, 0),
            turn: 0,
            seen: Seen::default(),
            unlike: vec![],
        }
    }
}

/// Both builds where they are unlike: number, words, and the first record that isn't the same.
fn unlike_builds(one: &Built, other: &Built) -> Option<[String; 2]> {
    let at = (0..RECORDS).find(|at| one.records[*at] != other.records[*at]);
    let record = |built: &Built| at.map_or(String::new(), |at| format!(" record {at} {:?}", built.records[at]));
    let alike = (one.number, one.out, at) == (other.number, other.out, None);
    (!alike).then(|| [one, other].map(|built| format!("{} {:?}{}", built.number, built.out, record(built))))
}

/// Where it first is otherwise.
fn unlike_memory(must: &Prepared, is: &Prepared) -> Option<[String; 2]> {
    if must == is {
        return None;
    }
    let byte = (0..must.copy.len()).find(|at| must.copy[*at] != is.copy[*at]);
    let word = (0..must.memory.len()).find(|at| must.memory[*at] != is.memory[*at]);
    let shown = |held: &Prepared| {
        let byte = byte.map_or(String::new(), |at| format!("byte {at} {} ", held.copy[at]));
        byte + &word.map_or(String::new(), |at| format!("word {at} {}", held.memory[at]))
    };
    Some([must, is].map(shown))
}

fn prepared(dictionary: &[u8], more: usize) -> Prepared {
    let mut room = Prepared::room(dictionary.len(), more);
    room.prepare(dictionary);
    room
}

/// A dictionary that passes its check, prepared in memory of every size. How many tables some are is drawn from the dictionary, so that it meets the
/// same again: none up to all but one, and of a large dictionary half the time few.
fn in_every_size(dictionary: &[u8], least: Prepared) -> [Prepared; SIZES] {
    let all = prepared(dictionary, EVERY_TABLE);
    let tables = all.used() - PREPARED_WORDS - DIRECTORY;
    let mut random = Random::new(dictionary.iter().map(|byte| u64::from(*byte)).sum());
    let most = if random.chance(50) { tables.min(FEW_TABLES) } else { tables };
    let some = prepared(dictionary, DIRECTORY + random.below(most));
    [least, prepared(dictionary, NO_DIRECTORY), some, all]
}

impl Forms {
    pub fn unlike(&mut self) -> Vec<Unlike> {
        std::mem::take(&mut self.unlike)
    }

    pub fn held(&self) -> String {
        let Seen { builds, tables: [all, some], preparations, refusals, astray, any_content, longest, not_prepared } = self.seen;
        format!(
            "plain builds and builds over a prepared dictionary {builds}, in memory of {SIZES} sizes; tables where all have room {all}, where some have \
             {some}; checks and preparations {preparations}, of them refused {refusals}; builds over memory whose tables can't be found {astray}, over \
             memory of any content {any_content}, the longest {:.1} ms, over memory that nothing was prepared in {not_prepared}",
            longest.as_secs_f64() * 1e3
        )
    }

    fn note(&mut self, what: &'static str, sides: [&'static str; 2], said: Option<[String; 2]>) {
        if let Some([one, other]) = said {
            self.unlike.push(Unlike { what, said: [(sides[0], one), (sides[1], other)] });
        }
    }

    /// A dictionary comes: it is prepared for the builds over it, in memory of every size, and in too little.
    pub fn dictionary(&mut self, number: usize, dictionary: &[u8], checked: Told) {
        let least = prepared(dictionary, 0);
        let memory = &least.memory;
        let stamped = memory[..2] == STAMP && usize::from(memory[2]) == dictionary.len();
        if stamped != (checked.0 == 0) {
            let said = [checked.0 == 0, stamped].map(|stamped| if stamped { "a stamp" } else { "no stamp" }.to_string());
            self.note("the stamp of prepared memory", ["must", "is"], Some(said));
        }
        self.checked[number] = checked;
        self.kept[number] = (checked.0 == 0).then(|| in_every_size(dictionary, least));
        self.count_tables(number, dictionary);
        (0..SIZES).for_each(|which| self.prepare_anew(which, number, dictionary));
        [(1, 0), (0, 1)].into_iter().for_each(|few| self.prepare_in_too_little(dictionary, few));
    }

    fn count_tables(&mut self, number: usize, dictionary: &[u8]) {
        let Some(kept) = &self.kept[number] else { return };
        match directory::tables(dictionary, &kept[ALL], &kept[SOME]) {
            Ok(tables) => (0..2).for_each(|which| self.seen.tables[which] += tables[which]),
            Err(flaw) => self.note("the tables of prepared memory", ["must", "is"], Some(["those of the dictionary".to_string(), flaw])),
        }
    }

    /// Prepares anew: it answers as the check does, writes over what it must and over nothing else, and after a refusal over nothing. Directory and
    /// tables must be those that stand in as much memory which held something else before; the words between and behind them stay.
    fn prepare_anew(&mut self, which: usize, number: usize, dictionary: &[u8]) {
        let (room, must) = (&mut self.anew[which], &mut self.must);
        room.copy.resize(dictionary.len() + which, UNTOUCHED as u8);
        if let Some(kept) = &self.kept[number] {
            room.memory.resize(kept[which].memory.len(), UNTOUCHED as u16);
        }
        must.copy.clone_from(&room.copy);
        must.memory.clone_from(&room.memory);
        if let Some(kept) = &self.kept[number] {
            must.copy[..dictionary.len()].copy_from_slice(dictionary);
            must.memory[..PREPARED_WORDS].copy_from_slice(&kept[0].memory);
            kept[which].lay_tables_over(&mut must.memory);
        }
        let (answered, checked) = (room.prepare(dictionary), self.checked[number]);
        let left = unlike_memory(must, room);
        self.seen.preparations += 1;
        self.seen.refusals += u64::from(checked.0 > 0);
        let told = (answered != checked).then(|| [checked, answered].map(|told| format!("{told:?}")));
        self.note("a dictionary's check and its preparation", ["check", "prepare"], told);
        self.note("what a preparation leaves", ["must", "is"], left);
    }

    /// So many bytes and words too few: 23 before all else, and nothing is written.
    fn prepare_in_too_little(&mut self, dictionary: &[u8], (bytes, words): (usize, usize)) {
        if dictionary.len() < bytes {
            return;
        }
        let mut room = Prepared::room(dictionary.len() - bytes, 0);
        room.memory.truncate(PREPARED_WORDS - words);
        let must = room.clone();
        let answered = room.prepare(dictionary);
        let told = (answered != (23, [0; 4])).then(|| ["(23, [0, 0, 0, 0])".to_string(), format!("{answered:?}")]);
        self.note("a preparation in too little", ["must", "is"], told);
        self.note("what a preparation in too little leaves", ["must", "is"], unlike_memory(&must, &room));
    }

    /// A plain build was made: the same over its dictionary prepared in memory of every size, and now and then over one prepared anew.
    pub fn build(&mut self, dictionary: &[u8], reading: &Reading, plain: &Built) {
        let (number, which) = (reading.dictionary, self.turn % SIZES);
        let anew = (self.turn / SIZES).is_multiple_of(ONE_OF);
        self.turn += 1;
        if anew {
            self.prepare_anew(which, number, dictionary);
        }
        match &self.kept[number] {
            Some(kept) => {
                let over_kept = kept.each_ref().map(|kept| unlike_builds(plain, &kept.build(reading)));
                let over_anew = if anew { unlike_builds(plain, &self.anew[which].build(reading)) } else { None };
                self.seen.builds += SIZES as u64 + u64::from(anew);
                for (what, said) in OVER.into_iter().zip(over_kept) {
                    self.note(what, ["plain", "prepared"], said);
                }
                self.note("a plain build and one over a dictionary prepared anew", ["plain", "prepared"], over_anew);
            }
            None => self.not_prepared(&self.blank.build(reading)),
        }
        self.over_any_content(dictionary, reading, plain);
    }

    /// Now and then the same over memory whose tables can't be found, over memory of any content, and over memory without its stamp.
    fn over_any_content(&mut self, dictionary: &[u8], reading: &Reading, plain: &Built) {
        let Some(mut random) = any_content::drawn(reading) else { return };
        let kept = self.kept[reading.dictionary].as_ref();
        let stamped = any_content::stamped(&mut random, dictionary, reading, kept);
        let unstamped = any_content::unstamped(&mut random, kept.map(|kept| &kept[0])).build(reading);
        let astray = kept.map(|kept| any_content::astray(&mut random, &kept[ALL]).build(reading));
        let began = used();
        let built = stamped.build(reading);
        self.any_content(reading, &built, used() - began);
        self.not_prepared(&unstamped);
        self.seen.astray += u64::from(astray.is_some());
        let said = astray.and_then(|astray| unlike_builds(plain, &astray));
        self.note("a plain build and one over prepared memory whose tables can't be found", ["plain", "prepared"], said);
    }

    /// 27, and the records as they were.
    fn not_prepared(&mut self, built: &Built) {
        let must = Built { number: 27, out: [0; 4], ..Built::default() };
        self.seen.not_prepared += 1;
        self.note("a build over memory that nothing was prepared in", ["must", "is"], unlike_builds(&must, built));
    }

    /// Any answer but of a dictionary, soon; its records tell of fields of the message, and those past them are blank.
    fn any_content(&mut self, reading: &Reading, built: &Built, spent: Duration) {
        let inside = |record: &FieldRecord| usize::from(record.place) + usize::from(record.length) <= reading.message.len();
        let sound = ANSWERS.contains(&built.number) && built.flaws().is_empty() && built.records[..built.count()].iter().all(inside);
        let said = (!sound).then(|| ["an answer of a build".to_string(), built.line(&reading.message)]);
        let late = (spent > LONGEST).then(|| [LONGEST, spent].map(|time| format!("{time:?}")));
        self.seen.any_content += 1;
        self.seen.longest = self.seen.longest.max(spent);
        self.note("a build over memory of any content", ["must", "is"], said);
        self.note("the time of a build over memory of any content", ["at most", "is"], late);
    }
}
