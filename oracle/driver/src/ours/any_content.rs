//! Memory that no dictionary was prepared in: with a right stamp every content is answered, without one nothing is built.
use super::directory::{Block, DIRECTORY};
use super::exports::PREPARED_WORDS;
use super::forms::SIZES;
use super::prepared::Prepared;
use crate::generate::random::Random;
use crate::protocol::Reading;

/// The words that memory starts with where a dictionary was prepared in it; its length follows.
pub const STAMP: [u16; 2] = [18_758, 12_888];

/// One build of so many is also made over such memory.
const ONE_OF: usize = 64;

/// What memory of any words has more than the least: nothing, too little for a directory, and room behind one.
const MORE: [usize; 3] = [0, 77, DIRECTORY + 3_000];

/// Fewer words of prepared memory than this, and fewer bytes of its copy, are changed behind the stamp: with many nothing is found any more.
const CHANGED_WORDS: [usize; 3] = [3, 12, 200];
const CHANGED_BYTES: [usize; 3] = [1, 3, 20];

/// Words in front of the index, and of its heads; an entry stands behind as many words as its number and a half of it, and the last has this number.
const FRONT: usize = 3;
const HEADS: usize = 6_144;
const LAST: usize = 60_000;

/// The number of the empty component, and how many of its items stand in a row.
const EMPTY: u16 = 2;
const ROW: usize = 14_000;

/// How deep components double that claim items and add none: work that doubled with them would take over a second.
const DOUBLED: u16 = 26;

/// Numbers for such memory, now and then: drawn from the request, so that it meets the same memory again.
pub fn drawn(reading: &Reading) -> Option<Random> {
    let mixed = |seed: u64, byte: &u8| (seed ^ u64::from(*byte)).wrapping_mul(0x0100_0000_01b3);
    let mut random = Random::new(reading.message.iter().fold(u64::from(reading.settings), mixed));
    (random.below(ONE_OF) == 0).then_some(random)
}

/// Memory with the stamp and a length that fits: of any words and bytes; of words that are places in the dictionary; of components that claim what
/// they don't hold; of entries in one chain; of rows of empty components; or prepared and then changed.
pub fn stamped(random: &mut Random, dictionary: &[u8], reading: &Reading, kept: Option<&[Prepared; SIZES]>) -> Prepared {
    let mut made = match (random.below(16), kept) {
        (0, _) => any(random),
        (1, _) => doubling(reading),
        (2, _) => chained(dictionary),
        (3, _) => rows(reading),
        (4, _) | (_, None) => Prepared { memory: words(random, dictionary.len() + 1), copy: dictionary.to_vec() },
        (_, Some(kept)) => {
            let made = random.of(kept);
            changed(random, made)
        }
    };
    made.memory[..2].copy_from_slice(&STAMP);
    let whole = made.copy.len().min(usize::from(u16::MAX));
    made.memory[2] = if random.chance(80) { whole } else { random.below(whole + 1) } as u16;
    made
}

/// Memory that tells that nothing was prepared in it: by a word of the stamp, by its length, or by the copy's.
pub fn unstamped(random: &mut Random, kept: Option<&Prepared>) -> Prepared {
    let Some(kept) = kept else { return Prepared::room(random.below(100), 0) };
    let mut made = kept.clone();
    match random.below(4) {
        0 => made.copy.truncate(random.below(made.copy.len())),
        1 => made.memory.truncate(random.below(PREPARED_WORDS)),
        word => made.memory[word - 2] ^= 1 << random.below(16),
    }
    made
}

/// Memory of a prepared dictionary in which tables can't be found: every word of the directory leads to another block, the blocks say that they are
/// others', or the memory ends before them. What is read is then laid from the copy, and the answer is the same.
pub fn astray(random: &mut Random, kept: &Prepared) -> Prepared {
    let mut made = kept.clone();
    let blocks = kept.blocks().unwrap_or_default();
    match random.below(3) {
        0 => (1..blocks.len()).for_each(|at| made.memory.swap(blocks[at - 1].word, blocks[at].word)),
        1 => blocks.iter().for_each(|block| made.memory[block.words.start + 1] ^= 1 << random.below(16)),
        _ => {
            let from = random.of(&[PREPARED_WORDS, PREPARED_WORDS + DIRECTORY]);
            let end = from + random.below(kept.used() - from);
            // The cut words are still there: who reads past the end must not find the tables.
            made.memory[end..].fill(0);
            made.memory.truncate(end);
        }
    }
    made
}

fn words(random: &mut Random, below: usize) -> Vec<u16> {
    let count = PREPARED_WORDS + random.of(&MORE);
    (0..count).map(|_| random.below(below) as u16).collect()
}

fn any(random: &mut Random) -> Prepared {
    let bytes = random.below(2_000);
    Prepared { copy: (0..bytes).map(|_| random.byte()).collect(), memory: words(random, 1 << 16) }
}

/// Prepared memory, changed in its copy and in what the records name, or in directory and tables; in the copy kinds of records come up anew.
fn changed(random: &mut Random, mut made: Prepared) -> Prepared {
    match made.blocks() {
        Ok(blocks) if blocks.len() > 1 && random.chance(70) => {
            for _ in 0..1 + random.below(3) {
                change_tables(random, &mut made.memory, &blocks);
            }
        }
        _ => {
            change_words(random, &mut made.memory, 3..PREPARED_WORDS, made.copy.len());
            let bytes = random.of(&CHANGED_BYTES);
            for _ in 0..random.below(bytes) {
                let at = random.below(made.copy.len());
                made.copy[at] = if random.chance(70) { random.below(8) as u8 } else { random.byte() };
            }
        }
    }
    made
}

/// Words that say something are changed for others of them, for small ones, or for any word.
fn change_words(random: &mut Random, memory: &mut [u16], among: std::ops::Range<usize>, small: usize) {
    let said: Vec<usize> = among.filter(|at| memory[*at] > 0).collect();
    if said.is_empty() {
        return;
    }
    let words = random.of(&CHANGED_WORDS);
    for _ in 0..random.below(words) {
        let word = match random.below(3) {
            0 => memory[random.of(&said)],
            1 => random.below(small) as u16,
            _ => random.next() as u16,
        };
        memory[random.of(&said)] = word;
    }
}

/// Changes what directory and blocks say: a table's own words; where a block stands, with or without whose it is; its size; and all of a table.
fn change_tables(random: &mut Random, memory: &mut [u16], blocks: &[Block]) {
    let (one, other) = (random.of(blocks), random.of(blocks));
    let (start, table) = (one.words.start, one.words.start + 2..one.words.end);
    let (any, fits) = (random.next() as u16, (memory.len() - table.start).min(usize::from(u16::MAX)) as u16);
    match random.below(8) {
        0..=2 => change_words(random, memory, table.clone(), table.len()),
        3 => memory.swap(one.word, other.word),
        4 => {
            memory.swap(one.word, other.word);
            memory.swap(start + 1, other.words.start + 1);
        }
        5 => memory[start] = random.of(&[any, fits, fits.saturating_add(1), u16::MAX]),
        6 => memory[start + 1] = random.of(&[any, memory[other.words.start + 1]]),
        _ => {
            let below = random.of(&[table.len(), 1 << 16]);
            table.for_each(|at| memory[at] = random.below(below) as u16);
        }
    }
}

fn item(number: u16) -> Vec<u8> {
    [&[5], &number.to_le_bytes()[..], &[0]].concat()
}

fn field(tag: u32) -> Vec<u8> {
    [&[4], &tag.to_le_bytes()[..], &[0]].concat()
}

/// The MsgType that is read, as a record of a message holds it.
fn asked(reading: &Reading) -> Vec<u8> {
    let mut values = reading.message.split(|byte| *byte == reading.separator).filter_map(|field| field.strip_prefix(b"35="));
    let mut name = values.next().filter(|name| (1..=8).contains(&name.len()) && !name.contains(&0)).unwrap_or(b"0").to_vec();
    name.resize(8, 0);
    name
}

/// A dictionary with header, trailer, an empty component and these behind it, the last of which the message that is read holds.
fn written(reading: &Reading, components: &[Vec<Vec<u8>>]) -> Vec<u8> {
    let mut bytes: Vec<u8> = [8u32, 9, 10, 35].iter().flat_map(|tag| [&[1], &tag.to_le_bytes()[..]].concat()).collect();
    let first = [vec![field(8), field(9), field(35)], vec![field(10)], vec![]];
    for (number, items) in first.iter().chain(components).enumerate() {
        bytes.extend([&[2], &(number as u16).to_le_bytes()[..], &items.concat(), &[7]].concat());
    }
    bytes.extend([&[3], &asked(reading)[..], &item(EMPTY + components.len() as u16), &[7]].concat());
    bytes
}

/// Memory of a sound dictionary beside a copy in which each component holds the one before twice and none has a field: what the memory says of their
/// items isn't so.
fn doubling(reading: &Reading) -> Prepared {
    let components = |sound: bool| {
        let last = if sound { field(8) } else { vec![7; 6] };
        let above = (1..=DOUBLED).map(|level| vec![item(EMPTY + level), item(if sound { EMPTY } else { EMPTY + level }), last.clone()]);
        std::iter::once(vec![last.clone()]).chain(above).collect::<Vec<_>>()
    };
    let sound = written(reading, &components(true));
    let mut made = Prepared::room(sound.len(), 0);
    made.prepare(&sound);
    Prepared { copy: written(reading, &components(false)), ..made }
}

/// Memory of a sound dictionary in which a component of so many empty ones and a field is used 1,024 times, and the look-up of the empty one is led
/// astray into a chain of other keys: to look each of them up each time would take seconds.
fn rows(reading: &Reading) -> Prepared {
    let row = [vec![item(EMPTY); ROW], vec![field(8)]].concat();
    let above = (1..=10).map(|level| vec![item(EMPTY + level); 2]);
    let dictionary = written(reading, &std::iter::once(row).chain(above).collect::<Vec<_>>());
    let mut made = Prepared::room(dictionary.len(), 0);
    made.prepare(&dictionary);
    // Numbers in the row, where no entry stands.
    let chain = 50_000..50_240;
    made.memory[FRONT + 2_048 + usize::from(EMPTY)] = chain.start as u16;
    for number in chain.step_by(4) {
        let entry = FRONT + HEADS + number + number / 2;
        made.memory[entry..entry + 3].copy_from_slice(&[number as u16 + 4, number as u16 + 4, u16::MAX]);
    }
    made
}

/// Memory whose heads all lead into one chain of as many entries as there can be, none of which is sought: a look-up that followed it would take 15,000
/// steps, and one that lists what the dictionary holds many times as many.
fn chained(dictionary: &[u8]) -> Prepared {
    let mut memory = vec![u16::MAX; PREPARED_WORDS];
    memory[FRONT..FRONT + HEADS].fill(4);
    for number in (4..LAST).step_by(4) {
        let branches = FRONT + HEADS + number + number / 2;
        memory[branches..branches + 2].fill(number as u16 + 4);
    }
    Prepared { memory, copy: dictionary.to_vec() }
}
