//! What a preparation lays behind the least memory where it has room: a directory, and the blocks of tables that its words lead to.
use std::ops::Range;

use super::exports::PREPARED_WORDS;
use super::prepared::Prepared;

/// Words of the directory.
pub const DIRECTORY: usize = 15_008;

/// Where the directory ends. No block starts before it.
const END: usize = PREPARED_WORDS + DIRECTORY;

/// The word of the directory that leads to the header's tags, and what their block says in a message's place. Those of the trailer come next.
const TAGS: usize = 15_000;
const TAGS_PLACE: u16 = 60_000;

/// Blocks start at each so many words behind the least memory.
const STRIDE: usize = 8;

/// Words of the largest block.
const LARGEST: usize = 22_540;

/// Bytes of a flat record, by its kind from 1 on.
const RECORDS: [usize; 7] = [5, 3, 9, 6, 4, 6, 1];

/// The kind that opens a message.
const MESSAGE: u8 = 3;

/// A block: the word of the directory that leads to it, and its own words: the size of its table, whose table it is, and the table.
#[derive(Clone, Debug, PartialEq)]
pub struct Block {
    pub word: usize,
    pub words: Range<usize>,
}

/// Whose tables are laid, in this order: each with its word of the directory and what its block says.
fn whose(dictionary: &[u8]) -> Vec<(usize, u16)> {
    let mut told: Vec<(usize, u16)> = (0..2).map(|number| (PREPARED_WORDS + TAGS + usize::from(number), TAGS_PLACE + number)).collect();
    let mut at = 0;
    while at < dictionary.len() {
        if dictionary[at] == MESSAGE {
            told.push((PREPARED_WORDS + at / 4, at as u16));
        }
        at += RECORDS[usize::from(dictionary[at]) - 1];
    }
    told
}

/// Where blocks stand in so many words of memory: each behind the last that had room.
fn standing(blocks: &[Block], words: usize) -> Vec<Block> {
    let mut free = END;
    let mut standing = vec![];
    for block in blocks {
        let end = free + block.words.len();
        if end <= words {
            standing.push(Block { word: block.word, words: free..end });
            free = PREPARED_WORDS + (end - PREPARED_WORDS).next_multiple_of(STRIDE);
        }
    }
    standing
}

/// What is wrong with the tables that a dictionary has in memory with room for all of them and in memory with room for some: each block stands where
/// it must and says whose table it is, and some are the same as among all. How many there are in both.
pub fn tables(dictionary: &[u8], all: &Prepared, some: &Prepared) -> Result<[usize; 2], String> {
    let (many, few) = (all.blocks()?, some.blocks()?);
    let told: Vec<(usize, u16)> = many.iter().map(|block| (block.word, all.memory[block.words.start + 1])).collect();
    if all.memory.len() - all.used() >= LARGEST && told != whose(dictionary) {
        return Err(format!("tables of {told:?}"));
    }
    for (blocks, memory) in [(&many, &all.memory), (&few, &some.memory)] {
        if *blocks != standing(&many, memory.len()) {
            return Err(format!("in {} words {blocks:?}", memory.len()));
        }
    }
    for block in &few {
        let same = many.iter().find(|other| other.word == block.word).map(|other| &all.memory[other.words.clone()]);
        if same != Some(&some.memory[block.words.clone()]) {
            return Err(format!("{block:?} otherwise than among all"));
        }
    }
    Ok([many.len(), few.len()])
}

impl Prepared {
    pub fn has_directory(&self) -> bool {
        self.memory.len() >= END
    }

    /// The blocks in the order in which they stand; or one that isn't behind the directory, behind the one before it and in the memory.
    pub fn blocks(&self) -> Result<Vec<Block>, String> {
        if !self.has_directory() {
            return Ok(vec![]);
        }
        let led = (PREPARED_WORDS..END).filter(|word| self.memory[*word] > 0);
        let mut blocks: Vec<Block> = led.map(|word| self.block(word)).collect();
        blocks.sort_by_key(|block| block.words.start);
        let mut free = END;
        for block in &blocks {
            if block.words.start < free || self.memory.len() < block.words.end {
                return Err(format!("{block:?}, of the words {free} to {}", self.memory.len()));
            }
            free = block.words.end;
        }
        Ok(blocks)
    }

    fn block(&self, word: usize) -> Block {
        let start = PREPARED_WORDS + STRIDE * usize::from(self.memory[word]);
        let size = self.memory.get(start).map_or(0, |size| usize::from(*size));
        Block { word, words: start..start + 2 + size }
    }

    /// Words of memory that are used: up to the end of the last block.
    pub fn used(&self) -> usize {
        let head = if self.has_directory() { END } else { PREPARED_WORDS };
        self.blocks().ok().and_then(|blocks| Some(blocks.last()?.words.end)).unwrap_or(head)
    }

    /// Lays directory and blocks over the same words of another memory.
    pub fn lay_tables_over(&self, memory: &mut [u16]) {
        let directory = if self.has_directory() { PREPARED_WORDS..END } else { 0..0 };
        let blocks = self.blocks().unwrap_or_default().into_iter().map(|block| block.words);
        for words in std::iter::once(directory).chain(blocks) {
            memory[words.clone()].copy_from_slice(&self.memory[words]);
        }
    }
}
