//! A dictionary prepared in memory that is lent, and builds over it.
pub use super::exports::PREPARED_WORDS;
use super::exports::*;
use super::library::{Built, UNTOUCHED};
use crate::protocol::Reading;

/// What a dictionary is prepared in.
#[derive(Clone, PartialEq)]
pub struct Prepared {
    pub copy: Vec<u8>,
    pub memory: Vec<u16>,
}

impl Prepared {
    /// Room for a dictionary of so many bytes, with so many words of memory more than the least. Nothing is prepared there.
    pub fn room(bytes: usize, more: usize) -> Self {
        Self { copy: vec![UNTOUCHED as u8; bytes], memory: vec![UNTOUCHED as u16; PREPARED_WORDS + more] }
    }

    pub fn prepare(&mut self, dictionary: &[u8]) -> (u32, Out) {
        let mut out = [UNTOUCHED; 4];
        // SAFETY: each pointer goes with the length of what it comes from; so in every call of this file.
        let number = unsafe {
            gateway_prepare(
                dictionary.as_ptr(),
                dictionary.len(),
                self.copy.as_mut_ptr(),
                self.copy.len(),
                self.memory.as_mut_ptr(),
                self.memory.len(),
                &mut out,
            )
        };
        (number, out)
    }

    pub fn build(&self, reading: &Reading) -> Built {
        let mut built = Built::default();
        self.build_into(reading, &mut built);
        built
    }

    pub fn build_into(&self, reading: &Reading, built: &mut Built) {
        // SAFETY: see `prepare`.
        built.number = unsafe {
            gateway_build_prepared(
                reading.message.as_ptr(),
                reading.message.len(),
                reading.separator,
                reading.settings,
                self.copy.as_ptr(),
                self.copy.len(),
                self.memory.as_ptr(),
                self.memory.len(),
                built.records.as_mut_ptr(),
                RECORDS,
                &mut built.out,
            )
        };
    }
}
