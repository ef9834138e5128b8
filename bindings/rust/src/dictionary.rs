//! Flat dictionaries.
use crate::error::answered;
use crate::raw::Out;
use crate::{raw, Config, Error, FieldRecord};
use std::fmt;

/// The words of memory that a dictionary is prepared in: they hold the tables of FIX 4.4 and of FIX 5.0 SP1 whole.
const ROOM: usize = 524_288;

/// A flat dictionary that passed its check, prepared for builds.
///
/// It is checked and prepared once, when it is made: a gateway doesn't start with a bad one, and no build checks it again. Builds only read it, so
/// that any number of threads share one without a lock. Beside a copy of its bytes it holds 1 MB: what they name, and the tables of its messages that
/// builds read through. The library needs less, but each build of a message whose table has no room lays it anew. Share it rather than clone it.
///
/// ```
/// use tinkoraba::{build, Config, Dictionary, Error, Flaw, Records};
/// # fn main() -> Result<(), Error> {
/// let flaw = Dictionary::new(Vec::new()).unwrap_err();
/// assert_eq!(flaw, Error::Dictionary(Flaw::NoComponent { number: 0 }));
/// assert_eq!(flaw.to_string(), "flaw in the dictionary: component 0 is missing or not yet closed (32)");
///
/// # let writer = Dictionary::writer().tags(&[8, 9, 35, 10]).component(0).field(8).field(9).field(35).close().component(1).field(10).close();
/// let dictionary = writer.message("0").close().finish()?;
/// std::thread::scope(|scope| {
///     for _ in 0..2 {
///         scope.spawn(|| {
///             let mut records = Records::new();
///             let heartbeat = b"8=FIX.4.4\x019=5\x0135=0\x0110=163\x01";
///             assert!(build(heartbeat, &dictionary, Config::default(), &mut records).is_ok());
///         });
///     }
/// });
/// # Ok(()) }
/// ```
#[derive(Clone, PartialEq, Eq)]
pub struct Dictionary {
    copy: Vec<u8>,
    memory: Vec<u16>,
}

impl Dictionary {
    /// Checks the bytes and prepares them.
    pub fn new(bytes: impl Into<Vec<u8>>) -> Result<Self, Error> {
        let bytes = bytes.into();
        // SAFETY: it takes nothing.
        let least = unsafe { raw::gateway_prepared_words() } as usize;
        let (mut copy, mut memory, mut out) = (vec![0; bytes.len()], vec![0; ROOM.max(least)], [0; 4]);
        // SAFETY: each pointer goes with the length of what it comes from, copy and memory are borrowed for writing alone, and `out` has its size.
        let number =
            unsafe { raw::gateway_prepare(bytes.as_ptr(), bytes.len(), copy.as_mut_ptr(), copy.len(), memory.as_mut_ptr(), memory.len(), &mut out) };
        answered(number, &out, &bytes).map(|()| Self { copy, memory })
    }

    /// Writes one record by record.
    pub fn writer() -> DictionaryWriter {
        DictionaryWriter { bytes: Vec::new() }
    }

    /// Its bytes.
    #[must_use]
    pub fn as_bytes(&self) -> &[u8] {
        &self.copy
    }

    /// The number of a build over what was prepared.
    pub(crate) fn build(&self, bytes: &[u8], config: Config, records: &mut [FieldRecord], out: &mut Out) -> u32 {
        // SAFETY: each pointer goes with the length of what it comes from, the records are borrowed for writing alone, and `out` has its size.
        unsafe {
            raw::gateway_build_prepared(
                bytes.as_ptr(),
                bytes.len(),
                config.separator,
                config.settings.word(),
                self.copy.as_ptr(),
                self.copy.len(),
                self.memory.as_ptr(),
                self.memory.len(),
                records.as_mut_ptr(),
                records.len(),
                out,
            )
        }
    }
}

/// Its bytes: what was prepared follows from them.
impl fmt::Debug for Dictionary {
    fn fmt(&self, f: &mut fmt::Formatter<'_>) -> fmt::Result {
        f.debug_struct("Dictionary").field("bytes", &self.copy).finish()
    }
}

/// Writes the records of a flat dictionary. It judges nothing; [`DictionaryWriter::finish`] has the library check what was written.
///
/// ```
/// # fn main() -> Result<(), tinkoraba::Error> {
/// let dictionary = tinkoraba::Dictionary::writer()
///     .tags(&[8, 9, 35, 10, 38, 58])
///     .component(0).field(8).field(9).field(35).close() // the standard header
///     .component(1).field(10).close()                   // the standard trailer
///     .message("D").field(38).required(58).close()
///     .finish()?;
/// # Ok(()) }
/// ```
#[derive(Debug, Clone)]
#[must_use]
pub struct DictionaryWriter {
    bytes: Vec<u8>,
}

impl DictionaryWriter {
    fn record(mut self, kind: u8, pieces: &[&[u8]]) -> Self {
        self.bytes.push(kind);
        pieces.iter().for_each(|piece| self.bytes.extend_from_slice(piece));
        self
    }

    /// Makes tags known; an item's tag must be known before it.
    pub fn tags(self, tags: &[u32]) -> Self {
        tags.iter().fold(self, |writer, tag| writer.record(1, &[&tag.to_le_bytes()]))
    }

    /// Opens a component: 0 is the standard header, 1 the standard trailer.
    pub fn component(self, number: u16) -> Self {
        self.record(2, &[&number.to_le_bytes()])
    }

    /// Opens a message. A MsgType of no byte or of more than 8 makes a record that the check refuses (31).
    pub fn message(self, msg_type: &str) -> Self {
        let mut filled = [0; 8];
        if let Some(start) = filled.get_mut(..msg_type.len()) {
            start.copy_from_slice(msg_type.as_bytes());
        }
        self.record(3, &[&filled])
    }

    /// A field that may be left out.
    pub fn field(self, tag: u32) -> Self {
        self.record(4, &[&tag.to_le_bytes(), &[0]])
    }

    /// A field that is required; only within groups a build asks for it.
    pub fn required(self, tag: u32) -> Self {
        self.record(4, &[&tag.to_le_bytes(), &[1]])
    }

    /// The items of a component that was closed before, in this place.
    pub fn items_of(self, component: u16) -> Self {
        self.record(5, &[&component.to_le_bytes(), &[0]])
    }

    /// Opens a group: its count field that may be left out. The first item is its delimiter.
    pub fn group(self, tag: u32) -> Self {
        self.record(6, &[&tag.to_le_bytes(), &[0]])
    }

    /// Opens a group whose count field is required.
    pub fn required_group(self, tag: u32) -> Self {
        self.record(6, &[&tag.to_le_bytes(), &[1]])
    }

    /// Closes what was opened last.
    pub fn close(self) -> Self {
        self.record(7, &[])
    }

    /// Has the library check what was written.
    pub fn finish(self) -> Result<Dictionary, Error> {
        Dictionary::new(self.bytes)
    }
}
