//! What a call refuses, in words and with its number.
use crate::raw::Out;
use std::fmt;

/// Why a call was refused. [`Error::number`] is its number in docs/ANSWERS.md, which also says what to do about it. It owns what it says: nothing is
/// borrowed, and only the errors that hold a text take memory for it, when they are made.
#[derive(Debug, Clone, PartialEq, Eq, Hash)]
#[non_exhaustive]
pub enum Error {
    /// 1: the message's layout has no place for this tag.
    InvalidField { tag: u32 },
    /// 2: after a count its delimiter didn't come, or an entry's tags don't rise in the layout's order.
    InvalidOrderInGroup { tag: u32, group: u32 },
    /// 3: the dictionary has no message of this MsgType; and place and length of its value in the message.
    InvalidMsgType { msg_type: MsgType, place: usize, length: usize },
    /// 4: an entry lacks a field that its group requires.
    RequiredFieldMissing { tag: u32, group: u32 },
    /// 10 to 14: the message is garbled. FIX drops such a message without an answer.
    Garbled(Garbled),
    /// 20: over 8,192 bytes. The ported framer needs a reset after it.
    TooLong,
    /// 21: over 1,024 fields.
    TooManyFields,
    /// 22: the separator is `=` or a digit.
    InvalidSeparator,
    /// 23: the output is too short.
    NoRoom,
    /// 25: the chunk doesn't fit into the store, of which nothing was lost.
    StoreFull,
    /// 26: the stream had ended.
    AfterEnd,
    /// 27: what was lent is no message, or memory in which no dictionary was prepared; in a [`Dictionary`](crate::Dictionary) one always was.
    NoMessage,
    /// 30 to 37: the dictionary has a flaw.
    Dictionary(Flaw),
    /// 41: tag 0, or values of over 8,192 bytes in all.
    NotStorable,
    /// 42: a run without an entry, or no entry to store in.
    NoRun,
    /// 43: the header lacks 8 or 35, or a run lacks its count.
    Incomplete,
    /// A number that this crate doesn't know, or not from the call that answered it: its archive is of another version.
    Other(u32),
}

/// Why a message is garbled.
#[derive(Debug, Clone, Copy, PartialEq, Eq, Hash)]
pub enum Garbled {
    /// 10: no field could be read where one was needed.
    Malformed,
    /// 11: the first field isn't BeginString.
    InvalidBeginString,
    /// 12: the second field isn't BodyLength, or the length is wrong.
    InvalidBodyLength,
    /// 13: the third field isn't MsgType.
    InvalidMsgType,
    /// 14: there is no CheckSum at the end, or it is wrong.
    InvalidChecksum,
}

/// What is wrong with a flat dictionary. A place is that of the record's first byte.
#[derive(Debug, Clone, PartialEq, Eq, Hash)]
pub enum Flaw {
    /// 30: over 60,000 bytes.
    TooLong,
    /// 31: a record that is cut, misplaced or badly filled, or something left open.
    BadRecord { place: usize },
    /// 32: a component that is missing or not yet closed.
    NoComponent { number: u32 },
    /// 33: a tag that wasn't made known.
    UnknownTag { tag: u32 },
    /// 34: a group without items.
    EmptyGroup { tag: u32 },
    /// 35: groups nested five deep.
    TooDeep { place: usize },
    /// 36: a component or a MsgType for the second time.
    Twice { opened: Opened, place: usize },
    /// 37: over 1,024 items in one component or message.
    TooManyItems { place: usize },
}

/// What a record of a dictionary opens.
#[derive(Debug, Clone, PartialEq, Eq, Hash)]
pub enum Opened {
    /// The component of this number.
    Component(u16),
    /// The message of this MsgType.
    Message(MsgType),
}

impl Opened {
    /// Reads the record at a place of a dictionary; nothing where it opens neither.
    fn at(dictionary: &[u8], place: usize) -> Option<Self> {
        match *dictionary.get(place..)? {
            [2, low, high, ..] => Some(Opened::Component(u16::from_le_bytes([low, high]))),
            [3, ref behind @ ..] => behind.get(..8)?.split(|byte| *byte == 0).next().map(|value| Opened::Message(value.into())),
            _ => None,
        }
    }
}

/// The value of a MsgType (35), whatever bytes it has. `Display` and `Debug` show it for logs: what is no printable ASCII is escaped, as `\x02`
/// or `\n`, and of more than 32 bytes the first 32 are shown with `..` behind them, so that a message can't fill a log.
///
/// ```
/// use tinkoraba::MsgType;
/// assert_eq!(MsgType::from(&b"U\x02"[..]).to_string(), r"U\x02");
/// assert_eq!(MsgType::from(&[b'x'; 33][..]).to_string(), "xxxxxxxxxxxxxxxxxxxxxxxxxxxxxxxx..");
/// ```
#[derive(Clone, PartialEq, Eq, Hash)]
pub struct MsgType(Box<[u8]>);

impl MsgType {
    /// The value, all of it.
    #[must_use]
    pub fn as_bytes(&self) -> &[u8] {
        &self.0
    }
}

impl AsRef<[u8]> for MsgType {
    fn as_ref(&self) -> &[u8] {
        &self.0
    }
}

impl From<&[u8]> for MsgType {
    fn from(value: &[u8]) -> Self {
        Self(value.into())
    }
}

impl Error {
    /// The number that docs/ANSWERS.md has for it.
    #[must_use]
    pub fn number(&self) -> u32 {
        match self {
            Error::InvalidField { .. } => 1,
            Error::InvalidOrderInGroup { .. } => 2,
            Error::InvalidMsgType { .. } => 3,
            Error::RequiredFieldMissing { .. } => 4,
            Error::Garbled(garbled) => garbled.number(),
            Error::TooLong => 20,
            Error::TooManyFields => 21,
            Error::InvalidSeparator => 22,
            Error::NoRoom => 23,
            Error::StoreFull => 25,
            Error::AfterEnd => 26,
            Error::NoMessage => 27,
            Error::Dictionary(flaw) => flaw.number(),
            Error::NotStorable => 41,
            Error::NoRun => 42,
            Error::Incomplete => 43,
            Error::Other(number) => *number,
        }
    }

    /// The two values that come with it, 0 where there is none.
    #[must_use]
    pub fn values(&self) -> (u32, u32) {
        match *self {
            Error::InvalidField { tag } => (tag, 0),
            Error::InvalidOrderInGroup { tag, group } | Error::RequiredFieldMissing { tag, group } => (tag, group),
            Error::InvalidMsgType { place, length, .. } => (place as u32, length as u32),
            Error::Dictionary(ref flaw) => (flaw.value(), 0),
            _ => (0, 0),
        }
    }
}

impl Garbled {
    fn number(self) -> u32 {
        match self {
            Garbled::Malformed => 10,
            Garbled::InvalidBeginString => 11,
            Garbled::InvalidBodyLength => 12,
            Garbled::InvalidMsgType => 13,
            Garbled::InvalidChecksum => 14,
        }
    }
}

impl Flaw {
    fn number(&self) -> u32 {
        match self {
            Flaw::TooLong => 30,
            Flaw::BadRecord { .. } => 31,
            Flaw::NoComponent { .. } => 32,
            Flaw::UnknownTag { .. } => 33,
            Flaw::EmptyGroup { .. } => 34,
            Flaw::TooDeep { .. } => 35,
            Flaw::Twice { .. } => 36,
            Flaw::TooManyItems { .. } => 37,
        }
    }

    fn value(&self) -> u32 {
        match *self {
            Flaw::TooLong => 60_000,
            Flaw::BadRecord { place } | Flaw::TooDeep { place } | Flaw::Twice { place, .. } | Flaw::TooManyItems { place } => place as u32,
            Flaw::NoComponent { number } => number,
            Flaw::UnknownTag { tag } | Flaw::EmptyGroup { tag } => tag,
        }
    }
}

/// The number and the words that an export left. What it read, a message or a dictionary, has the places that a refusal names; calls that read neither
/// give no bytes, and never answer 3 or 36.
pub(crate) fn answered(number: u32, out: &Out, read: &[u8]) -> Result<(), Error> {
    if number == 0 {
        return Ok(());
    }
    Err(refused(number, out, read))
}

#[cold]
fn refused(number: u32, out: &Out, read: &[u8]) -> Error {
    let [_, first, second, _] = *out;
    let (place, length) = (first as usize, second as usize);
    let other = Error::Other(number);
    match number {
        1 => Error::InvalidField { tag: first },
        2 => Error::InvalidOrderInGroup { tag: first, group: second },
        3 => {
            let value = read.get(place..).and_then(|behind| behind.get(..length));
            value.map_or(other, |value| Error::InvalidMsgType { msg_type: value.into(), place, length })
        }
        4 => Error::RequiredFieldMissing { tag: first, group: second },
        10 => Error::Garbled(Garbled::Malformed),
        11 => Error::Garbled(Garbled::InvalidBeginString),
        12 => Error::Garbled(Garbled::InvalidBodyLength),
        13 => Error::Garbled(Garbled::InvalidMsgType),
        14 => Error::Garbled(Garbled::InvalidChecksum),
        20 => Error::TooLong,
        21 => Error::TooManyFields,
        22 => Error::InvalidSeparator,
        23 => Error::NoRoom,
        25 => Error::StoreFull,
        26 => Error::AfterEnd,
        27 => Error::NoMessage,
        30 => Error::Dictionary(Flaw::TooLong),
        31 => Error::Dictionary(Flaw::BadRecord { place }),
        32 => Error::Dictionary(Flaw::NoComponent { number: first }),
        33 => Error::Dictionary(Flaw::UnknownTag { tag: first }),
        34 => Error::Dictionary(Flaw::EmptyGroup { tag: first }),
        35 => Error::Dictionary(Flaw::TooDeep { place }),
        36 => Opened::at(read, place).map_or(other, |opened| Error::Dictionary(Flaw::Twice { opened, place })),
        37 => Error::Dictionary(Flaw::TooManyItems { place }),
        41 => Error::NotStorable,
        42 => Error::NoRun,
        43 => Error::Incomplete,
        _ => other,
    }
}

impl fmt::Display for Error {
    fn fmt(&self, f: &mut fmt::Formatter<'_>) -> fmt::Result {
        match self {
            Error::InvalidField { tag } => write!(f, "tag {tag} has no place in this message"),
            Error::InvalidOrderInGroup { tag, group } => write!(f, "tag {tag} stands wrong in the group of {group}"),
            Error::InvalidMsgType { msg_type, .. } => write!(f, "the dictionary has no message of MsgType `{msg_type}`"),
            Error::RequiredFieldMissing { tag, group } => write!(f, "an entry of the group of {group} lacks the required tag {tag}"),
            Error::Garbled(garbled) => write!(f, "garbled message: {garbled}"),
            Error::TooLong => write!(f, "a message of over 8,192 bytes"),
            Error::TooManyFields => write!(f, "more than 1,024 fields"),
            Error::InvalidSeparator => write!(f, "the separator is `=` or a digit"),
            Error::NoRoom => write!(f, "the output is too short"),
            Error::StoreFull => write!(f, "the chunk doesn't fit into the framer's store"),
            Error::AfterEnd => write!(f, "the stream had ended"),
            Error::NoMessage => write!(f, "what was lent is no message"),
            Error::Dictionary(flaw) => write!(f, "flaw in the dictionary: {flaw}"),
            Error::NotStorable => write!(f, "tag 0, or values of over 8,192 bytes in all"),
            Error::NoRun => write!(f, "a run without entries, or no entry to store in"),
            Error::Incomplete => write!(f, "the header lacks 8 or 35, or a run lacks its count"),
            Error::Other(_) => write!(f, "a number that this crate doesn't know from this call"),
        }?;
        write!(f, " ({})", self.number())
    }
}

impl fmt::Display for Garbled {
    fn fmt(&self, f: &mut fmt::Formatter<'_>) -> fmt::Result {
        f.write_str(match self {
            Garbled::Malformed => "a field can't be read",
            Garbled::InvalidBeginString => "it doesn't start with BeginString",
            Garbled::InvalidBodyLength => "BodyLength is missing or wrong",
            Garbled::InvalidMsgType => "the third field isn't MsgType",
            Garbled::InvalidChecksum => "CheckSum is missing or wrong",
        })
    }
}

impl fmt::Display for Flaw {
    fn fmt(&self, f: &mut fmt::Formatter<'_>) -> fmt::Result {
        match self {
            Flaw::TooLong => write!(f, "over 60,000 bytes"),
            Flaw::BadRecord { place } => write!(f, "a bad record, or something left open, at place {place}"),
            Flaw::NoComponent { number } => write!(f, "component {number} is missing or not yet closed"),
            Flaw::UnknownTag { tag } => write!(f, "tag {tag} wasn't made known"),
            Flaw::EmptyGroup { tag } => write!(f, "the group of {tag} is empty"),
            Flaw::TooDeep { place } => write!(f, "groups nested five deep at place {place}"),
            Flaw::Twice { opened, place } => write!(f, "{opened} for the second time at place {place}"),
            Flaw::TooManyItems { place } => write!(f, "over 1,024 items at place {place}"),
        }
    }
}

impl fmt::Display for Opened {
    fn fmt(&self, f: &mut fmt::Formatter<'_>) -> fmt::Result {
        match self {
            Opened::Component(number) => write!(f, "component {number}"),
            Opened::Message(msg_type) => write!(f, "MsgType `{msg_type}`"),
        }
    }
}

impl fmt::Display for MsgType {
    fn fmt(&self, f: &mut fmt::Formatter<'_>) -> fmt::Result {
        let (shown, more) = if self.0.len() <= 32 { (&self.0[..], "") } else { (&self.0[..32], "..") };
        write!(f, "{}{more}", shown.escape_ascii())
    }
}

impl fmt::Debug for MsgType {
    fn fmt(&self, f: &mut fmt::Formatter<'_>) -> fmt::Result {
        write!(f, "\"{self}\"")
    }
}

impl std::error::Error for Error {}
