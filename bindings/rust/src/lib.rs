//! FIX message handling for gateways, over Tinkoraba's proved library: two framers, a build that says what it keeps, and messages to change
//! and to encode. What is proved is the library; this crate hands memory to it and names its answers.
//!
//! One sample on its whole way: a damaged stream, the hunting framer, a build, a change, an encoding.
//!
//! ```
//! use tinkoraba::{build, Bars, Config, Dictionary, Hunter, Message, Part, Records};
//!
//! # fn main() -> Result<(), tinkoraba::Error> {
//! let dictionary = Dictionary::writer()
//!     .tags(&[8, 9, 35, 10, 38, 58])
//!     .component(0).field(8).field(9).field(35).close() // the standard header
//!     .component(1).field(10).close()                   // the standard trailer
//!     .message("D").field(38).field(58).close()
//!     .finish()?;
//!
//! // One order twice; a byte of the first copy was damaged on the way.
//! let mut hunter = Hunter::new();
//! hunter.push(b"8=FIX.4.4\x019=24\x0135=D\x0138=6?0\x0158=x\x0138=800\x0110=139\x01")?;
//! hunter.push(b"8=FIX.4.4\x019=24\x0135=D\x0138=600\x0158=x\x0138=800\x0110=139\x01")?;
//! let frame = hunter.take().expect("the second copy is whole").to_vec();
//! assert_eq!(hunter.dropped(), 46);
//!
//! // 38 came as 600 and again as 800: the build keeps 800, in the place of the first.
//! let mut records = Records::new();
//! let built = build(&frame, &dictionary, Config::default(), &mut records)?;
//! assert_eq!(built.body().get(38), Some(&b"800"[..]));
//! assert!(!built.holds_every_field());
//!
//! // Encoded, it has one field less than was read, and every check downstream passes.
//! let mut message = Message::from_built(&built)?;
//! assert_eq!(Bars(&message.encode()?).to_string(), "8=FIX.4.4|9=17|35=D|38=800|58=x|10=078|");
//!
//! message.store(Part::Body, 38, "600")?;
//! message.store(Part::Body, 58, "38 came twice")?;
//! assert_eq!(Bars(&message.encode()?).to_string(), "8=FIX.4.4|9=29|35=D|38=600|58=38 came twice|10=052|");
//! # Ok(()) }
//! ```
//!
//! Every refusal is an [`Error`] that says in words what happened and carries its number in docs/ANSWERS.md. It borrows nothing, and neither does that
//! of a build: `?` hands both on, also as a `Box<dyn std::error::Error + Send + Sync>`.
//!
//! The library has no variable of its own: all state is lent by these values, which own their memory. They may be sent to other threads, and
//! values of different threads never meet. A [`Dictionary`] is only read by builds: any number of threads share one.
mod built;
mod config;
mod dictionary;
mod error;
mod framers;
mod message;
mod raw;

pub use built::{build, Built, Entries, Field, FieldRecord, Map, NotBuilt, Records};
pub use config::{Config, Settings};
pub use dictionary::{Dictionary, DictionaryWriter};
pub use error::{Error, Flaw, Garbled, MsgType, Opened};
pub use framers::{Framer, Hunter};
pub use message::{Held, Item, Message, Run};
use std::fmt;

/// FIX's separator, byte 0x01.
pub const SOH: u8 = 1;
/// The most fields of a message, and so its records.
pub const RECORDS: usize = 1_024;
/// The longest message that is read, framed or encoded.
pub const MESSAGE_BYTES: usize = 8_192;
/// What a framer can hold.
pub const STORE_BYTES: usize = 16_384;
/// The longest flat dictionary.
pub const DICTIONARY_BYTES: usize = 60_000;
/// The most bytes that all values of one message have.
pub const VALUES: usize = 8_192;
const WORDS: usize = 8_205;

/// The parts of a message.
#[derive(Debug, Clone, Copy, PartialEq, Eq, PartialOrd, Ord, Hash)]
#[repr(u8)]
pub enum Part {
    /// From BeginString to the first field that is no header tag.
    Header = 1,
    /// What the message's layout has.
    Body = 2,
    /// Up to CheckSum.
    Trailer = 3,
}

/// Shows bytes with `|` for the separator, for logs; how it shows them is not proved.
///
/// ```
/// assert_eq!(tinkoraba::Bars(b"8=FIX.4.4\x019=5\x01").to_string(), "8=FIX.4.4|9=5|");
/// ```
#[derive(Debug, Clone, Copy)]
pub struct Bars<'a>(pub &'a [u8]);

impl fmt::Display for Bars<'_> {
    fn fmt(&self, f: &mut fmt::Formatter<'_>) -> fmt::Result {
        f.write_str(&String::from_utf8_lossy(self.0).replace('\x01', "|"))
    }
}
