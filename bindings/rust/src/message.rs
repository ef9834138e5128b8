//! Messages that are made and changed by calls, and encoded.
use crate::error::answered;
use crate::raw::{self, Out};
use crate::{Built, Error, Field, Part, MESSAGE_BYTES, SOH, VALUES, WORDS};
use std::fmt;

/// What a message or a run is kept in: rows of words, and value bytes packed in row order.
#[derive(Clone)]
struct Lent {
    words: Box<[u32]>,
    values: Box<[u8]>,
}

impl Lent {
    fn new() -> Self {
        Self { words: vec![0; WORDS].into_boxed_slice(), values: vec![0; VALUES].into_boxed_slice() }
    }

    /// Calls with words and values lent for writing.
    fn change(&mut self, call: impl FnOnce(*mut u32, usize, *mut u8, usize, *mut Out) -> u32) -> Result<Out, Error> {
        let mut out = [0; 4];
        let number = call(self.words.as_mut_ptr(), self.words.len(), self.values.as_mut_ptr(), self.values.len(), &mut out);
        answered(number, &out, &[]).map(|()| out)
    }

    /// Calls with words and values lent for reading; nothing where it isn't found.
    fn find(&self, call: impl FnOnce(*const u32, usize, *const u8, usize, *mut Out) -> u32) -> Option<Out> {
        let mut out = [0; 4];
        let number = call(self.words.as_ptr(), self.words.len(), self.values.as_ptr(), self.values.len(), &mut out);
        (number == 0 && out[0] == 1).then_some(out)
    }
}

/// A message to change and to encode. It owns its memory, so each thread may have its own.
///
/// ```
/// # fn main() -> Result<(), tinkoraba::Error> {
/// use tinkoraba::{Bars, Message, Part};
/// let mut message = Message::new("FIX.4.4", "0")?;
/// assert_eq!(Bars(&message.encode()?).to_string(), "8=FIX.4.4|9=5|35=0|10=163|");
/// message.store(Part::Body, 112, "ping")?;
/// assert_eq!(message.get(Part::Body, 112), Some(&b"ping"[..]));
/// assert_eq!(message.store(Part::Body, 0, "x").unwrap_err().number(), 41);
/// # Ok(()) }
/// ```
#[derive(Clone)]
pub struct Message {
    lent: Lent,
}

impl Default for Message {
    fn default() -> Self {
        Self::empty()
    }
}

impl Message {
    /// A message without any field.
    #[must_use]
    pub fn empty() -> Self {
        let mut lent = Lent::new();
        // SAFETY: `Lent` hands each pointer on with the length of what it comes from, and an `out` of its size; so in every call of this file.
        lent.change(|w, wn, v, vn, out| unsafe { raw::gateway_empty(w, wn, v, vn, out) }).expect("what is lent has its sizes");
        Self { lent }
    }

    /// A message with a BeginString (8) and a MsgType (35). A separator in them does what it does in [`Message::store`].
    pub fn new(begin_string: impl AsRef<[u8]>, msg_type: impl AsRef<[u8]>) -> Result<Self, Error> {
        let (begin, kind, mut lent) = (begin_string.as_ref(), msg_type.as_ref(), Lent::new());
        // SAFETY: see `empty`.
        lent.change(|w, wn, v, vn, out| unsafe { raw::gateway_new(w, wn, v, vn, begin.as_ptr(), begin.len(), kind.as_ptr(), kind.len(), out) })?;
        Ok(Self { lent })
    }

    /// Takes a built message over. What a build answered with 0 is never refused here.
    pub fn from_built(built: &Built<'_>) -> Result<Self, Error> {
        let (records, bytes, mut lent) = (built.records, built.bytes, Lent::new());
        // SAFETY: see `empty`.
        lent.change(|w, wn, v, vn, out| unsafe {
            raw::gateway_take_over(records.as_ptr(), records.len(), records.len(), bytes.as_ptr(), bytes.len(), w, wn, v, vn, out)
        })?;
        Ok(Self { lent })
    }

    /// Stores a field: in the place of the one with its tag, or last. Refused with 41 or 21, the message is as it was.
    ///
    /// **A value that holds the separator** is stored and found as it is, and written as it is: an encoding doesn't look for the separator in values.
    /// BodyLength and CheckSum count it like any byte, so both are right; but who reads the encoding takes the value to end there, and what follows for
    /// the next field, or for one that can't be read (10 from a build that needs one there). So look for the separator in values that come from
    /// outside. By the standard only a data field may hold byte 1, right behind its length field (95 and 96), and so it is written; a build here ends
    /// its value there all the same.
    ///
    /// ```
    /// # fn main() -> Result<(), tinkoraba::Error> {
    /// # let dictionary = tinkoraba::Dictionary::writer().tags(&[8, 9, 35, 10, 38, 58]).component(0).field(8).field(9).field(35).close()
    /// #     .component(1).field(10).close().message("D").field(38).field(58).close().finish()?;
    /// use tinkoraba::{build, Config, Message, Part, Records};
    /// let mut message = Message::new("FIX.4.4", "D")?;
    /// message.store(Part::Body, 38, "600")?;
    /// message.store(Part::Body, 58, "x\x0138=800")?; // one value, of eight bytes
    /// assert_eq!(message.get(Part::Body, 58), Some(&b"x\x0138=800"[..]));
    /// let bytes = message.encode()?;
    /// assert_eq!(bytes, b"8=FIX.4.4\x019=24\x0135=D\x0138=600\x0158=x\x0138=800\x0110=139\x01");
    ///
    /// // Its reader sees an order of 800.
    /// let mut records = Records::new();
    /// let built = build(&bytes, &dictionary, Config::default(), &mut records)?;
    /// assert_eq!(built.body().get(58), Some(&b"x"[..]));
    /// assert_eq!(built.body().get(38), Some(&b"800"[..]));
    ///
    /// // Where what follows is no field, it can't be read at all.
    /// message.store(Part::Body, 58, "x\x01y")?;
    /// let refused = build(&message.encode()?, &dictionary, Config::default(), &mut records).unwrap_err();
    /// assert_eq!(refused.number(), 10);
    /// # Ok(()) }
    /// ```
    pub fn store(&mut self, part: Part, tag: u32, value: impl AsRef<[u8]>) -> Result<(), Error> {
        let value = value.as_ref();
        // SAFETY: see `empty`.
        let call = |w, wn, v, vn, out| unsafe { raw::gateway_store(w, wn, v, vn, part as u8, tag, value.as_ptr(), value.len(), out) };
        self.lent.change(call).map(drop)
    }

    /// Removes a field, if it is held. A run that hung on it stays, and encoding then asks for its count (43).
    pub fn remove(&mut self, part: Part, tag: u32) {
        // SAFETY: see `empty`.
        let call = |w, wn, v, vn, out| unsafe { raw::gateway_remove(w, wn, v, vn, part as u8, tag, out) };
        self.lent.change(call).expect("what is lent is a message");
    }

    /// Hangs a run on a part, in the place of an earlier one on its count field. Storing the count field is up to the caller.
    pub fn hang(&mut self, part: Part, run: &Run) -> Result<(), Error> {
        let (words, values) = (&run.lent.words, &run.lent.values);
        // SAFETY: see `empty`.
        let call = |w, wn, v, vn, out| unsafe {
            raw::gateway_hang(w, wn, v, vn, part as u8, words.as_ptr(), words.len(), values.as_ptr(), values.len(), out)
        };
        self.lent.change(call).map(drop)
    }

    /// The value of a field in a part.
    #[must_use]
    pub fn get(&self, part: Part, tag: u32) -> Option<&[u8]> {
        self.part(part).get(tag)
    }

    /// What a part holds.
    #[must_use]
    pub fn part(&self, part: Part) -> Held<'_> {
        // SAFETY: see `empty`.
        let found = self.lent.find(|w, wn, v, vn, out| unsafe { raw::gateway_find_part(w, wn, v, vn, part as u8, out) });
        Held { lent: &self.lent, map: found.expect("every message has its parts")[1] as usize }
    }

    /// Encodes with FIX's separator. The message then holds the new BodyLength (9) and, last in its trailer, the new CheckSum (10).
    pub fn encode(&mut self) -> Result<Vec<u8>, Error> {
        self.encode_with(SOH)
    }

    /// Encodes with another separator, which isn't looked for in values either ([`Message::store`]).
    pub fn encode_with(&mut self, separator: u8) -> Result<Vec<u8>, Error> {
        let mut output = vec![0; MESSAGE_BYTES];
        let length = self.encode_into(&mut output, separator)?;
        output.truncate(length);
        Ok(output)
    }

    /// Encodes at the start of an output and answers the length; the rest of the output stays as it was.
    pub fn encode_into(&mut self, output: &mut [u8], separator: u8) -> Result<usize, Error> {
        // SAFETY: see `empty`.
        let call = |w, wn, v, vn, out| unsafe { raw::gateway_encode(w, wn, v, vn, output.as_mut_ptr(), output.len(), separator, out) };
        self.lent.change(call).map(|out| out[1] as usize)
    }
}

/// The fields of header, body and trailer with `|` behind each, for logs; how they are shown is not proved.
impl fmt::Display for Message {
    fn fmt(&self, f: &mut fmt::Formatter<'_>) -> fmt::Result {
        [Part::Header, Part::Body, Part::Trailer].into_iter().try_for_each(|part| self.part(part).show(f))
    }
}

impl fmt::Debug for Message {
    fn fmt(&self, f: &mut fmt::Formatter<'_>) -> fmt::Result {
        write!(f, "Message({self})")
    }
}

/// A run of a repeating group, made entry by entry and then hung.
///
/// ```
/// # fn main() -> Result<(), tinkoraba::Error> {
/// use tinkoraba::{Bars, Message, Part, Run};
/// let mut run = Run::new(78, 79); // NoAllocs, each entry opened by AllocAccount
/// run.add_entry()?;
/// run.store(79, "A")?;
/// run.store(80, "5")?;
/// let mut message = Message::new("FIX.4.4", "D")?;
/// message.store(Part::Body, 78, "1")?;
/// message.hang(Part::Body, &run)?;
/// assert_eq!(Bars(&message.encode()?).to_string(), "8=FIX.4.4|9=20|35=D|78=1|79=A|80=5|10=140|");
/// assert_eq!(message.part(Part::Body).entry(78, 0).and_then(|entry| entry.get(80)), Some(&b"5"[..]));
/// # Ok(()) }
/// ```
#[derive(Clone)]
pub struct Run {
    lent: Lent,
    start: u32,
    delimiter: u32,
}

impl Run {
    /// A run without entries: the tag of its count field, and that of the field that opens each entry.
    #[must_use]
    pub fn new(start: u32, delimiter: u32) -> Self {
        let mut lent = Lent::new();
        // SAFETY: see `Message::empty`; so in every call below.
        lent.change(|w, wn, v, vn, out| unsafe { raw::gateway_draft(w, wn, v, vn, out) }).expect("what is lent has its sizes");
        Self { lent, start, delimiter }
    }

    /// Adds an entry without any field.
    pub fn add_entry(&mut self) -> Result<(), Error> {
        let (start, delimiter) = (self.start, self.delimiter);
        self.lent.change(|w, wn, v, vn, out| unsafe { raw::gateway_add_entry(w, wn, v, vn, start, delimiter, out) }).map(drop)
    }

    /// Stores a field in the last entry; 42 where there is none.
    ///
    /// A value that holds the separator is written as it is, as from [`Message::store`]: who reads the encoding takes it to end there, and what follows
    /// for another field, in the entry or behind it (79 with `A\x0179=B` is read as two entries), or for one that can't be read.
    pub fn store(&mut self, tag: u32, value: impl AsRef<[u8]>) -> Result<(), Error> {
        let value = value.as_ref();
        let call = |w, wn, v, vn, out| unsafe { raw::gateway_store_last(w, wn, v, vn, tag, value.as_ptr(), value.len(), out) };
        self.lent.change(call).map(drop)
    }

    /// Hangs a nested run in the last entry.
    pub fn hang(&mut self, run: &Run) -> Result<(), Error> {
        let (words, values) = (&run.lent.words, &run.lent.values);
        let call =
            |w, wn, v, vn, out| unsafe { raw::gateway_hang_last(w, wn, v, vn, words.as_ptr(), words.len(), values.as_ptr(), values.len(), out) };
        self.lent.change(call).map(drop)
    }
}

impl fmt::Debug for Run {
    fn fmt(&self, f: &mut fmt::Formatter<'_>) -> fmt::Result {
        f.debug_struct("Run").field("start", &self.start).field("delimiter", &self.delimiter).finish_non_exhaustive()
    }
}

/// What a part of a message holds, or an entry in it.
#[derive(Clone, Copy)]
pub struct Held<'a> {
    lent: &'a Lent,
    map: usize,
}

/// A field, or an entry of a run.
#[derive(Clone, Copy)]
pub enum Item<'a> {
    /// A field of its own.
    Field(Field<'a>),
    /// An entry of the run on the count field `start`, which the field `delimiter` opens.
    Entry {
        /// The tag of the count field.
        start: u32,
        /// The tag that opens an entry.
        delimiter: u32,
        /// What it holds.
        entry: Held<'a>,
    },
}

/// A row of the layout: kind (1 a field, 2 a head), level, tag, and the value's size or the delimiter.
type Row = [u32; 4];

impl<'a> Held<'a> {
    /// The value of one of its own fields.
    #[must_use]
    pub fn get(&self, tag: u32) -> Option<&'a [u8]> {
        // SAFETY: see `Message::empty`; so in every call below.
        let [_, place, length, _] = self.lent.find(|w, wn, v, vn, out| unsafe { raw::gateway_find_field(w, wn, v, vn, self.map, tag, out) })?;
        Some(&self.lent.values[place as usize..(place + length) as usize])
    }

    /// An entry of the run on a count field; the first is 0.
    #[must_use]
    pub fn entry(&self, start: u32, number: usize) -> Option<Held<'a>> {
        let found = self.lent.find(|w, wn, v, vn, out| unsafe { raw::gateway_find_entry(w, wn, v, vn, self.map, start, number, out) })?;
        Some(Held { lent: self.lent, map: found[1] as usize })
    }

    /// Its own fields in order.
    pub fn fields(&self) -> impl Iterator<Item = Field<'a>> {
        self.items().filter_map(|item| match item {
            Item::Field(field) => Some(field),
            Item::Entry { .. } => None,
        })
    }

    /// The entries of the run on a count field.
    pub fn entries(&self, count: u32) -> impl Iterator<Item = Held<'a>> {
        self.items().filter_map(move |item| match item {
            Item::Entry { start, entry, .. } if start == count => Some(entry),
            _ => None,
        })
    }

    fn rows(lent: &'a Lent) -> impl Iterator<Item = (usize, Row)> + 'a {
        let row = |(place, row): (usize, &[u32])| (place, [row[0], row[1], row[2], row[3]]);
        lent.words[1..].chunks_exact(4).take(lent.words[0] as usize).enumerate().map(row)
    }

    /// Its fields and entries in order; each count is followed by its entries.
    pub fn items(&self) -> impl Iterator<Item = Item<'a>> {
        let Held { lent, map } = *self;
        let level = lent.words[1 + 4 * map + 1] + 1;
        let size = |row: &Row| if row[0] == 1 { row[3] as usize } else { 0 };
        let mut place: usize = Self::rows(lent).take(map + 1).map(|(_, row)| size(&row)).sum();
        Self::rows(lent).skip(map + 1).take_while(move |(_, row)| level <= row[1]).filter_map(move |(at, row)| {
            let from = place;
            place += size(&row);
            match row {
                [1, here, tag, _] if here == level => Some(Item::Field(Field { tag, value: &lent.values[from..place] })),
                [2, here, start, delimiter] if here == level => Some(Item::Entry { start, delimiter, entry: Held { lent, map: at } }),
                _ => None,
            }
        })
    }

    fn show(&self, f: &mut fmt::Formatter<'_>) -> fmt::Result {
        self.items().try_for_each(|item| match item {
            Item::Field(field) => write!(f, "{field}|"),
            Item::Entry { entry, .. } => entry.show(f),
        })
    }
}

impl fmt::Debug for Held<'_> {
    fn fmt(&self, f: &mut fmt::Formatter<'_>) -> fmt::Result {
        f.write_str("Held(")?;
        self.show(f)?;
        f.write_str(")")
    }
}
