//! Building a message from its bytes, and reading what was built.
use crate::error::answered;
use crate::{Config, Dictionary, Error, Part, RECORDS};
use std::fmt;

/// One field of a built message, as the library fills it in. Depth and entry are 0 outside groups, else they count from 1; place and length are
/// in the message's bytes.
#[repr(C)]
#[derive(Debug, Clone, Copy, Default, PartialEq, Eq)]
pub struct FieldRecord {
    /// 1 header, 2 body, 3 trailer.
    pub part: u8,
    /// How many groups it is in.
    pub depth: u8,
    /// Its entry's number in the innermost of them.
    pub entry: u16,
    /// Its tag.
    pub tag: u32,
    /// Where its value starts.
    pub place: u16,
    /// How long its value is.
    pub length: u16,
}

impl FieldRecord {
    /// Where its value ends.
    fn end(&self) -> usize {
        usize::from(self.place) + usize::from(self.length)
    }
}

/// Room for the records of one message; make it once and use it for every build.
#[derive(Debug, Clone)]
pub struct Records {
    lent: Box<[FieldRecord]>,
}

impl Records {
    /// Room for 1,024 records.
    #[must_use]
    pub fn new() -> Self {
        Self { lent: vec![FieldRecord::default(); RECORDS].into_boxed_slice() }
    }
}

impl Default for Records {
    fn default() -> Self {
        Self::new()
    }
}

/// Builds a message from its bytes, over what the dictionary prepared when it was made.
///
/// ```
/// # fn main() -> Result<(), tinkoraba::Error> {
/// # let dictionary = tinkoraba::Dictionary::writer().tags(&[8, 9, 35, 10, 38, 58]).component(0).field(8).field(9).field(35).close()
/// #     .component(1).field(10).close().message("D").field(38).field(58).close().finish()?;
/// use tinkoraba::{build, Config, Records};
/// let mut records = Records::new();
/// let order = b"8=FIX.4.4\x019=24\x0135=D\x0138=600\x0158=x\x0138=800\x0110=139\x01";
/// let built = build(order, &dictionary, Config::default(), &mut records)?;
/// assert_eq!(built.body().get(38), Some(&b"800"[..])); // the second 38, in the place of the first
/// assert_eq!(built.to_string(), "8=FIX.4.4|9=24|35=D|38=800|58=x|10=139|");
/// assert!(!built.holds_every_field()); // 600 is gone
///
/// let refused = build(b"8=FIX.4.4\x01", &dictionary, Config::default(), &mut records).unwrap_err();
/// assert_eq!(refused.number(), 12);
/// # Ok(()) }
/// ```
pub fn build<'a>(bytes: &'a [u8], dictionary: &Dictionary, config: Config, records: &'a mut Records) -> Result<Built<'a>, NotBuilt> {
    let mut out = [0; 4];
    let number = dictionary.build(bytes, config, &mut records.lent, &mut out);
    let built = Built { bytes, separator: config.separator, records: &records.lent[..out[0] as usize] };
    answered(number, &out, bytes).map(|()| built).map_err(|error| NotBuilt::new(error, &built))
}

/// A message that was refused, with what its header held. It owns both and takes memory for them when it is made: it goes up by `?` as any error,
/// to other threads too, while message and records serve the next build.
///
/// ```
/// # fn dictionary() -> Result<tinkoraba::Dictionary, tinkoraba::Error> {
/// #     tinkoraba::Dictionary::writer().tags(&[8, 9, 35, 10]).component(0).field(8).field(9).field(35).close().component(1).field(10).close()
/// #         .message("0").close().finish()
/// # }
/// use tinkoraba::{build, Config, NotBuilt, Records};
/// fn fields_of(bytes: &[u8]) -> Result<usize, Box<dyn std::error::Error + Send + Sync>> {
///     let (dictionary, mut records) = (dictionary()?, Records::new());
///     Ok(build(bytes, &dictionary, Config::default(), &mut records)?.records().len())
/// }
///
/// let refused = fields_of(b"8=FIX.4.4\x019=6\x0135=XX\x0110=036\x01").unwrap_err();
/// assert_eq!(refused.to_string(), "the dictionary has no message of MsgType `XX` (3)");
/// let refused: &NotBuilt = refused.downcast_ref().expect("it is the build's");
/// assert_eq!(refused.header().to_string(), "8=FIX.4.4|9=6|35=XX|");
/// ```
#[derive(Clone, PartialEq, Eq)]
pub struct NotBuilt {
    error: Error,
    bytes: Box<[u8]>,
    separator: u8,
    records: Box<[FieldRecord]>,
}

impl NotBuilt {
    /// Copies the records and the message's bytes as far as they point, which the header starts: none where no record tells of it.
    #[cold]
    fn new(error: Error, header: &Built<'_>) -> Self {
        let Built { bytes, separator, records } = *header;
        let size = records.iter().map(|record| record.end() + 1).max().map_or(0, |behind| behind.min(bytes.len()));
        Self { error, bytes: bytes[..size].into(), separator, records: records.into() }
    }

    /// Why.
    #[must_use]
    pub fn error(&self) -> &Error {
        &self.error
    }

    /// The number of [`NotBuilt::error`].
    #[must_use]
    pub fn number(&self) -> u32 {
        self.error.number()
    }

    /// The header's fields with 1 to 4, for the answer to the sender; nothing with the other numbers. Its bytes are those of the message up to the
    /// header's end.
    #[must_use]
    pub fn header(&self) -> Built<'_> {
        Built { bytes: &self.bytes, separator: self.separator, records: &self.records }
    }
}

impl fmt::Debug for NotBuilt {
    fn fmt(&self, f: &mut fmt::Formatter<'_>) -> fmt::Result {
        f.debug_struct("NotBuilt").field("error", &self.error).field("header", &self.header()).finish()
    }
}

impl fmt::Display for NotBuilt {
    fn fmt(&self, f: &mut fmt::Formatter<'_>) -> fmt::Result {
        self.error.fmt(f)
    }
}

impl std::error::Error for NotBuilt {}

impl From<NotBuilt> for Error {
    fn from(refused: NotBuilt) -> Self {
        refused.error
    }
}

/// One field: its tag and its value.
#[derive(Debug, Clone, Copy, PartialEq, Eq)]
pub struct Field<'a> {
    /// Never 0.
    pub tag: u32,
    /// Maybe empty.
    pub value: &'a [u8],
}

/// A built message. `Display` shows its fields with `|` behind each, for logs; how it shows them is not proved.
#[derive(Clone, Copy, PartialEq, Eq)]
pub struct Built<'a> {
    pub(crate) bytes: &'a [u8],
    separator: u8,
    pub(crate) records: &'a [FieldRecord],
}

impl<'a> Built<'a> {
    /// The records as the library filled them in: in part and map order, each count followed by its entries.
    #[must_use]
    pub fn records(&self) -> &'a [FieldRecord] {
        self.records
    }

    /// The message's bytes, into which the records point.
    #[must_use]
    pub fn bytes(&self) -> &'a [u8] {
        self.bytes
    }

    /// Whether every field of the bytes is held: no value was replaced by that of a later field with its tag, and none was left out behind an early
    /// CheckSum. A build answers 0 either way. It is found out here, not in the library, and so not proved: each separator must end a record's value.
    #[must_use]
    pub fn holds_every_field(&self) -> bool {
        let mut ends: Vec<usize> = self.records.iter().map(FieldRecord::end).collect();
        ends.sort_unstable();
        let mut separators = self.bytes.iter().enumerate().filter(|(_, byte)| **byte == self.separator);
        separators.all(|(place, _)| ends.binary_search(&place).is_ok())
    }

    /// All fields in the order of the records, those of entries among them.
    pub fn fields(&self) -> impl Iterator<Item = Field<'a>> {
        let bytes = self.bytes;
        self.records.iter().map(move |record| field_of(bytes, record))
    }

    /// The map of a part.
    #[must_use]
    pub fn part(&self, part: Part) -> Map<'a> {
        let from = self.records.partition_point(|record| record.part < part as u8);
        let to = self.records.partition_point(|record| record.part <= part as u8);
        Map { bytes: self.bytes, records: &self.records[from..to], depth: 0 }
    }

    /// The header's map.
    #[must_use]
    pub fn header(&self) -> Map<'a> {
        self.part(Part::Header)
    }

    /// The body's map.
    #[must_use]
    pub fn body(&self) -> Map<'a> {
        self.part(Part::Body)
    }

    /// The trailer's map.
    #[must_use]
    pub fn trailer(&self) -> Map<'a> {
        self.part(Part::Trailer)
    }
}

fn field_of<'a>(bytes: &'a [u8], record: &FieldRecord) -> Field<'a> {
    Field { tag: record.tag, value: &bytes[usize::from(record.place)..record.end()] }
}

impl fmt::Display for Built<'_> {
    fn fmt(&self, f: &mut fmt::Formatter<'_>) -> fmt::Result {
        self.fields().try_for_each(|field| write!(f, "{field}|"))
    }
}

impl fmt::Debug for Built<'_> {
    fn fmt(&self, f: &mut fmt::Formatter<'_>) -> fmt::Result {
        write!(f, "Built({self})")
    }
}

impl fmt::Display for Field<'_> {
    fn fmt(&self, f: &mut fmt::Formatter<'_>) -> fmt::Result {
        write!(f, "{}={}", self.tag, String::from_utf8_lossy(self.value))
    }
}

/// A part of a built message, or an entry of a group in it.
///
/// ```
/// # fn main() -> Result<(), tinkoraba::Error> {
/// # let dictionary = tinkoraba::Dictionary::writer().tags(&[8, 9, 35, 10, 78, 79, 80]).component(0).field(8).field(9).field(35).close()
/// #     .component(1).field(10).close().message("D").group(78).field(79).field(80).close().close().finish()?;
/// # let mut records = tinkoraba::Records::new();
/// # let bytes = b"8=FIX.4.4\x019=30\x0135=D\x0178=2\x0179=A\x0180=5\x0179=B\x0180=6\x0110=090\x01";
/// # let built = tinkoraba::build(bytes, &dictionary, Default::default(), &mut records)?;
/// for allocation in built.body().entries(78) {
///     let account = allocation.get(79).expect("its delimiter");
///     println!("{}: {:?}", String::from_utf8_lossy(account), allocation.get(80));
/// }
/// assert_eq!(built.body().entries(78).count(), 2);
/// # Ok(()) }
/// ```
#[derive(Debug, Clone, Copy, PartialEq, Eq)]
pub struct Map<'a> {
    bytes: &'a [u8],
    records: &'a [FieldRecord],
    depth: u8,
}

impl<'a> Map<'a> {
    /// The map's own fields in order; those of its entries are not among them.
    pub fn fields(&self) -> impl Iterator<Item = Field<'a>> {
        let Map { bytes, records, depth } = *self;
        records.iter().filter(move |record| record.depth == depth).map(move |record| field_of(bytes, record))
    }

    /// The value of one of the map's own fields.
    #[must_use]
    pub fn get(&self, tag: u32) -> Option<&'a [u8]> {
        self.fields().find(|field| field.tag == tag).map(|field| field.value)
    }

    /// The entries behind a count field. The count's value is not looked at.
    pub fn entries(&self, count: u32) -> Entries<'a> {
        let own = |record: &FieldRecord| record.depth == self.depth;
        let behind = self.records.iter().position(|record| own(record) && record.tag == count).map_or(self.records.len(), |place| place + 1);
        let size = self.records[behind..].iter().take_while(|record| !own(record)).count();
        Entries { bytes: self.bytes, records: &self.records[behind..behind + size] }
    }
}

/// The entries of a group, one after the other.
#[derive(Debug, Clone)]
#[must_use]
pub struct Entries<'a> {
    bytes: &'a [u8],
    records: &'a [FieldRecord],
}

impl<'a> Iterator for Entries<'a> {
    type Item = Map<'a>;

    fn next(&mut self) -> Option<Map<'a>> {
        let FieldRecord { depth, entry, .. } = *self.records.first()?;
        let opens_next = |record: &FieldRecord| record.depth == depth && record.entry != entry;
        let size = self.records.iter().position(opens_next).unwrap_or(self.records.len());
        let (records, rest) = self.records.split_at(size);
        self.records = rest;
        Some(Map { bytes: self.bytes, records, depth })
    }
}
