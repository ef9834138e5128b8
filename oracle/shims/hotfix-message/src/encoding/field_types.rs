//! Shim: the values that building and encoding read and write: text, BodyLength, a tag's digits. CheckSum is the Rust's own.
mod checksum;

use crate::TagU32;
use crate::encoding::Buffer;
pub use checksum::CheckSum;

#[derive(Debug)]
pub enum FieldValueError<E> {
    Missing,
    Invalid(E),
}

pub trait FieldType<'a>
where
    Self: Sized,
{
    type Error;
    type SerializeSettings: Default;

    fn serialize_with<B>(&self, buffer: &mut B, settings: Self::SerializeSettings) -> usize
    where
        B: Buffer;

    fn deserialize(data: &'a [u8]) -> Result<Self, Self::Error>;

    fn deserialize_lossy(data: &'a [u8]) -> Result<Self, Self::Error> {
        Self::deserialize(data)
    }

    fn to_bytes(&self) -> Vec<u8> {
        let mut buffer = vec![];
        self.serialize_with(&mut buffer, Self::SerializeSettings::default());
        buffer
    }
}

fn write<B: Buffer>(buffer: &mut B, bytes: &[u8]) -> usize {
    buffer.extend_from_slice(bytes);
    bytes.len()
}

/// 01, domain: "MsgType is UTF-8".
impl<'a> FieldType<'a> for &'a str {
    type Error = std::str::Utf8Error;
    type SerializeSettings = ();

    fn serialize_with<B: Buffer>(&self, buffer: &mut B, _: ()) -> usize {
        write(buffer, self.as_bytes())
    }

    fn deserialize(data: &'a [u8]) -> Result<Self, Self::Error> {
        std::str::from_utf8(data)
    }
}

/// 01: BodyLength's "value is one or more digits", else 12. Past 2^64, far outside of the domain, it is refused too.
impl<'a> FieldType<'a> for usize {
    type Error = ();
    type SerializeSettings = ();

    fn serialize_with<B: Buffer>(&self, buffer: &mut B, _: ()) -> usize {
        write(buffer, self.to_string().as_bytes())
    }

    fn deserialize(data: &'a [u8]) -> Result<Self, ()> {
        let mut worth = 0usize;
        for byte in data {
            let digit = byte.is_ascii_digit().then(|| usize::from(byte - b'0')).ok_or(())?;
            worth = worth.checked_mul(10).and_then(|tens| tens.checked_add(digit)).ok_or(())?;
        }
        if data.is_empty() { Err(()) } else { Ok(worth) }
    }
}

/// 01, encoding: "tag digits + value + 2".
impl<'a> FieldType<'a> for TagU32 {
    type Error = ();
    type SerializeSettings = ();

    fn serialize_with<B: Buffer>(&self, buffer: &mut B, _: ()) -> usize {
        write(buffer, self.get().to_string().as_bytes())
    }

    fn deserialize(_: &'a [u8]) -> Result<Self, ()> {
        Err(())
    }
}
