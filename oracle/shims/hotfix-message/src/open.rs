//! Shim: the parts of a message that the crate keeps to itself, for the driver.
use crate::Part;
use crate::RepeatingGroup;
use crate::TagU32;
use crate::field_map::{Field, FieldMap};
use crate::message::Message;
use crate::parts::Header;

pub fn empty() -> Message {
    Message::with_header(Header::default())
}

/// The map of a part: 1 header, 2 body, 3 trailer.
pub fn part(message: &Message, part: u8) -> &FieldMap {
    match part {
        1 => message.header.get_field_map(),
        2 => message.body.get_field_map(),
        _ => message.trailer.get_field_map(),
    }
}

/// Through the trait's own operations, on whichever part.
pub fn store(message: &mut Message, part: u8, tag: TagU32, value: &[u8]) {
    let field = Field::new(tag, value.to_vec());
    match part {
        1 => message.header.store_field(field),
        2 => message.body.store_field(field),
        _ => message.trailer.store_field(field),
    }
}

pub fn remove(message: &mut Message, part: u8, tag: TagU32) {
    let definition = crate::HardCodedFixFieldDefinition {
        name: "",
        tag: tag.get(),
        data_type: hotfix_dictionary::FixDatatype::String,
        location: hotfix_dictionary::FieldLocation::Body,
    };
    match part {
        1 => message.header.pop(&definition),
        2 => message.body.pop(&definition),
        _ => message.trailer.pop(&definition),
    };
}

/// Whether the run was taken.
pub fn hang(message: &mut Message, part: u8, entries: Vec<RepeatingGroup>) -> bool {
    match part {
        1 => message.header.set_groups(entries),
        2 => message.body.set_groups(entries),
        _ => message.trailer.set_groups(entries),
    }
    .is_ok()
}

pub fn entry(start: TagU32, delimiter: TagU32) -> RepeatingGroup {
    RepeatingGroup::new_with_tags(start, delimiter)
}

pub fn delimiter_of(entry: &RepeatingGroup) -> TagU32 {
    entry.delimiter_tag
}
