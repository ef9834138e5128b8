//! Shim: what the given files of hotfix-message lean on. The files themselves stand beside this one, as links.
pub mod builder;
mod encoder;
pub mod encoding {
    mod buffer;
    pub mod definitions;
    pub mod field_types;

    pub use buffer::Buffer;
    pub use field_types::{FieldType, FieldValueError};
}
pub mod error;
pub mod field_map;
pub mod message;
pub mod open;
pub mod parsed_message;
mod parts;
mod tags;

/// 01: "the header's 8, 9, 35", "the trailer's 10": the same fields as in `tags.rs`, in the same parts.
pub mod session_fields {
    pub use crate::tags::{BEGIN_STRING, BODY_LENGTH, CHECK_SUM, MSG_TYPE};
}

pub use encoding::definitions::HardCodedFixFieldDefinition;
pub use encoding::{FieldType, field_types};
pub use hotfix_dictionary as dict;
pub use hotfix_dictionary::TagU32;
pub use parts::{Part, RepeatingGroup};
