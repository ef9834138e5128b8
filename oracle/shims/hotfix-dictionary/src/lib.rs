//! Shim: what the given files of hotfix-dictionary lean on. The files themselves stand beside this one, as links.
mod component;
mod field;
mod flat;
mod layout;
mod message_definition;

use std::collections::HashMap;

pub use component::Component;
use component::ComponentData;
pub use field::{Field, FieldLocation, IsFieldDefinition};
use field::FieldData;
pub use layout::{LayoutItem, LayoutItemKind};
use layout::{LayoutItemData, LayoutItems};
use message_definition::MessageData;
pub use message_definition::MessageDefinition;

/// 01: a tag is "worth 1 to 4,294,967,295".
pub type TagU32 = std::num::NonZeroU32;

pub(crate) mod string {
    pub type SmartString = String;
}

/// The kinds of value that the given files name; typed values are left out.
#[derive(Debug, Clone, Copy, PartialEq, Eq)]
pub enum FixDatatype {
    String,
    Length,
    NumInGroup,
}

impl FixDatatype {
    pub fn base_type(&self) -> Self {
        *self
    }
}

#[derive(Debug)]
pub struct Datatype<'a>(&'a FixDatatype);

impl Datatype<'_> {
    pub fn basetype(&self) -> FixDatatype {
        *self.0
    }
}

/// Known tags, components by name and messages by MsgType, filled from the flat records alone (`flat.rs`).
#[derive(Clone, Debug, Default)]
pub struct Dictionary {
    fields: HashMap<u32, FieldData>,
    components: HashMap<String, ComponentData>,
    messages: Vec<MessageData>,
    places: HashMap<String, usize>,
}

impl Dictionary {
    pub fn field_by_tag(&self, tag: u32) -> Option<Field<'_>> {
        self.fields.get(&tag).map(|data| Field::new(self, data))
    }

    pub fn component_by_name(&self, name: &str) -> Option<Component<'_>> {
        self.components.get(name).map(|data| Component(self, data))
    }

    pub fn message_by_msgtype(&self, msg_type: &str) -> Option<MessageDefinition<'_>> {
        let place = *self.places.get(msg_type)?;
        Some(MessageDefinition(self, &self.messages[place]))
    }

    pub fn messages(&self) -> impl Iterator<Item = MessageDefinition<'_>> {
        self.messages.iter().map(|data| MessageDefinition(self, data))
    }

    pub fn datatype_by_name(&self, _: &str) -> Option<Datatype<'_>> {
        Some(Datatype(&FixDatatype::String))
    }
}
