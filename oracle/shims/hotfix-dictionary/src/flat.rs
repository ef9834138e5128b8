//! Shim: a valid flat dictionary of 01 as the Rust's `Dictionary`.
use crate::component::{ComponentData, FixmlComponentAttributes};
use crate::field::FieldData;
use crate::layout::LayoutItemKindData;
use crate::{Dictionary, LayoutItemData, LayoutItems, MessageData};

/// What is open: a component's name, a message's MsgType (none where it isn't UTF-8), or a group.
enum Open {
    Component(String),
    Message(Option<String>),
    Group(u32, bool),
}

fn number(bytes: &[u8]) -> u32 {
    bytes.iter().rev().fold(0, |worth, byte| worth << 8 | u32::from(*byte))
}

/// 01: "Component 0 is the standard header, 1 the trailer."
pub fn component_name(number: u32) -> String {
    match number {
        0 => "StandardHeader".to_string(),
        1 => "StandardTrailer".to_string(),
        n => n.to_string(),
    }
}

impl Dictionary {
    /// The dictionary that valid flat records mean; `None` where a record can't be placed at all.
    pub fn from_flat(bytes: &[u8]) -> Option<Self> {
        let mut dictionary = Self::default();
        let mut open: Vec<(Open, LayoutItems)> = vec![];
        let mut rest = bytes;
        while let Some((kind, after)) = rest.split_first() {
            let length = *[0, 4, 2, 8, 5, 3, 5, 0].get(usize::from(*kind))?;
            if *kind == 0 || after.len() < length {
                return None;
            }
            let (body, next) = after.split_at(length);
            rest = next;
            match kind {
                1 => dictionary.know(number(body)),
                2 => open.push((Open::Component(component_name(number(body))), vec![])),
                3 => {
                    let end = body.iter().position(|byte| *byte == 0).unwrap_or(8);
                    let msg_type = String::from_utf8(body[..end].to_vec()).ok();
                    open.push((Open::Message(msg_type), vec![]));
                }
                4 => open.last_mut()?.1.push(LayoutItemData { required: body[4] == 1, kind: LayoutItemKindData::Field { tag: number(&body[..4]) } }),
                5 => open.last_mut()?.1.push(LayoutItemData {
                    required: body[2] == 1,
                    kind: LayoutItemKindData::Component { name: component_name(number(&body[..2])) },
                }),
                6 => open.push((Open::Group(number(&body[..4]), body[4] == 1), vec![])),
                _ => {
                    let (closed, items) = open.pop()?;
                    dictionary.close(closed, items, open.last_mut().map(|outer| &mut outer.1))?;
                }
            }
        }
        open.is_empty().then_some(dictionary)
    }

    fn know(&mut self, tag: u32) {
        self.fields.insert(
            tag,
            FieldData {
                name: String::new(),
                tag,
                data_type_name: String::new(),
                associated_data_tag: None,
                value_restrictions: None,
                required: false,
                description: None,
            },
        );
    }

    fn close(&mut self, closed: Open, items: LayoutItems, outer: Option<&mut LayoutItems>) -> Option<()> {
        match closed {
            Open::Group(len_field_tag, required) => {
                outer?.push(LayoutItemData { required, kind: LayoutItemKindData::Group { len_field_tag, items } })
            }
            Open::Component(name) => {
                let data = ComponentData { id: 0, component_type: FixmlComponentAttributes::Xml, layout_items: items, name: name.clone() };
                self.components.insert(name, data);
            }
            Open::Message(msg_type) => {
                let Some(msg_type) = msg_type else { return Some(()) };
                self.places.insert(msg_type.clone(), self.messages.len());
                self.messages.push(MessageData {
                    component_id: 0,
                    msg_type,
                    name: String::new(),
                    layout_items: items,
                    required: false,
                    description: String::new(),
                });
            }
        }
        Some(())
    }

    /// How many items flattening every message visits, and how deep it goes: components that double at each level never end.
    pub fn flattening_cost(&self) -> (u64, u64) {
        let mut costs = std::collections::HashMap::new();
        let mut total = (0u64, 0u64);
        for message in &self.messages {
            let (steps, depth) = self.cost_of(&message.layout_items, &mut costs);
            total = (total.0.saturating_add(steps), total.1.max(depth));
        }
        total
    }

    fn cost_of(&self, items: &LayoutItems, costs: &mut std::collections::HashMap<String, (u64, u64)>) -> (u64, u64) {
        let mut total = (0u64, 0u64);
        for item in items {
            let (steps, depth) = match &item.kind {
                LayoutItemKindData::Field { .. } => (0, 0),
                LayoutItemKindData::Group { items, .. } => self.cost_of(items, costs),
                LayoutItemKindData::Component { name } => match costs.get(name) {
                    Some(known) => *known,
                    None => {
                        let own = self.cost_of(&self.components[name].layout_items, costs);
                        costs.insert(name.clone(), own);
                        own
                    }
                },
            };
            total = (total.0.saturating_add(steps).saturating_add(1), total.1.max(depth + 1));
        }
        total
    }

    /// Whether a group anywhere has two groups of its own, so that hash order may decide what is reported of an entry.
    pub fn has_sibling_groups(&self) -> bool {
        let siblings = |tags: Vec<u32>| tags.iter().any(|tag| *tag != tags[0]);
        let mut found = false;
        for component in self.components.values() {
            found |= self.any_group(&component.layout_items, &siblings);
        }
        found || self.messages.iter().any(|message| self.any_group(&message.layout_items, &siblings))
    }

    fn any_group(&self, items: &LayoutItems, test: &dyn Fn(Vec<u32>) -> bool) -> bool {
        items.iter().any(|item| match &item.kind {
            LayoutItemKindData::Group { items, .. } => test(self.groups_in(items)) || self.any_group(items, test),
            _ => false,
        })
    }

    fn groups_in(&self, items: &LayoutItems) -> Vec<u32> {
        let mut tags = vec![];
        for item in items {
            match &item.kind {
                LayoutItemKindData::Group { len_field_tag, .. } => tags.push(*len_field_tag),
                LayoutItemKindData::Component { name } => tags.extend(self.groups_in(&self.components[name].layout_items)),
                LayoutItemKindData::Field { .. } => {}
            }
        }
        tags
    }

    /// The plain fields directly in component 0.
    pub fn header_tags(&self) -> Vec<u32> {
        let items = self.components.get("StandardHeader").map_or(&[][..], |header| &header.layout_items);
        items
            .iter()
            .filter_map(|item| match item.kind {
                LayoutItemKindData::Field { tag } => Some(tag),
                _ => None,
            })
            .collect()
    }
}
