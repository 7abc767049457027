//! Schemas: which fields are accepted, how their slots lie in buffers, and the dictionaries that they refer to.

use crate::has_all_types;
use crate::metadata::{Encoding, Field, Kind, Pairs, is_late};
use std::collections::BTreeMap;

/// How the slots of a field lie in buffers.
pub enum Form<'a> {
    Null,
    Bool,
    /// Of so many bytes each.
    Fixed(usize),
    Bytes {
        is_large: bool,
    },
    List {
        item: &'a Field,
        is_large: bool,
    },
    /// Lists of so many items each.
    FixedList {
        item: &'a Field,
        size: usize,
    },
    Struct(&'a [Field]),
}

impl Field {
    pub fn form(&self) -> Form<'_> {
        match (&self.encoding, self.code) {
            (Some(encoding), _) => Form::Fixed(encoding.width as usize / 8),
            (_, 1) => Form::Null,
            (_, 6) => Form::Bool,
            (_, 2 | 7 | 9) => Form::Fixed(self.width as usize / 8),
            (_, 3) => Form::Fixed(2 << self.unit),
            (_, 11) => Form::Fixed(4 << self.unit),
            (_, 15) => Form::Fixed(self.width as usize),
            (_, 8) if self.unit == 0 => Form::Fixed(4),
            (_, 8 | 10 | 18) => Form::Fixed(8),
            (_, 12 | 17 | 21) => Form::List { item: &self.children[0], is_large: self.code == 21 },
            (_, 16) => Form::FixedList { item: &self.children[0], size: self.width as usize },
            (_, 13) => Form::Struct(&self.children),
            _ => Form::Bytes { is_large: self.code > 5 },
        }
    }

    /// How many nodes the field takes.
    pub fn nodes(&self) -> usize {
        match self.form() {
            Form::List { item, .. } | Form::FixedList { item, .. } => 1 + item.nodes(),
            Form::Struct(fields) => 1 + fields.iter().map(Field::nodes).sum::<usize>(),
            _ => 1,
        }
    }

    /// Whether the set of types has the type, and dictionaries are not below dictionaries.
    fn is_supported(&self, is_below: bool) -> bool {
        let is_below_next = is_below || self.encoding.is_some();
        let is_core = matches!(self.code, 1 | 2 | 4 | 5 | 6 | 8..=10 | 12 | 13 | 15 | 18..=21);
        (is_core || is_late(self.code) && has_all_types())
            && !self.encoding.as_ref().is_some_and(|it| is_below || it.kind != 0)
            && self.children.iter().all(|child| child.is_supported(is_below_next))
    }

    /// Whether widths, units and children are those of the types.
    fn is_sound(&self) -> bool {
        let is_width = |bits| matches!(bits, 8 | 16 | 32 | 64);
        let has_type = match self.code {
            2 => is_width(self.width),
            3 | 11 => matches!(self.unit, 0..=2),
            7 => (1..=most_digits(self.width)).contains(&self.precision) && (-76..=76).contains(&self.scale),
            8 => matches!(self.unit, 0 | 1),
            9 => matches!((self.unit, self.width), (0 | 1, 32) | (2 | 3, 64)),
            10 | 18 => matches!(self.unit, 0..=3),
            15 | 16 => self.width >= 0,
            17 => self.children.len() == 1 && self.children[0].has_entries(),
            _ => true,
        };
        let count = usize::from(matches!(self.code, 12 | 16 | 17 | 21));
        has_type
            && (self.code == 13 || self.children.len() == count)
            && self.encoding.as_ref().is_none_or(|it| is_width(it.width))
            && self.children.iter().all(Field::is_sound)
    }

    /// Whether it can be the child of a map.
    fn has_entries(&self) -> bool {
        self.code == 13 && self.children.len() == 2 && self.encoding.is_none()
    }

    /// Whether two fields have the same type, with the names below them, but without custom metadata.
    fn has_type_of(&self, other: &Field) -> bool {
        let its = |it: &Field| (it.code, it.unit, it.width, it.signed, it.precision, it.scale, it.sorted);
        let mut both = self.children.iter().zip(&other.children);
        its(self) == its(other)
            && self.zone == other.zone
            && self.children.len() == other.children.len()
            && both.all(|(a, b)| a.name == b.name && a.nullable == b.nullable && a.has_type_of(b))
    }
}

/// How many digits a decimal of this width has at most; none if there is no such width.
fn most_digits(width: i32) -> i32 {
    match width {
        32 => 9,
        64 => 18,
        128 => 38,
        256 => 76,
        _ => 0,
    }
}

pub struct Schema {
    pub fields: Vec<Field>,
    pub pairs: Pairs,
    /// The dictionary ids in the order of their first fields.
    pub ids: Vec<i64>,
    /// For each id the field of its values.
    pub values: BTreeMap<i64, Field>,
}

impl Schema {
    pub fn of(order: i16, fields: Vec<Field>, pairs: Pairs) -> Result<Schema, Kind> {
        if order != 0 || fields.iter().any(|field| !field.is_supported(false)) {
            return Err(Kind::Unsupported);
        }
        let mut schema = Schema { fields: Vec::new(), pairs, ids: Vec::new(), values: BTreeMap::new() };
        if !fields.iter().all(Field::is_sound) || !schema.collect(&fields) {
            return Err(Kind::Schema);
        }
        Ok(Schema { fields, ..schema })
    }

    /// Collects the dictionaries of some fields and of those below them; returns whether those of one id have one type.
    fn collect(&mut self, fields: &[Field]) -> bool {
        fields.iter().all(|field| {
            if let Some(Encoding { id, .. }) = field.encoding {
                match self.values.get(&id) {
                    Some(first) if !first.has_type_of(field) => return false,
                    Some(_) => {}
                    None => {
                        self.ids.push(id);
                        self.values.insert(id, Field { encoding: None, ..field.clone() });
                    }
                }
            }
            self.collect(&field.children)
        })
    }
}
