//! Columns in the bodies of messages, checked slot by slot, and dictionaries.

use crate::metadata::{Field, Kind, Outline};
use crate::schema::Form;
use std::collections::HashMap;
use std::ops::Range;
use std::rc::Rc;

/// A part of a message's body.
#[derive(Clone)]
pub struct Buffer {
    body: Rc<[u8]>,
    range: Range<usize>,
}

impl Buffer {
    pub fn bytes(&self) -> &[u8] {
        &self.body[self.range.clone()]
    }

    pub fn bit(&self, i: usize) -> bool {
        self.bytes()[i / 8] >> (i % 8) & 1 == 1
    }

    /// Value `i` of those that have `width` bytes each.
    pub fn value(&self, width: usize, i: usize) -> &[u8] {
        &self.bytes()[width * i..width * (i + 1)]
    }

    pub fn int(&self, width: u8, signed: bool, i: usize) -> i128 {
        int_of(self.value(width.into(), i), signed)
    }
}

/// The number that up to 16 bytes are, the least significant first.
pub fn int_of(bytes: &[u8], signed: bool) -> i128 {
    let (mut all, spare) = ([0; 16], 128 - 8 * bytes.len());
    all[..bytes.len()].copy_from_slice(bytes);
    let unsigned = i128::from_le_bytes(all);
    if signed { unsigned << spare >> spare } else { unsigned }
}

pub enum Offsets {
    /// Of 32 bits each, or of 64.
    Stored { buffer: Buffer, is_large: bool },
    /// Those that lists of this size would have: 0, the size, twice the size and so on.
    Multiples(usize),
}

impl Offsets {
    fn number(&self, i: usize) -> i128 {
        match self {
            Offsets::Stored { buffer, is_large } => buffer.int(if *is_large { 8 } else { 4 }, true, i),
            Offsets::Multiples(size) => (size * i) as i128,
        }
    }

    /// What slot `i` has of the values or of the child.
    pub fn of(&self, i: usize) -> Range<usize> {
        self.number(i) as usize..self.number(i + 1) as usize
    }

    fn are_sound(&self, len: usize, top: usize) -> bool {
        let are_there = match self {
            Offsets::Stored { buffer, .. } if len == 0 && buffer.bytes().is_empty() => return true,
            Offsets::Stored { buffer, is_large } => buffer.bytes().len() / if *is_large { 8 } else { 4 } > len,
            Offsets::Multiples(_) => true,
        };
        are_there
            && self.number(0) >= 0
            && self.number(len) <= top as i128
            && (0..len).all(|i| self.number(i) <= self.number(i + 1))
    }
}

pub enum Cells {
    Null,
    Bool(Buffer),
    Int(Buffer, u8, bool),
    Float(Buffer, usize),
    Fixed(Buffer, usize),
    Bytes { offsets: Offsets, data: Buffer, is_text: bool },
    List(Offsets, Box<Array>),
    Struct(Vec<Array>),
    Indices(Buffer, u8, bool, Rc<Dictionary>),
}

pub struct Array {
    pub len: usize,
    /// A bit for each slot, 0 where it is null; nothing if no slot is null.
    pub validity: Option<Buffer>,
    pub cells: Cells,
}

impl Array {
    pub fn is_valid(&self, i: usize) -> bool {
        self.validity.as_ref().is_none_or(|bits| bits.bit(i))
    }
}

/// One array for each message since the last one that replaced the dictionary.
#[derive(Clone, Default)]
pub struct Dictionary {
    arrays: Vec<Rc<Array>>,
    pub len: usize,
}

impl Dictionary {
    pub fn push(&mut self, values: Array) {
        self.len += values.len;
        self.arrays.push(Rc::new(values));
    }

    /// The array and the slot of a value.
    pub fn value(&self, mut i: usize) -> (&Array, usize) {
        for array in &self.arrays {
            if i < array.len {
                return (array, i);
            }
            i -= array.len;
        }
        unreachable!()
    }

    /// All values in order.
    pub fn values(&self) -> impl Iterator<Item = (&Array, usize)> {
        self.arrays.iter().flat_map(|array| (0..array.len).map(move |i| (&**array, i)))
    }

    /// Whether the first values are those of another dictionary.
    pub fn begins_with(&self, other: &Dictionary) -> bool {
        let mut both = self.values().zip(other.values());
        other.len <= self.len && both.all(|((one, i), (two, j))| are_equal(one, i, two, j))
    }
}

/// Whether slots of two arrays of one type have equal values.
fn are_equal(one: &Array, i: usize, two: &Array, j: usize) -> bool {
    if !one.is_valid(i) || !two.is_valid(j) {
        return one.is_valid(i) == two.is_valid(j);
    }
    match (&one.cells, &two.cells) {
        (Cells::Null, _) => true,
        (Cells::Bool(bits), Cells::Bool(others)) => bits.bit(i) == others.bit(j),
        (Cells::Int(its, width, _), Cells::Int(others, ..)) => its.value((*width).into(), i) == others.value((*width).into(), j),
        (Cells::Float(its, width) | Cells::Fixed(its, width), Cells::Float(others, _) | Cells::Fixed(others, _)) => {
            its.value(*width, i) == others.value(*width, j)
        }
        (Cells::Bytes { offsets, data, .. }, Cells::Bytes { offsets: others, data: other_data, .. }) => {
            data.bytes()[offsets.of(i)] == other_data.bytes()[others.of(j)]
        }
        (Cells::List(offsets, child), Cells::List(others, other)) => {
            let (its, theirs) = (offsets.of(i), others.of(j));
            its.len() == theirs.len() && its.zip(theirs).all(|(i, j)| are_equal(child, i, other, j))
        }
        (Cells::Struct(children), Cells::Struct(others)) => {
            children.iter().zip(others).all(|(child, other)| are_equal(child, i, other, j))
        }
        _ => unreachable!(),
    }
}

/// Reads the columns of a body.
pub struct Loader<'a> {
    nodes: std::slice::Iter<'a, (i64, i64)>,
    buffers: std::slice::Iter<'a, (i64, i64)>,
    body: Rc<[u8]>,
    dictionaries: &'a HashMap<i64, Rc<Dictionary>>,
    /// The first in order of the kinds Text and Index that was found; Layout ends it at once.
    found: Option<Kind>,
}

impl<'a> Loader<'a> {
    pub fn load(
        outline: &'a Outline, fields: &[Field], body: &[u8], dictionaries: &'a HashMap<i64, Rc<Dictionary>>,
    ) -> Result<Vec<Array>, Kind> {
        let (nodes, buffers) = (outline.nodes.iter(), outline.buffers.iter());
        let mut it = Loader { nodes, buffers, body: body.into(), dictionaries, found: None };
        let columns = it.arrays(fields)?;
        if columns.iter().any(|column| column.len as i64 != outline.length) {
            return Err(Kind::Layout);
        }
        it.found.map_or(Ok(columns), Err)
    }

    /// The next buffer, which has this many bytes or more.
    fn buffer(&mut self, size: usize) -> Result<Buffer, Kind> {
        let &(offset, length) = self.buffers.next().ok_or(Kind::Layout)?;
        let mut range = 0..0;
        if length != 0 {
            range.start = usize::try_from(offset).map_err(|_| Kind::Layout)?;
            let length = usize::try_from(length).map_err(|_| Kind::Layout)?;
            range.end = range.start.checked_add(length).ok_or(Kind::Layout)?;
        }
        if range.end > self.body.len() || range.len() < size {
            return Err(Kind::Layout);
        }
        Ok(Buffer { range, body: Rc::clone(&self.body) })
    }

    fn validity(&mut self, len: usize, null_count: i64) -> Result<Option<Buffer>, Kind> {
        let bits = self.buffer(0)?;
        let mut nulls = 0;
        if !bits.bytes().is_empty() {
            if bits.bytes().len() < len.div_ceil(8) {
                return Err(Kind::Layout);
            }
            nulls = (0..len).filter(|i| !bits.bit(*i)).count();
        }
        if null_count != -1 && null_count != nulls as i64 {
            return Err(Kind::Layout);
        }
        Ok((nulls > 0).then_some(bits))
    }

    fn note(&mut self, holds: bool, kind: Kind) {
        if !holds {
            self.found = Some(self.found.map_or(kind, |found| found.min(kind)));
        }
    }

    fn arrays(&mut self, fields: &[Field]) -> Result<Vec<Array>, Kind> {
        fields.iter().map(|field| self.array(field)).collect()
    }

    fn array(&mut self, field: &Field) -> Result<Array, Kind> {
        let &(len, null_count) = self.nodes.next().ok_or(Kind::Layout)?;
        let len = len as usize;
        let form = field.form();
        if let Form::Null = form {
            return Ok(Array { len, validity: None, cells: Cells::Null });
        }
        let validity = self.validity(len, null_count)?;
        let cells = match form {
            Form::Null => Cells::Null,
            Form::Bool => Cells::Bool(self.buffer(len.div_ceil(8))?),
            Form::Fixed(width) => self.fixed(field, width, len, validity.as_ref())?,
            Form::Bytes { is_large } => self.strings(field, is_large, len, validity.as_ref())?,
            Form::List { item, is_large } => {
                let buffer = self.buffer(0)?;
                self.lists(item, Offsets::Stored { buffer, is_large }, len)?
            }
            Form::FixedList { item, size } => self.lists(item, Offsets::Multiples(size), len)?,
            Form::Struct(fields) => {
                let children = self.arrays(fields)?;
                if children.iter().any(|child| child.len < len) {
                    return Err(Kind::Layout);
                }
                Cells::Struct(children)
            }
        };
        Ok(Array { len, validity, cells })
    }

    fn fixed(&mut self, field: &Field, width: usize, len: usize, validity: Option<&Buffer>) -> Result<Cells, Kind> {
        let values = self.buffer(len * width)?;
        let Some(encoding) = &field.encoding else {
            return Ok(match (field.code, width) {
                (3, _) => Cells::Float(values, width),
                (15, _) | (11, 8 | 16) | (7, 32) => Cells::Fixed(values, width),
                (code, _) => Cells::Int(values, width as u8, code != 2 || field.signed),
            });
        };
        let dictionary = self.dictionaries.get(&encoding.id).cloned().unwrap_or_default();
        let (width, count) = (width as u8, dictionary.len as i128);
        let mut valid = (0..len).filter(|i| validity.is_none_or(|bits| bits.bit(*i)));
        let holds = valid.all(|i| (0..count).contains(&values.int(width, encoding.signed, i)));
        self.note(holds, Kind::Index);
        Ok(Cells::Indices(values, width, encoding.signed, dictionary))
    }

    fn lists(&mut self, item: &Field, offsets: Offsets, len: usize) -> Result<Cells, Kind> {
        let child = self.array(item)?;
        if !offsets.are_sound(len, child.len) {
            return Err(Kind::Layout);
        }
        Ok(Cells::List(offsets, Box::new(child)))
    }

    fn strings(&mut self, field: &Field, is_large: bool, len: usize, validity: Option<&Buffer>) -> Result<Cells, Kind> {
        let (offsets, data) = (Offsets::Stored { buffer: self.buffer(0)?, is_large }, self.buffer(0)?);
        if !offsets.are_sound(len, data.bytes().len()) {
            return Err(Kind::Layout);
        }
        let is_text = matches!(field.code, 5 | 20);
        if is_text {
            let mut valid = (0..len).filter(|i| validity.is_none_or(|bits| bits.bit(*i)));
            let is_utf8 = |i| std::str::from_utf8(&data.bytes()[offsets.of(i)]).is_ok();
            self.note(valid.all(is_utf8), Kind::Text);
        }
        Ok(Cells::Bytes { offsets, data, is_text })
    }
}
