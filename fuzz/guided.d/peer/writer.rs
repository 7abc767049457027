//! Streams written again: metadata in the product's order, and bodies without what is hidden.

use crate::columns::{Array, Cells, Dictionary};
use crate::decoder::{Decoder, Item};
use crate::metadata::{Field, Pairs};
use crate::schema::{Form, Schema};
use crate::{Failure, max_body, max_metadata, max_rows};
use std::collections::HashMap;

/// The last offset of 64 bits that is written.
const MAX_LARGE: usize = 1 << 40;

/// A message would exceed a limit.
struct TooLarge;

/// Metadata from front to back, after the 8 bytes of the prefix, with zero bytes for padding.
struct Layout(Vec<u8>);

impl Layout {
    /// A message with this header, which `header` writes.
    fn message(code: u8, body_len: usize, header: impl FnOnce(&mut Layout) -> usize) -> Layout {
        let mut layout = Layout(vec![0xff, 0xff, 0xff, 0xff, 0, 0, 0, 0, 0, 0, 0, 0]);
        let (root, [version, header_code, header_at, length]) = layout.table([2, 1, 4, 8]);
        layout.point(8, root);
        layout.0[version] = 4;
        layout.0[header_code] = code;
        layout.put(length, &body_len.to_le_bytes());
        let target = header(&mut layout);
        layout.point(header_at, target);
        layout
    }

    /// The prefix and the metadata, padded.
    fn finish(mut self, align: usize) -> Result<Vec<u8>, TooLarge> {
        self.pad(align, 0);
        let size = self.0.len() as u32 - 8;
        self.put(4, &size.to_le_bytes());
        if u64::from(size) > max_metadata() { Err(TooLarge) } else { Ok(self.0) }
    }

    fn pad(&mut self, multiple: usize, rest: usize) {
        while self.0.len() % multiple != rest {
            self.0.push(0);
        }
    }

    fn zeros(&mut self, count: usize) -> usize {
        self.0.resize(self.0.len() + count, 0);
        self.0.len() - count
    }

    fn put(&mut self, place: usize, bytes: &[u8]) {
        self.0[place..place + bytes.len()].copy_from_slice(bytes);
    }

    /// Makes the offset at a place lead to a target after it.
    fn point(&mut self, place: usize, target: usize) {
        self.put(place, &((target - place) as u32).to_le_bytes());
    }

    /// A table whose fields have these sizes, 0 if one is absent, and the places of its fields.
    fn table<const N: usize>(&mut self, sizes: [usize; N]) -> (usize, [usize; N]) {
        self.pad(2, 0);
        let vtable = self.zeros(4 + 2 * N);
        self.pad(8, 0);
        let table = self.zeros(4);
        let mut places = [0; N];
        for (i, size) in sizes.into_iter().enumerate().filter(|(_, size)| *size > 0) {
            self.pad(size, 0);
            places[i] = self.zeros(size);
            self.put(vtable + 4 + 2 * i, &((places[i] - table) as u16).to_le_bytes());
        }
        self.put(vtable, &(4 + 2 * N as u16).to_le_bytes());
        self.put(vtable + 2, &((self.0.len() - table) as u16).to_le_bytes());
        self.put(table, &((table - vtable) as i32).to_le_bytes());
        (table, places)
    }

    fn text(&mut self, text: &[u8]) -> usize {
        self.pad(4, 0);
        let place = self.zeros(4);
        self.put(place, &(text.len() as u32).to_le_bytes());
        self.0.extend_from_slice(text);
        self.0.push(0);
        place
    }

    fn pairs(&mut self, pairs: &[(usize, usize)]) -> usize {
        self.pad(8, 4);
        let place = self.zeros(4);
        self.put(place, &(pairs.len() as u32).to_le_bytes());
        for (first, second) in pairs {
            self.0.extend_from_slice(&first.to_le_bytes());
            self.0.extend_from_slice(&second.to_le_bytes());
        }
        place
    }

    fn schema(&mut self, schema: &Schema) -> usize {
        let (table, fields_at, pairs_at) = if schema.pairs.is_empty() {
            let (table, [_, fields_at]) = self.table([2, 4]);
            (table, fields_at, None)
        } else {
            let (table, [_, fields_at, pairs_at]) = self.table([2, 4, 4]);
            (table, fields_at, Some(pairs_at))
        };
        let target = self.fields(&schema.fields);
        self.point(fields_at, target);
        self.key_values(&schema.pairs, pairs_at);
        table
    }

    /// The vector of custom metadata to which the offset at this place leads, if there are any.
    fn key_values(&mut self, pairs: &Pairs, at: Option<usize>) {
        let Some(at) = at else { return };
        self.pad(4, 0);
        let place = self.zeros(4 + 4 * pairs.len());
        self.point(at, place);
        self.put(place, &(pairs.len() as u32).to_le_bytes());
        for (i, (key, value)) in pairs.iter().enumerate() {
            let (table, [key_at, value_at]) = self.table([4, 4]);
            self.point(place + 4 + 4 * i, table);
            for (at, bytes) in [(key_at, key), (value_at, value)] {
                let target = self.text(bytes);
                self.point(at, target);
            }
        }
    }

    fn fields(&mut self, fields: &[Field]) -> usize {
        self.pad(4, 0);
        let place = self.zeros(4 + 4 * fields.len());
        self.put(place, &(fields.len() as u32).to_le_bytes());
        for (i, field) in fields.iter().enumerate() {
            let target = self.field(field);
            self.point(place + 4 + 4 * i, target);
        }
        place
    }

    fn field(&mut self, field: &Field) -> usize {
        let of_encoding = if field.encoding.is_some() { 4 } else { 0 };
        let (table, [name, nullable, code, kind, encoding, children], pairs_at) = if field.pairs.is_empty() {
            let (table, places) = self.table([4, 1, 1, 4, of_encoding, 4]);
            (table, places, None)
        } else {
            let (table, [places @ .., at]) = self.table([4, 1, 1, 4, of_encoding, 4, 4]);
            (table, places, Some(at))
        };
        self.0[nullable] = field.nullable.into();
        self.0[code] = field.code;
        let target = self.text(field.name.as_bytes());
        self.point(name, target);
        let target = self.data_type(field);
        self.point(kind, target);
        if let Some(it) = &field.encoding {
            let (target, [id, index, ordered, _]) = self.table([8, 4, 1, 2]);
            self.point(encoding, target);
            self.put(id, &it.id.to_le_bytes());
            self.0[ordered] = it.ordered.into();
            let target = self.int(it.width, it.signed);
            self.point(index, target);
        }
        let target = self.fields(&field.children);
        self.point(children, target);
        self.key_values(&field.pairs, pairs_at);
        table
    }

    /// A table of numbers, which have these bytes.
    fn numbers<const N: usize>(&mut self, numbers: [&[u8]; N]) -> usize {
        let (table, places) = self.table(numbers.map(<[u8]>::len));
        places.into_iter().zip(numbers).for_each(|(place, number)| self.put(place, number));
        table
    }

    fn int(&mut self, width: i32, signed: bool) -> usize {
        self.numbers([&width.to_le_bytes(), &[signed.into()]])
    }

    fn data_type(&mut self, field: &Field) -> usize {
        let (unit, width) = (field.unit.to_le_bytes(), field.width.to_le_bytes());
        match (field.code, &field.zone) {
            (2, _) => self.int(field.width, field.signed),
            (7, _) => self.numbers([&field.precision.to_le_bytes(), &field.scale.to_le_bytes(), &width]),
            (9, _) => self.numbers([&unit, &width]),
            (10, Some(zone)) => {
                let (table, [place, zone_at]) = self.table([2, 4]);
                self.put(place, &unit);
                let target = self.text(zone.as_bytes());
                self.point(zone_at, target);
                table
            }
            (3 | 8 | 10 | 11 | 18, _) => self.numbers([&unit]),
            (15 | 16, _) => self.numbers([&width]),
            (17, _) => self.numbers([&[field.sorted.into()]]),
            _ => self.table([]).0,
        }
    }

    fn record_batch(&mut self, rows: usize, body: &Body) -> usize {
        let (table, [length, nodes_at, buffers_at]) = self.table([8, 4, 4]);
        self.put(length, &rows.to_le_bytes());
        for (at, pairs) in [(nodes_at, &body.nodes), (buffers_at, &body.buffers)] {
            let target = self.pairs(pairs);
            self.point(at, target);
        }
        table
    }

    fn dictionary(&mut self, id: i64, is_delta: bool, rows: usize, body: &Body) -> usize {
        let (table, [id_at, data, delta]) = self.table([8, 4, 1]);
        self.put(id_at, &id.to_le_bytes());
        self.0[delta] = is_delta.into();
        let target = self.record_batch(rows, body);
        self.point(data, target);
        table
    }
}

/// Slots of arrays of one type; nothing for one that is null whatever the array has.
type Slots<'a> = Vec<Option<(&'a Array, usize)>>;

#[derive(Default)]
struct Body {
    align: usize,
    bytes: Vec<u8>,
    nodes: Vec<(usize, usize)>,
    buffers: Vec<(usize, usize)>,
}

impl Body {
    fn buffer(&mut self, bytes: &[u8]) {
        self.buffers.push((self.bytes.len(), bytes.len()));
        self.bytes.extend_from_slice(bytes);
        self.bytes.resize(self.bytes.len().next_multiple_of(self.align), 0);
    }

    fn bits(&mut self, bits: impl ExactSizeIterator<Item = bool>) {
        let mut bytes = vec![0; bits.len().div_ceil(8)];
        bits.enumerate().for_each(|(i, bit)| bytes[i / 8] |= u8::from(bit) << (i % 8));
        self.buffer(&bytes);
    }

    fn column(&mut self, field: &Field, mut slots: Slots) -> Result<(), TooLarge> {
        if slots.len() > max_rows() as usize {
            return Err(TooLarge);
        }
        let form = field.form();
        slots.iter_mut().for_each(|slot| *slot = slot.filter(|(array, i)| array.is_valid(*i)));
        let nulls = slots.iter().filter(|slot| slot.is_none()).count();
        if let Form::Null = form {
            self.nodes.push((slots.len(), slots.len()));
            return Ok(());
        }
        self.nodes.push((slots.len(), nulls));
        if nulls > 0 {
            self.bits(slots.iter().map(Option::is_some));
        } else {
            self.buffer(&[]);
        }
        match form {
            Form::Null => {}
            Form::Bool => self.bits(
                slots.iter().map(|slot| slot.is_some_and(|(array, i)| matches!(&array.cells, Cells::Bool(it) if it.bit(i)))),
            ),
            Form::Fixed(width) => self.fixed(width, &slots),
            Form::Bytes { is_large } => self.strings(is_large, &slots)?,
            Form::List { item, is_large } => {
                let (items, ends) = items_of(&slots, 0);
                self.offsets(&ends, is_large)?;
                self.column(item, items)?;
            }
            Form::FixedList { item, size } => self.column(item, items_of(&slots, size).0)?,
            Form::Struct(fields) => {
                for (k, field) in fields.iter().enumerate() {
                    let below = slots.iter().map(|slot| slot.map(|(array, i)| (child(array, k), i)));
                    self.column(field, below.collect())?;
                }
            }
        }
        Ok(())
    }

    fn strings(&mut self, is_large: bool, slots: &Slots) -> Result<(), TooLarge> {
        let (mut bytes, mut ends) = (Vec::new(), vec![0]);
        for slot in slots {
            if let Some((Array { cells: Cells::Bytes { offsets, data, .. }, .. }, i)) = slot {
                bytes.extend_from_slice(&data.bytes()[offsets.of(*i)]);
            }
            ends.push(bytes.len());
        }
        self.offsets(&ends, is_large)?;
        self.buffer(&bytes);
        Ok(())
    }

    fn fixed(&mut self, width: usize, slots: &Slots) {
        let mut bytes = Vec::new();
        for slot in slots {
            match slot.map(|(array, i)| (&array.cells, i)) {
                Some((Cells::Int(its, ..) | Cells::Float(its, _) | Cells::Fixed(its, _) | Cells::Indices(its, ..), i)) => {
                    bytes.extend_from_slice(its.value(width, i))
                }
                _ => bytes.resize(bytes.len() + width, 0),
            }
        }
        self.buffer(&bytes);
    }

    fn offsets(&mut self, ends: &[usize], is_large: bool) -> Result<(), TooLarge> {
        let (width, top) = if is_large { (8, MAX_LARGE) } else { (4, i32::MAX as usize) };
        if ends.last().is_some_and(|end| *end > top) {
            return Err(TooLarge);
        }
        let bytes = ends.iter().flat_map(|end| end.to_le_bytes().into_iter().take(width));
        self.buffer(&bytes.collect::<Vec<_>>());
        Ok(())
    }
}

/// The items of lists, of which a null one has so many nulls, and where each list ends.
fn items_of<'a>(slots: &Slots<'a>, of_null: usize) -> (Slots<'a>, Vec<usize>) {
    let (mut items, mut ends) = (Slots::new(), vec![0]);
    for slot in slots {
        match slot {
            Some((Array { cells: Cells::List(offsets, child), .. }, i)) => {
                items.extend(offsets.of(*i).map(|k| Some((&**child, k))))
            }
            _ => items.resize(items.len() + of_null, None),
        }
        ends.push(items.len());
    }
    (items, ends)
}

fn child(array: &Array, k: usize) -> &Array {
    match &array.cells {
        Cells::Struct(children) => &children[k],
        _ => unreachable!(),
    }
}

#[derive(Clone, Copy)]
pub struct Options {
    pub resend: bool,
    pub align: usize,
}

/// What is written, and what the other end has of each dictionary.
struct StreamWriter {
    options: Options,
    sent: HashMap<i64, Dictionary>,
}

impl StreamWriter {
    /// A message with this header code and these columns; if `update` has an id, a dictionary.
    fn frame<'a>(
        &self, update: Option<(i64, bool)>, rows: usize, columns: impl Iterator<Item = (&'a Field, Slots<'a>)>,
    ) -> Result<Vec<u8>, TooLarge> {
        let mut body = Body { align: self.options.align, ..Body::default() };
        for (field, slots) in columns {
            body.column(field, slots)?;
        }
        let layout = match update {
            None => Layout::message(3, body.bytes.len(), |it| it.record_batch(rows, &body)),
            Some((id, is_delta)) => Layout::message(2, body.bytes.len(), |it| it.dictionary(id, is_delta, rows, &body)),
        };
        let mut bytes = layout.finish(self.options.align)?;
        if body.bytes.len() as u64 > max_body() {
            return Err(TooLarge);
        }
        bytes.extend_from_slice(&body.bytes);
        Ok(bytes)
    }

    /// From which value on a dictionary is sent, and whether as a delta; nothing if it is there.
    fn update(&self, id: i64, new: &Dictionary) -> Option<(usize, bool)> {
        match self.sent.get(&id) {
            Some(old) if old.len == new.len && new.begins_with(old) => None,
            Some(old) if old.len < new.len && !self.options.resend && new.begins_with(old) => Some((old.len, true)),
            _ => Some((0, false)),
        }
    }

    /// The messages of a batch: dictionaries that the other end does not have, and the batch.
    fn batch(&mut self, decoder: &Decoder, columns: &[Array], rows: usize) -> Result<Vec<u8>, TooLarge> {
        let (mut bytes, schema) = (Vec::new(), decoder.schema.as_ref().unwrap());
        for id in &schema.ids {
            let values = decoder.dictionaries.get(id).cloned().unwrap_or_default();
            if let Some((from, is_delta)) = self.update(*id, &values) {
                let slots = values.values().skip(from).map(Some).collect();
                let column = std::iter::once((&schema.values[id], slots));
                bytes.extend(self.frame(Some((*id, is_delta)), values.len - from, column)?);
                self.sent.insert(*id, (*values).clone());
            }
        }
        let columns = schema.fields.iter().zip(columns);
        let columns = columns.map(|(field, it)| (field, (0..rows).map(|i| Some((it, i))).collect()));
        bytes.extend(self.frame(None, rows, columns)?);
        Ok(bytes)
    }
}

/// Writes the stream again, as far as it is sound and within the limits.
pub fn copy(bytes: &[u8], options: Options, out: &mut Vec<u8>) -> Result<(), Failure> {
    let (mut decoder, mut number) = (Decoder::new(bytes), 0);
    let mut writer = StreamWriter { options, sent: HashMap::new() };
    loop {
        let item = decoder.next().map_err(|kind| Failure::Stream(decoder.place as u64, kind))?;
        match item {
            Some(Item::Schema) => {
                let schema = decoder.schema.as_ref().unwrap();
                let layout = Layout::message(1, 0, |layout| layout.schema(schema));
                let frame = layout.finish(options.align);
                out.extend(frame.map_err(|TooLarge| Failure::Refused(32, 0))?);
            }
            Some(Item::Batch { columns, rows }) => {
                let frames = writer.batch(&decoder, &columns, rows);
                out.extend(frames.map_err(|TooLarge| Failure::Refused(42, number))?);
                number += 1;
            }
            Some(Item::Dictionary(_)) => {}
            None | Some(Item::End) => {
                out.extend_from_slice(&[0xff, 0xff, 0xff, 0xff, 0, 0, 0, 0]);
                return Ok(());
            }
        }
    }
}
