//! FlatBuffers, each access checked against the metadata, and messages as the metadata have them.

use crate::{MAX_LEVELS, MAX_PAIRS, MAX_VISITS, has_all_types, max_metadata};

/// Why a stream is rejected: the kinds 1 to 18 of `arrowflow.h`, in their order.
#[derive(Clone, Copy, PartialEq, Eq, PartialOrd, Ord)]
pub enum Kind {
    Continuation = 1,
    MetadataSize,
    Metadata,
    Version,
    Header,
    BodyLength,
    Order,
    Unsupported,
    Schema,
    Compressed,
    UnknownId,
    NoBase,
    Rows,
    Layout,
    Text,
    Index,
    NoSchema,
    Truncated,
}

pub fn number<const N: usize>(bytes: &[u8], at: usize) -> Result<[u8; N], Kind> {
    let found = bytes.get(at..at + N).ok_or(Kind::Metadata)?;
    found.try_into().map_err(|_| Kind::Metadata)
}

/// Where the offset at a place leads.
pub fn target(bytes: &[u8], at: usize) -> Result<usize, Kind> {
    match u32::from_le_bytes(number(bytes, at)?) {
        0 => Err(Kind::Metadata),
        offset => Ok(at + offset as usize),
    }
}

#[derive(Clone, Copy)]
pub struct Table<'a> {
    bytes: &'a [u8],
    place: usize,
    vtable: &'a [u8],
}

impl<'a> Table<'a> {
    pub fn at(bytes: &'a [u8], place: usize) -> Result<Table<'a>, Kind> {
        let distance = i32::from_le_bytes(number(bytes, place)?);
        let start = place as i64 - i64::from(distance);
        let start = usize::try_from(start).map_err(|_| Kind::Metadata)?;
        let size = u16::from_le_bytes(number(bytes, start)?) as usize;
        let vtable = bytes.get(start..start + size).ok_or(Kind::Metadata)?;
        if size < 4 { Err(Kind::Metadata) } else { Ok(Table { bytes, place, vtable }) }
    }

    fn slot(&self, field: usize) -> Option<usize> {
        let entry = self.vtable.get(4 + 2 * field..6 + 2 * field)?;
        match u16::from_le_bytes([entry[0], entry[1]]) {
            0 => None,
            offset => Some(self.place + offset as usize),
        }
    }

    fn scalar<const N: usize>(&self, field: usize, absent: [u8; N]) -> Result<[u8; N], Kind> {
        self.slot(field).map_or(Ok(absent), |at| number(self.bytes, at))
    }

    fn u8(&self, field: usize) -> Result<u8, Kind> {
        Ok(self.scalar(field, [0])?[0])
    }

    fn i16(&self, field: usize, absent: i16) -> Result<i16, Kind> {
        Ok(i16::from_le_bytes(self.scalar(field, absent.to_le_bytes())?))
    }

    fn i32(&self, field: usize, absent: i32) -> Result<i32, Kind> {
        Ok(i32::from_le_bytes(self.scalar(field, absent.to_le_bytes())?))
    }

    fn i64(&self, field: usize) -> Result<i64, Kind> {
        Ok(i64::from_le_bytes(self.scalar(field, [0; 8])?))
    }

    fn named(&self, field: usize) -> Result<Option<usize>, Kind> {
        self.slot(field).map(|at| target(self.bytes, at)).transpose()
    }

    pub fn table(&self, field: usize) -> Result<Option<Table<'a>>, Kind> {
        self.named(field)?.map(|at| Table::at(self.bytes, at)).transpose()
    }

    /// The place and the bytes of the elements of a vector.
    fn vector(&self, field: usize, size: usize) -> Result<(usize, &'a [u8]), Kind> {
        let Some(at) = self.named(field)? else {
            return Ok((0, &[]));
        };
        let count = u32::from_le_bytes(number(self.bytes, at)?) as usize;
        let elements = self.bytes.get(at + 4..at + 4 + count * size);
        Ok((at + 4, elements.ok_or(Kind::Metadata)?))
    }

    /// The tables that a vector refers to, each when it is asked for.
    fn tables(&self, field: usize) -> Result<impl Iterator<Item = Result<Table<'a>, Kind>>, Kind> {
        let (bytes, (place, elements)) = (self.bytes, self.vector(field, 4)?);
        Ok((0..elements.len() / 4).map(move |k| Table::at(bytes, target(bytes, place + 4 * k)?)))
    }

    fn pairs(&self, field: usize) -> Result<Vec<(i64, i64)>, Kind> {
        let half = |pair: &[u8], at| i64::from_le_bytes(pair[at..at + 8].try_into().unwrap());
        let elements = self.vector(field, 16)?.1;
        Ok(elements.chunks_exact(16).map(|pair| (half(pair, 0), half(pair, 8))).collect())
    }
}

/// Whether a type is outside of the core: FloatingPoint, Decimal, Interval, FixedSizeList and Map.
pub fn is_late(code: u8) -> bool {
    matches!(code, 3 | 7 | 11 | 16 | 17)
}

#[derive(Clone)]
pub struct Encoding {
    pub id: i64,
    pub width: i32,
    pub signed: bool,
    pub ordered: bool,
    pub kind: i16,
}

/// A field as its table has it, with the code of its type; what its type does not have is 0 or absent.
/// The precision of a floating-point number is its unit, the size of fixed-size lists their width.
#[derive(Clone, Default)]
pub struct Field {
    pub name: String,
    pub nullable: bool,
    pub code: u8,
    pub unit: i16,
    pub width: i32,
    pub signed: bool,
    /// Of a decimal: its most digits, and how many of them are after the point.
    pub precision: i32,
    pub scale: i32,
    /// Whether the keys of each map are sorted.
    pub sorted: bool,
    pub zone: Option<String>,
    pub encoding: Option<Encoding>,
    pub children: Vec<Field>,
    pub pairs: Pairs,
}

/// Custom metadata: pairs of a key and a value.
pub type Pairs = Vec<(Vec<u8>, Vec<u8>)>;

/// A record batch: its number of rows, its nodes and its buffers.
pub struct Outline {
    pub length: i64,
    pub nodes: Vec<(i64, i64)>,
    pub buffers: Vec<(i64, i64)>,
    pub compressed: bool,
}

pub enum Header {
    None,
    Schema(i16, Vec<Field>, Pairs),
    Dictionary { id: i64, outline: Outline, is_delta: bool },
    Batch(Outline),
}

/// Reads a schema, and counts what may be shared in the metadata: fields, pairs and bytes.
pub struct SchemaReader {
    pub visits: u32,
    pub pairs: u32,
    pub text: u64,
}

impl SchemaReader {
    fn count(&mut self, len: usize) -> Result<(), Kind> {
        self.text = self.text.checked_sub(len as u64).ok_or(Kind::Metadata)?;
        Ok(())
    }

    fn text(&mut self, table: &Table, field: usize) -> Result<Option<String>, Kind> {
        let bytes = table.vector(field, 1)?.1;
        let text = std::str::from_utf8(bytes).map_err(|_| Kind::Metadata)?;
        self.count(bytes.len())?;
        Ok(table.slot(field).map(|_| text.into()))
    }

    pub fn pairs(&mut self, table: &Table, field: usize) -> Result<Pairs, Kind> {
        let mut pairs = Vec::new();
        for pair in table.tables(field)? {
            self.pairs = self.pairs.checked_sub(1).ok_or(Kind::Metadata)?;
            let pair = pair?;
            let (key, value) = (pair.vector(0, 1)?.1, pair.vector(1, 1)?.1);
            self.count(key.len())?;
            self.count(value.len())?;
            pairs.push((key.to_vec(), value.to_vec()));
        }
        Ok(pairs)
    }

    pub fn fields(&mut self, of: &Table, field: usize, levels: u32) -> Result<Vec<Field>, Kind> {
        of.tables(field)?.map(|child| self.field(&child?, levels)).collect()
    }

    fn field(&mut self, table: &Table, levels: u32) -> Result<Field, Kind> {
        if levels == 0 || self.visits == 0 {
            return Err(Kind::Metadata);
        }
        self.visits -= 1;
        let mut field = Field {
            name: self.text(table, 0)?.unwrap_or_default(),
            nullable: table.u8(1)? != 0,
            code: table.u8(2)?,
            ..Field::default()
        };
        if matches!(field.code, 2 | 8..=10 | 15 | 18) || is_late(field.code) && has_all_types() {
            self.data_type(&mut field, &table.table(3)?.ok_or(Kind::Metadata)?)?;
        }
        field.encoding = table.table(4)?.map(|it| encoding(&it)).transpose()?;
        field.children = self.fields(table, 5, levels - 1)?;
        field.pairs = self.pairs(table, 6)?;
        Ok(field)
    }

    /// What the table of the field's type says.
    fn data_type(&mut self, field: &mut Field, table: &Table) -> Result<(), Kind> {
        match field.code {
            2 => (field.width, field.signed) = (table.i32(0, 0)?, table.u8(1)? != 0),
            3 | 11 => field.unit = table.i16(0, 0)?,
            7 => {
                (field.precision, field.scale) = (table.i32(0, 0)?, table.i32(1, 0)?);
                field.width = table.i32(2, 128)?;
            }
            8 | 18 => field.unit = table.i16(0, 1)?,
            9 => (field.unit, field.width) = (table.i16(0, 1)?, table.i32(1, 32)?),
            10 => (field.unit, field.zone) = (table.i16(0, 0)?, self.text(table, 1)?),
            17 => field.sorted = table.u8(0)? != 0,
            _ => field.width = table.i32(0, 0)?,
        }
        Ok(())
    }
}

fn encoding(table: &Table) -> Result<Encoding, Kind> {
    let (width, signed) = match table.table(1)? {
        Some(index) => (index.i32(0, 0)?, index.u8(1)? != 0),
        None => (32, true),
    };
    let (id, ordered, kind) = (table.i64(0)?, table.u8(2)? != 0, table.i16(3, 0)?);
    Ok(Encoding { id, width, signed, ordered, kind })
}

fn outline(table: &Table) -> Result<Outline, Kind> {
    Ok(Outline { length: table.i64(0)?, nodes: table.pairs(1)?, buffers: table.pairs(2)?, compressed: table.slot(3).is_some() })
}

/// The version, the header and the body's length of a message.
pub fn message(bytes: &[u8]) -> Result<(i16, Header, i64), Kind> {
    let root = Table::at(bytes, target(bytes, 0)?)?;
    let (version, code, body_len) = (root.i16(0, 0)?, root.u8(1)?, root.i64(3)?);
    let table = if (1..=3).contains(&code) { root.table(2)? } else { None };
    let header = match (code, table) {
        (_, None) => Header::None,
        (1, Some(table)) => {
            let mut its = SchemaReader { visits: MAX_VISITS, pairs: MAX_PAIRS, text: max_metadata() };
            let order = table.i16(0, 0)?;
            Header::Schema(order, its.fields(&table, 1, MAX_LEVELS)?, its.pairs(&table, 2)?)
        }
        (2, Some(table)) => Header::Dictionary {
            id: table.i64(0)?,
            outline: outline(&table.table(1)?.ok_or(Kind::Metadata)?)?,
            is_delta: table.u8(2)? != 0,
        },
        (_, Some(table)) => Header::Batch(outline(&table)?),
    };
    Ok((version, header, body_len))
}
