//! A stream in memory, one message after the other.

use crate::columns::{Array, Dictionary, Loader};
use crate::metadata::{Header, Kind, Outline, message};
use crate::schema::Schema;
use crate::{max_body, max_metadata, max_rows};
use std::collections::HashMap;
use std::rc::Rc;

enum Content {
    Schema(Schema),
    Dictionary { id: i64, outline: Outline, is_delta: bool },
    Batch(Outline),
}

pub enum Item {
    Schema,
    Dictionary(i64),
    Batch { columns: Vec<Array>, rows: usize },
    End,
}

#[derive(Default)]
pub struct Decoder<'a> {
    bytes: &'a [u8],
    /// Where the next message begins.
    pub place: usize,
    pub ended: bool,
    pub schema: Option<Rc<Schema>>,
    pub dictionaries: HashMap<i64, Rc<Dictionary>>,
}

impl<'a> Decoder<'a> {
    pub fn new(bytes: &'a [u8]) -> Decoder<'a> {
        Decoder { bytes, ..Decoder::default() }
    }

    /// The next item; nothing at the end of the bytes.
    pub fn next(&mut self) -> Result<Option<Item>, Kind> {
        let rest = &self.bytes[self.place..];
        if self.ended || rest.is_empty() && self.schema.is_some() {
            return Ok(None);
        }
        let cut = if self.schema.is_some() { Kind::Truncated } else { Kind::NoSchema };
        let size = self.prefix(rest.get(..8).ok_or(cut)?)?;
        if size == 0 {
            self.place += 8;
            self.ended = true;
            return Ok(Some(Item::End));
        }
        let (content, body_len) = self.content(rest.get(8..8 + size).ok_or(cut)?)?;
        let end = 8 + size + body_len;
        let item = self.apply(content, rest.get(8 + size..end).ok_or(cut)?)?;
        self.place += end;
        Ok(Some(item))
    }

    /// The size of the metadata, 0 for the end marker.
    fn prefix(&self, prefix: &[u8]) -> Result<usize, Kind> {
        if prefix[..4] != [0xff; 4] {
            return Err(Kind::Continuation);
        }
        let size = u64::from(u32::from_le_bytes(prefix[4..].try_into().unwrap()));
        if size > max_metadata() {
            return Err(Kind::MetadataSize);
        }
        if size == 0 && self.schema.is_none() { Err(Kind::NoSchema) } else { Ok(size as usize) }
    }

    fn content(&self, metadata: &[u8]) -> Result<(Content, usize), Kind> {
        let (version, header, body_len) = message(metadata)?;
        if !matches!(version, 3 | 4) {
            return Err(Kind::Version);
        }
        if matches!(header, Header::None) {
            return Err(Kind::Header);
        }
        let body_len = u64::try_from(body_len).map_err(|_| Kind::BodyLength)?;
        if body_len > max_body() {
            return Err(Kind::BodyLength);
        }
        if matches!(header, Header::Schema(..)) == self.schema.is_some() {
            return Err(Kind::Order);
        }
        let content = match header {
            Header::Schema(order, fields, pairs) => Content::Schema(Schema::of(order, fields, pairs)?),
            Header::Dictionary { id, outline, is_delta } => {
                self.check_dictionary(id, &outline, is_delta)?;
                Content::Dictionary { id, outline, is_delta }
            }
            Header::Batch(outline) => {
                if outline.compressed {
                    return Err(Kind::Compressed);
                }
                let fields = &self.schema.as_ref().unwrap().fields;
                check_rows(&outline, fields.iter().map(|it| it.nodes()).sum())?;
                Content::Batch(outline)
            }
            Header::None => return Err(Kind::Header),
        };
        Ok((content, body_len as usize))
    }

    fn check_dictionary(&self, id: i64, outline: &Outline, is_delta: bool) -> Result<(), Kind> {
        if outline.compressed {
            return Err(Kind::Compressed);
        }
        let values = self.schema.as_ref().unwrap().values.get(&id).ok_or(Kind::UnknownId)?;
        let base = match self.dictionaries.get(&id) {
            None if is_delta => return Err(Kind::NoBase),
            Some(dictionary) if is_delta => dictionary.len as i64,
            _ => 0,
        };
        check_rows(outline, values.nodes())?;
        if base + outline.length > max_rows() { Err(Kind::Rows) } else { Ok(()) }
    }

    /// Applies a message that is complete.
    fn apply(&mut self, content: Content, body: &[u8]) -> Result<Item, Kind> {
        Ok(match content {
            Content::Schema(schema) => {
                self.schema = Some(Rc::new(schema));
                Item::Schema
            }
            Content::Dictionary { id, outline, is_delta } => {
                let schema = Rc::clone(self.schema.as_ref().unwrap());
                let field = std::slice::from_ref(&schema.values[&id]);
                let values = Loader::load(&outline, field, body, &self.dictionaries)?.pop();
                let dictionary = self.dictionaries.entry(id).or_default();
                if !is_delta {
                    *dictionary = Rc::default();
                }
                Rc::make_mut(dictionary).push(values.unwrap());
                Item::Dictionary(id)
            }
            Content::Batch(outline) => {
                let fields = &self.schema.as_ref().unwrap().fields;
                let columns = Loader::load(&outline, fields, body, &self.dictionaries)?;
                Item::Batch { columns, rows: outline.length as usize }
            }
        })
    }
}

fn check_rows(outline: &Outline, taken: usize) -> Result<(), Kind> {
    let is_bad = |length: i64| !(0..=max_rows()).contains(&length);
    if is_bad(outline.length) || outline.nodes.iter().take(taken).any(|node| is_bad(node.0)) {
        return Err(Kind::Rows);
    }
    Ok(())
}
