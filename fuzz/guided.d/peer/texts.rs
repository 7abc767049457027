//! The texts of `schema`, `check` and `show`.

use crate::columns::{Array, Cells, int_of};
use crate::decoder::{Decoder, Item};
use crate::metadata::Field;
use crate::numbers::{push_decimal, push_float, push_interval};
use crate::{Failure, Report};
use std::fmt::Write as _;
use std::io::Write as _;

fn push_escaped(out: &mut String, text: &str) {
    for ch in text.chars() {
        if ch < ' ' || ch == '\x7f' || ch == '\\' {
            let _ = write!(out, "\\x{:02x}", ch as u32);
        } else {
            out.push(ch);
        }
    }
}

fn push_int(out: &mut String, width: i32, signed: bool) {
    let _ = write!(out, "{}int{width}", if signed { "" } else { "u" });
}

fn push_type(out: &mut String, field: &Field) {
    let unit = ["s", "ms", "us", "ns"][field.unit as usize];
    let _ = match field.code {
        1 => write!(out, "null"),
        2 => return push_int(out, field.width, field.signed),
        3 => write!(out, "{}", ["halffloat", "float", "double"][field.unit as usize]),
        4 => write!(out, "binary"),
        5 => write!(out, "utf8"),
        6 => write!(out, "bool"),
        7 => write!(out, "decimal{}({}, {})", field.width, field.precision, field.scale),
        8 => write!(out, "date[{}]", if field.unit == 0 { "day" } else { unit }),
        9 => write!(out, "time[{unit}]"),
        10 => {
            let _ = write!(out, "timestamp[{unit}");
            if let Some(zone) = &field.zone {
                out.push_str(", ");
                push_escaped(out, zone);
            }
            write!(out, "]")
        }
        11 => write!(out, "{}_interval", ["month", "day_time", "month_day_nano"][field.unit as usize]),
        12 => write!(out, "list"),
        13 => write!(out, "struct"),
        15 => write!(out, "fixed_size_binary[{}]", field.width),
        16 => write!(out, "fixed_size_list[{}]", field.width),
        17 => write!(out, "{}", if field.sorted { "map[sorted]" } else { "map" }),
        18 => write!(out, "duration[{unit}]"),
        19 => write!(out, "large_binary"),
        20 => write!(out, "large_utf8"),
        _ => write!(out, "large_list"),
    };
}

fn push_fields(out: &mut String, fields: &[Field], level: usize) {
    for field in fields {
        out.push_str(&"  ".repeat(level));
        push_escaped(out, &field.name);
        out.push_str(": ");
        match &field.encoding {
            None => push_type(out, field),
            Some(it) => {
                out.push_str("dictionary<");
                push_int(out, it.width, it.signed);
                out.push_str(", ");
                push_type(out, field);
                let _ = write!(out, "> id {}{}", it.id, if it.ordered { " ordered" } else { "" });
            }
        }
        out.push_str(if field.nullable { "\n" } else { " not null\n" });
        push_fields(out, &field.children, level + 1);
    }
}

fn push_hexadecimal(out: &mut Vec<u8>, bytes: &[u8]) {
    bytes.iter().for_each(|byte| out.extend_from_slice(format!("{byte:02x}").as_bytes()));
}

/// A value of a type whose values have a fixed number of bytes.
fn push_fixed(out: &mut Vec<u8>, field: &Field, bytes: &[u8]) {
    let mut text = String::new();
    match field.code {
        3 => push_float(&mut text, bytes),
        7 => push_decimal(&mut text, bytes, field.scale),
        11 => push_interval(&mut text, bytes),
        15 => push_hexadecimal(out, bytes),
        code => text = int_of(bytes, code != 2 || field.signed).to_string(),
    }
    out.extend_from_slice(text.as_bytes());
}

fn push_value(out: &mut Vec<u8>, field: &Field, array: &Array, i: usize, null: &[u8]) {
    if !array.is_valid(i) {
        return out.extend_from_slice(null);
    }
    match &array.cells {
        Cells::Null => out.extend_from_slice(null),
        Cells::Bool(bits) => out.extend_from_slice(if bits.bit(i) { b"true" } else { b"false" }),
        Cells::Int(values, width, _) => push_fixed(out, field, values.value((*width).into(), i)),
        Cells::Float(values, width) | Cells::Fixed(values, width) => push_fixed(out, field, values.value(*width, i)),
        Cells::Bytes { offsets, data, is_text: true } => out.extend_from_slice(&data.bytes()[offsets.of(i)]),
        Cells::Bytes { offsets, data, .. } => push_hexadecimal(out, &data.bytes()[offsets.of(i)]),
        Cells::List(offsets, child) => {
            out.push(b'[');
            for k in offsets.of(i) {
                if k > offsets.of(i).start {
                    out.push(b';');
                }
                push_value(out, &field.children[0], child, k, b"null");
            }
            out.push(b']');
        }
        Cells::Struct(children) => {
            out.push(b'{');
            for (k, (part, child)) in field.children.iter().zip(children).enumerate() {
                if k > 0 {
                    out.push(b';');
                }
                out.extend_from_slice(part.name.as_bytes());
                out.push(b'=');
                push_value(out, part, child, i, b"null");
            }
            out.push(b'}');
        }
        Cells::Indices(indices, width, signed, dictionary) => {
            let (values, place) = dictionary.value(indices.int(*width, *signed, i) as usize);
            push_value(out, field, values, place, null);
        }
    }
}

/// Puts quotes around the field that begins at `start`, if it needs them.
fn quote(out: &mut Vec<u8>, start: usize) {
    if !out[start..].iter().any(|byte| matches!(byte, b',' | b'"' | b'\r' | b'\n')) {
        return;
    }
    let field = out.split_off(start);
    out.push(b'"');
    for byte in field {
        if byte == b'"' {
            out.push(b'"');
        }
        out.push(byte);
    }
    out.push(b'"');
}

#[derive(Clone, Copy, PartialEq)]
pub enum Command {
    Check,
    Show,
    Schema,
}

/// A text that is given up once it is longer than `most`.
pub struct Output {
    pub text: Vec<u8>,
    pub most: usize,
}

impl Output {
    fn rows(&mut self, number: u64, fields: &[Field], columns: &[Array], rows: usize) -> bool {
        for i in 0..rows {
            let _ = write!(self.text, "{number}");
            for (field, column) in fields.iter().zip(columns) {
                self.text.push(b',');
                let start = self.text.len();
                push_value(&mut self.text, field, column, i, b"");
                quote(&mut self.text, start);
            }
            self.text.push(b'\n');
            if self.text.len() > self.most {
                return false;
            }
        }
        true
    }

    fn header(&mut self, fields: &[Field]) {
        self.text.extend_from_slice(b"batch");
        for field in fields {
            self.text.push(b',');
            let start = self.text.len();
            self.text.extend_from_slice(field.name.as_bytes());
            quote(&mut self.text, start);
        }
        self.text.push(b'\n');
    }

    /// A line of `check` for a message that began at `place`.
    fn line(&mut self, decoder: &Decoder, place: usize, number: u64, item: &Item) {
        let _ = match item {
            Item::Schema => {
                let count = decoder.schema.as_ref().unwrap().fields.len();
                writeln!(self.text, "at {place}: schema, {count} columns")
            }
            Item::Dictionary(id) => {
                let count = decoder.dictionaries[id].len;
                writeln!(self.text, "at {place}: dictionary {id}, now {count} values")
            }
            Item::Batch { rows, .. } => {
                writeln!(self.text, "at {place}: batch {number}, {rows} rows")
            }
            Item::End => writeln!(self.text, "at {place}: end marker"),
        };
    }
}

/// Writes a text as far as the stream is sound.
pub fn run(command: Command, bytes: &[u8], out: &mut Output, report: &mut Report) -> Result<(), Failure> {
    let mut decoder = Decoder::new(bytes);
    loop {
        let place = decoder.place;
        let item = decoder.next().map_err(|kind| Failure::Stream(place as u64, kind))?;
        report.place = decoder.place as u64;
        let Some(item) = item else { break };
        let fields = &decoder.schema.as_ref().unwrap().fields;
        match (&item, command) {
            (_, Command::Check) => out.line(&decoder, place, report.batches, &item),
            (Item::Schema, Command::Schema) => {
                let mut text = String::new();
                push_fields(&mut text, fields, 0);
                out.text.extend_from_slice(text.as_bytes());
                return Ok(());
            }
            (Item::Schema, _) => out.header(fields),
            (Item::Batch { columns, rows }, Command::Show) => {
                if !out.rows(report.batches, fields, columns, *rows) {
                    return Err(Failure::Long);
                }
            }
            _ => {}
        }
        if let Item::Batch { rows, .. } = item {
            report.batches += 1;
            report.rows += rows as u64;
        }
        report.ended = matches!(item, Item::End);
        if report.ended {
            return Ok(());
        }
    }
    if command == Command::Check {
        let _ = writeln!(out.text, "at {}: end of input", decoder.place);
    }
    Ok(())
}
