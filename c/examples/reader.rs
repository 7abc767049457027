//! usage: reader [--types core|all] FILE PIECE, reader --bad
//!
//! Reads a stream in pieces of this many bytes, and prints the number of the batch and the values of each row, as
//! `arrowflow show` does after its first line; a list or a struct is printed as `...`. Texts and decimals are printed from
//! the buffers of their column, everything else cell by cell: an interval is a number or bytes there, whose meaning is in
//! the format string of its field. With --bad the calls of a reader are passed invalid input.

use std::io::{self, BufWriter, Write};
use std::process::ExitCode;
use std::{env, fs, ptr, slice};

/// The calls of `arrowflow.h`.
mod c {
    #[repr(C)]
    #[derive(Clone, Copy)]
    pub struct Limits {
        pub max_metadata: u64,
        pub max_body: u64,
        pub max_rows: u64,
        pub types: u32,
    }

    #[repr(C)]
    pub struct Reader {
        _private: [u8; 0],
    }

    #[repr(C)]
    #[derive(Clone, Copy, Debug, PartialEq, Eq)]
    pub struct Step {
        pub kind: u32,
        pub message: u32,
        pub taken: u64,
        pub place: u64,
        pub id: i64,
        pub columns: u64,
        pub rows: u64,
    }

    #[repr(C)]
    #[derive(Clone, Copy, Debug, PartialEq, Eq)]
    pub struct Fault {
        pub kind: u32,
        pub place: u64,
    }

    #[repr(C)]
    #[derive(Clone, Copy)]
    pub struct Cell {
        pub r#type: u32,
        pub truth: bool,
        pub number: i64,
        pub large: u64,
        pub real: f64,
        pub size: u64,
    }

    #[repr(C)]
    pub struct Column {
        pub layout: u32,
        pub has_sign: bool,
        pub width: u64,
        pub slots: u64,
        pub children: u64,
        pub entries: u64,
        pub slot: u64,
        pub validity: *const u8,
        pub validity_len: usize,
        pub offsets: *const u8,
        pub offsets_len: usize,
        pub values: *const u8,
        pub values_len: usize,
    }

    #[repr(C)]
    pub struct Field {
        pub found: u32,
        pub flags: u32,
        pub is_encoded: bool,
        pub id: i64,
        pub children: u64,
        pub name_len: u64,
        pub format_len: u64,
        pub metadata_len: u64,
    }

    unsafe extern "C" {
        pub fn arrowflow_reader_open(limits: Limits, reader: *mut *mut Reader) -> u32;
        pub fn arrowflow_reader_read(reader: *mut Reader, piece: *const u8, len: usize) -> Step;
        pub fn arrowflow_reader_end(reader: *const Reader) -> Fault;
        pub fn arrowflow_reader_cell(reader: *const Reader, column: usize, row: usize, out: *mut u8, room: usize) -> Cell;
        pub fn arrowflow_reader_column(reader: *const Reader, path: *const usize, depth: usize) -> Column;
        pub fn arrowflow_reader_field(
            reader: *const Reader,
            path: *const usize,
            depth: usize,
            out: *mut u8,
            room: usize,
        ) -> Field;
        pub fn arrowflow_reader_close(reader: *mut Reader);
    }
}

const STANDARD: c::Limits = c::Limits { max_metadata: 1 << 26, max_body: 1 << 36, max_rows: i32::MAX as u64, types: 0 };

/// A column of the last batch, with its buffers.
struct Column<'a> {
    layout: u32,
    slots: usize,
    /// If the path ends with a value of a dictionary, the slot that has it.
    slot: usize,
    /// How many bytes a number, an index or an offset takes.
    width: usize,
    validity: &'a [u8],
    offsets: &'a [u8],
    values: &'a [u8],
}

impl<'a> Column<'a> {
    fn is_null(&self, i: usize) -> bool {
        !self.validity.is_empty() && self.validity[i / 8] >> (i % 8) & 1 == 0
    }

    fn offset(&self, i: usize) -> usize {
        place_of(&self.offsets[self.width * i..self.width * (i + 1)])
    }

    /// The bytes of slot i, for slots of one width.
    fn bytes(&self, i: usize) -> &'a [u8] {
        &self.values[self.width * i..self.width * (i + 1)]
    }

    /// The text in slot i, if slots hold texts and this one is not null.
    fn text(&self, i: usize) -> Option<&'a str> {
        if self.layout != 5 || self.is_null(i) {
            return None;
        }
        Some(str::from_utf8(&self.values[self.offset(i)..self.offset(i + 1)]).expect("UTF-8, as was checked"))
    }
}

/// A reader of a stream that arrives in pieces. It is neither `Send` nor `Sync`, since it holds a pointer.
struct Reader(*mut c::Reader);

impl Reader {
    /// A reader of a new stream, or the kind of the error.
    fn new(limits: c::Limits) -> Result<Reader, u32> {
        let mut reader = ptr::null_mut();
        // SAFETY: the pointer may be written to.
        match unsafe { c::arrowflow_reader_open(limits, &mut reader) } {
            0 => Ok(Reader(reader)),
            kind => Err(kind),
        }
    }

    /// Reads on in a piece, up to the end of one message.
    fn read(&mut self, piece: &[u8]) -> c::Step {
        // SAFETY: the reader was opened, and is closed when it is dropped; nothing writes to the piece.
        unsafe { c::arrowflow_reader_read(self.0, piece.as_ptr(), piece.len()) }
    }

    /// How the stream ends if no more bytes come.
    fn end(&self) -> c::Fault {
        // SAFETY: as in `read`.
        unsafe { c::arrowflow_reader_end(self.0) }
    }

    /// A column of the last batch, or a column below one. Its buffers belong to the reader, which the borrow keeps
    /// unchanged.
    fn column<'a>(&'a self, path: &[usize]) -> Column<'a> {
        // SAFETY: as in `read`; no pointer is NULL, and those that are returned are only read until the reader reads on.
        unsafe {
            let it = c::arrowflow_reader_column(self.0, path.as_ptr(), path.len());
            Column {
                layout: it.layout,
                slots: it.slots as usize,
                slot: it.slot as usize,
                width: it.width as usize,
                validity: slice::from_raw_parts(it.validity, it.validity_len),
                offsets: slice::from_raw_parts(it.offsets, it.offsets_len),
                values: slice::from_raw_parts(it.values, it.values_len),
            }
        }
    }

    /// The field of the schema that a path leads to. As much of its texts as fits is written to the buffer.
    fn field(&self, path: &[usize], room: &mut [u8]) -> c::Field {
        // SAFETY: as in `read`; no pointer is NULL, and only the caller uses the buffer.
        unsafe { c::arrowflow_reader_field(self.0, path.as_ptr(), path.len(), room.as_mut_ptr(), room.len()) }
    }

    /// The format string of a column's values, which are those of its dictionary if it has one.
    fn format(&self, column: usize) -> String {
        let is_encoded = self.field(&[column], &mut []).is_encoded;
        let path = if is_encoded { &[column, 0][..] } else { &[column] };
        let of = self.field(path, &mut []);
        let mut texts = vec![0; (of.name_len + of.format_len) as usize];
        self.field(path, &mut texts);
        String::from_utf8(texts.split_off(of.name_len as usize)).expect("UTF-8, as was checked")
    }

    /// A value of the last batch, as `show` prints it.
    fn shown(&self, column: usize, row: usize, format: &str) -> String {
        if let Some(words) = format.strip_prefix("d:") {
            let scale = words.split(',').nth(1).and_then(|scale| scale.parse().ok()).expect("a scale");
            return self.decimal(column, row).map_or(String::new(), |bytes| decimal_of(&bytes, scale));
        }
        match self.column(&[column]).text(row) {
            Some(text) => quoted(text),
            None => self.cell(column, row, format),
        }
    }

    /// The bytes of a decimal, which may be in a dictionary, if the value is one.
    fn decimal(&self, column: usize, row: usize) -> Option<Vec<u8>> {
        let (mut path, mut slot) = (vec![column], row);
        loop {
            let of = self.column(&path);
            if of.is_null(slot) {
                return None;
            }
            if of.layout != 9 {
                return Some(of.bytes(slot).to_vec());
            }
            path.push(place_of(of.bytes(slot)));
            slot = self.column(&path).slot;
        }
    }

    /// The value of a cell, as text.
    fn cell(&self, column: usize, row: usize, format: &str) -> String {
        let mut room = vec![0; 64];
        loop {
            // SAFETY: as in `read`; the buffer belongs to a vector.
            let cell = unsafe { c::arrowflow_reader_cell(self.0, column, row, room.as_mut_ptr(), room.len()) };
            let is_small = room.len() < cell.size as usize;
            room.resize(cell.size as usize, 0);
            if !is_small {
                return shown(cell, &room, format);
            }
        }
    }
}

impl Drop for Reader {
    fn drop(&mut self) {
        // SAFETY: as in `read`, and nothing uses the reader afterwards.
        unsafe { c::arrowflow_reader_close(self.0) }
    }
}

fn shown(cell: c::Cell, bytes: &[u8], format: &str) -> String {
    match cell.r#type {
        0 => String::new(),
        1 => cell.truth.to_string(),
        2 if format == "tiM" => format!("{}M", cell.number),
        2 => cell.number.to_string(),
        3 if format == "tiD" => format!("{}d{}ms", number_at(bytes, 0), number_at(bytes, 4)),
        3 if format == "tin" => {
            let (months, days) = (number_at(bytes, 0), number_at(bytes, 4));
            format!("{months}M{days}d{}ns", i64::from_le_bytes(bytes[8..].try_into().expect("16 bytes")))
        }
        3 => bytes.iter().map(|byte| format!("{byte:02x}")).collect(),
        4 => quoted(str::from_utf8(bytes).expect("UTF-8, as was checked")),
        7 => cell.large.to_string(),
        8 => "no cell".to_string(),
        10 => format!("{:?}", cell.real),
        _ => "...".to_string(),
    }
}

/// The number in these bytes.
fn place_of(bytes: &[u8]) -> usize {
    bytes.iter().rev().fold(0, |sum, byte| sum << 8 | *byte as usize)
}

/// A decimal whose unscaled integer has these bytes: with a point before as many of the last digits as its scale says.
fn decimal_of(bytes: &[u8], scale: i32) -> String {
    let is_negative = bytes.last().is_some_and(|byte| byte >> 7 == 1);
    let mut size = bytes.to_vec();
    let mut carry = is_negative;
    for byte in size.iter_mut().filter(|_| is_negative) {
        (*byte, carry) = (!*byte).overflowing_add(carry as u8);
    }
    let mut digits = Vec::new();
    while size.iter().any(|byte| *byte > 0) || digits.len() <= scale.max(0) as usize {
        let mut rest = 0;
        for byte in size.iter_mut().rev() {
            let part = rest << 8 | u32::from(*byte);
            (*byte, rest) = ((part / 10) as u8, part % 10);
        }
        digits.push(char::from(b'0' + rest as u8));
    }
    if scale > 0 {
        digits.insert(scale as usize, '.');
    }
    let power = if scale < 0 { format!("e{}", -scale) } else { String::new() };
    format!("{}{}{power}", if is_negative { "-" } else { "" }, digits.iter().rev().collect::<String>())
}

/// The signed number of 32 bits at an offset.
fn number_at(bytes: &[u8], at: usize) -> i32 {
    i32::from_le_bytes(bytes[at..at + 4].try_into().expect("four bytes"))
}

fn quoted(text: &str) -> String {
    if text.contains([',', '"', '\r', '\n']) {
        format!("\"{}\"", text.replace('"', "\"\""))
    } else {
        text.to_string()
    }
}

/// Prints the rows of a stream in pieces, and returns how it ends.
fn print(stream: &[u8], size: usize, types: u32, out: &mut impl Write) -> io::Result<c::Fault> {
    let mut reader = Reader::new(c::Limits { types, ..STANDARD }).expect("a reader");
    let mut number = 0;
    for mut piece in stream.chunks(size) {
        loop {
            let step = reader.read(piece);
            piece = &piece[step.taken as usize..];
            if step.message == 3 {
                let mut columns = 0..step.columns as usize;
                let formats: Vec<String> = columns.clone().map(|k| reader.format(k)).collect();
                assert!(columns.all(|k| reader.column(&[k]).slots == step.rows as usize), "a slot for each row");
                for row in 0..step.rows as usize {
                    write!(out, "{number}")?;
                    for (column, format) in formats.iter().enumerate() {
                        write!(out, ",{}", reader.shown(column, row, format))?;
                    }
                    writeln!(out)?;
                }
                number += 1;
            }
            if step.message == 0 || step.message == 4 || step.kind != 0 {
                break;
            }
        }
    }
    Ok(reader.end())
}

/// Whether the calls of a reader return what they should for invalid input.
fn bad() -> bool {
    let high = c::Limits { max_body: u64::MAX, ..STANDARD };
    let mut reader = Reader::new(STANDARD).expect("a reader");
    let nothing = reader.read(&[]);
    let fault = reader.read(&[0; 8]);
    let again = reader.read(b"more of it");
    let end = reader.end();
    Reader::new(high).is_err_and(|kind| kind == 20)
        && Reader::new(c::Limits { types: 2, ..STANDARD }).is_err_and(|kind| kind == 20)
        && (nothing.kind, nothing.message, nothing.taken) == (0, 0, 0)
        && (fault.kind, fault.place, fault.taken) == (1, 0, 0)
        && again == fault
        && end == c::Fault { kind: 1, place: 0 }
        && reader.shown(usize::MAX, 0, "") == "no cell"
        && [&[][..], &[0], &[0, usize::MAX]].iter().all(|path| reader.column(path).layout == 0)
}

fn main() -> ExitCode {
    let words: Vec<String> = env::args().skip(1).collect();
    let words: Vec<&str> = words.iter().map(String::as_str).collect();
    let (name, size, types) = match words[..] {
        ["--bad"] => return if bad() { ExitCode::SUCCESS } else { ExitCode::FAILURE },
        [name, size] | ["--types", "core", name, size] => (name, size, 0),
        ["--types", "all", name, size] => (name, size, 1),
        _ => panic!("usage: reader [--types core|all] FILE PIECE, reader --bad"),
    };
    let stream = fs::read(name).expect("a file");
    let size = size.parse().expect("a number of bytes");
    let mut out = BufWriter::new(io::stdout().lock());
    let fault = print(&stream, size, types, &mut out).expect("an output");
    out.flush().expect("an output");
    if fault.kind == 0 {
        return ExitCode::SUCCESS;
    }
    eprintln!("kind {} at byte {}", fault.kind, fault.place);
    ExitCode::FAILURE
}
