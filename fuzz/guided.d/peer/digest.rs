//! A digest of rows.

use crate::columns::{Array, Cells, Offsets};
use crate::decoder::{Decoder, Item};

/// All rows of a stream as one number: the harness makes the same from the buffers of columns.
pub struct Digest {
    pub sum: u64,
    pub left: u64,
}

impl Digest {
    /// Adds nothing once as many words were added as were asked for.
    fn word(&mut self, word: u64) {
        if self.left > 0 {
            self.left -= 1;
            self.sum = (self.sum ^ word).wrapping_mul(0x9e37_79b9_7f4a_7c15).rotate_left(29);
        }
    }

    /// A number, after the layout of its column.
    fn number(&mut self, layout: u64, number: u64) {
        self.word(layout);
        self.word(number);
    }

    fn bytes(&mut self, is_text: bool, bytes: &[u8]) {
        self.number(4 + u64::from(is_text), bytes.len() as u64);
        bytes.iter().for_each(|byte| self.word((*byte).into()));
    }

    fn value(&mut self, array: &Array, i: usize) {
        if self.left == 0 || !array.is_valid(i) {
            return self.word(0);
        }
        match &array.cells {
            Cells::Null => self.word(0),
            Cells::Bool(bits) => self.word(1 + u64::from(bits.bit(i))),
            Cells::Int(values, width, signed) => {
                let number = values.int(*width, *signed, i);
                self.number(3, number as u64);
                if *width == 16 {
                    self.word((number >> 64) as u64);
                }
            }
            Cells::Float(values, width) => self.number(10, values.int(*width as u8, false, i) as u64),
            Cells::Fixed(values, width) => self.bytes(false, values.value(*width, i)),
            Cells::Bytes { offsets, data, is_text } => {
                self.bytes(*is_text, &data.bytes()[offsets.of(i)]);
            }
            Cells::List(offsets, child) => {
                let layout = if let Offsets::Multiples(_) = offsets { 11 } else { 7 };
                self.number(layout, offsets.of(i).len() as u64);
                for k in offsets.of(i) {
                    self.value(child, k);
                }
            }
            Cells::Struct(children) => {
                self.word(8);
                children.iter().for_each(|child| self.value(child, i));
            }
            Cells::Indices(indices, width, signed, dictionary) => {
                let index = indices.int(*width, *signed, i) as usize;
                self.number(9, index as u64);
                let (values, place) = dictionary.value(index);
                self.value(values, place);
            }
        }
    }

    pub fn stream(&mut self, bytes: &[u8]) {
        let mut decoder = Decoder::new(bytes);
        while let Ok(Some(item)) = decoder.next() {
            if let Item::Batch { columns, rows } = item {
                self.word(columns.len() as u64);
                self.word(rows as u64);
                for i in 0..if columns.is_empty() { 0 } else { rows } {
                    columns.iter().for_each(|column| self.value(column, i));
                }
            }
        }
    }
}
