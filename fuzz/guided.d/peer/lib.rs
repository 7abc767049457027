//! A plain reader and writer of the same streams as the product's, in memory, for `fuzz/guided`: it
//! is compiled with counters of its edges, which guide the fuzzer, and has the same results. It was
//! written from docs/FORMAT.md, reads slot by slot and shares no code with the product. It has all
//! types, and the core of them; the calls at the end are those that `target.cc` makes.

mod columns;
mod decoder;
mod digest;
mod metadata;
mod numbers;
mod schema;
mod texts;
mod writer;

use digest::Digest;
use metadata::{Kind, SchemaReader, Table, target};
use std::slice;
use std::sync::atomic::{AtomicU64, Ordering::Relaxed};
use texts::{Command, Output};
use writer::Options;

const MAX_LEVELS: u32 = 32;
const MAX_VISITS: u32 = 65_536;
const MAX_PAIRS: u32 = 65_536;

static LIMITS: [AtomicU64; 4] = [const { AtomicU64::new(0) }; 4];

fn max_metadata() -> u64 {
    LIMITS[0].load(Relaxed)
}

fn max_body() -> u64 {
    LIMITS[1].load(Relaxed)
}

fn max_rows() -> i64 {
    LIMITS[2].load(Relaxed) as i64
}

/// Whether streams may have types that the core does not have.
fn has_all_types() -> bool {
    LIMITS[3].load(Relaxed) > 0
}

enum Failure {
    /// Where the message at fault begins.
    Stream(u64, Kind),
    /// A kind of `arrowflow_copy` alone, and the number of the batch.
    Refused(u32, u64),
    /// The text is longer than was asked for.
    Long,
}

/// How a stream ended, and what was complete before that.
#[derive(Default)]
struct Report {
    ended: bool,
    place: u64,
    batches: u64,
    rows: u64,
}

/// The result of a call, as in `arrowflow_report` and `arrowflow_text`, with the text, which
/// `peer_free` frees. `is_long` if the text was given up for its length.
#[repr(C)]
pub struct PeerAnswer {
    kind: u32,
    ended: bool,
    is_long: bool,
    place: u64,
    batches: u64,
    rows: u64,
    text: *mut u8,
    len: usize,
}

fn answer(done: Result<(), Failure>, report: Report, text: Vec<u8>) -> PeerAnswer {
    let (kind, place) = match done {
        Ok(()) | Err(Failure::Long) => (0, report.place),
        Err(Failure::Stream(place, kind)) => (kind as u32, place),
        Err(Failure::Refused(kind, number)) => (kind, number),
    };
    let is_long = matches!(done, Err(Failure::Long));
    let text = Box::leak(text.into_boxed_slice());
    let Report { ended, batches, rows, .. } = report;
    PeerAnswer { kind, ended, is_long, place, batches, rows, text: text.as_mut_ptr(), len: text.len() }
}

#[unsafe(no_mangle)]
pub extern "C" fn peer_limits(metadata: u64, body: u64, rows: u64, types: u32) {
    LIMITS.iter().zip([metadata, body, rows, types.into()]).for_each(|(limit, it)| limit.store(it, Relaxed));
}

/// The text of `check` (0), `show` (1) or `schema` (2), given up if it is longer than `most`.
///
/// # Safety
/// There are `len` bytes.
#[unsafe(no_mangle)]
pub unsafe extern "C" fn peer_text(command: u32, bytes: *const u8, len: usize, most: usize) -> PeerAnswer {
    let command = [Command::Check, Command::Show, Command::Schema][command as usize];
    let (mut out, mut report) = (Output { text: Vec::new(), most }, Report::default());
    // SAFETY: the caller's bytes.
    let bytes = unsafe { slice::from_raw_parts(bytes, len) };
    let done = texts::run(command, bytes, &mut out, &mut report);
    answer(done, report, out.text)
}

/// Whether the first message has more fields or pairs than so many, as they are visited.
///
/// # Safety
/// There are `len` bytes.
#[unsafe(no_mangle)]
pub unsafe extern "C" fn peer_is_wide(bytes: *const u8, len: usize, most: u32) -> bool {
    // SAFETY: the caller's bytes.
    let bytes = unsafe { slice::from_raw_parts(bytes, len) };
    let mut reader = SchemaReader { visits: most, pairs: most, text: max_metadata() };
    let mut read = |bytes: &[u8]| -> Result<(), Kind> {
        if let Some(schema) = Table::at(bytes, target(bytes, 0)?)?.table(2)? {
            reader.fields(&schema, 1, MAX_LEVELS)?;
            reader.pairs(&schema, 2)?;
        }
        Ok(())
    };
    let _ = bytes.get(8..).map(&mut read);
    reader.visits == 0 || reader.pairs == 0
}

/// # Safety
/// There are `len` bytes.
#[unsafe(no_mangle)]
pub unsafe extern "C" fn peer_copy(bytes: *const u8, len: usize, resend: bool, pad_to_8: bool) -> PeerAnswer {
    let options = Options { resend, align: if pad_to_8 { 8 } else { 64 } };
    let mut out = Vec::new();
    // SAFETY: the caller's bytes.
    let done = writer::copy(unsafe { slice::from_raw_parts(bytes, len) }, options, &mut out);
    answer(done, Report::default(), out)
}

/// # Safety
/// There are `len` bytes.
#[unsafe(no_mangle)]
pub unsafe extern "C" fn peer_digest(bytes: *const u8, len: usize, most: u64) -> u64 {
    let mut digest = Digest { sum: 0, left: most };
    // SAFETY: the caller's bytes.
    digest.stream(unsafe { slice::from_raw_parts(bytes, len) });
    digest.sum
}

/// # Safety
/// The answer's text was not freed before.
#[unsafe(no_mangle)]
pub unsafe extern "C" fn peer_free(answer: PeerAnswer) {
    // SAFETY: `answer` made it of a box.
    drop(unsafe { Box::from_raw(slice::from_raw_parts_mut(answer.text, answer.len)) });
}
