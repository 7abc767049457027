//! usage: arrays [--types core|all] FILE
//!
//! Reads a stream as an ArrowArrayStream of the Arrow C stream interface. The stream and its bytes are dropped first. Then
//! the last child is moved out of each array, and its dictionary or first child out of that, as the interface says, and
//! parents are released before the arrays that were moved out of them. Prints how many rows there are. At a fault, which is
//! returned twice, it exits with status 1 and prints the stream's own text.

use std::ffi::{CStr, c_char, c_int, c_void};
use std::process::ExitCode;
use std::{env, fs, mem, ptr, slice};

/// The structs of the interfaces, and the calls of `arrowflow.h` and of `arrowflow_stream.h`.
mod c {
    use super::{c_char, c_int, c_void};

    #[repr(C)]
    #[derive(Clone, Copy)]
    pub struct Limits {
        pub max_metadata: u64,
        pub max_body: u64,
        pub max_rows: u64,
        pub types: u32,
    }

    #[repr(C)]
    pub struct Schema {
        pub format: *const c_char,
        pub name: *const c_char,
        pub metadata: *const c_char,
        pub flags: i64,
        pub n_children: i64,
        pub children: *mut *mut Schema,
        pub dictionary: *mut Schema,
        pub release: Option<unsafe extern "C" fn(*mut Schema)>,
        pub private_data: *mut c_void,
    }

    #[repr(C)]
    pub struct Array {
        pub length: i64,
        pub null_count: i64,
        pub offset: i64,
        pub n_buffers: i64,
        pub n_children: i64,
        pub buffers: *mut *const c_void,
        pub children: *mut *mut Array,
        pub dictionary: *mut Array,
        pub release: Option<unsafe extern "C" fn(*mut Array)>,
        pub private_data: *mut c_void,
    }

    #[repr(C)]
    pub struct Stream {
        pub get_schema: Option<unsafe extern "C" fn(*mut Stream, *mut Schema) -> c_int>,
        pub get_next: Option<unsafe extern "C" fn(*mut Stream, *mut Array) -> c_int>,
        pub get_last_error: Option<unsafe extern "C" fn(*mut Stream) -> *const c_char>,
        pub release: Option<unsafe extern "C" fn(*mut Stream)>,
        pub private_data: *mut c_void,
    }

    unsafe extern "C" {
        pub fn arrowflow_standard_limits() -> Limits;
        pub fn arrowflow_stream_of_bytes(bytes: *const u8, len: usize, limits: Limits, out: *mut Stream) -> u32;
    }
}

/// An array that is released when it is dropped, on any thread.
struct Array(c::Array);

// SAFETY: `arrowflow_stream.h` says that arrays may be passed to any thread and released there.
unsafe impl Send for Array {}

impl Drop for Array {
    fn drop(&mut self) {
        if let Some(release) = self.0.release {
            // SAFETY: the array is released once: `release` of a moved one is `None`.
            unsafe { release(&mut self.0) }
            assert!(self.0.release.is_none(), "a released array says so");
        }
    }
}

impl Array {
    /// Moves an array out of the struct that has it.
    ///
    /// # Safety
    /// The pointer is to an array that nothing else uses.
    unsafe fn moved(from: *mut c::Array) -> Array {
        // SAFETY: the caller's obligation; `release` of the original shows that it was moved.
        unsafe {
            let array = ptr::read(from);
            (*from).release = None;
            Array(array)
        }
    }

    /// Moves the last child out, or the dictionary.
    fn take_child(&mut self) -> Option<Array> {
        let at = &self.0;
        // SAFETY: the array is ours, and has as many children as it says.
        unsafe {
            if !at.dictionary.is_null() {
                return Some(Array::moved(at.dictionary));
            }
            (at.n_children > 0).then(|| Array::moved(*at.children.add(at.n_children as usize - 1)))
        }
    }

    /// How many slots are not null.
    fn values(&self) -> usize {
        let slots = self.0.length as usize;
        if self.0.n_buffers == 0 {
            return 0;
        }
        // SAFETY: there is a first buffer; if it is not NULL it has a bit for each slot.
        unsafe {
            let bits: *const u8 = (*self.0.buffers).cast();
            if bits.is_null() {
                return slots;
            }
            let bits = slice::from_raw_parts(bits, slots.div_ceil(8));
            (0..slots).filter(|i| bits[i / 8] >> (i % 8) & 1 == 1).count()
        }
    }
}

/// A stream that is released when it is dropped.
struct Stream(c::Stream);

impl Stream {
    fn new(bytes: &[u8], types: u32) -> Stream {
        // SAFETY: a stream of zeros is a released one; the bytes outlive everything that is made of them, since the caller
        // drops them last.
        unsafe {
            let mut stream: c::Stream = mem::zeroed();
            let limits = c::Limits { types, ..c::arrowflow_standard_limits() };
            assert_eq!(c::arrowflow_stream_of_bytes(bytes.as_ptr(), bytes.len(), limits, &mut stream), 0, "a stream");
            Stream(stream)
        }
    }

    /// The next array, or `None` at the end, or the fault's text.
    fn next(&mut self) -> Result<Option<Array>, String> {
        // SAFETY: the stream has these calls until it is released, and its text is valid until the next call.
        unsafe {
            let mut array: c::Array = mem::zeroed();
            if self.0.get_next.expect("a call")(&mut self.0, &mut array) == 0 {
                return Ok(array.release.is_some().then(|| Array(array)));
            }
            assert!(array.release.is_none(), "no array of a fault");
            Err(CStr::from_ptr(self.0.get_last_error.expect("a call")(&mut self.0)).to_string_lossy().into_owned())
        }
    }

    /// How many columns the schema has, if it was read.
    fn columns(&mut self) -> Option<i64> {
        // SAFETY: as in `next`; a schema that was returned is released.
        unsafe {
            let mut schema: c::Schema = mem::zeroed();
            if self.0.get_schema.expect("a call")(&mut self.0, &mut schema) != 0 {
                return None;
            }
            let columns = schema.n_children;
            schema.release.expect("a schema to release")(&mut schema);
            assert!(schema.release.is_none(), "a released schema says so");
            Some(columns)
        }
    }
}

impl Drop for Stream {
    fn drop(&mut self) {
        // SAFETY: the stream was made, and is released once.
        unsafe { self.0.release.expect("a stream to release")(&mut self.0) }
    }
}

/// All arrays of a stream, and the text of its fault.
fn read(bytes: Vec<u8>, types: u32) -> (Vec<Array>, Option<String>) {
    let mut stream = Stream::new(&bytes, types);
    let (columns, mut arrays) = (stream.columns(), Vec::new());
    loop {
        match stream.next() {
            Ok(Some(array)) => arrays.push(array),
            Ok(None) => return (arrays, None),
            Err(text) => {
                assert_eq!(stream.next().err().as_ref(), Some(&text), "the fault comes again");
                assert_eq!(stream.columns(), columns, "and the schema, if there was one");
                return (arrays, Some(text));
            }
        }
    }
}

fn main() -> ExitCode {
    let words: Vec<String> = env::args().skip(1).collect();
    let words: Vec<&str> = words.iter().map(String::as_str).collect();
    let (name, types) = match words[..] {
        [name] | ["--types", "core", name] => (name, 0),
        ["--types", "all", name] => (name, 1),
        _ => panic!("usage: arrays [--types core|all] FILE"),
    };
    let (mut arrays, fault) = read(fs::read(name).expect("a file"), types);
    let rows: i64 = arrays.iter().map(|it| it.0.length).sum();
    let mut children: Vec<Array> = arrays.iter_mut().filter_map(Array::take_child).collect();
    let before: Vec<usize> = children.iter().map(Array::values).collect();
    let below: Vec<Array> = children.iter_mut().filter_map(Array::take_child).collect();
    let values_below: usize = below.iter().map(Array::values).sum();
    let there = std::thread::spawn(move || below.iter().map(Array::values).sum());
    drop(arrays);
    let after: Vec<usize> = children.iter().rev().map(Array::values).collect();
    assert!(before.iter().eq(after.iter().rev()), "a child is the same without its parent");
    assert_eq!(there.join().ok(), Some(values_below), "and what was below it on another thread");
    println!("{rows}");
    match fault {
        None => ExitCode::SUCCESS,
        Some(text) => {
            eprintln!("{text}");
            ExitCode::FAILURE
        }
    }
}
