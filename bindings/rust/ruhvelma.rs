//! The extensible types of DDS (OMG DDS-XTypes 1.3): samples, types and verdicts, over the library libxt.
//!
//! It needs no other crate: put the file beside yours, write `mod ruhvelma;`, and link with `-L FOLDER-OF-LIBXT -l static=xt`.
//!
//! Types and readers are closed where they are dropped. Both are `Send`, and neither is `Sync`.
#![allow(dead_code)]

use std::cell::UnsafeCell;
use std::error::Error;
use std::ffi::c_void;
use std::fmt;
use std::ptr::null_mut;

/// What the library keeps behind a pointer; null where it is closed.
#[repr(C)]
struct Raw {
    at: *mut c_void,
}

extern "C" {
    fn xt_types_open(types: *mut Raw, bundle: *const u8, bundle_size: usize, text: *mut u8, room: usize, needed: *mut usize) -> u32;
    fn xt_types_close(types: *mut Raw);
    fn xt_judge(
        types: *mut Raw, reads: *const u8, reads_size: usize, writes: *const u8, writes_size: usize, rep: u32, policy: u32, text: *mut u8,
        room: usize, needed: *mut usize,
    ) -> u32;
    fn xt_type_id(types: *mut Raw, word: *const u8, word_size: usize, text: *mut u8, room: usize, needed: *mut usize) -> u32;
    fn xt_minimal_id(types: *mut Raw, word: *const u8, word_size: usize, text: *mut u8, room: usize, needed: *mut usize) -> u32;
    fn xt_print(types: *mut Raw, word: *const u8, word_size: usize, text: *mut u8, room: usize, needed: *mut usize) -> u32;
    fn xt_print_all(types: *mut Raw, text: *mut u8, room: usize, needed: *mut usize) -> u32;
    fn xt_reader_open(
        reader: *mut Raw, types: *mut Raw, reads: *const u8, reads_size: usize, writes: *const u8, writes_size: usize, rep: u32, policy: u32,
        text: *mut u8, room: usize, needed: *mut usize,
    ) -> u32;
    fn xt_reader_close(reader: *mut Raw);
    fn xt_read(
        reader: *mut Raw, sample: *const u8, sample_size: usize, flags: u32, text: *mut u8, room: usize, needed: *mut usize,
    ) -> u32;
    fn xt_convert(reader: *mut Raw, sample: *const u8, sample_size: usize, to: u32, out: *mut u8, room: usize, needed: *mut usize) -> u32;
    fn xt_key_hash(reader: *mut Raw, sample: *const u8, sample_size: usize, hash: *mut u8, room: usize, needed: *mut usize) -> u32;
    fn xt_write(
        reader: *mut Raw, json: *const u8, json_size: usize, to: u32, flags: u32, out: *mut u8, room: usize, needed: *mut usize,
    ) -> u32;
}

/// A data representation.
#[derive(Clone, Copy, Debug, PartialEq, Eq)]
#[repr(u32)]
pub enum Rep {
    Xcdr1 = 1,
    Xcdr2 = 2,
}

/// How floats stand in JSON.
#[derive(Clone, Copy, Debug, PartialEq, Eq)]
#[repr(u32)]
pub enum Floats {
    /// As texts of their bits.
    Bits = 0,
    /// As numbers, where they are finite.
    Numbers = 1,
}

/// What a verdict is given under: a sum of the numbers of this module, 0 for the standard's own (7.6.3.7).
pub mod policy {
    pub const STANDARD: u32 = 0;
    pub const DISALLOW: u32 = 1;
    pub const STRING_BOUNDS: u32 = 2;
    pub const SEQUENCE_BOUNDS: u32 = 4;
    pub const ANY_NAMES: u32 = 8;
}

/// Why a call was refused.
#[derive(Clone, Copy, Debug, PartialEq, Eq)]
pub enum Status {
    /// The reader's type isn't assignable from the writer's.
    NotAssignable,
    /// A word has no form that names a type, or a number is none of those that the call takes.
    Words,
    Bundle,
    Memory,
    Types,
    NoSuchName,
    Json,
    Closed,
    Discarded,
    MustUnderstand,
    Malformed,
    TooLarge,
    /// None that this file knows.
    Other(u32),
}

const STATUSES: [(u32, Status); 12] = [
    (1, Status::NotAssignable),
    (2, Status::Words),
    (3, Status::Bundle),
    (6, Status::Memory),
    (7, Status::Types),
    (8, Status::NoSuchName),
    (10, Status::Json),
    (13, Status::Closed),
    (16, Status::Discarded),
    (17, Status::MustUnderstand),
    (18, Status::Malformed),
    (19, Status::TooLarge),
];

impl Status {
    fn of(code: u32) -> Status {
        STATUSES.iter().find(|known| known.0 == code).map_or(Status::Other(code), |known| known.1)
    }
}

/// A refusal: its status, as a number and by its name, and the library's words.
#[derive(Clone, Debug, PartialEq, Eq)]
pub struct Refused {
    pub code: u32,
    pub status: Status,
    pub text: String,
}

impl Refused {
    fn of(code: u32, text: &[u8]) -> Refused {
        Refused { code, status: Status::of(code), text: String::from_utf8_lossy(text).into_owned() }
    }
}

impl fmt::Display for Refused {
    fn fmt(&self, out: &mut fmt::Formatter<'_>) -> fmt::Result {
        if self.text.is_empty() {
            write!(out, "status {}", self.code)
        } else {
            write!(out, "{} (status {})", self.text, self.code)
        }
    }
}

impl Error for Refused {}

/// The octets that a call answers. Where they don't fit into the room, it is made again with the room that they take.
fn answered(mut call: impl FnMut(*mut u8, usize, *mut usize) -> u32) -> Result<Vec<u8>, Refused> {
    let mut octets = vec![0; 256];
    loop {
        let mut needed = 0;
        let code = call(octets.as_mut_ptr(), octets.len(), &mut needed);
        if needed <= octets.len() {
            octets.truncate(needed);
            return if code == 0 { Ok(octets) } else { Err(Refused::of(code, &octets)) };
        }
        octets.resize(needed, 0);
    }
}

/// The same, of a call whose answers are text.
fn answered_text(call: impl FnMut(*mut u8, usize, *mut usize) -> u32) -> Result<String, Refused> {
    answered(call).map(|octets| String::from_utf8_lossy(&octets).into_owned())
}

/// A handle that is closed where it is dropped. Calls go through a pointer to it, one at a time, as it isn't `Sync`.
struct Handle {
    raw: UnsafeCell<Raw>,
    close: unsafe extern "C" fn(*mut Raw),
}

impl Handle {
    fn null(close: unsafe extern "C" fn(*mut Raw)) -> Handle {
        Handle { raw: UnsafeCell::new(Raw { at: null_mut() }), close }
    }

    fn get(&self) -> *mut Raw {
        self.raw.get()
    }
}

impl Drop for Handle {
    fn drop(&mut self) {
        // SAFETY: the handle is null, or holds what the library put there, and nobody else has it.
        unsafe { (self.close)(self.get()) }
    }
}

/// A record of a bundle: its kind, the length of its payload in four octets, the highest first, and the payload.
fn put_record(bundle: &mut Vec<u8>, kind: u8, payload: &[u8]) {
    let size = u32::try_from(payload.len()).unwrap_or(u32::MAX);
    bundle.push(kind);
    bundle.extend_from_slice(&size.to_be_bytes());
    bundle.extend_from_slice(payload);
}

/// The records of types, one after another.
#[derive(Clone, Debug, Default)]
pub struct Bundle(Vec<u8>);

impl Bundle {
    pub fn new() -> Bundle {
        Bundle::default()
    }

    /// With an IDL text behind what is there.
    pub fn idl(mut self, text: &str) -> Bundle {
        put_record(&mut self.0, 3, text.as_bytes());
        self
    }

    /// With the octets of a TypeObject behind what is there.
    pub fn object(mut self, octets: &[u8]) -> Bundle {
        put_record(&mut self.0, 1, octets);
        self
    }

    pub fn octets(&self) -> &[u8] {
        &self.0
    }
}

/// Whether a type is assignable from another; if not, why, as `no RULE PATH`.
#[derive(Clone, Debug, PartialEq, Eq)]
pub enum Verdict {
    Yes,
    No(String),
}

// SAFETY of the calls below: each handle is null or as the library left it; a slice gives a pointer and its length; what a call writes to is memory
// of its own.

/// The types of a bundle. A word names one: `geo::Pose`, `0/geo::Pose` or `#` and an identifier.
pub struct Types(Handle);

// SAFETY: a handle of types may go to another thread (`include/xt.h`).
unsafe impl Send for Types {}

impl Types {
    pub fn open(bundle: &[u8]) -> Result<Types, Refused> {
        let types = Types(Handle::null(xt_types_close));
        answered(|text, room, needed| unsafe { xt_types_open(types.0.get(), bundle.as_ptr(), bundle.len(), text, room, needed) })?;
        Ok(types)
    }

    /// Whether the type `reads` is assignable from the type `writes`.
    pub fn judge(&self, reads: &str, writes: &str, rep: Rep, policy: u32) -> Result<Verdict, Refused> {
        let judged = answered(|text, room, needed| unsafe {
            let (r, w) = (reads.as_bytes(), writes.as_bytes());
            xt_judge(self.0.get(), r.as_ptr(), r.len(), w.as_ptr(), w.len(), rep as u32, policy, text, room, needed)
        });
        match judged {
            Ok(_) => Ok(Verdict::Yes),
            Err(refused) if refused.status == Status::NotAssignable => Ok(Verdict::No(refused.text)),
            Err(refused) => Err(refused),
        }
    }

    /// The identifier of a type's complete TypeObject, or of the object that the word names, in 30 hexadecimal digits.
    pub fn type_id(&self, word: &str) -> Result<String, Refused> {
        answered_text(|text, room, needed| unsafe { xt_type_id(self.0.get(), word.as_ptr(), word.len(), text, room, needed) })
    }

    /// The identifier of a type's minimal TypeObject.
    pub fn minimal_id(&self, word: &str) -> Result<String, Refused> {
        answered_text(|text, room, needed| unsafe { xt_minimal_id(self.0.get(), word.as_ptr(), word.len(), text, room, needed) })
    }

    /// The IDL text of a type, a line.
    pub fn print(&self, word: &str) -> Result<String, Refused> {
        answered_text(|text, room, needed| unsafe { xt_print(self.0.get(), word.as_ptr(), word.len(), text, room, needed) })
    }

    /// The IDL text of all types that the texts declare, a line for each.
    pub fn print_all(&self) -> Result<String, Refused> {
        answered_text(|text, room, needed| unsafe { xt_print_all(self.0.get(), text, room, needed) })
    }
}

/// A reader of samples, as its own type sees them. The types may be dropped before it.
pub struct Reader(Handle);

// SAFETY: a reader's handle may go to another thread (`include/xt.h`).
unsafe impl Send for Reader {}

impl Reader {
    /// A reader of the type `reads`, of samples of the type `writes` in a representation.
    pub fn open(types: &Types, reads: &str, writes: &str, rep: Rep, policy: u32) -> Result<Reader, Refused> {
        let reader = Reader(Handle::null(xt_reader_close));
        answered(|text, room, needed| unsafe {
            let (r, w) = (reads.as_bytes(), writes.as_bytes());
            let (to, among) = (reader.0.get(), types.0.get());
            xt_reader_open(to, among, r.as_ptr(), r.len(), w.as_ptr(), w.len(), rep as u32, policy, text, room, needed)
        })?;
        Ok(reader)
    }

    /// A sample as JSON, with finite floats as numbers.
    pub fn read(&self, sample: &[u8]) -> Result<String, Refused> {
        self.read_as(Floats::Numbers, sample)
    }

    /// The same, with floats as they are asked.
    pub fn read_as(&self, floats: Floats, sample: &[u8]) -> Result<String, Refused> {
        answered_text(|text, room, needed| unsafe { xt_read(self.0.get(), sample.as_ptr(), sample.len(), floats as u32, text, room, needed) })
    }

    /// A value in JSON, where floats are numbers or texts of their bits, as a sample in little-endian order.
    pub fn write(&self, json: &str, to: Rep) -> Result<Vec<u8>, Refused> {
        self.write_as(Floats::Numbers, json, to)
    }

    /// The same, with floats as they are told.
    pub fn write_as(&self, floats: Floats, json: &str, to: Rep) -> Result<Vec<u8>, Refused> {
        answered(|out, room, needed| unsafe {
            xt_write(self.0.get(), json.as_ptr(), json.len(), to as u32, floats as u32, out, room, needed)
        })
    }

    /// A sample as one of the reader's type in a representation, in little-endian order.
    pub fn convert(&self, sample: &[u8], to: Rep) -> Result<Vec<u8>, Refused> {
        answered(|out, room, needed| unsafe { xt_convert(self.0.get(), sample.as_ptr(), sample.len(), to as u32, out, room, needed) })
    }

    /// The hash of the key of a sample's value, as the reader's type sees it: 16 octets.
    pub fn key_hash(&self, sample: &[u8]) -> Result<Vec<u8>, Refused> {
        answered(|hash, room, needed| unsafe { xt_key_hash(self.0.get(), sample.as_ptr(), sample.len(), hash, room, needed) })
    }

    /// Frees what it holds. Calls are refused from here on, as `Closed`.
    pub fn close(&mut self) {
        // SAFETY: as in `Handle::drop`; the handle is null behind it.
        unsafe { xt_reader_close(self.0.get()) }
    }
}
