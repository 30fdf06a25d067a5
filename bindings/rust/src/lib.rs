//! Exact cover problems, by the calls of `helgrothy.h`, which says what they do. Each call has a random seed.

use std::collections::hash_map::RandomState;
use std::ffi::c_void;
use std::fmt;
use std::hash::{BuildHasher, Hasher};

#[link(name = "helgrothy", kind = "static")]
unsafe extern "C" {
    fn helgrothy_fault(
        kind: u32,
        text: *const c_void,
        length: usize,
        seed: u64,
        line: &mut u64,
        fault: &mut u32,
    ) -> u32;
    fn helgrothy_count(kind: u32, text: *const c_void, length: usize, seed: u64, limit: u64, count: &mut u64) -> u32;
    fn helgrothy_total(
        kind: u32,
        text: *const c_void,
        length: usize,
        seed: u64,
        bytes: usize,
        buffer: *mut c_void,
        room: usize,
        used: &mut usize,
    ) -> u32;
    fn helgrothy_list(
        kind: u32,
        text: *const c_void,
        length: usize,
        seed: u64,
        spacing: u64,
        limit: u64,
        buffer: *mut c_void,
        room: usize,
        used: &mut usize,
    ) -> u32;
}

/// As `dlx1` reads a text, as `dlx2`, as `dlx3`.
#[derive(Clone, Copy, Debug, PartialEq, Eq)]
pub enum Kind {
    Plain = 1,
    Colours = 2,
    Bounds = 3,
}

/// How a search ended.
#[derive(Clone, Copy, Debug, PartialEq, Eq)]
pub enum End {
    /// There are no more solutions.
    Done,
    /// The limit was met.
    Limit,
    /// The listing is longer than the buffer.
    NoRoom,
}

/// Why nothing was searched.
#[derive(Clone, Copy, Debug, PartialEq, Eq)]
pub enum Error {
    /// A line has a fault, by its number in the table of faults.
    Fault { line: u64, number: u32 },
    /// There was no memory.
    Memory,
}

impl fmt::Display for Error {
    fn fmt(&self, f: &mut fmt::Formatter<'_>) -> fmt::Result {
        match self {
            Error::Fault { line, number } => write!(f, "line {line}: {}", fault_text(*number)),
            Error::Memory => f.write_str("out of memory"),
        }
    }
}

impl std::error::Error for Error {}

/// A fault in words by its number, as the programs print it after the number of the line.
pub fn fault_text(number: u32) -> &'static str {
    match number {
        0 => "no fault",
        1 => "no items",
        2 => "NUL byte",
        3 => "empty name",
        4 => "name too long",
        5 => "bad byte in name",
        6 => "name repeated",
        7 => "second bar",
        8 => "bad bound",
        9 => "bound order",
        10 => "bound on a secondary item",
        11 => "unknown item",
        12 => "item repeated in option",
        13 => "colour on a primary item",
        14 => "bad colour",
        15 => "colour not allowed here",
        16 => "too many items",
        17 => "too many uses",
        _ => "unknown fault",
    }
}

fn ended(kind: Kind, text: &[u8], status: u32) -> Result<End, Error> {
    match status {
        0 => Ok(End::Done),
        2 => Err(fault(kind, text).err().unwrap_or(Error::Memory)),
        3 => Ok(End::NoRoom),
        5 => Ok(End::Limit),
        _ => Err(Error::Memory),
    }
}

/// A random number, by which no names can be chosen to be slow to look up.
fn seed() -> u64 {
    RandomState::new().build_hasher().finish()
}

/// The first fault of a text, as an error.
pub fn fault(kind: Kind, text: &[u8]) -> Result<(), Error> {
    let (mut line, mut number) = (0, 0);
    match unsafe { helgrothy_fault(kind as u32, text.as_ptr().cast(), text.len(), seed(), &mut line, &mut number) } {
        0 => Ok(()),
        2 => Err(Error::Fault { line, number }),
        _ => Err(Error::Memory),
    }
}

/// How many solutions there are, up to a limit.
pub fn count(kind: Kind, text: &[u8], limit: u64) -> Result<(u64, End), Error> {
    let mut count = 0;
    let status = unsafe { helgrothy_count(kind as u32, text.as_ptr().cast(), text.len(), seed(), limit, &mut count) };
    Ok((count, ended(kind, text, status)?))
}

/// How many solutions there are, whatever their number, in decimal. The states of the count take at most about so many
/// bytes.
pub fn total(kind: Kind, text: &[u8], bytes: usize) -> Result<String, Error> {
    let mut buffer = vec![0; 64];
    loop {
        let (start, room) = (buffer.as_mut_ptr().cast(), buffer.len());
        let mut used = 0;
        let status = unsafe {
            helgrothy_total(kind as u32, text.as_ptr().cast(), text.len(), seed(), bytes, start, room, &mut used)
        };
        match ended(kind, text, status)? {
            End::NoRoom => buffer.resize(2 * room, 0),
            _ => return Ok(String::from_utf8_lossy(&buffer[..used]).into_owned()),
        }
    }
}

/// Lists solutions into a buffer, and says how many bytes that is.
pub fn list(kind: Kind, text: &[u8], spacing: u64, limit: u64, buffer: &mut [u8]) -> Result<(usize, End), Error> {
    let (start, room) = (buffer.as_mut_ptr().cast(), buffer.len());
    let mut used = 0;
    let status = unsafe {
        helgrothy_list(kind as u32, text.as_ptr().cast(), text.len(), seed(), spacing, limit, start, room, &mut used)
    };
    Ok((used, ended(kind, text, status)?))
}
