//! Ratio keys that sort, and a stock table in ratio order, by the proved archive liblcf.a. Each call takes any input,
//! and the archive checks it: nothing is tested here. What a call gives, refuses and leaves is said in include/lcf.h.
#![no_std]
#![deny(missing_docs)]

mod raw;
mod stock;

use core::cmp::Ordering;
pub use stock::{Held, Row, Stock};

/// Room that a text key asks for.
pub const TEXT_BYTES: usize = 96;
/// A column's size, and the room that it asks for.
pub const COLUMN_BYTES: usize = 12;
/// The most rows that a stock table has room for.
pub const ROWS_MOST: usize = 2048;

/// Why a call refused. The numbers are the library's; there will be more.
#[allow(missing_docs)]
#[derive(Clone, Copy, Debug, PartialEq, Eq)]
#[non_exhaustive]
#[repr(u32)]
pub enum Refusal {
    ZeroDenominator = 1,
    ShortBuffer = 2,
    EmptyKey = 3,
    LongKey = 4,
    StrangeCharacter = 5,
    LastZero = 6,
    OutOfRange = 7,
    Outside = 8,
    WrongColumn = 9,
    /// By the ratio lister alone.
    MalformedLine = 10,
    TableFull = 11,
    NoSuchRatio = 12,
    LargeSum = 13,
    TooFew = 14,
    NoQuantity = 15,
    UnsoundTable = 16,
}

/// What writing reports: the key's characters, and the quotients written.
#[allow(missing_docs)]
#[derive(Clone, Copy, Debug, PartialEq, Eq)]
pub struct Written {
    pub characters: usize,
    pub quotients: u32,
}

/// A ratio in lowest terms.
#[allow(missing_docs)]
#[derive(Clone, Copy, Debug, PartialEq, Eq)]
pub struct Ratio {
    pub numerator: u32,
    pub denominator: u32,
}

/// A place in a key: the characters used, and whether the word due there is a turned one.
#[allow(missing_docs)]
#[derive(Clone, Copy, Debug, PartialEq, Eq)]
#[repr(C)]
pub struct Place {
    pub used: usize,
    pub turned: bool,
}

fn told<T>(refusal: u32, value: T) -> Result<T, Refusal> {
    Err(match refusal {
        0 => return Ok(value),
        1 => Refusal::ZeroDenominator,
        2 => Refusal::ShortBuffer,
        3 => Refusal::EmptyKey,
        4 => Refusal::LongKey,
        5 => Refusal::StrangeCharacter,
        6 => Refusal::LastZero,
        7 => Refusal::OutOfRange,
        8 => Refusal::Outside,
        9 => Refusal::WrongColumn,
        10 => Refusal::MalformedLine,
        11 => Refusal::TableFull,
        12 => Refusal::NoSuchRatio,
        13 => Refusal::LargeSum,
        14 => Refusal::TooFew,
        15 => Refusal::NoQuantity,
        _ => Refusal::UnsoundTable,
    })
}

fn written(answer: raw::Written) -> Result<Written, Refusal> {
    told(answer.refusal, Written { characters: answer.characters, quotients: answer.quotients })
}

fn ratio(answer: raw::Ratio) -> Result<Ratio, Refusal> {
    told(answer.refusal, Ratio { numerator: answer.numerator, denominator: answer.denominator })
}

/// Writes the key of a ratio as text at the front of `out`.
pub fn write_text(numerator: u32, denominator: u32, out: &mut [u8]) -> Result<Written, Refusal> {
    written(unsafe { raw::lcf_write_text(numerator, denominator, out.as_mut_ptr(), out.len()) })
}

/// Writes the key of a ratio as a column at the front of `out`.
pub fn write_column(numerator: u32, denominator: u32, out: &mut [u8]) -> Result<Written, Refusal> {
    written(unsafe { raw::lcf_write_column(numerator, denominator, out.as_mut_ptr(), out.len()) })
}

/// The ratio of a text key.
pub fn read_text(key: &[u8]) -> Result<Ratio, Refusal> {
    ratio(unsafe { raw::lcf_read_text(key.as_ptr(), key.len()) })
}

/// The ratio of a column.
pub fn read_column(column: &[u8]) -> Result<Ratio, Refusal> {
    ratio(unsafe { raw::lcf_read_column(column.as_ptr(), column.len()) })
}

/// Writes a column's key as text at the front of `out`, and gives its characters.
pub fn column_to_text(column: &[u8], out: &mut [u8]) -> Result<usize, Refusal> {
    let answer = unsafe { raw::lcf_column_to_text(column.as_ptr(), column.len(), out.as_mut_ptr(), out.len()) };
    told(answer.refusal, answer.characters)
}

/// Writes a text key as a column at the front of `out`.
pub fn text_to_column(key: &[u8], out: &mut [u8]) -> Result<(), Refusal> {
    told(unsafe { raw::lcf_text_to_column(key.as_ptr(), key.len(), out.as_mut_ptr(), out.len()) }.refusal, ())
}

/// How the first key stands to the second.
pub fn compare(first: &[u8], second: &[u8]) -> Result<Ordering, Refusal> {
    let answer = unsafe { raw::lcf_compare(first.as_ptr(), first.len(), second.as_ptr(), second.len()) };
    told(answer.refusal, answer.standing.cmp(&2))
}

/// The earlier of two keys, the first of equal ones; none where comparing refuses.
pub fn earlier<'a>(first: &'a [u8], second: &'a [u8]) -> Option<&'a [u8]> {
    match unsafe { raw::lcf_earlier(first.as_ptr(), first.len(), second.as_ptr(), second.len()) } {
        0 => None,
        1 => Some(first),
        _ => Some(second),
    }
}

/// Writes the first `width` characters of a key, without zeros at the end, and gives how many they are.
pub fn cut(key: &[u8], width: usize, out: &mut [u8]) -> Result<usize, Refusal> {
    let answer = unsafe { raw::lcf_cut(key.as_ptr(), key.len(), width, out.as_mut_ptr(), out.len()) };
    told(answer.refusal, answer.characters)
}

/// The place after a key's first character.
pub fn start(key: &[u8]) -> Result<Place, Refusal> {
    let answer = unsafe { raw::lcf_start(key.as_ptr(), key.len()) };
    told(answer.refusal, answer.place)
}

/// The quotient at a place and the place after it; none at the end of the key.
pub fn step(key: &[u8], place: Place) -> Result<Option<(u32, Place)>, Refusal> {
    let answer = unsafe { raw::lcf_step(key.as_ptr(), key.len(), place) };
    told(answer.refusal, answer.found.then_some((answer.quotient, answer.place)))
}
