//! What each call of lcf.h gives for any input: its values and the bytes written, or the number of its refusal.

use crate::keys;
use std::cmp::Ordering;

pub const LIMIT: u128 = u32::MAX as u128;
pub const TEXT: usize = 96;
pub const COLUMN: usize = 12;

pub type Refusal = u32;

/// A key as it was written: text or column, with the two counts.
#[derive(Debug, PartialEq)]
pub struct Written {
    pub characters: usize,
    pub quotients: usize,
    pub out: Vec<u8>,
}

#[derive(Debug, PartialEq, Clone, Copy)]
pub struct Place {
    pub used: usize,
    pub turned: bool,
}

/// The string of a text key, or the first of the refusals 3 to 6 that applies.
pub fn judged(key: &[u8]) -> Result<&str, Refusal> {
    match key {
        [] => Err(3),
        _ if key.len() > TEXT => Err(4),
        _ if key.iter().any(|&byte| byte != b'0' && byte != b'1') => Err(5),
        [_, .., b'0'] => Err(6),
        _ => Ok(std::str::from_utf8(key).unwrap()),
    }
}

pub fn refuse_if(applies: bool, number: Refusal) -> Result<(), Refusal> {
    if applies {
        Err(number)
    } else {
        Ok(())
    }
}

/// A key as 12 bytes, the first character on top of the first byte, filled up by zeros.
pub fn packed(key: &str) -> Vec<u8> {
    let filled = format!("{key:0<96}");
    (0..COLUMN).map(|i| u8::from_str_radix(&filled[8 * i..8 * i + 8], 2).unwrap()).collect()
}

pub fn unpacked(column: &[u8]) -> String {
    let bits: String = column.iter().map(|byte| format!("{byte:08b}")).collect();
    keys::trimmed(&bits)
}

fn write(p: u32, q: u32, room: usize, asked: usize, put: fn(&str) -> Vec<u8>) -> Result<Written, Refusal> {
    refuse_if(q == 0, 1)?;
    refuse_if(room < asked, 2)?;
    let (p, q) = (p.into(), q.into());
    let key = keys::key(p, q);
    Ok(Written { characters: key.len(), quotients: keys::written(p, q).len(), out: put(&key) })
}

pub fn write_text(p: u32, q: u32, room: usize) -> Result<Written, Refusal> {
    write(p, q, room, TEXT, |key| key.as_bytes().to_vec())
}

pub fn write_column(p: u32, q: u32, room: usize) -> Result<Written, Refusal> {
    write(p, q, room, COLUMN, packed)
}

fn in_range(key: &str) -> Result<(u128, u128), Refusal> {
    let (p, q) = keys::value(key);
    refuse_if(p.max(q) > LIMIT, 7)?;
    Ok((p, q))
}

pub fn read_text(key: &[u8]) -> Result<(u128, u128), Refusal> {
    in_range(judged(key)?)
}

pub fn read_column(column: &[u8]) -> Result<(u128, u128), Refusal> {
    refuse_if(column.len() != COLUMN, 9)?;
    in_range(&unpacked(column))
}

pub fn column_to_text(column: &[u8], room: usize) -> Result<String, Refusal> {
    refuse_if(column.len() != COLUMN, 9)?;
    refuse_if(room < TEXT, 2)?;
    Ok(unpacked(column))
}

pub fn text_to_column(key: &[u8], room: usize) -> Result<Vec<u8>, Refusal> {
    let key = judged(key)?;
    refuse_if(room < COLUMN, 2)?;
    Ok(packed(key))
}

/// How p/q stands to r/s: by whole parts, else by what is left of each, whose reciprocals stand the other way.
/// Cross products could be too large.
fn order((p, q): (u128, u128), (r, s): (u128, u128)) -> Ordering {
    let wholes = (p / q).cmp(&(r / s));
    let rests = (p % q, r % s);
    match rests {
        _ if wholes.is_ne() => wholes,
        (0, _) | (_, 0) => rests.0.cmp(&rests.1),
        _ => order((s, rests.1), (q, rests.0)),
    }
}

pub fn compare(first: &[u8], second: &[u8]) -> Result<Ordering, Refusal> {
    let (first, second) = (judged(first)?, judged(second)?);
    Ok(order(keys::value(first), keys::value(second)))
}

/// 1 or 2, the key that comes first; 0 where comparing refuses.
pub fn earlier(first: &[u8], second: &[u8]) -> u32 {
    compare(first, second).map_or(0, |standing| if standing.is_gt() { 2 } else { 1 })
}

pub fn cut(key: &[u8], width: usize, room: usize) -> Result<String, Refusal> {
    let key = judged(key)?;
    refuse_if(!(1..=TEXT).contains(&width), 8)?;
    refuse_if(room < TEXT, 2)?;
    Ok(keys::trimmed(&key[..width.min(key.len())]))
}

pub fn start(key: &[u8]) -> Result<Place, Refusal> {
    let key = judged(key)?;
    Ok(Place { used: 1, turned: key.starts_with('0') })
}

/// The quotient at a place and the place after it, or none at the end.
pub fn step(key: &[u8], place: Place) -> Result<Option<(u128, Place)>, Refusal> {
    let key = judged(key)?;
    refuse_if(!(1..=160).contains(&place.used), 8)?;
    let Some((quotient, used)) = keys::quotient_at(key, place.used, place.turned) else {
        return Ok(None);
    };
    refuse_if(quotient > LIMIT, 7)?;
    Ok(Some((quotient, Place { used, turned: !place.turned })))
}

#[cfg(test)]
mod tests;
