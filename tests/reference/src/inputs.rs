//! Keys, columns, widths, places and lengths for the calls: good, damaged, and at the limits.

use crate::calls::{self, Place};
use crate::keys;
use crate::random::Random;
use crate::ratios;

/// Numbers that a narrower type would take for small ones, and those beside the limits of a byte.
pub const HUGE: [usize; 12] = [
    usize::MAX,
    usize::MAX - 1,
    1 << 63,
    (1 << 63) + 5,
    (1 << 32) - 1,
    1 << 32,
    (1 << 32) + 1,
    (1 << 32) + 96,
    (1 << 16) + 1,
    255,
    256,
    257,
];

fn random_bits(random: &mut Random, length: usize) -> String {
    (0..length).map(|_| random.pick(&['0', '1'])).collect()
}

/// Runs of one bit, so that long words and words that the end cuts short are met.
fn runs(random: &mut Random) -> String {
    let mut bits = String::new();
    while !random.once_in(5) {
        bits += &random.pick(&["0", "1"]).repeat(random.between(1, 40));
    }
    bits
}

/// The key of a ratio beside the limit, of which about half are out of range.
fn beside_limit(random: &mut Random) -> String {
    let large = (1 << 32) - 4 + random.below(8) as u128;
    let other = random.sized() as u128 + 1;
    if random.once_in(2) {
        keys::key(large, other)
    } else {
        keys::key(other, large)
    }
}

pub fn good_key(random: &mut Random) -> String {
    let bits = match random.below(8) {
        0 => runs(random),
        1 => random.pick(&["0", "1"]).repeat(random.below(96)) + "1",
        2 | 3 => {
            let length = random.below(96);
            random_bits(random, length) + "1"
        }
        4 => beside_limit(random),
        _ => {
            let (p, q) = ratios::ratio(random);
            keys::key(p.into(), q.max(1).into())
        }
    };
    keys::trimmed(bits.get(..96).unwrap_or(&bits))
}

pub fn damaged(random: &mut Random, mut key: Vec<u8>) -> Vec<u8> {
    let length = key.len();
    let long = random.between(97, 300);
    match random.below(7) {
        0 | 1 => (0..random.between(1, 3)).for_each(|_| key[random.below(length)] = random.byte()),
        2 => key.truncate(random.below(length)),
        3 => key.resize(length + random.between(1, 5), b'0'),
        4 => key.clear(),
        5 => key = random_bits(random, long).into_bytes(),
        _ => {
            let strange = random.byte();
            key = vec![random.pick(&[b'0', b'1', strange]); long - 1];
            key.push(b'1');
        }
    }
    key
}

pub fn any_key(random: &mut Random) -> Vec<u8> {
    let key = good_key(random).into_bytes();
    if random.once_in(4) {
        damaged(random, key)
    } else {
        key
    }
}

/// Two keys: the same, near each other, one in front of the other, or any two; one or both of them damaged at times.
pub fn pair(random: &mut Random) -> (Vec<u8>, Vec<u8>) {
    let first = good_key(random);
    let second = match random.below(5) {
        0 => first.clone(),
        1 => good_key(random),
        2 => keys::trimmed(&first[..random.between(1, first.len())]),
        3 => {
            let longer = first.clone() + &random_bits(random, 3) + "1";
            keys::trimmed(longer.get(..96).unwrap_or(&longer))
        }
        _ => {
            let at = first.len() - 1 - random.below(first.len().min(4));
            let turned = keys::turned(&first[at..at + 1]);
            keys::trimmed(&(first[..at].to_string() + &turned + &first[at + 1..]))
        }
    };
    let (mut first, mut second) = (first.into_bytes(), second.into_bytes());
    if random.once_in(2) {
        (first, second) = (second, first);
    }
    let damage = random.below(10);
    if damage < 2 {
        first = damaged(random, first);
    }
    if damage == 1 || damage == 2 {
        second = damaged(random, second);
    }
    (first, second)
}

pub fn column(random: &mut Random) -> Vec<u8> {
    let mut column: Vec<u8> = match random.below(5) {
        0 => (0..12).map(|_| random.byte()).collect(),
        1 => vec![0; 12],
        2 => (0..12).map(|_| if random.once_in(8) { random.byte() } else { 0 }).collect(),
        _ => calls::packed(&good_key(random)),
    };
    if random.once_in(6) {
        column.resize(random.between(0, 14), random.byte());
    }
    column
}

/// The length of an output buffer: what is asked for, a little more, or any shorter one.
pub fn room(random: &mut Random, asked: usize) -> usize {
    match random.below(8) {
        0 => random.below(asked),
        1 | 2 => asked + random.between(1, 40),
        _ => asked,
    }
}

pub fn width(random: &mut Random) -> usize {
    if random.once_in(8) {
        random.pick(&HUGE)
    } else {
        random.between(0, 100)
    }
}

/// A place: one that stepping meets, or any.
pub fn place(random: &mut Random, key: &[u8]) -> Place {
    let turned = random.once_in(2);
    let met = match random.below(8) {
        0 => Place { used: random.pick(&HUGE), turned },
        1..=3 => Place { used: random.between(0, 170), turned },
        _ => calls::start(key).unwrap_or(Place { used: 1, turned }),
    };
    let steps = random.below(12);
    (0..steps).fold(met, |place, _| match calls::step(key, place) {
        Ok(Some((_, next))) => next,
        _ => place,
    })
}
