//! Ratios: their lowest terms, and ones of every size and at the limits.

use crate::random::Random;

/// The scope's table, worst cases, and both ends of the range.
const NOTABLE: [(u32, u32); 24] = [
    (0, 1),
    (1, 1),
    (1, 2),
    (5, 16),
    (19, 44),
    (26, 161),
    (57, 31),
    (22, 7),
    (157, 50),
    (333, 106),
    (u32::MAX, 1),
    (1, u32::MAX),
    (u32::MAX, u32::MAX),
    (u32::MAX, u32::MAX - 1),
    (u32::MAX - 1, u32::MAX),
    (0, u32::MAX),
    (u32::MAX, 0),
    (0, 0),
    (1 << 31, 1),
    (1, 1 << 31),
    (1836311903, 2971215073), // most quotients
    (2971215073, 1836311903),
    (4218363952, 3792186105), // a key of 78 characters
    (3792186105, 4218363952),
];

fn greatest_divisor(a: u128, b: u128) -> u128 {
    if b == 0 {
        a
    } else {
        greatest_divisor(b, a % b)
    }
}

/// p/q, q >= 1, in lowest terms.
pub fn lowest_terms(p: u128, q: u128) -> (u128, u128) {
    let divisor = greatest_divisor(p, q);
    (p / divisor, q / divisor)
}

pub fn wheel(random: &mut Random) -> u32 {
    random.between(20, 127) as u32
}

/// A ratio whose terms are at most 2 away.
pub fn beside(random: &mut Random, (p, q): (u32, u32)) -> (u32, u32) {
    let beside = |n: u32, by: usize| n.wrapping_add(by as u32).wrapping_sub(2);
    (beside(p, random.below(5)), beside(q, random.below(5)))
}

pub fn ratio(random: &mut Random) -> (u32, u32) {
    match random.below(8) {
        0 => random.pick(&NOTABLE),
        1 => {
            let notable = random.pick(&NOTABLE);
            beside(random, notable)
        }
        2 => (wheel(random), wheel(random)),
        3 => {
            let factor = random.sized().max(1);
            let mut multiple = || factor * random.below((u32::MAX / factor) as usize + 1) as u32;
            (multiple(), multiple())
        }
        4 => (random.below(20) as u32, random.below(20) as u32),
        _ => (random.sized(), random.sized()),
    }
}
