//! Stock tables: new ones, filled ones, and damaged ones.

use crate::inputs::HUGE;
use crate::random::Random;
use crate::ratios;
use crate::stock::{self, Ratio, Stock, Table, ROW};

/// Lengths beside those of one row and of the most rows: the short ones, and the long ones, which make long lines.
const SHORT: [usize; 4] = [0, 11, 12, 13];
const LONG: [usize; 3] = [24576, 24577, 24588];

/// A table without rows over arbitrary memory.
fn empty(random: &mut Random, rows: usize) -> Table {
    Table { memory: (0..ROW * rows).map(|_| random.byte()).collect(), used: 0 }
}

pub fn ratio(random: &mut Random) -> Ratio {
    let (p, q) = ratios::ratio(random);
    Ratio::new(p, q.max(1))
}

/// A table with some of its rows used.
pub fn filled(random: &mut Random, rows: usize, used: usize) -> (Table, Stock) {
    let mut stock = Stock::new();
    while stock.len() < used {
        stock.insert(ratio(random), random.sized().max(1));
    }
    (stock::refilled(&empty(random, rows), &stock), stock)
}

/// More rows than a small table has room for. 12 times 2^62 is 0 in 64 bits: a size in bytes would look right.
fn too_many(random: &mut Random, table: &Table) -> usize {
    match random.below(4) {
        0 => random.pick(&HUGE),
        1 => usize::MAX,
        2 => (1 << 62) + table.used,
        _ => table.memory.len() / ROW + random.between(1, 3),
    }
}

/// One fault in a used row: no denominator, no quantity, a factor that its terms share, or the ratio of another row.
fn fault(random: &mut Random, memory: &mut [u8], used: usize) {
    let at = ROW * random.below(used);
    match random.below(4) {
        0 => memory[at + 4..at + 8].fill(0),
        1 => memory[at + 8..at + 12].fill(0),
        2 => {
            for term in memory[at..at + 8].chunks_exact_mut(4) {
                let doubled = u32::from_le_bytes(term.try_into().unwrap()).wrapping_mul(2);
                term.copy_from_slice(&doubled.to_le_bytes());
            }
        }
        _ => memory.copy_within(at..at + 8, ROW * random.below(used)),
    }
}

fn exchange(random: &mut Random, memory: &mut [u8], used: usize) {
    let (one, other) = (ROW * random.below(used), ROW * random.below(used));
    (0..ROW).for_each(|i| memory.swap(one + i, other + i));
}

fn resized(random: &mut Random, length: usize) -> usize {
    match random.below(8) {
        0..=2 => length + 1,
        3..=5 => length - 1,
        _ if random.once_in(40) => random.pick(&LONG),
        _ => random.pick(&SHORT),
    }
}

pub fn damaged(random: &mut Random, mut table: Table) -> Table {
    let (length, used) = (table.memory.len(), table.used);
    match random.below(8) {
        0 | 1 if used > 0 => table.memory[random.below(ROW * used)] = random.byte(),
        2 | 3 if used > 0 => fault(random, &mut table.memory, used),
        4 if used > 1 => exchange(random, &mut table.memory, used),
        5 => table.used = random.between(0, length / ROW),
        6 => table.used = too_many(random, &table),
        _ => table.memory.resize(resized(random, length), random.byte()),
    }
    table
}
