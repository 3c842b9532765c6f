//! The stock table's four calls: what each gives, and the table after it, or the number of its refusal.

use crate::calls::{refuse_if, Refusal};
use crate::ratios;
use std::cmp::Ordering;
use std::collections::BTreeMap;

pub const ROW: usize = 12;
pub const ROWS_MOST: usize = 2048;

/// A ratio in lowest terms; ratios stand by their cross products.
#[derive(Debug, Clone, Copy, PartialEq, Eq)]
pub struct Ratio {
    pub p: u32,
    pub q: u32,
}

impl Ratio {
    /// p/q, q >= 1.
    pub fn new(p: u32, q: u32) -> Self {
        let (p, q) = ratios::lowest_terms(p.into(), q.into());
        Ratio { p: p as u32, q: q as u32 }
    }
}

impl Ord for Ratio {
    fn cmp(&self, other: &Self) -> Ordering {
        let [p, q, r, s] = [self.p, self.q, other.p, other.q].map(u128::from);
        (p * s).cmp(&(r * q))
    }
}

impl PartialOrd for Ratio {
    fn partial_cmp(&self, other: &Self) -> Option<Ordering> {
        Some(self.cmp(other))
    }
}

/// How many there are of each ratio.
pub type Stock = BTreeMap<Ratio, u32>;

/// A table as it is lent: its memory, and how many rows of it are said to be used.
#[derive(Debug, Clone, PartialEq)]
pub struct Table {
    pub memory: Vec<u8>,
    pub used: usize,
}

/// What putting in and taking out give.
#[derive(Debug, PartialEq)]
pub struct Stocked {
    pub row: usize,
    pub quantity: u32,
    pub table: Table,
}

fn row(bytes: &[u8]) -> (Ratio, u32) {
    let [p, q, quantity] = [0, 4, 8].map(|at| u32::from_le_bytes(bytes[at..at + 4].try_into().unwrap()));
    (Ratio { p, q }, quantity)
}

fn bytes((ratio, quantity): (&Ratio, &u32)) -> Vec<u8> {
    [ratio.p, ratio.q, *quantity].map(u32::to_le_bytes).concat()
}

fn is_sound(&(ratio, quantity): &(Ratio, u32)) -> bool {
    ratio.q > 0 && quantity > 0 && ratio == Ratio::new(ratio.p, ratio.q)
}

/// What a table holds, or the first of the refusals 2 and 16 that applies.
fn held_by(table: &Table) -> Result<Stock, Refusal> {
    let rows = table.memory.chunks_exact(ROW);
    refuse_if(!rows.remainder().is_empty() || !(1..=ROWS_MOST).contains(&rows.len()), 2)?;
    refuse_if(rows.len() < table.used, 16)?;
    let used: Vec<_> = rows.take(table.used).map(row).collect();
    refuse_if(!used.iter().all(is_sound), 16)?;
    refuse_if(!used.windows(2).all(|pair| pair[0].0 < pair[1].0), 16)?;
    Ok(used.into_iter().collect())
}

/// The table's stock and the ratio asked for, or the first of the refusals 2, 16 and 1, with which every call begins.
fn asked(table: &Table, p: u32, q: u32) -> Result<(Stock, Ratio), Refusal> {
    let stock = held_by(table)?;
    refuse_if(q == 0, 1)?;
    Ok((stock, Ratio::new(p, q)))
}

fn index(stock: &Stock, ratio: Ratio) -> usize {
    stock.range(..ratio).count()
}

/// The table with other used rows. Where they are fewer there are zeros behind them; unused memory stays as it was.
pub fn refilled(table: &Table, stock: &Stock) -> Table {
    let mut memory: Vec<u8> = stock.iter().flat_map(bytes).collect();
    memory.resize(memory.len().max(ROW * table.used), 0);
    memory.extend_from_slice(&table.memory[memory.len()..]);
    Table { memory, used: stock.len() }
}

pub fn put(table: &Table, p: u32, q: u32, quantity: u32) -> Result<Stocked, Refusal> {
    let (mut stock, ratio) = asked(table, p, q)?;
    refuse_if(quantity == 0, 15)?;
    let held = stock.get(&ratio).copied();
    let sum = held.unwrap_or(0).checked_add(quantity).ok_or(13u32)?;
    refuse_if(held.is_none() && ROW * stock.len() == table.memory.len(), 11)?;
    stock.insert(ratio, sum);
    Ok(Stocked { row: index(&stock, ratio), quantity: sum, table: refilled(table, &stock) })
}

pub fn take(table: &Table, p: u32, q: u32, quantity: u32) -> Result<Stocked, Refusal> {
    let (mut stock, ratio) = asked(table, p, q)?;
    refuse_if(quantity == 0, 15)?;
    let held = *stock.get(&ratio).ok_or(12u32)?;
    let left = held.checked_sub(quantity).ok_or(14u32)?;
    match left {
        0 => stock.remove(&ratio),
        _ => stock.insert(ratio, left),
    };
    Ok(Stocked { row: index(&stock, ratio), quantity: left, table: refilled(table, &stock) })
}

/// The index of a ratio's row, and its quantity.
pub fn find(table: &Table, p: u32, q: u32) -> Result<(usize, u32), Refusal> {
    let (stock, ratio) = asked(table, p, q)?;
    let quantity = *stock.get(&ratio).ok_or(12u32)?;
    Ok((index(&stock, ratio), quantity))
}

/// The first row at or above a ratio, where there is one: its index, ratio and quantity.
pub fn from(table: &Table, p: u32, q: u32) -> Result<Option<(usize, Ratio, u32)>, Refusal> {
    let (stock, ratio) = asked(table, p, q)?;
    let first = stock.range(ratio..).next();
    Ok(first.map(|(&at, &quantity)| (index(&stock, at), at, quantity)))
}

#[cfg(test)]
mod tests;
