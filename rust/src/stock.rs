//! A stock table in lent memory.
use crate::{raw, told, Refusal};
use core::mem::size_of_val;

/// A row of a stock table: a ratio in lowest terms, and how many there are of it. Rows lie in memory as in C.
#[allow(missing_docs)]
#[derive(Clone, Copy, Debug, Default, PartialEq, Eq)]
#[repr(C)]
pub struct Row {
    pub numerator: u32,
    pub denominator: u32,
    pub quantity: u32,
}

/// Where a ratio's row stands, or stood before it went, and the quantity that the ratio has now.
#[allow(missing_docs)]
#[derive(Clone, Copy, Debug, PartialEq, Eq)]
pub struct Held {
    pub row: usize,
    pub quantity: u32,
}

/// A stock table: the memory lent to it, and how many of its rows are used. The count changes only where a call
/// succeeds. Every call checks the memory, the count and the used rows first.
#[derive(Debug)]
pub struct Stock<'a> {
    table: &'a mut [Row],
    used: usize,
}

impl<'a> Stock<'a> {
    /// An empty table, whatever the memory holds. The calls ask for 1 to `ROWS_MOST` rows.
    pub fn new(table: &'a mut [Row]) -> Self {
        Self::with_used(table, 0)
    }

    /// A table that was kept: its first `used` rows are used.
    pub fn with_used(table: &'a mut [Row], used: usize) -> Self {
        Stock { table, used }
    }

    /// The used rows, lowest ratio first; none where more are said to be used than there are.
    pub fn rows(&self) -> &[Row] {
        self.table.get(..self.used).unwrap_or_default()
    }

    /// Puts a quantity of a ratio in.
    pub fn put(&mut self, numerator: u32, denominator: u32, quantity: u32) -> Result<Held, Refusal> {
        let (table, length) = (self.table.as_mut_ptr(), size_of_val(self.table));
        self.stocked(unsafe { raw::lcf_stock_put(table, length, self.used, numerator, denominator, quantity) })
    }

    /// Takes a quantity of a ratio out; a row that has none left goes.
    pub fn take(&mut self, numerator: u32, denominator: u32, quantity: u32) -> Result<Held, Refusal> {
        let (table, length) = (self.table.as_mut_ptr(), size_of_val(self.table));
        self.stocked(unsafe { raw::lcf_stock_take(table, length, self.used, numerator, denominator, quantity) })
    }

    /// The row of a ratio.
    pub fn find(&self, numerator: u32, denominator: u32) -> Result<Held, Refusal> {
        let (table, length) = (self.table.as_ptr(), size_of_val(self.table));
        let answer = unsafe { raw::lcf_stock_find(table, length, self.used, numerator, denominator) };
        told(answer.refusal, Held { row: answer.row, quantity: answer.quantity })
    }

    /// The rows from the first at or above a ratio on; none where every row is below it.
    pub fn list_from(&self, numerator: u32, denominator: u32) -> Result<&[Row], Refusal> {
        let (table, length) = (self.table.as_ptr(), size_of_val(self.table));
        let answer = unsafe { raw::lcf_stock_from(table, length, self.used, numerator, denominator) };
        let first = if answer.found { answer.row } else { self.used };
        told(answer.refusal, self.rows().get(first..).unwrap_or_default())
    }

    fn stocked(&mut self, answer: raw::Stocked) -> Result<Held, Refusal> {
        let held = told(answer.refusal, Held { row: answer.row, quantity: answer.quantity })?;
        self.used = answer.used;
        Ok(held)
    }
}
