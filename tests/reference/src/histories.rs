//! Histories of a stock table: calls over few ratios, so that rows come, grow, go and come again.

use crate::calls::Refusal;
use crate::cases::{hex, told};
use crate::random::Random;
use crate::ratios;
use crate::stock::{self, Ratio, Stocked, Table, ROWS_MOST};
use crate::tables;

/// How many calls a table has.
pub const CALLS: usize = 4;

pub struct History {
    table: Table,
    ratios: Vec<Ratio>,
    calls_left: usize,
}

impl History {
    /// Mostly of a small table without rows. At times of a larger one that is full or nearly so, and then some of its
    /// rows come and go too; those of the most rows are few and short, since their lines are long.
    pub fn new(random: &mut Random) -> Self {
        let (rows, calls_most) = match random.below(400) {
            0 => (random.between(ROWS_MOST - 1, ROWS_MOST), 10),
            1..=20 => (random.between(9, 100), 60),
            _ => (random.between(1, 8), 60),
        };
        let used = if rows > 8 { rows - random.below(3) } else { 0 };
        let (table, stock) = tables::filled(random, rows, used);
        let mut ratios = few_ratios(random);
        ratios.extend(stock.keys().next());
        ratios.extend(stock.keys().rev().step_by(random.between(1, rows)).take(4));
        History { table, ratios, calls_left: random.between(1, calls_most) }
    }

    /// The next call, or where there is none left the first of another history. One time in ten it is made on a damaged
    /// copy of the table, from which the history doesn't go on.
    pub fn case(&mut self, random: &mut Random) -> String {
        if self.calls_left == 0 {
            *self = History::new(random);
        }
        self.calls_left -= 1;
        let ratio = random.pick(&self.ratios);
        let (p, q) = handed_in(random, ratio);
        if random.once_in(10) {
            let damaged = tables::damaged(random, self.table.clone());
            return called(random, &damaged, p, q).0;
        }
        let (case, after) = called(random, &self.table, p, q);
        self.table = after;
        case
    }
}

/// Ratios of any kind, and ones beside the first of them.
fn few_ratios(random: &mut Random) -> Vec<Ratio> {
    let first = tables::ratio(random);
    let mut list = vec![first];
    for _ in 0..random.below(10) {
        let (p, q) = ratios::beside(random, (first.p, first.q));
        list.push(if random.once_in(2) { Ratio::new(p, q.max(1)) } else { tables::ratio(random) });
    }
    list
}

/// The same ratio, often with a factor that its terms share, and at times with denominator 0.
fn handed_in(random: &mut Random, Ratio { p, q }: Ratio) -> (u32, u32) {
    let most = (u32::MAX / p.max(q)) as usize;
    let factor = match random.below(5) {
        0 => random.between(1, most) as u32,
        1 | 2 => random.between(1, most.min(5)) as u32,
        _ => 1,
    };
    (p * factor, if random.once_in(30) { 0 } else { q * factor })
}

/// A quantity for a row that holds some: at both sides of what may be put in, and of what may be taken out.
fn quantity(random: &mut Random, held: u32) -> u32 {
    match random.below(16) {
        0 => 0,
        1 => u32::MAX,
        2 => u32::MAX - held,
        3 => (u32::MAX - held).wrapping_add(1),
        4..=7 => held.max(1),
        8 => held.wrapping_add(1),
        9 => random.sized(),
        _ => random.between(1, 3) as u32,
    }
}

/// A call with its answer, and the table after it.
fn called(random: &mut Random, table: &Table, p: u32, q: u32) -> (String, Table) {
    let held = stock::find(table, p, q).map_or(0, |(_, quantity)| quantity);
    let n = quantity(random, held);
    let input = format!("{} {} {p} {q}", hex(&table.memory), table.used);
    match random.below(12) {
        0..=3 => {
            let (answer, after) = told_stocked(stock::put(table, p, q, n), table);
            (format!("stock_put {input} {n} = {answer}"), after)
        }
        4..=7 => {
            let (answer, after) = told_stocked(stock::take(table, p, q, n), table);
            (format!("stock_take {input} {n} = {answer}"), after)
        }
        8 | 9 => (format!("stock_find {input} = {}", told_found(stock::find(table, p, q))), table.clone()),
        _ => (format!("stock_from {input} = {}", told_listed(stock::from(table, p, q))), table.clone()),
    }
}

/// A refused call leaves the table as it was.
fn told_stocked(answer: Result<Stocked, Refusal>, before: &Table) -> (String, Table) {
    let (refusal, used, row, quantity, after) = match answer {
        Ok(Stocked { row, quantity, table }) => (0, table.used, row, quantity, table),
        Err(number) => (number, 0, 0, 0, before.clone()),
    };
    (format!("{refusal} {used} {row} {quantity} {}", hex(&after.memory)), after)
}

fn told_found(answer: Result<(usize, u32), Refusal>) -> String {
    told(answer, "0 0", |(row, quantity)| format!("{row} {quantity}"))
}

fn told_listed(answer: Result<Option<(usize, Ratio, u32)>, Refusal>) -> String {
    let nothing = "0 0 0 0 0";
    told(answer, nothing, |first| match first {
        Some((row, ratio, quantity)) => format!("1 {row} {} {} {quantity}", ratio.p, ratio.q),
        None => nothing.to_string(),
    })
}
