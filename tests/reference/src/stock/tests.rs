//! Tables computed by hand, and both sides of each limit.

use super::*;

const MOST: u32 = u32::MAX;

/// A table of exactly these rows, the first of which are used.
fn table(rows: &[[u32; 3]], used: usize) -> Table {
    Table { memory: rows.iter().flatten().flat_map(|number| number.to_le_bytes()).collect(), used }
}

fn stocked(row: usize, quantity: u32, rows: &[[u32; 3]], used: usize) -> Result<Stocked, Refusal> {
    Ok(Stocked { row, quantity, table: table(rows, used) })
}

#[test]
fn rows_are_twelve_bytes_lowest_first() {
    let memory = table(&[[1, 0x04030201, 258]], 1).memory;
    assert_eq!(memory, [1, 0, 0, 0, 1, 2, 3, 4, 2, 1, 0, 0]);
    assert_eq!(bytes((&Ratio { p: 1, q: 0x04030201 }, &258)), memory);
}

#[test]
fn rows_come_grow_and_go() {
    let old = [77, 0, 0];
    let none = table(&[old; 3], 0);
    let one = [[1, 2, 3], old, old];
    let two = [[1, 3, 5], [1, 2, 3], old];
    let grown = [[1, 3, 5], [1, 2, 4], old];
    let three = [[0, 1, 7], [1, 3, 5], [1, 2, 4]];
    let fewer = [[0, 1, 7], [1, 3, 4], [1, 2, 4]];
    let gone = [[0, 1, 7], [1, 2, 4], [0, 0, 0]];
    let again = [[0, 1, 7], [1, 2, 4], [9, 2, 1]];
    assert_eq!(put(&none, 1, 2, 3), stocked(0, 3, &one, 1));
    assert_eq!(put(&table(&one, 1), 1, 3, 5), stocked(0, 5, &two, 2));
    assert_eq!(put(&table(&two, 2), 2, 4, 1), stocked(1, 4, &grown, 2));
    assert_eq!(put(&table(&grown, 2), 0, 5, 7), stocked(0, 7, &three, 3));
    assert_eq!(take(&table(&three, 3), 2, 6, 1), stocked(1, 4, &fewer, 3));
    assert_eq!(take(&table(&fewer, 3), 1, 3, 4), stocked(1, 0, &gone, 2));
    assert_eq!(put(&table(&gone, 2), 18, 4, 1), stocked(2, 1, &again, 3));
    assert_eq!(take(&table(&[[1, 2, 3], old], 1), 1, 2, 3), stocked(0, 0, &[[0, 0, 0], old], 0));
}

#[test]
fn finding_and_listing_give_the_row() {
    let rows = table(&[[0, 1, 7], [1, 3, 5], [1, 2, 4], [1, 1, 9]], 3);
    assert_eq!([(0, 9), (2, 6), (3, 6)].map(|(p, q)| find(&rows, p, q)), [Ok((0, 7)), Ok((1, 5)), Ok((2, 4))]);
    assert_eq!([(1, 1), (2, 5), (1, 0)].map(|(p, q)| find(&rows, p, q)), [Err(12), Err(12), Err(1)]);
    let third = Ok(Some((2, Ratio { p: 1, q: 2 }, 4)));
    assert_eq!([(2, 5), (2, 4)].map(|(p, q)| from(&rows, p, q)), [third, third]);
    assert_eq!(from(&rows, 0, 1), Ok(Some((0, Ratio { p: 0, q: 1 }, 7))));
    assert_eq!([(3, 5), (MOST, 1)].map(|(p, q)| from(&rows, p, q)), [Ok(None), Ok(None)]);
    assert_eq!(from(&table(&[[1, 1, 1]], 0), 0, 1), Ok(None));
}

#[test]
fn ratios_at_the_limit_stand_by_cross_products() {
    let rows = [[MOST - 2, MOST - 1, 1], [MOST - 1, MOST, 2], [MOST, MOST - 1, 3], [MOST, 1, 4]];
    let full = table(&rows, 4);
    for (row, [p, q, quantity]) in rows.into_iter().enumerate() {
        assert_eq!(find(&full, p, q), Ok((row, quantity)));
    }
    assert_eq!(from(&full, 1, 1), Ok(Some((2, Ratio { p: MOST, q: MOST - 1 }, 3))));
}

#[test]
fn quantities_have_their_limits() {
    let row = |quantity| [[1, 2, quantity]];
    let full = table(&row(5), 1);
    assert_eq!(put(&full, 1, 2, MOST - 5), stocked(0, MOST, &row(MOST), 1));
    assert_eq!([MOST - 4, MOST].map(|n| put(&full, 1, 2, n)), [Err(13), Err(13)]);
    assert_eq!(put(&full, 1, 3, MOST), Err(11));
    assert_eq!(put(&table(&row(5), 0), 1, 3, MOST), stocked(0, MOST, &[[1, 3, MOST]], 1));
    assert_eq!([6, MOST].map(|n| take(&full, 1, 2, n)), [Err(14), Err(14)]);
    assert_eq!(take(&full, 1, 2, 4), stocked(0, 1, &row(1), 1));
    assert_eq!(take(&full, 1, 3, 1), Err(12));
}

#[test]
fn refusals_come_in_their_order() {
    let unsound = table(&[[2, 4, 1]], 1);
    let mut long = unsound.clone();
    long.memory.push(0);
    let full = table(&[[1, 2, 1]], 1);
    for (rows, q, number) in [(&long, 0, 2), (&unsound, 0, 16), (&full, 0, 1), (&full, 1, 15)] {
        assert_eq!((put(rows, 1, q, 0), take(rows, 1, q, 0)), (Err(number), Err(number)));
    }
    assert_eq!([&long, &unsound, &full].map(|rows| find(rows, 1, 0)), [Err(2), Err(16), Err(1)]);
    assert_eq!([&long, &unsound, &full].map(|rows| from(rows, 1, 0)), [Err(2), Err(16), Err(1)]);
}

#[test]
fn memory_is_1_to_2048_whole_rows() {
    let listed = |length| from(&Table { memory: vec![7; length], used: 0 }, 1, 1);
    assert_eq!([0, 11, 13, 24575, 24577, 24588].map(listed), [Err(2); 6]);
    assert_eq!([12, 24, 24564, 24576].map(listed), [Ok(None); 4]);
}

#[test]
fn used_rows_are_sound() {
    let listed = |rows: &[[u32; 3]], used| from(&table(rows, used), MOST, 1);
    let rows = [[0, 1, 1], [2, 4, 1]];
    assert_eq!([0, 1].map(|used| listed(&rows, used)), [Ok(None); 2]);
    assert_eq!([2, 3, 1 << 62, usize::MAX].map(|used| listed(&rows, used)), [Err(16); 4]);
    for row in [[0, 2, 1], [3, 6, 1], [1, 0, 1], [0, 0, 1], [1, 2, 0], [0, 0, 0]] {
        assert_eq!(listed(&[row], 1), Err(16), "{row:?}");
    }
    assert_eq!(listed(&[[1, 2, 1], [1, 3, 1]], 2), Err(16));
    assert_eq!(listed(&[[1, 2, 1], [1, 2, 1]], 2), Err(16));
}

#[test]
fn the_most_rows_move_up_and_down() {
    let mut rows: Vec<[u32; 3]> = (0..2048).map(|i| [i, 1, 1]).collect();
    assert_eq!(put(&table(&rows, 2048), 5000, 1, 1), Err(11));
    let lowest_gone = take(&table(&rows, 2048), 0, 1, 1);
    rows.rotate_left(1);
    rows[2047] = [0, 0, 0];
    assert_eq!(lowest_gone, stocked(0, 0, &rows, 2047));
    let back = put(&table(&rows, 2047), 0, 3, 2);
    rows.rotate_right(1);
    rows[0] = [0, 1, 2];
    assert_eq!(back, stocked(0, 2, &rows, 2048));
}
