//! Orders by value, and the check on them (rules 5.6, 5.7, 5.11 and 10.6).

use crate::table::{check_table, Table, ROWS};

/// An order: row numbers from the highest place to the lowest, then zeros, in
/// sixty-four bytes (rule 5.6).
pub type Order = [u8; ROWS];

/// The order of zeros that comes with every refusal (rule 10.7).
pub const NO_ORDER: Order = [0; ROWS];

/// The order that holds these rows, highest place first, zeros after them.
pub fn order_of(rows: &[u8]) -> Order {
    let mut order = NO_ORDER;
    order[..rows.len()].copy_from_slice(rows);
    order
}

/// Check 6 for an accepted table: 0 if each of its rows is among the first n numbers
/// once, the others are 0 and all waits are kept, else 6 (rules 5.7 and 5.11).
pub fn check_order(table: &Table, order: &Order) -> u32 {
    if is_arrangement(table.n, order) && keeps_waits(table, order) {
        0
    } else {
        6
    }
}

/// Each of n rows (1 to 64) is among the first n numbers once, and the others are 0 (rule
/// 5.7).
pub fn is_arrangement(n: u32, order: &Order) -> bool {
    let (places, after) = order.split_at(n as usize);
    let times = |row: u32| {
        places
            .iter()
            .filter(|&&held| u32::from(held) == row)
            .count()
    };
    (1..=n).all(|row| times(row) == 1) && after.iter().all(|&held| held == 0)
}

/// In an arrangement of the table's rows each row that is followed stands above its
/// follower (rule 5.11).
pub fn keeps_waits(table: &Table, order: &Order) -> bool {
    let place = |row: u32| order.iter().position(|&held| u32::from(held) == row);
    (1..=table.n).all(|row| match table.follows[row as usize - 1] {
        0 => true,
        followed => place(followed) < place(row),
    })
}

/// The checks of a table and then of the order: 0 or the first refusal (rule
/// 11.4).
pub fn check_table_and_order(table: &Table, order: &Order) -> u32 {
    match check_table(table) {
        0 => check_order(table, order),
        refusal => refusal,
    }
}

/// Every arrangement of the given rows, each once.
pub fn arrangements(rows: &[u8]) -> Vec<Vec<u8>> {
    if rows.is_empty() {
        return vec![Vec::new()];
    }
    let mut all = Vec::new();
    for &first in rows {
        let rest: Vec<u8> = rows.iter().copied().filter(|&row| row != first).collect();
        for mut tail in arrangements(&rest) {
            tail.insert(0, first);
            all.push(tail);
        }
    }
    all
}

/// Every arrangement of n rows as sixty-four numbers, whatever it does to waits.
pub fn every_arrangement(n: u32) -> Vec<Order> {
    let rows: Vec<u8> = (1..=n as u8).collect();
    arrangements(&rows)
        .iter()
        .map(|rows| order_of(rows))
        .collect()
}

/// Every order of an accepted table: the arrangements of its rows that keep all waits.
pub fn orders(table: &Table) -> Vec<Order> {
    let mut orders = every_arrangement(table.n);
    orders.retain(|order| check_order(table, order) == 0);
    orders
}
