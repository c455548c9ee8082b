//! The judge of orders (section 7 of the rules).

use crate::order::{check_table_and_order, Order};
use crate::plan::slack;
use crate::table::{Row, Table, ROWS};

/// The judge's answer: the verdict and the tightest row with its slack (rules
/// 7.2 and 7.3). A refusal is all zero: no, row 0, slack 0 (rule 7.4).
#[derive(Clone, Copy, Debug, PartialEq, Eq)]
pub struct Verdict {
    pub number: u32,
    pub yes: bool,
    pub row: u8,
    /// The least slack, in slots.
    pub slack: i64,
}

/// The judge over a list of rows, whose length is n (rule 7.1). Speeds are in
/// work units per slot, the loading time in slots.
pub fn judge(normal: u32, degraded: u32, loading: u32, rows: &[Row], order: &Order) -> Verdict {
    if rows.len() > ROWS {
        return refused(3);
    }
    judge_table(&Table::of(normal, degraded, loading, rows), order)
}

/// The judge on a table: the checks of table and order (rule 11.4), then yes if
/// no slack is below zero, which holds of correct orders alone (rule 7.2).
pub fn judge_table(table: &Table, order: &Order) -> Verdict {
    let refusal = check_table_and_order(table, order);
    if refusal != 0 {
        return refused(refusal);
    }
    let mut least_row = 1;
    let mut least = slack(table, order, 1);
    for row in 2..=table.n as u8 {
        let of_row = slack(table, order, row);
        if of_row < least {
            least_row = row;
            least = of_row;
        }
    }
    Verdict {
        number: 0,
        yes: least >= 0,
        row: least_row,
        slack: least,
    }
}

fn refused(number: u32) -> Verdict {
    Verdict {
        number,
        yes: false,
        row: 0,
        slack: 0,
    }
}
