//! The report: every job of a table under an order, a line for each place and
//! a last line of totals (section 16 of the rules).

use crate::order::{check_table_and_order, Order};
use crate::plan::{slack, worst_finish};
use crate::sheet::{put_text, write_field, FIELD, LINE_END};
use crate::table::{need, Table, ROWS};

/// Bytes in a figure (rule 16.1).
pub const FIGURE: usize = 10;

/// Bytes in the line of a place: five figures and the line end (rules 16.2 and
/// 16.4).
pub const PLACE_LINE: usize = 51;

/// Bytes in the last line: two figures and the line end (rules 16.3 and 16.4).
pub const LAST_LINE: usize = 21;

/// Bytes in the longest report, which has 64 rows (rule 16.9).
pub const LONGEST_REPORT: usize = ROWS * PLACE_LINE + LAST_LINE;

/// A number as a figure: the digits at the right end are those that a field
/// has, and the byte before the first of them is a minus if the number is below
/// 0 (rule 16.1). A number of more than eight digits, which no report has (rule
/// 16.11), is a panic.
pub fn figure(value: i64) -> [u8; FIGURE] {
    let size = u32::try_from(value.unsigned_abs()).expect("a figure has at most eight digits");
    let mut figure = [b' '; FIGURE];
    figure[FIGURE - FIELD..].copy_from_slice(&write_field(size));
    if value < 0 {
        let spaces = figure.iter().take_while(|&&byte| byte == b' ').count();
        figure[spaces - 1] = b'-';
    }
    figure
}

/// One line: these numbers as figures, and the line end (rule 16.4).
fn line(numbers: &[i64]) -> Vec<u8> {
    let mut line: Vec<u8> = numbers.iter().flat_map(|&number| figure(number)).collect();
    line.push(LINE_END);
    line
}

/// The need of a row at N, in slots (rule 1.8), whatever its level.
fn need_at_normal(table: &Table, row: u8) -> i64 {
    i64::from(need(table, row, table.normal))
}

/// The line of a place, counted from 1 (rule 16.2).
fn place_line(table: &Table, order: &Order, place: u8) -> Vec<u8> {
    let row = order[place as usize - 1];
    line(&[
        i64::from(place),
        i64::from(row),
        need_at_normal(table, row),
        i64::from(worst_finish(table, order, row)),
        slack(table, order, row),
    ])
}

/// The last line: both totals go through the rows of the table, row 1 first,
/// and never look at a line (rule 16.3).
fn last_line(table: &Table, order: &Order) -> Vec<u8> {
    let rows = 1..=table.n as u8;
    let needs: i64 = rows.clone().map(|row| need_at_normal(table, row)).sum();
    let late = rows.filter(|&row| slack(table, order, row) < 0).count();
    line(&[needs, late as i64])
}

/// The lines of the places from the highest to the lowest, then the last line.
/// The table is accepted and the order is one of its orders.
pub fn report_of(table: &Table, order: &Order) -> Vec<u8> {
    let places = 1..=table.n as u8;
    let mut report: Vec<u8> = places
        .flat_map(|place| place_line(table, order, place))
        .collect();
    report.extend(last_line(table, order));
    report
}

/// The report: the number, and the length in bytes of the lines, which then
/// stand at the start of the lent bytes (rule 16.5). Table and order are
/// checked before the room (rules 16.7 and 11.7). Bytes after the lines stay as
/// they were, and with a refusal all do (rules 16.6 and 16.8).
pub fn report(table: &Table, order: &Order, lent: &mut [u8]) -> (u32, u32) {
    match check_table_and_order(table, order) {
        0 => put_text(&report_of(table, order), lent),
        refusal => (refusal, 0),
    }
}
