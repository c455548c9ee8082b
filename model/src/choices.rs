//! How much choice there is (section 25 of the rules): how many orders of a table are correct,
//! and how many of every set of its rows alone. They are counted twice. By listing, every
//! arrangement is worked slot by slot; by the lowest row, each word is counted from words below
//! it (rule 25.7). `plain::count_choices` is the second way with sweeps for the slacks.
//!
//! Sets of rows are words: the bit of row i has the value 2 to the power i - 1 (rule 4.8).

use crate::order::{check_order, every_arrangement, Order};
use crate::plan::{is_skipped, rows_in_word, slack, trial_order, word_of};
use crate::table::{check_table, Row, Table, ROWS};

/// The most rows of a table whose choices are counted (rule 25.4).
pub const MOST_COUNTED: u32 = 12;

/// So many numbers of scratch have to be lent, whatever n is (rule 25.4).
pub const SCRATCH: usize = 4_096;

/// The most rows of a table whose choices `count_choices` lists. Those of seven rows and of all
/// words of them have 13,700 arrangements, those of eight 109,601.
pub const MOST_LISTED: u32 = 7;

/// What counting answers beside the scratch: a number, the count, and in how many of the
/// correct orders each row stands lowest, with the count of row i at index i - 1 (rule 25.5).
#[derive(Clone, Copy, Debug, PartialEq, Eq)]
pub struct Choices {
    pub number: u32,
    pub count: u32,
    pub lowest: [u32; ROWS],
}

impl Choices {
    /// The answer with any other number than 0 (rule 25.6).
    pub fn refused(number: u32) -> Choices {
        Choices {
            number,
            count: 0,
            lowest: [0; ROWS],
        }
    }
}

/// The table of the rows of a word alone: in their sequence and numbered anew, with a wait only
/// on a row of the word (rule 25.3). The word names rows of the table.
pub fn table_alone(table: &Table, word: u64) -> Table {
    let rows = rows_in_word(word);
    let alone = |&row: &u8| {
        let job = table.row(row);
        let follows = new_number(&rows, job.follows);
        Row { follows, ..job }
    };
    let jobs: Vec<Row> = rows.iter().map(alone).collect();
    Table::of(table.normal, table.degraded, table.loading, &jobs)
}

/// The number that a row gets among these rows, from 1 on; 0 if it is none of them.
fn new_number(rows: &[u8], row: u32) -> u32 {
    let at = rows.iter().position(|&held| u32::from(held) == row);
    at.map_or(0, |index| index as u32 + 1)
}

/// Sixty-four numbers pass check 6, waits among it, and no slack is below zero, which holds of
/// correct orders alone (rules 5.7, 5.11 and 7.2). The table is accepted.
pub fn is_correct_order(table: &Table, numbers: &Order) -> bool {
    let in_time = |row| slack(table, numbers, row) >= 0;
    check_order(table, numbers) == 0 && (1..=table.n as u8).all(in_time)
}

/// The correct orders of an accepted table, found among all arrangements of its rows (rules
/// 25.1 and 25.2).
pub fn correct_orders(table: &Table) -> Vec<Order> {
    let mut orders = every_arrangement(table.n);
    orders.retain(|numbers| is_correct_order(table, numbers));
    orders
}

/// The choices of an accepted table (rule 25.2).
pub fn choices(table: &Table) -> u32 {
    correct_orders(table).len() as u32
}

/// In how many correct orders of an accepted table each row stands lowest (rule 25.5).
pub fn lowest_counts(table: &Table) -> [u32; ROWS] {
    let mut counts = [0; ROWS];
    for order in correct_orders(table) {
        let lowest = order[table.n as usize - 1];
        counts[lowest as usize - 1] += 1;
    }
    counts
}

/// The choices of a word of rows of an accepted table: those of its rows alone, and 1 if it has
/// none (rule 25.3).
pub fn choices_of_word(table: &Table, word: u64) -> u32 {
    match word {
        0 => 1,
        _ => choices(&table_alone(table, word)),
    }
}

/// The words of the rows of a table that has at most 12, 0 first.
pub fn words(table: &Table) -> std::ops::Range<u64> {
    0..1 << table.n
}

/// The word of all rows of a table that has 1 to 64.
pub fn every_row(table: &Table) -> u64 {
    u64::MAX >> (64 - table.n)
}

/// The checks on a table, then 20, and then 10 for so many numbers lent: 0 or the first refusal
/// (rule 11.13).
pub fn check_counting(table: &Table, lent: usize) -> u32 {
    match check_table(table) {
        0 if table.n > MOST_COUNTED => 20,
        0 if lent < SCRATCH => 10,
        refusal => refusal,
    }
}

/// The call: the choices of a table, and in the scratch those of each word (rules 25.4 to 25.6).
/// They are listed where the rows are few, and else counted by the lowest row.
pub fn count_choices(table: &Table, scratch: &mut [u32]) -> Choices {
    if table.n <= MOST_LISTED {
        count_by_listing(table, scratch)
    } else {
        count_by_lowest(table, scratch)
    }
}

/// The call, with every arrangement listed, whatever n is.
pub fn count_by_listing(table: &Table, scratch: &mut [u32]) -> Choices {
    let number = check_counting(table, scratch.len());
    if number != 0 {
        return Choices::refused(number);
    }
    for word in words(table) {
        scratch[word as usize] = choices_of_word(table, word);
    }
    Choices {
        number,
        count: choices(table),
        lowest: lowest_counts(table),
    }
}

/// The slack of a row of a word in the table of the word alone, with all others above it by
/// rising number, in slots (rule 25.7).
pub fn slack_alone(table: &Table, word: u64, row: u8) -> i64 {
    let alone = table_alone(table, word);
    let renumbered: Vec<u8> = (1..=alone.n as u8).collect();
    let lowest = new_number(&rows_in_word(word), u32::from(row)) as u8;
    slack(&alone, &trial_order(&renumbered, &[], lowest), lowest)
}

/// Row i may stand lowest in a word that has it: no row of the word follows it, and with all
/// others above it its slack in the table of the word alone is not below zero (rule 25.7).
pub fn may_stand_lowest(table: &Table, word: u64, row: u8) -> bool {
    !is_skipped(table, &rows_in_word(word), row) && slack_alone(table, word, row) >= 0
}

/// The rows of a word that may stand lowest in it, by rising number (rule 25.7).
pub fn lowest_rows(table: &Table, word: u64) -> Vec<u8> {
    let mut rows = rows_in_word(word);
    rows.retain(|&row| may_stand_lowest(table, word, row));
    rows
}

/// The call, with each word counted from words below it (rule 25.7).
pub fn count_by_lowest(table: &Table, scratch: &mut [u32]) -> Choices {
    match check_counting(table, scratch.len()) {
        0 => sum_by_lowest(table, scratch, |word| word_of(&lowest_rows(table, word))),
        refusal => Choices::refused(refusal),
    }
}

/// The word of one row.
fn bit(row: u8) -> u64 {
    1 << (row - 1)
}

/// The words of a table that counting accepts in rising sequence, each as the sum over the rows
/// that may stand lowest in it, which the function gives as a word (rule 25.7).
pub fn sum_by_lowest(
    table: &Table,
    scratch: &mut [u32],
    lowest_of: impl Fn(u64) -> u64,
) -> Choices {
    let mut lowest = [0; ROWS];
    scratch[0] = 1;
    for word in 1..1 << table.n {
        let candidates = lowest_of(word);
        lowest = [0; ROWS];
        for row in 1..=table.n as u8 {
            if candidates & bit(row) != 0 {
                lowest[row as usize - 1] = scratch[(word & !bit(row)) as usize];
            }
        }
        scratch[word as usize] = lowest.iter().sum();
    }
    Choices {
        number: 0,
        count: scratch[every_row(table) as usize],
        lowest,
    }
}
