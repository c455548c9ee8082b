//! Stuck sets of rows (section 26 of the rules): which sets are stuck, all ways of choosing and
//! what they leave, tables with rows cut away, and how many slots a row is short in a set. A set
//! is looked at by the table of its rows alone, slot by slot.
//!
//! Sets of rows are words (rule 4.8). What lists all words or all ways is for small tables.

use crate::choices::{every_row, lowest_rows, slack_alone, table_alone, words};
use crate::plan::{rows_in_word, trial_sequence, word_of};
use crate::table::Table;

/// A set of rows is stuck if none of them may stand lowest in it; so the set of no rows is
/// (rule 26.2). The table is accepted and the word names rows of it.
pub fn is_stuck(table: &Table, word: u64) -> bool {
    lowest_rows(table, word).is_empty()
}

/// The words of all stuck sets of an accepted table, in rising sequence, 0 first (rule 26.2).
pub fn stuck_sets(table: &Table) -> Vec<u64> {
    words(table).filter(|&word| is_stuck(table, word)).collect()
}

/// A way of choosing that has ended (rule 26.3).
#[derive(Clone, Debug, PartialEq, Eq, Hash)]
pub struct Way {
    /// The rows that were chosen, the lowest place first.
    pub taken: Vec<u8>,
    /// The word of the rows that it leaves.
    pub left: u64,
}

/// Every way of choosing of an accepted table (rule 26.3).
pub fn ways(table: &Table) -> Vec<Way> {
    ways_by(every_row(table), &|word| lowest_rows(table, word))
}

/// Every way of going on from a word, of whose rows the function says which may be chosen.
pub fn ways_by(word: u64, may_be_chosen: &dyn Fn(u64) -> Vec<u8>) -> Vec<Way> {
    let rows = may_be_chosen(word);
    if rows.is_empty() {
        let taken = Vec::new();
        return vec![Way { taken, left: word }];
    }
    let beginning_with = |row: u8| {
        let mut ways = ways_by(word & !word_of(&[row]), may_be_chosen);
        ways.iter_mut().for_each(|way| way.taken.insert(0, row));
        ways
    };
    rows.into_iter().flat_map(beginning_with).collect()
}

/// The planner's choice as a way of choosing: at each place the first row of the trial sequence
/// that may stand lowest (rule 26.3).
pub fn planners_way(table: &Table) -> Way {
    way_of_first(table, &|word| lowest_rows(table, word))
}

/// The way that takes at each place the first row of the trial sequence of which the function
/// says that it may be chosen.
pub fn way_of_first(table: &Table, may_be_chosen: &dyn Fn(u64) -> Vec<u8>) -> Way {
    let (mut taken, mut left) = (Vec::new(), every_row(table));
    while let Some(&first) = trial_sequence(table, &may_be_chosen(left)).first() {
        taken.push(first);
        left &= !word_of(&[first]);
    }
    Way { taken, left }
}

/// The slack of a row in a set that it stands in: in the table of the set alone, with all the
/// others above it and with no row waiting, in slots (rule 26.9).
pub fn slack_in_set(table: &Table, word: u64, row: u8) -> i64 {
    slack_alone(&table.without_waits(), word, row)
}

/// A table after some cuts (rule 26.7).
#[derive(Clone, Copy, Debug, PartialEq, Eq)]
pub struct InHand {
    pub table: Table,
    /// The rows that remain, as a word in the numbers of the first table.
    pub remain: u64,
}

/// The table in hand after these cuts of an accepted table, one after the other. Each is the
/// word of the rows that it leaves, in the numbers of the table then in hand (rule 26.7).
pub fn cut(table: &Table, cuts: &[u64]) -> InHand {
    let first = InHand {
        table: *table,
        remain: every_row(table),
    };
    cuts.iter().fold(first, |hand, &word| InHand {
        table: table_alone(&hand.table, word),
        remain: first_numbers(hand.remain, word),
    })
}

/// A word in the numbers of the table of the rows that remain, as a word in the numbers that
/// these rows had first (rule 26.7).
pub fn first_numbers(remain: u64, word: u64) -> u64 {
    let rows = rows_in_word(remain);
    let first = |row: u8| rows[row as usize - 1];
    let numbers: Vec<u8> = rows_in_word(word).into_iter().map(first).collect();
    word_of(&numbers)
}
