//! Tables whose choices are counted (section 25 of the rules); those of rule 13.19 are among
//! them. Not all values are worked out apart from the model: the counts and entries of P1, P2,
//! `four_alike` and `mixed` are the model's own, by listing and by the lowest row. The entries of
//! twelve rows come from the two formulas here, and the rest is worked out by hand. Works are in
//! work units, clocks in slots. Every scratch is lent full of sevens.

use super::waits::{chain, urgent};
use super::{at_loading, p1, p2, p3, row, table};
use crate::choices::{Choices, SCRATCH};
use crate::table::{Table, ROWS};

/// What each number of the scratch is before the call.
pub const LENT: u32 = 7;

/// 12! and 11!: all arrangements of twelve rows, and those in which one of them stands lowest.
pub const ALL_OF_12: u32 = 479_001_600;
pub const ALL_OF_11: u32 = 39_916_800;

/// A table, how many numbers are lent for it, and what is answered.
pub struct ChoicesCase {
    pub what: &'static str,
    pub table: Table,
    pub lent: usize,
    pub answer: Choices,
    /// The first 2 to the n entries of the scratch afterwards, from that of word 0 on, or none
    /// with a refusal. All later ones are as they were.
    pub entries: Vec<u32>,
}

/// The answer with this count and these counts of rows as lowest, row 1 first.
pub fn counted(count: u32, lowest: &[u32]) -> Choices {
    let mut all = [0; ROWS];
    all[..lowest.len()].copy_from_slice(lowest);
    Choices {
        number: 0,
        count,
        lowest: all,
    }
}

/// Four LO rows of one slot each, with time for all. The last two follow these rows, 0 for none.
pub fn four_alike(third: u32, fourth: u32) -> Table {
    let row = |follows| [0, 1, 9, 0, 0, follows];
    table(1, 1, &[row(0), row(0), row(third), row(fourth)])
}

/// Three LO rows with time for all, each with a deadline of its own.
pub fn roomy() -> Table {
    table(1, 1, &[[0, 1, 3, 0], [0, 1, 4, 0], [0, 1, 5, 0]])
}

/// Row 1 is HI and row 2 LO. At N row 2 is in time below row 1; if it promises this part, in
/// work units, it has to be above.
pub fn promising(part: u32) -> Table {
    table(4, 1, &[[0, 4, 9, 1, 0], [0, 8, 4, 0, part]])
}

/// Rows of one slot that are all in time wherever they stand.
pub fn wherever(rows: u32) -> Table {
    table(1, 1, &vec![[0, 1, rows, 0]; rows as usize])
}

/// Rows of one slot of which row i has to stand at place i.
pub fn rising(rows: u32) -> Table {
    let figures: Vec<[u32; 4]> = (1..=rows).map(|deadline| [0, 1, deadline, 0]).collect();
    table(1, 1, &figures)
}

/// The entries of so many rows that are in time wherever they stand: k! for a word of k rows
/// (rule 25.9).
pub fn wherever_entries(rows: u32) -> Vec<u32> {
    let arrangements = |word: u32| (1..=word.count_ones()).product();
    (0..1 << rows).map(arrangements).collect()
}

/// The entries of so many rows of which row i has to be done by i. The rows of a word get their
/// places from the first row on: row i has the first i places of the word, or all of them if
/// they are fewer, less those that the rows before it have got.
pub fn rising_entries(rows: u32) -> Vec<u32> {
    let orders = |word: u32| {
        let rows = (1..=rows).filter(|row| word >> (row - 1) & 1 == 1);
        let places = |(before, row): (u32, u32)| row.min(word.count_ones()) - before;
        (0..).zip(rows).map(places).product()
    };
    (0..1 << rows).map(orders).collect()
}

/// A HI row, a HI row and a LO row that follow it, and a LO row that is released later.
fn mixed() -> Table {
    let rows = [
        row([0, 2, 9, 1]),
        row([0, 2, 9, 1, 0, 1]),
        row([1, 4, 8, 0, 1, 1]),
        row([2, 2, 9, 0]),
    ];
    Table::of(2, 1, 0, &rows)
}

/// A table that is counted with 4,100 numbers lent, in one line.
fn told(
    what: &'static str,
    table: Table,
    count: u32,
    lowest: &[u32],
    entries: &[u32],
) -> ChoicesCase {
    ChoicesCase {
        what,
        table,
        lent: 4_100,
        answer: counted(count, lowest),
        entries: entries.to_vec(),
    }
}

/// A call that is refused with this number, with so many numbers lent.
fn refused(what: &'static str, table: Table, lent: usize, number: u32) -> ChoicesCase {
    ChoicesCase {
        what,
        table,
        lent,
        answer: Choices::refused(number),
        entries: Vec::new(),
    }
}

/// The cases of rule 13.19, and then some of our own.
pub fn choices() -> Vec<ChoicesCase> {
    let mut cases = starred();
    cases.extend(waiting());
    cases.extend(lowest());
    cases.extend(twelve());
    cases.extend(refusals());
    cases.extend(more());
    cases
}

/// P1, P2 and P3.
fn starred() -> Vec<ChoicesCase> {
    vec![
        told(
            "P1",
            p1(),
            1,
            &[0, 0, 0, 1],
            &[1, 1, 1, 1, 1, 1, 1, 1, 1, 1, 2, 2, 2, 2, 3, 1],
        ),
        told(
            "P2",
            p2(),
            2,
            &[0, 0, 0, 2],
            &[1, 1, 1, 2, 1, 2, 1, 2, 1, 2, 2, 4, 1, 3, 2, 2],
        ),
        told("P3", p3(), 0, &[], &[1, 1, 1, 0]),
    ]
}

/// Rows that follow rows, in the word and outside it.
fn waiting() -> Vec<ChoicesCase> {
    vec![
        told(
            "three rows without a wait",
            chain(0, 0),
            6,
            &[2, 2, 2],
            &[1, 1, 1, 2, 1, 2, 2, 6],
        ),
        told(
            "row 2 follows row 1",
            chain(1, 0),
            3,
            &[0, 2, 1],
            &[1, 1, 1, 1, 1, 2, 2, 3],
        ),
        told(
            "a chain of three",
            chain(1, 2),
            1,
            &[0, 0, 1],
            &[1, 1, 1, 1, 1, 2, 1, 1],
        ),
        told(
            "two rows follow one",
            chain(1, 1),
            2,
            &[0, 1, 1],
            &[1, 1, 1, 1, 1, 1, 2, 2],
        ),
        told(
            "only the order that breaks the wait is in time",
            urgent(2, 1),
            0,
            &[],
            &[1, 1, 1, 0],
        ),
        told(
            "without the wait it is counted",
            urgent(2, 0),
            1,
            &[1],
            &[1, 1, 1, 1],
        ),
        told(
            "the row followed has another number in the word",
            four_alike(0, 2),
            12,
            &[3, 0, 3, 6],
            &[1, 1, 1, 2, 1, 2, 2, 6, 1, 2, 1, 3, 2, 6, 3, 12],
        ),
    ]
}

/// Rows that may stand lowest though another has a later deadline, promised parts, loading.
fn lowest() -> Vec<ChoicesCase> {
    vec![
        told(
            "each row may stand lowest, not just the latest",
            roomy(),
            6,
            &[2, 2, 2],
            &[1, 1, 1, 2, 1, 2, 2, 6],
        ),
        told(
            "nothing is promised",
            promising(0),
            2,
            &[1, 1],
            &[1, 1, 1, 2],
        ),
        told(
            "a promised part is late below",
            promising(1),
            1,
            &[1, 0],
            &[1, 1, 1, 1],
        ),
        told("K 0", at_loading(0), 2, &[1, 1], &[1, 1, 1, 2]),
        told("K 1", at_loading(1), 1, &[0, 1], &[1, 1, 1, 1]),
        told("K 2", at_loading(2), 0, &[], &[1, 1, 1, 0]),
    ]
}

/// The two tables of twelve rows.
fn twelve() -> Vec<ChoicesCase> {
    let one = [0, 0, 0, 0, 0, 0, 0, 0, 0, 0, 0, 1];
    vec![
        told(
            "twelve rows, all orders",
            wherever(12),
            ALL_OF_12,
            &[ALL_OF_11; 12],
            &wherever_entries(12),
        ),
        told(
            "twelve rows, one order",
            rising(12),
            1,
            &one,
            &rising_entries(12),
        ),
    ]
}

/// Thirteen rows of which the last is released at its deadline.
pub fn thirteen_refused() -> Table {
    let mut table = wherever(13);
    table.release[12] = 13;
    table
}

/// Refusals by 20, by 10, and by the checks on the table before both.
fn refusals() -> Vec<ChoicesCase> {
    let too_many = Table {
        n: 65,
        ..wherever(64)
    };
    vec![
        refused("13 rows, nothing lent", wherever(13), 0, 20),
        refused("13 rows, 4,096 lent", wherever(13), SCRATCH, 20),
        refused("12 rows, 4,095 lent", wherever(12), SCRATCH - 1, 10),
        refused("P3, 4,095 lent", p3(), SCRATCH - 1, 10),
        refused("13 rows of which one is refused", thirteen_refused(), 0, 5),
        refused("the same, 4,096 lent", thirteen_refused(), SCRATCH, 5),
        refused("65 rows", too_many, SCRATCH, 3),
    ]
}

/// More rows that follow rows, single rows, scratch of other lengths, and every number of the
/// checks on tables.
fn more() -> Vec<ChoicesCase> {
    let alone = |work| table(1, 1, &[[0, work, 1, 0]]);
    let waiting = |second| table(1, 1, &[[1, 1, 9, 0, 0, 0], second]);
    let lent = |lent, case| ChoicesCase { lent, ..case };
    vec![
        told(
            "both levels, waits and a part",
            mixed(),
            8,
            &[0, 3, 3, 2],
            &[1, 1, 1, 1, 1, 1, 2, 2, 1, 2, 2, 3, 2, 3, 6, 8],
        ),
        told("a row alone", alone(1), 1, &[1], &[1, 1]),
        told("a row alone, late", alone(2), 0, &[], &[1, 0]),
        lent(
            SCRATCH,
            told("P3, just enough lent", p3(), 0, &[], &[1, 1, 1, 0]),
        ),
        lent(10_000, told("P3, more lent", p3(), 0, &[], &[1, 1, 1, 0])),
        refused("P3, nothing lent", p3(), 0, 10),
        refused("P3, as many as it has words", p3(), 4, 10),
        refused("64 rows", wherever(64), SCRATCH, 20),
        refused("no rows", Table { n: 0, ..p3() }, SCRATCH, 3),
        refused("no rows, nothing lent", Table { n: 0, ..p3() }, 0, 3),
        refused("G above N", table(2, 3, &[[0, 1, 9, 0]]), SCRATCH, 4),
        refused("K of 17", p1().with_loading(17), SCRATCH, 11),
        refused(
            "more promised than work",
            table(1, 1, &[[0, 1, 9, 0, 2]]),
            SCRATCH,
            12,
        ),
        refused(
            "it follows itself",
            waiting([1, 1, 9, 0, 0, 2]),
            SCRATCH,
            13,
        ),
        refused(
            "it follows a row of a later release",
            waiting([0, 1, 9, 0, 0, 1]),
            0,
            14,
        ),
        refused("HI follows LO", waiting([1, 1, 9, 1, 0, 1]), SCRATCH, 15),
    ]
}
