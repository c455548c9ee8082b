//! Tables planned at a ceiling (section 23 of the rules), worked out by hand; those of rule
//! 13.17 are among them. Works are in work units, clocks in slots, ceilings in trials.

use super::waits::{broken_above, chain};
use super::{at_loading, either_place, no_order, ordered, p1, row, table};
use crate::plan::{Counted, Plan};
use crate::table::{Row, Table};

/// A table, a ceiling, and what the planner answers at it.
pub struct CeilingCase {
    pub what: &'static str,
    pub table: Table,
    pub ceiling: u32,
    pub answer: Counted,
}

/// The answer with this plan after so many trials.
pub fn counted(plan: Plan, trials: u32) -> Counted {
    Counted { plan, trials }
}

/// The answer over this ceiling (rule 23.5).
pub fn over(ceiling: u32) -> Counted {
    counted(Plan::refused(19, 0), ceiling)
}

/// The answer to a table that a check refuses with this number (rule 23.7).
pub fn unplanned(number: u32) -> Counted {
    counted(Plan::refused(number, 0), 0)
}

/// A table of rows that are all released at 0, where N and G are 1. Each row has its work, its
/// deadline, its level and the row that it follows.
fn from_zero(rows: &[[u32; 4]]) -> Table {
    let figures =
        |&[work, deadline, level, follows]: &[u32; 4]| row([0, work, deadline, level, 0, follows]);
    let rows: Vec<Row> = rows.iter().map(figures).collect();
    Table::of(1, 1, 0, &rows)
}

/// Row 1 comes first in the trial sequence, and row 2 follows it.
fn skipped_first() -> Table {
    from_zero(&[[1, 9, 0, 0], [1, 5, 0, 1]])
}

/// Row 3 is tried first and is late below row 1, row 2 is skipped, and row 1 takes the place.
fn skipped_between() -> Table {
    from_zero(&[[1, 5, 1, 0], [1, 1, 0, 0], [1, 2, 0, 2]])
}

/// Row 2 follows row 1 and is late below it.
fn stuck_by_a_skip() -> Table {
    from_zero(&[[2, 2, 1, 0], [2, 3, 1, 1]])
}

/// Three HI rows of which each has time for itself alone.
pub fn crowded() -> Table {
    from_zero(&[[2, 2, 1, 0]; 3])
}

/// A LO and a HI row of which each has time for itself alone.
fn late() -> Table {
    from_zero(&[[2, 2, 0, 0], [2, 2, 1, 0]])
}

/// Row 1 is in time below row 2, and its promised part is late there. Jobs load in one slot.
fn late_part() -> Table {
    let rows = [row([0, 2, 5, 0, 2]), row([0, 2, 9, 1])];
    Table::of(2, 1, 1, &rows)
}

/// The three HI rows with a LO row before them that has time for all, and so takes the lowest
/// place.
fn crowded_above_one() -> Table {
    let high = [2, 2, 1, 0];
    from_zero(&[[1, 9, 0, 0], high, high, high])
}

/// Row 1 is tried first and is late below row 2, which is in time below row 1.
fn most_of_two() -> Table {
    from_zero(&[[2, 2, 0, 0], [1, 3, 1, 0]])
}

/// A table of so many rows, from 1 to 64, that takes the most trials there can be (rule 23.3).
///
/// All rows are LO and have the same deadline, so that they are tried from row 1 on. Of the
/// rows left the last one passes, and no other: it is released a slot before the others and
/// gets the 1 work unit that it promises in that slot, but it takes a second slot. At G row 1
/// takes all the time that there is from its own release on, and with this second slot it is
/// late; so is the 1 work unit of any row below it. At N it takes 1 slot, and no row finishes
/// after its deadline.
pub fn most_tried(rows: u32) -> Table {
    let (speed, last) = (64, rows - 1);
    let deadline = last + speed;
    let first = row([last, speed, deadline, 0, speed]);
    let other = |release| row([release, 2 * speed, deadline, 0, 1]);
    let mut all = vec![first];
    all.extend((0..last).rev().map(other));
    Table::of(speed, 1, 0, &all)
}

/// So many rows of one slot, with this deadline.
fn alike(rows: u32, deadline: u32) -> Table {
    from_zero(&vec![[1, deadline, 0, 0]; rows as usize])
}

/// The cases of rule 13.17, and then some of our own.
pub fn ceilings() -> Vec<CeilingCase> {
    let mut cases = ceilings_of_the_rule();
    cases.extend(more_ceilings());
    cases
}

/// A table at a ceiling in one line.
fn at(what: &'static str, table: Table, ceiling: u32, answer: Counted) -> CeilingCase {
    CeilingCase {
        what,
        table,
        ceiling,
        answer,
    }
}

/// The cases of rule 13.17.
fn ceilings_of_the_rule() -> Vec<CeilingCase> {
    let of_p1 = counted(ordered(&[1, 2, 3, 4]), 6);
    let first_above = |trials| counted(ordered(&[1, 2]), trials);
    let alone = from_zero(&[[1, 1, 1, 0]]);
    let no_rows = from_zero(&[]);
    let no_time = Table::of(1, 1, 0, &[row([4, 1, 4, 0])]);
    vec![
        at("P1 at its count", p1(), 6, of_p1),
        at("P1, a trial to spare", p1(), 7, of_p1),
        at("P1 at 4 × 5 / 2", p1(), 10, of_p1),
        at("P1 at the highest ceiling", p1(), u32::MAX, of_p1),
        at("P1 at a ceiling of high bits", p1(), 0xffff_0000, of_p1),
        at("P1, a trial too few", p1(), 5, over(5)),
        at("P1, one trial", p1(), 1, over(1)),
        at("P1, no trial", p1(), 0, over(0)),
        at(
            "the first row is skipped",
            skipped_first(),
            2,
            first_above(2),
        ),
        at("a skip and a trial too few", skipped_first(), 1, over(1)),
        at(
            "a row is skipped between two that are tried",
            skipped_between(),
            4,
            counted(ordered(&[2, 3, 1]), 4),
        ),
        at("the same, a trial too few", skipped_between(), 3, over(3)),
        at(
            "stuck, and a row is skipped",
            stuck_by_a_skip(),
            1,
            counted(no_order(0b11), 1),
        ),
        at("a skip and no trial", stuck_by_a_skip(), 0, over(0)),
        at(
            "stuck after a place",
            crowded_above_one(),
            4,
            counted(no_order(0b1110), 4),
        ),
        at("all but the last trial", crowded_above_one(), 3, over(3)),
        at("the trial of one place", crowded_above_one(), 1, over(1)),
        at("stuck at once", crowded(), 3, counted(no_order(0b111), 3)),
        at(
            "two trials to spare",
            crowded(),
            5,
            counted(no_order(0b111), 3),
        ),
        at("a trial too few to be stuck", crowded(), 2, over(2)),
        at(
            "a row of each level is late",
            late(),
            2,
            counted(no_order(0b11), 2),
        ),
        at("one of the two is not tried", late(), 1, over(1)),
        at("a promised part is late", late_part(), 3, first_above(3)),
        at("the same part, a trial too few", late_part(), 2, over(2)),
        at("a row alone", alone, 1, counted(ordered(&[1]), 1)),
        at("a row alone, no trial", alone, 0, over(0)),
        at("the most of two rows", most_of_two(), 3, first_above(3)),
        at("the most but one", most_of_two(), 2, over(2)),
        at("no rows, no trial", no_rows, 0, unplanned(3)),
        at("no rows, 6 trials", no_rows, 6, unplanned(3)),
        at("released at its deadline", no_time, 0, unplanned(5)),
        at("the same, 6 trials", no_time, 6, unplanned(5)),
    ]
}

/// Ceilings of more bits, waits, loading, promised parts, tables of 64 rows, and every number
/// of the checks on tables.
fn more_ceilings() -> Vec<CeilingCase> {
    let of_p1 = counted(ordered(&[1, 2, 3, 4]), 6);
    let falling: Vec<u8> = (1..=64).rev().collect();
    let rising: Vec<u8> = (1..=64).collect();
    let waiting = |second| table(1, 1, &[[1, 1, 9, 0, 0, 0], second]);
    let too_many = Table { n: 65, ..crowded() };
    vec![
        at("P1 at 256", p1(), 256, of_p1),
        at("P1 at 65,536", p1(), 1 << 16, of_p1),
        at("P1 at 2,147,483,648", p1(), 1 << 31, of_p1),
        at("a chain", chain(1, 2), 3, counted(ordered(&[1, 2, 3]), 3)),
        at("a chain, a trial too few", chain(1, 2), 2, over(2)),
        at(
            "two rows follow one",
            chain(1, 1),
            3,
            counted(ordered(&[1, 3, 2]), 3),
        ),
        at(
            "a wait is broken above",
            broken_above(),
            4,
            counted(ordered(&[1, 2, 3]), 4),
        ),
        at("K 0", at_loading(0), 2, counted(ordered(&[2, 1]), 2)),
        at("K 1", at_loading(1), 3, counted(ordered(&[1, 2]), 3)),
        at("K 1, a trial too few", at_loading(1), 2, over(2)),
        at("K 2", at_loading(2), 2, counted(no_order(0b11), 2)),
        at("r 0", either_place(0), 2, counted(ordered(&[2, 1]), 2)),
        at("r 2", either_place(2), 3, counted(ordered(&[1, 2]), 3)),
        at("r 2, a trial too few", either_place(2), 2, over(2)),
        at(
            "64 rows alike",
            alike(64, 64),
            64,
            counted(ordered(&falling), 64),
        ),
        at("64 rows, a trial too few", alike(64, 64), 63, over(63)),
        at(
            "64 rows, stuck at once",
            alike(64, 63),
            64,
            counted(no_order(u64::MAX), 64),
        ),
        at(
            "the most of 64 rows",
            most_tried(64),
            2_080,
            counted(ordered(&rising), 2_080),
        ),
        at(
            "all but the last of 2,080",
            most_tried(64),
            2_079,
            over(2_079),
        ),
        at("65 rows", too_many, 1, unplanned(3)),
        at("G above N", table(2, 3, &[[0, 1, 9, 0]]), 0, unplanned(4)),
        at("K of 17", p1().with_loading(17), u32::MAX, unplanned(11)),
        at(
            "more promised than work",
            table(1, 1, &[[0, 1, 9, 0, 2]]),
            0,
            unplanned(12),
        ),
        at(
            "it follows itself",
            waiting([1, 1, 9, 0, 0, 2]),
            1,
            unplanned(13),
        ),
        at(
            "it follows a row of a later release",
            waiting([0, 1, 9, 0, 0, 1]),
            u32::MAX,
            unplanned(14),
        ),
        at(
            "HI follows LO",
            waiting([1, 1, 9, 1, 0, 1]),
            0,
            unplanned(15),
        ),
    ]
}
