//! Planners that find finishes by sweeps which trials share, with one fault each in
//! the sharing, and the smallest tables on which they and the true one differ.

use crate::planners::Planner;
use crate::search::{every_table, smallest, witness, Kind, KINDS, TRIED};
use crate::{answers, expect, leaves};
use model::cases::{p1, p2, p3, p4, table as table_of};
use model::plan::{plan, tried};
use model::random::{table_in, Random, Ranges};
use model::table::{allowance, need, Table, LO};

/// The finish, in slots, that a sweep over these rows gives one of them: the end of its
/// busy period. `is_over` says of the end of a busy period and of a release whether the
/// period is over then, `at_normal` whether the sweep is at N or at G.
fn swept(
    table: &Table,
    rows: &[u8],
    row: u8,
    at_normal: bool,
    is_over: fn(u32, u32) -> bool,
) -> u32 {
    let mut by_release = rows.to_vec();
    by_release.sort_by_key(|&other| table.row(other).release);
    let (mut end, mut has_row) = (0, false);
    for other in by_release {
        let job = table.row(other);
        if is_over(end, job.release) {
            if has_row {
                return end;
            }
            end = job.release;
        }
        end += if at_normal || job.level == LO {
            allowance(table, other)
        } else {
            need(table, other, table.degraded)
        };
        has_row |= other == row;
    }
    end
}

fn by_then(end: u32, release: u32) -> bool {
    end <= release
}

/// Does this row pass with the finish of a sweep over these rows, at its own speed?
fn passes(table: &Table, rows: &[u8], row: u8, is_over: fn(u32, u32) -> bool) -> bool {
    let job = table.row(row);
    swept(table, rows, row, job.level == LO, is_over) <= job.deadline
}

/// No fault: every trial has the sweep of its place and speed.
const SWEEPING: Planner = Planner {
    name: "by sweeps, no fault",
    sequence: tried,
    trial: |table, left, _, row| passes(table, left, row, by_then),
};

/// The finish is the one of the place before, where a row more was left (against rule
/// 4.4).
const STALE: Planner = Planner {
    name: "a finish that still counts the row placed last",
    sequence: tried,
    trial: |table, left, placed, row| {
        let last = &placed[..placed.len().min(1)];
        passes(table, &[left, last].concat(), row, by_then)
    },
};

/// A busy period goes on if the next row is released just when it ends.
const JOINED_AT_ZERO: Planner = Planner {
    name: "a busy period not split at a gap of 0 slots",
    sequence: tried,
    trial: |table, left, _, row| passes(table, left, row, |end, release| end < release),
};

/// A busy period ends though it has a slot left when the next row is released.
const SPLIT_EARLY: Planner = Planner {
    name: "a busy period split though rows overlap by a slot",
    sequence: tried,
    trial: |table, left, _, row| passes(table, left, row, |end, release| end <= release + 1),
};

/// LO rows are tried with the sweep at G (against rule 3.5).
const LO_BY_DEGRADED: Planner = Planner {
    name: "LO rows by the sweep at G",
    sequence: tried,
    trial: |table, left, _, row| swept(table, left, row, false, by_then) <= table.row(row).deadline,
};

/// HI rows are tried with the sweep at N (against rule 3.5).
const HI_BY_NORMAL: Planner = Planner {
    name: "HI rows by the sweep at N",
    sequence: tried,
    trial: |table, left, _, row| swept(table, left, row, true, by_then) <= table.row(row).deadline,
};

/// The sweep starts with the row that is tried, as if none before it had work left.
const FROM_ROW_TRIED: Planner = Planner {
    name: "a sweep from the row tried on",
    sequence: tried,
    trial: |table, left, _, row| {
        let from = table.row(row).release;
        passes(table, &released_from(table, left, from), row, by_then)
    },
};

/// The sweep is made again from where the row placed last was taken out, and not from
/// the start of the busy period that lost it. Rows released before keep a right finish.
const FROM_ROW_PLACED: Planner = Planner {
    name: "a sweep from the row placed last on",
    sequence: tried,
    trial: |table, left, placed, row| {
        let from = placed.first().map_or(0, |&last| table.row(last).release);
        if table.row(row).release < from {
            return passes(table, left, row, by_then);
        }
        passes(table, &released_from(table, left, from), row, by_then)
    },
};

/// The rows that are released no earlier than at this clock.
fn released_from(table: &Table, rows: &[u8], clock: u32) -> Vec<u8> {
    let is_later = |&&row: &&u8| table.row(row).release >= clock;
    rows.iter().filter(is_later).copied().collect()
}

#[test]
fn sweeps_without_a_fault_are_the_true_planner() {
    for (n, most) in TRIED {
        for sum in 0..=most {
            every_table(n, sum, &mut |table| {
                assert!(witness(&SWEEPING, table).is_none(), "{table:?}");
            });
        }
    }
}

#[test]
fn finish_of_the_place_before() {
    // Row 2 is placed, and row 1 still has the finish 2 that it had above row 2.
    expect(
        &STALE,
        &KINDS,
        table_of(1, 1, &[[0, 1, 1, 0], [0, 1, 2, 0]]),
        answers(&[1, 2]),
        leaves(&[1]),
    );
    assert!(smallest(&STALE, &[Kind::AnswersWronglyAnOrder]).is_none());
}

#[test]
fn busy_periods_that_touch() {
    // Row 1 is done at 1, just when row 2 is released.
    expect(
        &JOINED_AT_ZERO,
        &KINDS,
        table_of(1, 1, &[[0, 1, 1, 0], [1, 2, 2, 0]]),
        leaves(&[2]),
        leaves(&[1, 2]),
    );
    expect(
        &JOINED_AT_ZERO,
        &[Kind::OtherCorrectOrder],
        table_of(1, 1, &[[0, 1, 1, 0], [1, 1, 2, 1]]),
        answers(&[2, 1]),
        answers(&[1, 2]),
    );
    // The last of the busy periods that are taken for one has its right finish, so that
    // its rows are placed all the same: no table tried has another number for it.
    for kind in [Kind::RefusesWrongly, Kind::AnswersWronglyAnOrder] {
        assert!(smallest(&JOINED_AT_ZERO, &[kind]).is_none());
    }
}

#[test]
fn rows_that_overlap_by_a_slot() {
    // Both rows are released at 0, and the slot that the first takes is lost.
    expect(
        &SPLIT_EARLY,
        &KINDS,
        table_of(1, 1, &[[0, 1, 1, 0], [0, 1, 1, 0]]),
        leaves(&[1, 2]),
        answers(&[2, 1]),
    );
    expect(
        &SPLIT_EARLY,
        &[Kind::OtherIncorrectOrder],
        table_of(1, 1, &[[0, 1, 1, 0], [0, 1, 2, 1]]),
        answers(&[1, 2]),
        answers(&[2, 1]),
    );
    assert!(smallest(&SPLIT_EARLY, &[Kind::RefusesWrongly]).is_none());
}

#[test]
fn sweeps_of_the_other_speed() {
    // Row 2 takes 1 slot at N and 2 slots at G, above the LO row.
    expect(
        &LO_BY_DEGRADED,
        &[Kind::RefusesWrongly],
        table_of(2, 1, &[[0, 1, 2, 0], [0, 2, 2, 1]]),
        answers(&[2, 1]),
        leaves(&[1, 2]),
    );
    expect(
        &LO_BY_DEGRADED,
        &KINDS,
        table_of(2, 1, &[[0, 1, 2, 0], [0, 2, 1, 1]]),
        leaves(&[2]),
        leaves(&[1, 2]),
    );
    assert!(smallest(&LO_BY_DEGRADED, &[Kind::AnswersWronglyAnOrder]).is_none());
    // The HI row needs 2 slots at G.
    expect(
        &HI_BY_NORMAL,
        &KINDS,
        table_of(2, 1, &[[0, 2, 1, 1]]),
        leaves(&[1]),
        answers(&[1]),
    );
    assert!(smallest(&HI_BY_NORMAL, &[Kind::RefusesWrongly]).is_none());
}

#[test]
fn sweeps_from_the_middle_of_a_busy_period() {
    // Row 1 has a slot left when row 2 is released.
    expect(
        &FROM_ROW_TRIED,
        &[Kind::AnswersWronglyAnOrder],
        table_of(1, 1, &[[0, 2, 2, 0], [1, 1, 2, 0]]),
        leaves(&[1, 2]),
        answers(&[1, 2]),
    );
    expect(
        &FROM_ROW_TRIED,
        &KINDS,
        table_of(1, 1, &[[0, 2, 1, 0], [1, 1, 2, 0]]),
        leaves(&[1, 2]),
        leaves(&[1]),
    );
    // Row 3 is placed, and the sweep starts again at 1, where it was released.
    expect(
        &FROM_ROW_PLACED,
        &KINDS,
        table_of(1, 1, &[[0, 2, 1, 0], [1, 1, 2, 0], [1, 1, 4, 0]]),
        leaves(&[1, 2]),
        leaves(&[1]),
    );
    let later = table_of(1, 1, &[[0, 3, 3, 0], [1, 1, 2, 0], [1, 1, 5, 0]]);
    assert_eq!(plan(&later), leaves(&[1, 2]));
    assert_eq!(FROM_ROW_PLACED.plan(&later), answers(&[1, 2, 3]));
    for planner in [&FROM_ROW_TRIED, &FROM_ROW_PLACED] {
        assert!(smallest(planner, &[Kind::RefusesWrongly]).is_none());
    }
}

const RANGES: Ranges = Ranges {
    rows: 5,
    speed: 4,
    release: 8,
    need: 3,
    window: 12,
};

/// Which of the starred cases P1 to P4 tell each fault; random tables tell it as well.
#[test]
fn cases_and_random_tables_that_tell_a_fault() {
    let expected: [(&Planner, &[usize]); 7] = [
        (&STALE, &[1, 2]),
        (&JOINED_AT_ZERO, &[1]),
        (&SPLIT_EARLY, &[3]),
        (&LO_BY_DEGRADED, &[1, 2]),
        (&HI_BY_NORMAL, &[3, 4]),
        (&FROM_ROW_TRIED, &[]),
        (&FROM_ROW_PLACED, &[]),
    ];
    let cases = [p1(), p2(), p3(), p4()];
    let mut random = Random::seeded(74);
    let tables: Vec<Table> = (0..2_000).map(|_| table_in(&mut random, RANGES)).collect();
    for (planner, told_by) in expected {
        let tells = |table: &Table| witness(planner, table).is_some();
        let by_cases: Vec<usize> = (1..=4).filter(|case| tells(&cases[case - 1])).collect();
        let by_random = tables.iter().filter(|table| tells(table)).count();
        println!("{}: cases {by_cases:?}, {by_random} tables", planner.name);
        assert_eq!(by_cases, told_by, "{}", planner.name);
        assert!(by_random > 20, "{}: {by_random} tables", planner.name);
    }
}
