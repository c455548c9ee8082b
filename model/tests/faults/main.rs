//! The faults of section 14 of the rules, but for the check of rule 14.11, each built
//! into a planner of its own, and the smallest tables on which that planner and
//! the true one differ. `sweeps` has faults of planners whose trials share sweeps,
//! `speeds` faults in the search for the least workable speed, `late` those of runs
//! that drop late previews and of check 9, `promises` those in promised parts and of
//! check 12, `waits` those in rows that follow rows and of checks 6 and 13 to 15, `commits`
//! those of commits, `ceilings` those of planning at a ceiling, `sentences` those of sentences
//! and of their reader, `choices` those of counting choices, `stuck` those in what is said of the
//! rows left. Run with `--nocapture` to read the tables.

mod ceilings;
mod choices;
mod commits;
mod late;
mod planners;
mod promises;
mod search;
mod sentences;
mod speeds;
mod stuck;
mod sweeps;
mod waits;

use model::cases::{p1, p2, p3, p4, serving, table as table_of};
use model::order::{order_of, NO_ORDER};
use model::plan::{plan, word_of, Plan};
use model::table::Table;
use planners::{
    Planner, ALLOWANCE_WITHOUT_LOADING, DROPPING_LATE, DROPPING_LATE_FALLING, FINISHED_RUNNING,
    HI_WITHOUT_LOADING, LOADING_AGAIN, LOADING_NOT_USED, LOADING_ONCE, LO_AT_DEGRADED, LO_LEFT_OUT,
    PLANNED_RUNNING, ROUNDING_ONCE, TRUE_PLANNER, TWO_LATEST,
};
use search::{
    every_table, every_table_without_loading, expect_by, print, smallest, witness, Kind, KINDS,
    TRIED,
};

/// An answer 0 with this order.
fn answers(rows: &[u8]) -> Plan {
    Plan {
        number: 0,
        order: order_of(rows),
        left: 0,
    }
}

/// An answer 7 with these rows left.
fn leaves(rows: &[u8]) -> Plan {
    Plan {
        number: 7,
        order: NO_ORDER,
        left: word_of(rows),
    }
}

/// The smallest witness of these kinds is this table with these two answers.
fn expect(planner: &Planner, kinds: &[Kind], table: Table, truth: Plan, faulty: Plan) {
    expect_by(smallest, planner, kinds, table, truth, faulty);
}

#[test]
fn the_loop_without_a_fault_is_the_true_planner() {
    let mut tried = 0;
    for (n, most) in TRIED {
        for sum in 0..=most {
            every_table(n, sum, &mut |table| {
                assert!(witness(&TRUE_PLANNER, table).is_none());
                tried += 1;
            });
        }
    }
    println!("{tried} tables");
    assert!(tried > 90_000);
    assert_eq!(TRUE_PLANNER.plan(&p1()), plan(&p1()));
    assert_eq!(TRUE_PLANNER.name, "no fault");
}

#[test]
fn two_rows_tried() {
    // Row 1 passes lowest before row 2 is released, but is never tried.
    expect(
        &TWO_LATEST,
        &KINDS,
        table_of(1, 1, &[[0, 1, 1, 0], [1, 2, 2, 0]]),
        leaves(&[2]),
        leaves(&[1, 2]),
    );
    expect(
        &TWO_LATEST,
        &[Kind::OtherCorrectOrder],
        table_of(1, 1, &[[0, 1, 1, 0], [1, 1, 2, 0], [1, 1, 3, 1]]),
        answers(&[2, 3, 1]),
        answers(&[1, 2, 3]),
    );
    // No table tried up to three rows makes it refuse wrongly; four rows do.
    assert!(smallest(&TWO_LATEST, &[Kind::RefusesWrongly]).is_none());
    let four = table_of(
        2,
        1,
        &[[2, 1, 3, 0], [2, 1, 4, 1], [0, 2, 3, 1], [0, 1, 2, 0]],
    );
    for (table, order) in [(four, [3, 1, 2, 4]), (p1(), [1, 2, 3, 4])] {
        let (kind, found) = witness(&TWO_LATEST, &table).unwrap();
        print(&TWO_LATEST, kind, &found);
        assert_eq!(kind, Kind::RefusesWrongly);
        assert_eq!(found.truth, answers(&order));
        assert_eq!(found.faulty, leaves(&[1, 2, 3, 4]));
    }
}

#[test]
fn lo_jobs_charged_at_degraded_speed() {
    // Row 1 is charged 2 slots above row 2, where its allowance is 1 slot.
    expect(
        &LO_AT_DEGRADED,
        &KINDS,
        table_of(2, 1, &[[0, 2, 1, 0], [0, 1, 2, 1]]),
        answers(&[1, 2]),
        leaves(&[1, 2]),
    );
    expect(
        &LO_AT_DEGRADED,
        &[Kind::OtherRowsLeft],
        table_of(2, 1, &[[0, 3, 1, 0], [0, 1, 3, 1]]),
        leaves(&[1]),
        leaves(&[1, 2]),
    );
    assert!(smallest(&LO_AT_DEGRADED, &[Kind::AnswersWronglyAnOrder]).is_none());
}

#[test]
fn late_jobs_taken_out() {
    // Row 1 is given up at its deadline 1, which frees a slot for row 2. One row
    // alone stands above, so no order above hides the fault.
    let pair = table_of(1, 1, &[[0, 2, 1, 0], [0, 1, 2, 0]]);
    for planner in [&DROPPING_LATE, &DROPPING_LATE_FALLING] {
        expect(planner, &KINDS, pair, leaves(&[1, 2]), leaves(&[1]));
    }
    let wrongly = &[Kind::AnswersWronglyAnOrder];
    let three = table_of(1, 1, &[[0, 1, 2, 0], [0, 1, 1, 0], [0, 1, 2, 0]]);
    expect(
        &DROPPING_LATE,
        wrongly,
        three,
        leaves(&[1, 2, 3]),
        answers(&[2, 1, 3]),
    );
    // The same three rows: the order above decides which row comes lowest.
    assert_eq!(DROPPING_LATE_FALLING.plan(&three), answers(&[2, 3, 1]));
    expect(
        &DROPPING_LATE,
        &[Kind::OtherIncorrectOrder],
        table_of(1, 1, &[[0, 1, 2, 0], [0, 1, 3, 1], [0, 1, 1, 0]]),
        answers(&[3, 1, 2]),
        answers(&[3, 2, 1]),
    );
}

#[test]
fn planned_by_the_running_rule() {
    // Row 1 stops at its deadline 1, which leaves a slot for row 2.
    let pair = table_of(1, 1, &[[0, 2, 1, 0], [0, 1, 2, 0]]);
    expect(
        &PLANNED_RUNNING,
        &KINDS,
        pair,
        leaves(&[1, 2]),
        leaves(&[1]),
    );
    expect(
        &PLANNED_RUNNING,
        &[Kind::AnswersWronglyAnOrder],
        table_of(1, 1, &[[0, 1, 2, 0], [0, 1, 1, 0], [0, 1, 2, 0]]),
        leaves(&[1, 2, 3]),
        answers(&[2, 1, 3]),
    );
    // A row that is dropped at its deadline has finished there, if closing is all.
    expect(
        &FINISHED_RUNNING,
        &KINDS,
        table_of(1, 1, &[[0, 2, 1, 0]]),
        leaves(&[1]),
        answers(&[1]),
    );
    for planner in [&PLANNED_RUNNING, &FINISHED_RUNNING] {
        assert!(smallest(planner, &[Kind::RefusesWrongly]).is_none());
    }
    // The table of rule 13.13: one of them happens upon the order that serves.
    assert_eq!(plan(&serving()), leaves(&[1, 2, 3]));
    assert_eq!(PLANNED_RUNNING.plan(&serving()), answers(&[1, 2, 3]));
    assert_eq!(FINISHED_RUNNING.plan(&serving()), answers(&[1, 3, 2]));
}

#[test]
fn lo_jobs_left_out() {
    expect(
        &LO_LEFT_OUT,
        &KINDS,
        table_of(1, 1, &[[0, 1, 1, 0], [0, 1, 1, 1]]),
        leaves(&[1, 2]),
        answers(&[1, 2]),
    );
    expect(
        &LO_LEFT_OUT,
        &[Kind::OtherRowsLeft],
        table_of(1, 1, &[[0, 2, 1, 0], [0, 1, 1, 1]]),
        leaves(&[1, 2]),
        leaves(&[1]),
    );
    assert!(smallest(&LO_LEFT_OUT, &[Kind::RefusesWrongly]).is_none());
}

#[test]
fn works_rounded_once() {
    // Two jobs of 1 work unit each cannot share the one slot of 2 work units.
    expect(
        &ROUNDING_ONCE,
        &KINDS,
        table_of(2, 1, &[[0, 1, 1, 0], [0, 1, 1, 0]]),
        leaves(&[1, 2]),
        answers(&[2, 1]),
    );
    expect(
        &ROUNDING_ONCE,
        &[Kind::OtherIncorrectOrder],
        table_of(2, 1, &[[0, 1, 1, 0], [0, 1, 2, 1]]),
        answers(&[1, 2]),
        answers(&[2, 1]),
    );
    expect(
        &ROUNDING_ONCE,
        &[Kind::OtherRowsLeft],
        table_of(2, 1, &[[0, 1, 2, 0], [0, 3, 1, 0]]),
        leaves(&[1, 2]),
        leaves(&[2]),
    );
    assert!(smallest(&ROUNDING_ONCE, &[Kind::RefusesWrongly]).is_none());
}

#[test]
fn loaded_again() {
    // Row 2 loads in slot 0, row 1 preempts it for slots 1 and 2, and slot 3 brings
    // row 2 its work, unless it has to load again.
    expect(
        &LOADING_AGAIN,
        &[Kind::RefusesWrongly],
        table_of(1, 1, &[[1, 1, 3, 0], [0, 1, 4, 0]]).with_loading(1),
        answers(&[1, 2]),
        leaves(&[1, 2]),
    );
    expect(
        &LOADING_AGAIN,
        &KINDS,
        table_of(1, 1, &[[1, 1, 2, 0], [0, 1, 4, 0]]).with_loading(1),
        leaves(&[1]),
        leaves(&[1, 2]),
    );
    assert!(smallest(&LOADING_AGAIN, &[Kind::AnswersWronglyAnOrder]).is_none());
}

#[test]
fn loading_added_once() {
    // Two rows of 1 + 1 slots each do not fit into 3 slots.
    expect(
        &LOADING_ONCE,
        &[Kind::AnswersWronglyAnOrder],
        table_of(1, 1, &[[0, 1, 2, 0], [0, 1, 3, 0]]).with_loading(1),
        leaves(&[1, 2]),
        answers(&[1, 2]),
    );
    expect(
        &LOADING_ONCE,
        &KINDS,
        table_of(1, 1, &[[0, 1, 1, 0], [0, 1, 3, 0]]).with_loading(1),
        leaves(&[1, 2]),
        leaves(&[1]),
    );
    assert!(smallest(&LOADING_ONCE, &[Kind::RefusesWrongly]).is_none());
}

#[test]
fn loading_missing_at_one_level() {
    // One row of 1 + 1 slots does not fit into 1 slot.
    let alone = |level| table_of(1, 1, &[[0, 1, 1, level]]).with_loading(1);
    let (none, wrongly) = (leaves(&[1]), answers(&[1]));
    expect(&ALLOWANCE_WITHOUT_LOADING, &KINDS, alone(0), none, wrongly);
    expect(&HI_WITHOUT_LOADING, &KINDS, alone(1), none, wrongly);
    // The HI row is tried below a LO row that is taken to be dropped too early.
    let pair = table_of(2, 1, &[[0, 2, 2, 0], [0, 1, 3, 1]]).with_loading(1);
    assert_eq!(plan(&pair), leaves(&[1, 2]));
    assert_eq!(ALLOWANCE_WITHOUT_LOADING.plan(&pair), answers(&[1, 2]));
    for planner in [&ALLOWANCE_WITHOUT_LOADING, &HI_WITHOUT_LOADING] {
        assert!(smallest(planner, &[Kind::RefusesWrongly]).is_none());
    }
}

#[test]
fn loading_slots_not_used() {
    // Row 1 is dropped at 2 with 1 of 2 work units, so row 2 has slots 2 and 3.
    expect(
        &LOADING_NOT_USED,
        &[Kind::RefusesWrongly],
        table_of(2, 1, &[[0, 2, 2, 0], [0, 1, 4, 1]]).with_loading(1),
        answers(&[1, 2]),
        leaves(&[1, 2]),
    );
    expect(
        &LOADING_NOT_USED,
        &KINDS,
        table_of(2, 1, &[[0, 2, 1, 0], [0, 1, 4, 1]]).with_loading(1),
        leaves(&[1]),
        leaves(&[1, 2]),
    );
    assert!(smallest(&LOADING_NOT_USED, &[Kind::AnswersWronglyAnOrder]).is_none());
}

/// Without loading these planners are the true one.
#[test]
fn faults_in_loading_need_a_loading_time() {
    let faults = [
        &LOADING_AGAIN,
        &LOADING_ONCE,
        &ALLOWANCE_WITHOUT_LOADING,
        &HI_WITHOUT_LOADING,
        &LOADING_NOT_USED,
    ];
    for (n, most) in TRIED {
        for sum in 0..=most {
            every_table_without_loading(n, sum, &mut |table| {
                for planner in faults {
                    assert!(witness(planner, &table).is_none(), "{}", planner.name);
                }
            });
        }
    }
}

/// Which of the starred cases P1 to P4 tell a fault by the planner's answer. Late
/// jobs taken out and works rounded once need cases of their own.
#[test]
fn starred_cases_that_tell_a_fault() {
    let cases = [p1(), p2(), p3(), p4()];
    let told_by = |planner: &Planner| -> Vec<usize> {
        (1..=4)
            .filter(|case| witness(planner, &cases[case - 1]).is_some())
            .collect()
    };
    assert_eq!(told_by(&TWO_LATEST), [1]);
    assert_eq!(told_by(&LO_AT_DEGRADED), [1]);
    assert_eq!(LO_AT_DEGRADED.plan(&p1()), leaves(&[1, 2, 3]));
    assert!(told_by(&DROPPING_LATE).is_empty());
    assert!(told_by(&DROPPING_LATE_FALLING).is_empty());
    assert_eq!(told_by(&LO_LEFT_OUT), [3, 4]);
    assert!(told_by(&ROUNDING_ONCE).is_empty());
}
