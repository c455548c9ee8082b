//! The cases that must hold, starred and also run (section 13 of the rules). In
//! the starred ones no job loads; after them come cases in which jobs do, in which
//! previews are late or promise a part, and in which rows follow rows.

mod common;

use common::correct::correct_by_every_course;
use common::{p3_at, refused_verdict, RULES};
use model::before::Before;
use model::calls::LAST_CLOCK;
use model::cases::waits::{
    broken_above, chain, late_wait_runs, preempted, runs_that_break_waits, wait_plans, wait_runs,
};
use model::cases::{
    at_loading, at_loading_planned, late_runs, loading_runs, no_order, ordered, p1, p2, p3, p4,
    promise_at_deadline, promise_runs, promises, row, serving, table, HandPlan, HandRun, LateRun,
    P1_TEXT,
};
use model::judge::{judge, judge_table, Verdict};
use model::order::{keeps_waits, order_of, orders, Order, NO_ORDER};
use model::plain;
use model::plan::{
    is_skipped, passes_lowest, plan, plan_and_trials, promised_moment, slack, trial_order,
    trial_sequence, worst_finish, Plan,
};
use model::planners::each_trial;
use model::program::planning_program;
use model::record::Record;
use model::run::{chosen, is_ready, is_waiting, run_by, running_step, step, Rule, State};
use model::sheet::{read_sheet, sheet_of, write_sheet};
use model::table::{allowance, need, Row, Table, MOST_LOADING};

#[test]
fn p1_order_and_slacks() {
    let order = order_of(&[1, 2, 3, 4]);
    assert_eq!(plan(&p1()), ordered(&[1, 2, 3, 4]));
    let slacks: Vec<i64> = (1..=4).map(|row| slack(&p1(), &order, row)).collect();
    assert_eq!(slacks, [0, 2, 0, 0]);
    for latest in [2, 3] {
        assert!(!passes_lowest(&p1(), &[1, 2, 3, 4], &[], latest));
    }
    let least = Verdict {
        number: 0,
        yes: true,
        row: 1,
        slack: 0,
    };
    assert_eq!(judge_table(&p1(), &order), least);
}

#[test]
fn p1_program_text() {
    assert_eq!(planning_program(&sheet_of(&p1())), P1_TEXT.as_bytes());
}

#[test]
fn p2_order_of_guo_and_baruah() {
    assert_eq!(plan(&p2()), ordered(&[3, 1, 2, 4]));
}

#[test]
fn p3_no_order_and_two_rows_left() {
    assert_eq!(plan(&p3()), no_order(0b11));
    assert_eq!(plan(&p3()).rows_left(), 2);
    assert_eq!(planning_program(&sheet_of(&p3())), b"       7       2\n");
}

#[test]
fn p4_no_order() {
    assert_eq!(plan(&p4()), no_order(0b11));
}

#[test]
fn p5_one_lo_row() {
    for degraded in 1..=3 {
        assert_eq!(plan(&table(3, degraded, &[[0, 3, 1, 0]])), ordered(&[1]));
        assert_eq!(plan(&table(3, degraded, &[[0, 4, 1, 0]])), no_order(1));
    }
}

#[test]
fn p6_one_hi_row() {
    assert_eq!(plan(&table(2, 2, &[[0, 2, 1, 1]])), ordered(&[1]));
    assert_eq!(plan(&table(2, 1, &[[0, 2, 1, 1]])), no_order(1));
}

/// By either rule of a slot.
#[test]
fn p7_degraded_run_of_p3() {
    for rule in RULES {
        let before = run_by(rule, &p3(), &order_of(&[1, 2]), &[1; 4]);
        assert_eq!(before.closing[..2], [1, 0]);
        let state = run_by(rule, &p3(), &order_of(&[1, 2]), &[1; 5]);
        assert_eq!(state.closing[..2], [1, 5]);
        assert_eq!(
            state.got[..2],
            [1, 4],
            "row 1 is dropped with 1 of 2 work units"
        );
        assert_eq!(state.used[..2], [1, 4]);
        assert!(state.closing[1] > p3().deadline[1], "row 2 is late");
    }
}

/// By either rule of a slot.
#[test]
fn p8_normal_run_of_p3() {
    for rule in RULES {
        let state = run_by(rule, &p3(), &order_of(&[1, 2]), &[2; 3]);
        assert_eq!(state.closing[..2], [1, 3]);
        assert_eq!(state.got[..2], [2, 4]);
    }
}

/// P1 to P8 as above have a loading time of 0 slots, promise nothing and have no waits.
#[test]
fn the_starred_cases_do_not_load() {
    for table in [p1(), p2(), p3(), p4(), table(3, 1, &[[0, 3, 1, 0]])] {
        assert_eq!(Before::Loading.old_table(&table), table);
    }
}

/// What a run by this rule did: the row of each slot, and the work got, slots used
/// and closing slot of each row in the end.
fn rows_and_ends(rule: Rule, case: &HandRun) -> (Vec<u8>, Vec<[u32; 3]>) {
    let mut state = State::FRESH;
    let step_with = |supply: &u32| rule(&case.table, &case.order, &mut state, *supply);
    let rows: Vec<u8> = case.supplies.iter().map(step_with).collect();
    let entries = |index: usize| [state.got[index], state.used[index], state.closing[index]];
    let ends = (0..case.table.n as usize).map(entries).collect();
    (rows, ends)
}

/// The run is as it says by the running rule, in steps, on a record and by plain
/// Rust.
fn assert_worked(case: &HandRun) {
    let what = case.what;
    let expected = (case.rows.clone(), case.ends.clone());
    assert_eq!(rows_and_ends(running_step, case), expected, "{what}");
    let (number, fresh) = Record::fresh(&case.table, &case.order);
    let worked = fresh.forward(&case.supplies);
    assert_eq!((number, worked.number), (0, 0), "{what}");
    let state = run_by(running_step, &case.table, &case.order, &case.supplies);
    assert_eq!(worked.record.state(), state, "{what}");
    let mut by_plain = fresh;
    plain::forward(&mut by_plain, &case.supplies);
    assert_eq!(by_plain, worked.record, "{what}");
}

/// The same by either rule of a slot.
fn assert_worked_by_both(cases: Vec<HandRun>) {
    for case in cases {
        let expected = (case.rows.clone(), case.ends.clone());
        assert_eq!(rows_and_ends(step, &case), expected, "{}", case.what);
        assert_worked(&case);
    }
}

/// Each slot's row, what it brought and what it closed (rules 1.9, 1.10, 2.14).
#[test]
fn runs_that_load() {
    assert_worked_by_both(loading_runs());
}

/// Runs in which a LO row has its allowance by its promise (rule 1.9).
#[test]
fn runs_with_promises() {
    assert_worked_by_both(promise_runs());
}

/// Runs in which a row waits for the one that it follows, preempted or not, until that one
/// is done or dropped (rule 2.15).
#[test]
fn runs_with_waits() {
    assert_worked_by_both(wait_runs());
    assert_late(late_wait_runs());
}

/// A follower waits under arrangements that are no orders too.
#[test]
fn runs_that_break_a_wait() {
    for case in runs_that_break_waits() {
        let expected = (case.rows.clone(), case.ends.clone());
        for rule in RULES {
            assert_eq!(rows_and_ends(rule, &case), expected, "{}", case.what);
        }
        let fresh = Record::fresh(&case.table, &case.order);
        assert_eq!(fresh, (6, Record::ZERO), "{}", case.what);
    }
}

/// Worst finishes, promised moments, slacks, verdict and planner's answer (rules 3.6 to
/// 3.9 and 4.4), and the verdict over every course of speed (rule 3.4).
fn assert_planned(cases: Vec<HandPlan>) {
    for case in cases {
        let (what, table, order) = (case.what, &case.table, &case.order);
        let rows = 1..=table.n as u8;
        let finishes: Vec<u32> = rows
            .clone()
            .map(|row| worst_finish(table, order, row))
            .collect();
        let moments: Vec<u32> = rows
            .clone()
            .map(|row| promised_moment(table, order, row))
            .collect();
        let slacks: Vec<i64> = rows.map(|row| slack(table, order, row)).collect();
        assert_eq!(finishes, case.finishes, "{what}");
        assert_eq!(moments, case.moments, "{what}");
        assert_eq!(slacks, case.slacks, "{what}");
        assert_eq!(plan(table), case.plan, "{what}");
        assert_eq!(plain::plan(table), case.plan, "{what}");
        assert_eq!(each_trial::plan(table), case.plan, "{what}");
        let verdict = judge_table(table, order);
        let least = *slacks.iter().min().unwrap();
        assert_eq!((verdict.yes, verdict.slack), (least >= 0, least), "{what}");
        assert_eq!(plain::judge(table, order), verdict, "{what}");
        if table.work[0] < 10 {
            let by_courses = correct_by_every_course(step, table, order);
            assert_eq!(by_courses, verdict.yes, "{what}");
        }
    }
}

#[test]
fn tables_with_promises() {
    assert_planned(promises());
}

#[test]
fn tables_with_waits() {
    assert_planned(wait_plans());
}

/// At the lowest place row 1 is skipped, since rows 2 and 3 follow it; once both are placed
/// it is tried (rule 4.11).
#[test]
fn skips_look_at_the_rows_left() {
    let skipped = |left: &[u8]| -> Vec<u8> {
        let rows = left.iter().copied();
        rows.filter(|&row| is_skipped(&chain(1, 1), left, row))
            .collect()
    };
    assert_eq!(skipped(&[1, 2, 3]), [1]);
    assert_eq!(skipped(&[1, 3]), [1]);
    assert_eq!(skipped(&[1]), []);
    assert_eq!(plan_and_trials(&chain(1, 1)), (ordered(&[1, 3, 2]), 3));
    assert_eq!(plan_and_trials(&chain(1, 2)), (ordered(&[1, 2, 3]), 3));
}

/// Row 3 is tried with row 2 above row 1, which it follows: it finishes when the set does
/// (rule 21.3).
#[test]
fn a_trial_above_which_a_wait_is_broken() {
    let table = broken_above();
    assert_eq!(trial_sequence(&table, &[1, 2, 3]), [2, 1, 3]);
    for above in [[2, 1], [1, 2]] {
        let order = trial_order(&[above[0], above[1], 3], &[], 3);
        assert_eq!(worst_finish(&table, &order, 3), 3, "{above:?}");
    }
    assert_eq!(plan_and_trials(&table), (ordered(&[1, 2, 3]), 4));
}

/// The follower is the highest row and waits, and so the row that it follows is chosen.
#[test]
fn a_follower_waits_whatever_its_place() {
    let (table, order) = (preempted(), order_of(&[2, 1, 3]));
    assert_eq!(chosen(&table, &order, &State::FRESH), 1);
    assert!(is_waiting(&table, &State::FRESH, 2) && !is_ready(&table, &State::FRESH, 2));
    assert!(!is_waiting(&table, &State::FRESH, 1) && is_ready(&table, &State::FRESH, 1));
    assert!(!keeps_waits(&table, &order));
}

/// Its runs are among the late ones.
#[test]
fn a_promise_kept_at_its_deadline_alone() {
    let table = promise_at_deadline();
    let order = order_of(&[1, 2]);
    assert_eq!(plan(&table), ordered(&[1, 2]));
    assert_eq!([1, 2].map(|row| slack(&table, &order, row)), [1, 0]);
    let got_at = |clock: usize| run_by(running_step, &table, &order, &vec![1; clock]).got[1];
    assert_eq!([4, 5, 6].map(got_at), [2, 3, 3]);
}

/// Runs in which a preview is late or about to be, by the running rule, and what the
/// planning rule makes of them (rules 13.13 and 19.1 to 19.4).
#[test]
fn runs_with_late_previews() {
    assert_late(late_runs());
}

fn assert_late(cases: Vec<LateRun>) {
    for case in cases {
        assert_worked(&case.run);
        let planned = (case.planned_rows, case.planned_ends);
        assert_eq!(rows_and_ends(step, &case.run), planned, "{}", case.run.what);
    }
}

/// The planner answers 7 with all three rows left, and of the six orders the one
/// named serves, over every course of speed (rules 13.13 and 19.8).
#[test]
fn a_table_without_a_correct_order_that_is_served() {
    let table = serving();
    assert_eq!(plan(&table), no_order(0b111));
    let serves = |order: &Order| correct_by_every_course(running_step, &table, order);
    let serving: Vec<Order> = orders(&table).into_iter().filter(serves).collect();
    assert_eq!(serving, [order_of(&[1, 2, 3])]);
    for order in orders(&table) {
        assert!(!correct_by_every_course(step, &table, &order), "{order:?}");
    }
}

#[test]
fn an_order_with_1_slot_of_loading_and_none_with_2() {
    for (loading, answer) in (0..).zip(at_loading_planned()) {
        assert_eq!(plan(&at_loading(loading)), answer, "K {loading}");
        assert_eq!(plain::plan(&at_loading(loading)), answer, "K {loading}");
    }
    let order = order_of(&[1, 2]);
    let slacks = |loading| [1, 2].map(|row| slack(&at_loading(loading), &order, row));
    assert_eq!([slacks(0), slacks(1), slacks(2)], [[3, 2], [2, 0], [1, -2]]);
    for loading in 2..=MOST_LOADING {
        assert_eq!(plan(&at_loading(loading)), no_order(0b11), "K {loading}");
    }
}

/// K counts in each need by itself, LO and HI, at N and at G (rules 1.8, 1.9).
#[test]
fn every_need_grows_by_the_loading_time() {
    for loading in 0..=MOST_LOADING {
        let table = p1().with_loading(loading);
        let needs = |speed| [1, 2, 3, 4].map(|row| need(&table, row, speed) - loading);
        assert_eq!(needs(5), [4, 3, 3, 1], "K {loading}");
        assert_eq!(needs(2), [10, 8, 6, 3], "K {loading}");
        let allowances = [2, 4].map(|row| allowance(&table, row));
        assert_eq!(allowances, [loading + 3, loading + 1]);
        // The lowest row, LO, waits for three needs at N and has its own.
        let finish = worst_finish(&table, &order_of(&[1, 2, 3, 4]), 4);
        let without = if loading == 0 { 5 } else { 11 };
        assert_eq!(finish, without + 4 * loading, "K {loading}");
    }
}

/// A table of n rows, each with work 1 and the same latest deadline n.
fn rows_of_one_slot(n: usize) -> Vec<Row> {
    vec![row([0, 1, n as u32, 0]); n]
}

#[test]
fn sixty_four_rows_are_planned() {
    let full = Table::of(1, 1, 0, &rows_of_one_slot(64));
    let answer = plan(&full);
    assert_eq!(answer.number, 0);
    // Equal deadlines: the lower row takes the lower place.
    let falling: Vec<u8> = (1..=64).rev().collect();
    assert_eq!(answer.order, order_of(&falling));
    assert_eq!(read_sheet(&sheet_of(&full)), (0, full));

    let mut tight = full;
    tight.deadline = [63; 64];
    assert_eq!(plan(&tight), no_order(u64::MAX));
    assert_eq!(plan(&tight).rows_left(), 64);
    assert_eq!(planning_program(&sheet_of(&tight)), b"       7      64\n");
}

#[test]
fn sixty_five_rows_are_refused() {
    let rows = rows_of_one_slot(65);
    let sheet = write_sheet(65, 1, 1, 0, &rows);
    assert_eq!(read_sheet(&sheet), (3, Table::ZERO));
    assert_eq!(planning_program(&sheet), b"       3       0\n");
    assert_eq!(judge(1, 1, 0, &rows, &NO_ORDER), refused_verdict(3));
    assert_eq!(judge(1, 1, 0, &[], &NO_ORDER), refused_verdict(3));
}

#[test]
fn deadline_one_million_and_one_more() {
    let last = table(1, 1, &[[0, 1_000_000, 1_000_000, 1]]);
    assert_eq!(plan(&last), ordered(&[1]));
    let program = planning_program(&sheet_of(&last));
    assert_eq!(program, b"       0       1\n       1       1       0\n");

    let over = table(1, 1, &[[0, 1_000_000, 1_000_001, 1]]);
    let refused = Plan {
        number: 5,
        order: NO_ORDER,
        left: 0,
    };
    assert_eq!(plan(&over), refused);
    assert_eq!(read_sheet(&sheet_of(&over)), (5, Table::ZERO));
    assert_eq!(judge_table(&over, &order_of(&[1])), refused_verdict(5));

    let most = slack(&table(1, 1, &[[0, 1, 1_000_000, 0]]), &order_of(&[1]), 1);
    assert_eq!(most, 999_999, "the largest slack, in slots");
}

#[test]
fn the_least_slack_there_is() {
    // 64 rows of 1,000,000 slots each, all released in slot 999,999: the lowest
    // finishes at 64,999,999, which is 63,999,999 slots late. With 16 slots of
    // loading it finishes 64 × 16 slots later.
    let rows = vec![row([999_999, 1_000_000, 1_000_000, 1]); 64];
    let order: Vec<u8> = (1..=64).collect();
    for (loading, least) in [(0, -63_999_999), (16, -64_001_023)] {
        let full = Table::of(1, 1, loading, &rows);
        assert_eq!(slack(&full, &order_of(&order), 64), least);
    }
}

#[test]
fn clock_one_before_the_last() {
    // Row 1 is LO and was dropped at its deadline.
    let late = p3_at(LAST_CLOCK - 1);
    assert_eq!(late.clock, 1_999_999);

    let one = late.one_slot(5);
    assert_eq!((one.number, one.row, one.record.clock), (0, 2, 2_000_000));
    assert_eq!(one.record.closing[..2], [2, 2_000_000]);

    let over = one.record.one_slot(5);
    assert_eq!((over.number, over.row), (8, 0));
    assert_eq!(over.record, one.record);

    let forward = late.forward(&[5, 5, 5]);
    assert_eq!((forward.number, forward.worked), (8, 1));
    assert_eq!(forward.record, one.record);

    let nothing = one.record.forward(&[]);
    assert_eq!((nothing.number, nothing.worked), (0, 0));
    assert_eq!(nothing.record, one.record);
}

#[test]
fn two_million_slots_from_a_fresh_record() {
    let (_, fresh) = Record::fresh(&p3(), &order_of(&[1, 2]));
    let supplies = vec![0; 2_000_001];
    let all = fresh.forward(&supplies);
    assert_eq!((all.number, all.worked), (8, 2_000_000));
    assert_eq!(all.record.used[..2], [1, 1_999_999]);
    assert_eq!(all.record.closing[..2], [1, 0]);
    assert!(all.record.is_sound());
    let within = fresh.forward(&supplies[..2_000_000]);
    assert_eq!((within.number, within.worked), (0, 2_000_000));
    assert_eq!(within.record, all.record);
}

#[test]
fn judge_names_the_row_of_least_slack() {
    // P3 under 1 2: row 1 finishes at 1 (slack 1), row 2 at 1 + 4 = 5 (slack -1).
    let late = Verdict {
        number: 0,
        yes: false,
        row: 2,
        slack: -1,
    };
    assert_eq!(judge_table(&p3(), &order_of(&[1, 2])), late);
    // Two rows of one slot each, the lower one late by 1: its slack counts.
    let pair = table(1, 1, &[[0, 1, 1, 0], [0, 1, 2, 0]]);
    assert_eq!(judge_table(&pair, &order_of(&[2, 1])).row, 1);
    assert_eq!(judge_table(&pair, &order_of(&[2, 1])).slack, -1);
    // Equal slacks of 0: the lower row, whichever stands higher.
    let tie = table(1, 1, &[[0, 1, 2, 0], [0, 1, 1, 0]]);
    let both = judge_table(&tie, &order_of(&[2, 1]));
    assert_eq!((both.yes, both.row, both.slack), (true, 1, 0));
}
