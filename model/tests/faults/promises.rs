//! Faults in how promised parts are treated: planners, searches for the least workable
//! speed and checks with one fault each, the smallest tables on which they go wrong, and
//! the cases and random tables that tell them.

use crate::planners::Planner;
use crate::search::{
    assert_told, every_promising_table, expect_by, figures, first_promising_of, smallest_promising,
    told_by_cases, witness, Kind, KINDS, TRIED_PROMISING,
};
use crate::speeds::{accepted_cases, random_searches, told_by, Search};
use crate::{answers, leaves};
use model::cases::{
    checked_promises, least_of, promise_at_deadline, promise_runs, promises, promising_preview,
    table as table_of,
};
use model::order::{orders, Order};
use model::plan::{plan, slack, trial_order, tried, Plan};
use model::random::{table_in, tight_under, Random, Ranges};
use model::run::{chosen, has_promised, run, running_step, State};
use model::speeds::{least, Least, Sought, BOTH};
use model::table::{
    count_is_within_limit, loading_is_within_limit, need, promise_is_within_limit, promised_need,
    row_is_within_limits, row_is_zero, speeds_are_within_limits, Row, Table, HI, LO,
};

/// The slots that a LO row may use.
type Allowance = fn(&Table, u8) -> u32;

/// The larger of both needs, as it is (rule 1.9).
fn of_both(table: &Table, row: u8) -> u32 {
    need(table, row, table.normal).max(promised_need(table, row))
}

/// The need of the work at N alone.
fn of_work(table: &Table, row: u8) -> u32 {
    need(table, row, table.normal)
}

/// K is missing from the need of the promised part.
fn without_loading(table: &Table, row: u8) -> u32 {
    of_work(table, row).max(promised_need(table, row) - table.loading)
}

/// A slot by the planning rule in which LO rows have these allowances.
fn step(table: &Table, order: &Order, state: &mut State, supply: u32, allowance: Allowance) {
    let row = chosen(table, order, state);
    state.clock += 1;
    if row == 0 {
        return;
    }
    let index = row as usize - 1;
    let work = table.work[index];
    if state.used[index] >= table.loading {
        state.got[index] = work.min(state.got[index].saturating_add(supply));
    }
    state.used[index] += 1;
    let used_up = table.level[index] == LO && state.used[index] >= allowance(table, row);
    if state.got[index] == work || used_up {
        state.closing[index] = state.clock;
    }
}

/// The first state with every slot at this supply (work units) of which this is so, or
/// the one in which the row closes.
fn until(
    table: &Table,
    order: &Order,
    row: u8,
    supply: u32,
    allowance: Allowance,
    is_so: impl Fn(&State) -> bool,
) -> State {
    let mut state = State::FRESH;
    while !is_so(&state) && state.closing[row as usize - 1] == 0 {
        step(table, order, &mut state, supply, allowance);
    }
    state
}

/// The row's closing slot.
fn finish(table: &Table, order: &Order, row: u8, supply: u32, allowance: Allowance) -> u32 {
    let state = until(table, order, row, supply, allowance, |_| false);
    state.closing[row as usize - 1]
}

/// Is the row in time in its worst run?
fn in_time(table: &Table, order: &Order, row: u8, allowance: Allowance) -> bool {
    let supply = if table.row(row).level == LO {
        table.normal
    } else {
        table.degraded
    };
    finish(table, order, row, supply, allowance) <= table.row(row).deadline
}

/// Has the row its promised part by its deadline if every slot supplies this?
fn has_part(table: &Table, order: &Order, row: u8, supply: u32, allowance: Allowance) -> bool {
    let has_promised = |state: &State| has_promised(table, state, row);
    let state = until(table, order, row, supply, allowance, has_promised);
    has_promised(&state) && state.clock <= table.row(row).deadline
}

/// A row passes by its two slacks with these allowances.
fn passes_with(table: &Table, order: &Order, row: u8, allowance: Allowance) -> bool {
    in_time(table, order, row, allowance) && has_part(table, order, row, table.degraded, allowance)
}

/// No fault.
const PROMISING: Planner = Planner {
    name: "promises, no fault",
    sequence: tried,
    trial: |table, left, placed, row| {
        passes_with(table, &trial_order(left, placed, row), row, of_both)
    },
};

const PROMISE_AT_NORMAL: Planner = Planner {
    name: "the promise judged at N (against rule 3.9)",
    sequence: tried,
    trial: |table, left, placed, row| {
        let order = trial_order(left, placed, row);
        in_time(table, &order, row, of_both) && has_part(table, &order, row, table.normal, of_both)
    },
};

const ALLOWANCE_OF_WORK: Planner = Planner {
    name: "the allowance from c alone (against rule 1.9)",
    sequence: tried,
    trial: |table, left, placed, row| {
        passes_with(table, &trial_order(left, placed, row), row, of_work)
    },
};

/// Rows above have the allowance from c, and the row itself the one that it has.
const SHORT_ABOVE: Planner = Planner {
    name: "the allowance of rows above from c alone (against rule 1.9)",
    sequence: tried,
    trial: |table, left, placed, row| {
        let mut own_promise = table.without_promises();
        own_promise.promised[row as usize - 1] = table.row(row).promised;
        slack(&own_promise, &trial_order(left, placed, row), row) >= 0
    },
};

const PART_WITHOUT_LOADING: Planner = Planner {
    name: "the allowance from r without K (against rule 1.9)",
    sequence: tried,
    trial: |table, left, placed, row| {
        passes_with(table, &trial_order(left, placed, row), row, without_loading)
    },
};

const MOMENT_IS_FINISH: Planner = Planner {
    name: "the promised moment taken as the finish at G (against rule 3.9)",
    sequence: tried,
    trial: |table, left, placed, row| {
        let order = trial_order(left, placed, row);
        let at_degraded = || finish(table, &order, row, table.degraded, of_both);
        let job = table.row(row);
        let in_time = in_time(table, &order, row, of_both);
        in_time && (job.promised == 0 || at_degraded() <= job.deadline)
    },
};

const LARGER_SLACK: Planner = Planner {
    name: "the larger of the two slacks (against rule 3.7)",
    sequence: tried,
    trial: |table, left, placed, row| {
        let order = trial_order(left, placed, row);
        let promises = table.row(row).promised > 0;
        in_time(table, &order, row, of_both)
            || promises && has_part(table, &order, row, table.degraded, of_both)
    },
};

const NOT_JUDGED: Planner = Planner {
    name: "the promise not judged (against rule 4.4)",
    sequence: tried,
    trial: |table, left, placed, row| in_time(table, &trial_order(left, placed, row), row, of_both),
};

/// The smallest witness of these kinds is this table with these two answers.
fn expect(planner: &Planner, kinds: &[Kind], table: Table, truth: Plan, faulty: Plan) {
    expect_by(smallest_promising, planner, kinds, table, truth, faulty);
}

/// Calls `visit` with every table with promises that is tried.
fn every_table_tried(visit: &mut dyn FnMut(&Table)) {
    for (n, most) in TRIED_PROMISING {
        for sum in 0..=most {
            every_promising_table(n, sum, visit);
        }
    }
}

#[test]
fn promises_without_a_fault_are_the_true_planner() {
    let mut tried = 0;
    every_table_tried(&mut |table| {
        assert!(witness(&PROMISING, table).is_none(), "{table:?}");
        tried += u32::from(table.promised != [0; 64]);
    });
    println!("{tried} tables with promises");
    assert!(tried > 10_000);
}

#[test]
fn promise_judged_at_normal_speed_or_not_at_all() {
    // The row is done at N in its only slot, and has got 1 of 2 work units at G.
    let alone = table_of(2, 1, &[[0, 2, 1, 0, 2]]);
    for planner in [&PROMISE_AT_NORMAL, &NOT_JUDGED] {
        expect(planner, &KINDS, alone, leaves(&[1]), answers(&[1]));
        // Row 1 has its promised part by its deadline only if it stands above.
        expect(
            planner,
            &[Kind::OtherIncorrectOrder],
            table_of(2, 1, &[[0, 2, 2, 0, 2], [0, 1, 2, 0, 0]]),
            answers(&[1, 2]),
            answers(&[2, 1]),
        );
        assert!(smallest_promising(planner, &[Kind::RefusesWrongly]).is_none());
    }
}

#[test]
fn allowance_from_the_work_alone() {
    // The row is dropped after 1 slot, and would have its 2 work units after 2.
    expect(
        &ALLOWANCE_OF_WORK,
        &KINDS,
        table_of(2, 1, &[[0, 2, 2, 0, 2]]),
        answers(&[1]),
        leaves(&[1]),
    );
    // Row 1 has 2 slots above row 2, which is charged 1.
    expect(
        &SHORT_ABOVE,
        &[Kind::AnswersWronglyAnOrder],
        table_of(2, 1, &[[0, 2, 2, 0, 2], [0, 1, 2, 1, 0]]),
        leaves(&[1, 2]),
        answers(&[1, 2]),
    );
    assert!(smallest_promising(&SHORT_ABOVE, &[Kind::RefusesWrongly]).is_none());
}

#[test]
fn allowance_from_the_part_without_loading() {
    // The row loads for 1 slot and has then 2 slots for its 2 work units.
    expect(
        &PART_WITHOUT_LOADING,
        &KINDS,
        table_of(2, 1, &[[0, 2, 3, 0, 2]]).with_loading(1),
        answers(&[1]),
        leaves(&[1]),
    );
    every_table_tried(&mut |table| {
        if table.loading == 0 {
            assert!(witness(&PART_WITHOUT_LOADING, table).is_none());
        }
    });
}

#[test]
fn promised_moment_as_finish() {
    // At G row 2 has its 1 work unit at clock 3, and is dropped at 4.
    expect(
        &MOMENT_IS_FINISH,
        &[Kind::RefusesWrongly],
        table_of(2, 1, &[[0, 2, 2, 1, 0], [0, 3, 3, 0, 1]]),
        answers(&[1, 2]),
        leaves(&[1, 2]),
    );
    assert!(smallest_promising(&MOMENT_IS_FINISH, &[Kind::AnswersWronglyAnOrder]).is_none());
}

#[test]
fn larger_of_the_two_slacks() {
    // The row has 1 of its 2 work units by its deadline, which is all that it promises.
    expect(
        &LARGER_SLACK,
        &KINDS,
        table_of(1, 1, &[[0, 2, 1, 0, 1]]),
        leaves(&[1]),
        answers(&[1]),
    );
    assert!(smallest_promising(&LARGER_SLACK, &[Kind::RefusesWrongly]).is_none());
}

const RANGES: Ranges = Ranges {
    rows: 4,
    speed: 3,
    release: 6,
    need: 5,
    window: 16,
};

/// A table with an order under which no row has a slot to spare, each deadline moved by
/// up to a slot.
fn tight_table(random: &mut Random) -> Table {
    let table = table_in(random, RANGES);
    let order = random.one_of(&orders(&table));
    tight_under(random, &table, &order, &[-1, 0, 1])
}

/// The first case worked out by hand whose planner's answer tells each fault; random
/// tables tell it as well.
#[test]
fn cases_and_random_tables_that_tell_a_fault() {
    let at_normal = "in time at N, and its promise fails";
    let expected = [
        (&PROMISE_AT_NORMAL, at_normal),
        (&NOT_JUDGED, at_normal),
        (&LARGER_SLACK, at_normal),
        (
            &ALLOWANCE_OF_WORK,
            "kept at its deadline, and not a slot before",
        ),
        (
            &PART_WITHOUT_LOADING,
            "K 1: loading counts in the promise too",
        ),
        (
            &SHORT_ABOVE,
            "a longer allowance, and the HI row below is late",
        ),
        (
            &MOMENT_IS_FINISH,
            "kept in time, though the row is dropped too late at G",
        ),
    ];
    let mut random = Random::seeded(75);
    let tables: Vec<Table> = (0..4_000).map(|_| tight_table(&mut random)).collect();
    assert_told(&expected, &promises(), &tables, 8);
}

/// The first run worked out by hand that tells each allowance with a fault.
#[test]
fn runs_that_tell_an_allowance() {
    let expected: [(Allowance, Option<&str>); 3] = [
        (of_both, None),
        (
            of_work,
            Some("dropped with its allowance of 3 slots, r is 3"),
        ),
        (
            without_loading,
            Some("K 2: dropped with its allowance of 2 + 3 slots"),
        ),
    ];
    for (allowance, first) in expected {
        let told = promise_runs().into_iter().find(|case| {
            let mut state = State::FRESH;
            for &supply in &case.supplies {
                step(&case.table, &case.order, &mut state, supply, allowance);
            }
            state != run(&case.table, &case.order, &case.supplies)
        });
        assert_eq!(told.map(|case| case.what), first);
    }
}

const PROMISES_IGNORED: Search = Search {
    name: "promises ignored in the search",
    least: |table, sought| least(&table.without_promises(), sought),
};

/// The planner at the speed found is asked with promises, and the search without.
const IGNORED_BUT_PLANNED: Search = Search {
    name: "the speed sought without promises, the order with them",
    least: |table, sought| {
        let found = least(&table.without_promises(), sought);
        let made = plan(&sought.put(table, found.speed.max(1)));
        Least {
            order: made.order,
            ..found
        }
    },
};

#[test]
fn promises_ignored_in_a_search() {
    let is_wrong = |table: &Table| {
        let (sought, search) = (Sought::Degraded, PROMISES_IGNORED.least);
        let (truth, faulty) = (least(table, sought), search(table, sought));
        (truth != faulty).then_some((*table, truth, faulty))
    };
    let (table, truth, faulty) = first_promising_of(&is_wrong).expect(PROMISES_IGNORED.name);
    println!("{}\n  {}", PROMISES_IGNORED.name, figures(&table));
    // G has to be 2 for a promise of 2 work units in 1 slot.
    assert_eq!(table, table_of(2, 1, &[[0, 2, 1, 0, 2]]));
    assert_eq!((truth, faulty), (least_of(2, &[1]), least_of(1, &[1])));
    let (cases, searches) = (accepted_cases(), random_searches());
    for search in [&PROMISES_IGNORED, &IGNORED_BUT_PLANNED] {
        let [by_case, by_table] = [&cases, &searches].map(|of| told_by(search, of));
        println!("{}: cases {by_case:?}, tables {by_table:?}", search.name);
        for sought in BOTH {
            let of = sought as usize;
            assert!(by_case[of] > 1 && by_table[of] > 5, "{}", search.name);
        }
    }
}

/// The checks on a table, with `check_rows` in the place of 5 and 12.
fn check_with(table: &Table, check_rows: fn(&[Row]) -> u32) -> u32 {
    if !count_is_within_limit(table.n) {
        return 3;
    }
    if !speeds_are_within_limits(table.normal, table.degraded) {
        return 4;
    }
    if !loading_is_within_limit(table.loading) {
        return 11;
    }
    let full = Table { n: 64, ..*table }.rows();
    let (rows, after) = full.split_at(table.n as usize);
    match check_rows(rows) {
        0 if !after.iter().all(row_is_zero) => 5,
        number => number,
    }
}

/// 12 is asked of a row before the rows after it have passed 5.
fn promise_before_other_rows(rows: &[Row]) -> u32 {
    let check = |row: &Row| match row {
        row if !row_is_within_limits(row) => 5,
        row if !promise_is_within_limit(row) => 12,
        _ => 0,
    };
    rows.iter()
        .map(check)
        .find(|&number| number != 0)
        .unwrap_or(0)
}

/// 12 is asked of all rows before any of them has passed 5.
fn promises_first(rows: &[Row]) -> u32 {
    if !rows.iter().all(promise_is_within_limit) {
        return 12;
    }
    if rows.iter().all(row_is_within_limits) {
        0
    } else {
        5
    }
}

/// HI rows may promise a part as LO rows may.
fn high_rows_may_promise(rows: &[Row]) -> u32 {
    if !rows.iter().all(row_is_within_limits) {
        5
    } else if rows.iter().all(|row| row.promised <= row.work) {
        0
    } else {
        12
    }
}

/// A promise may be above the work.
fn any_promise(rows: &[Row]) -> u32 {
    let high = |row: &&Row| row.level == HI;
    if !rows.iter().all(row_is_within_limits) {
        5
    } else if rows.iter().filter(high).all(|row| row.promised == 0) {
        0
    } else {
        12
    }
}

/// The cases that tell a check with a fault (against rules 5.9 and 11.3).
#[test]
fn cases_that_tell_a_check() {
    let told = |check_rows: fn(&[Row]) -> u32| {
        told_by_cases(checked_promises(), |table| check_with(table, check_rows))
    };
    let later_row = "12 before 5 in a later row";
    assert_eq!(told(promise_before_other_rows), [later_row]);
    let first = [
        later_row,
        "12 after 5 in an earlier row",
        "12 and 5 in one row",
        "no work, and a promise",
    ];
    assert_eq!(told(promises_first), first);
    let high = ["HI with a promise", "HI with r = c"];
    assert_eq!(told(high_rows_may_promise), high);
    assert_eq!(
        told(any_promise),
        ["r above c", "r far above c", "in row 2"]
    );
}

/// A planned row that has no slack to spare for its promise has its part at its deadline
/// and not a slot before (against rule 9.18), in cases and in random tables.
#[test]
fn a_promise_is_not_kept_a_slot_early() {
    // Has the row its part so many slots before its deadline, with every slot at G?
    let has_before = |table: &Table, row: u8, slots: u32| {
        let order = plan(table).order;
        let mut state = State::FRESH;
        while state.clock < table.row(row).deadline - slots {
            running_step(table, &order, &mut state, table.degraded);
        }
        has_promised(table, &state, row)
    };
    for (table, row) in [(promising_preview(3, 3), 1), (promise_at_deadline(), 2)] {
        assert!(has_before(&table, row, 0) && !has_before(&table, row, 1));
    }
    let mut random = Random::seeded(76);
    let (mut early, mut at_deadline) = (0, 0);
    for _ in 0..2_000 {
        let table = tight_table(&mut random);
        let rows = (1..=table.n as u8).filter(|&row| table.row(row).promised > 0);
        if plan(&table).number == 0 {
            for row in rows {
                assert!(has_before(&table, row, 0), "{table:?}");
                *(if has_before(&table, row, 1) {
                    &mut early
                } else {
                    &mut at_deadline
                }) += 1;
            }
        }
    }
    println!("{early} promises kept a slot early, {at_deadline} just at the deadline");
    assert!(early > 100 && at_deadline > 100);
}
