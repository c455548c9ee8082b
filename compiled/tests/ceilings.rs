//! The planner of the library at ceilings (section 23 of the rules) against the model's, and on
//! tables for which the model takes too long against what the plain planners count: number,
//! whole order, rows left and the trials made. Ceilings are in trials.

mod common;

use common::planning::{at_ceiling, by_both};
use common::{
    for_each_small_table, large_table, small_table, spoil_by_several, Kinds, Loadings, Tally,
    MODEL_LARGE, TABLE_CHECKS,
};
use compiled::library;
use compiled::sheets::{
    chain, easy_loading, grouped, hard_loading, largest, late_promises, longest_windows,
    one_period, promising, staggered, tight,
};
use model::cases::ceilings::{ceilings, most_tried};
use model::plan::{most_trials, plan_within, Counted, Plan};
use model::program::planning_program;
use model::random::Random;
use model::sheet::sheet_of;
use model::speeds::BOTH;
use model::table::{check_table, Table, LO, MOST_LOADING};

/// The numbers that the planner answers at a ceiling (rule 11.11).
const NUMBERS: [u32; 11] = [0, 3, 4, 5, 7, 11, 12, 13, 14, 15, 19];

/// The library's answer at this ceiling is this one; gives its number.
fn compare(table: &Table, ceiling: u32, expected: &Counted, tally: &mut Tally<u32>) -> u32 {
    let answer = library::plan_within(table, ceiling);
    assert_eq!(answer, *expected, "ceiling {ceiling}: {table:?}");
    tally.saw(answer.plan.number);
    answer.plan.number
}

/// The same for each of these ceilings and this answer and count, which the highest ceiling and
/// that of n × (n + 1) / 2 give too; and the plan is that of planning without a ceiling (rules
/// 23.8 and 23.9).
fn compare_at(
    table: &Table,
    counted: (Plan, u32),
    ceilings: impl IntoIterator<Item = u32>,
    tally: &mut Tally<u32>,
) {
    for ceiling in ceilings {
        compare(table, ceiling, &at_ceiling(counted, ceiling), tally);
    }
    let (plan, trials) = counted;
    assert_eq!(library::plan(table), plan, "{table:?}");
    assert!(trials <= most_trials(table.n), "{trials}: {table:?}");
    for enough in [most_trials(table.n), u32::MAX] {
        compare(table, enough, &Counted { plan, trials }, tally);
    }
}

/// The same for every ceiling up to the count and the next.
fn compare_every(table: &Table, counted: (Plan, u32), tally: &mut Tally<u32>) {
    compare_at(table, counted, 0..=counted.1 + 1, tally);
}

/// The same against the model, which plans at each of these ceilings, and the plain planners.
fn compare_with_model(table: &Table, tally: &mut Tally<u32>) -> Counted {
    let counted = plan_within(table, u32::MAX);
    for ceiling in 0..=counted.trials + 1 {
        compare(table, ceiling, &plan_within(table, ceiling), tally);
    }
    assert_eq!(by_both(table), (counted.plan, counted.trials), "{table:?}");
    compare_at(table, by_both(table), [], tally);
    counted
}

/// Ceilings about the count, anywhere up to it, of one bit, and any.
fn some_ceilings(random: &mut Random, count: u32) -> Vec<u32> {
    let mut ceilings = vec![0, 1, count - 1, count, count + 1, random.word() as u32];
    ceilings.extend([(); 6].map(|()| random.between(0, count)));
    ceilings.extend([(); 4].map(|()| 1 << random.between(0, 31)));
    ceilings
}

#[test]
fn tables_worked_out_by_hand() {
    let mut tally = Tally::new("ceilings, by hand");
    for case in ceilings() {
        let (table, answer) = (&case.table, &case.answer);
        let of_library = library::plan_within(table, case.ceiling);
        assert_eq!(of_library, *answer, "{}", case.what);
        compare_at(table, by_both(table), [case.ceiling], &mut tally);
    }
    tally.assert_only(&NUMBERS);
}

/// Every ceiling from 0 to the count and the next, and the highest one.
#[test]
fn every_ceiling_of_random_small_tables() {
    let mut random = Random::seeded(1001);
    let mut tally = Tally::new("ceilings, random small tables");
    let mut counts = Tally::new("ceilings, random small tables, trials that they take");
    let mut by_answer = [(); 2].map(|()| Loadings::new("ceilings, small tables with 0 or 7, by K"));
    let mut kinds = [(); 2].map(|()| Kinds::new("ceilings, small tables with 0 or 7, by kind"));
    for _ in 0..20_000 {
        let table = small_table(&mut random);
        let Counted { plan, trials } = compare_with_model(&table, &mut tally);
        counts.saw(trials);
        by_answer[usize::from(plan.number == 7)].saw(plan.number, &table);
        kinds[usize::from(plan.number == 7)].saw(plan.number, &table);
    }
    tally.assert_common(&[0, 7, 19], 30_000);
    counts.assert_common(&[1, 2, 3, 4, 5, 6, 7, 8, 9, 10], 100);
    by_answer.iter().for_each(|seen| seen.assert_every(100));
    kinds.iter().for_each(|seen| seen.assert_all(400));
}

/// The same on every eleventh table of the grid.
#[test]
fn every_ceiling_of_the_grid() {
    let mut tally = Tally::new("ceilings, tables of the grid");
    let mut index = 0;
    for_each_small_table(|table| {
        index += 1;
        if index % 11 == 0 {
            compare_with_model(table, &mut tally);
        }
    });
    tally.assert_common(&[0, 7, 19], 40_000);
}

#[test]
fn larger_tables_that_the_model_plans() {
    let mut random = Random::seeded(1002);
    let mut tally = Tally::new("ceilings, up to 64 rows against the model");
    for round in 0..150 {
        let table = tight(&mut random, 1 + round % 64, MODEL_LARGE);
        let Counted { plan, trials } = plan_within(&table, u32::MAX);
        let ceiling = random.between(0, trials);
        let of_model = plan_within(&table, ceiling);
        compare(&table, ceiling, &of_model, &mut tally);
        compare_every(&table, (plan, trials), &mut tally);
    }
    tally.assert_common(&[0, 7, 19], 200);
}

/// Large tables at some ceilings, those of one bit among them.
#[test]
fn random_large_tables() {
    let mut random = Random::seeded(1003);
    let mut tally = Tally::new("ceilings, random tables of up to 64 rows");
    let mut counts = Tally::new("ceilings, trials that they take, by powers of two");
    let mut loadings = Loadings::new("ceilings, random tables of up to 64 rows, by K");
    let mut kinds = Kinds::new("ceilings, random tables of up to 64 rows, by promises and waits");
    for _ in 0..10_000 {
        let table = large_table(&mut random);
        let (plan, count) = by_both(&table);
        let ceilings = some_ceilings(&mut random, count);
        compare_at(&table, (plan, count), ceilings, &mut tally);
        counts.saw(count.ilog2());
        loadings.saw(plan.number, &table);
        kinds.saw(plan.number, &table);
    }
    tally.assert_common(&[0, 7, 19], 20_000);
    counts.assert_common(&[3, 4, 5, 6, 7, 8, 9], 100);
    loadings.assert_every(200);
    kinds.assert_all(1_000);
}

/// Sixty-four rows that take few trials or many, at every ceiling; with some all rows are left.
#[test]
fn tables_of_64_rows() {
    let mut tally = Tally::new("ceilings, tables of 64 rows");
    for loading in [0, 1, MOST_LOADING] {
        let hard = hard_loading(64, loading);
        let mut low = largest(0).with_loading(loading);
        low.level = [LO; 64];
        let tables = [
            hard,
            promising(&hard),
            easy_loading(64, loading),
            one_period(64, loading),
            staggered(64, loading),
            late_promises(64, loading),
            chain(64, loading),
            grouped(64, loading),
            longest_windows().with_loading(loading),
            largest(999_999).with_loading(loading),
            low,
        ];
        for table in tables {
            compare_every(&table, by_both(&table), &mut tally);
        }
    }
    tally.assert_common(&[0, 7, 19], 24);
}

/// Tables that take the most trials there can be (rule 23.3), the largest and the small ones at
/// every ceiling. All calls that plan without a ceiling plan them too (rule 23.9).
#[test]
fn tables_that_take_the_most_trials() {
    let mut tally = Tally::new("ceilings, tables that take the most trials");
    for n in 1..=64 {
        let table = most_tried(n);
        let (plan, count) = by_both(&table);
        assert_eq!((plan.number, count), (0, most_trials(n)), "{n} rows");
        let from = if n <= 12 || n == 64 { 0 } else { count - 1 };
        compare_at(&table, (plan, count), from..=count + 1, &mut tally);
        let asked = library::ask(&sheet_of(&table));
        assert_eq!((asked.number, asked.order), (0, plan.order), "{n} rows");
        for sought in BOTH {
            assert_eq!(library::least(&table, sought).number, 0, "{n} rows");
        }
    }
    let sheet = sheet_of(&most_tried(8));
    assert_eq!(library::program(&sheet), planning_program(&sheet));
    tally.assert_only(&[0, 19]);
}

/// A table that is refused is refused at every ceiling, with zeros and no trial (rule 23.7).
#[test]
fn refused_tables() {
    let mut random = Random::seeded(1004);
    let mut tally = Tally::new("ceilings, refused tables");
    for _ in 0..20_000 {
        let mut table = if random.once_in(2) {
            small_table(&mut random)
        } else {
            large_table(&mut random)
        };
        spoil_by_several(&mut random, &mut table);
        let number = check_table(&table);
        if number != 0 {
            let refused = (Plan::refused(number, 0), 0);
            let ceilings = [0, 1, 6, random.word() as u32];
            compare_at(&table, refused, ceilings, &mut tally);
        }
    }
    tally.assert_common(&TABLE_CHECKS, 1_000);
}
