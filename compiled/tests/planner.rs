//! The planner of the library against the model's, and on tables for which the
//! model takes too long against the plain ones, which are compared with the model
//! here as well. Every loading time from 0 to 16 slots comes up, and tables with
//! promises and waits and without. Where busy periods and ties decide: `periods`.

mod common;

use common::planning::{by_both, compare, compare_all, compare_plain};
use common::{
    for_each_small_table, large_table, small_table, spoil_table, Kinds, Loadings, Tally,
    MODEL_LARGE, TABLE_CHECKS,
};
use compiled::library;
use compiled::sheets::{
    chain, easy_loading, grouped, hard_loading, largest, late_promises, one_period, promising,
    staggered, tight,
};
use model::order::NO_ORDER;
use model::plan::Plan;
use model::random::Random;
use model::table::{check_table, Table, LO};

#[test]
fn all_small_tables() {
    let mut tally = Tally::new("planner, all tables of the grid");
    let mut loadings = Loadings::new("planner, all tables of the grid, by K");
    for_each_small_table(|table| {
        let number = compare_all(table, &mut tally);
        loadings.saw(number, table);
    });
    tally.assert_common(&[0, 7], 100_000);
    loadings.assert_every(14_000);
}

#[test]
fn random_small_tables() {
    let mut random = Random::seeded(201);
    let mut tally = Tally::new("planner, random small tables");
    let mut rows_left = Tally::new("planner, rows left after 7 or 0");
    let mut by_answer = [
        Loadings::new("planner, random small tables with an order, by K"),
        Loadings::new("planner, random small tables without, by K"),
    ];
    let mut kinds = [
        Kinds::new("planner, random small tables with an order, by promises and waits"),
        Kinds::new("planner, random small tables without, by promises and waits"),
    ];
    for _ in 0..60_000 {
        let table = small_table(&mut random);
        let number = compare_all(&table, &mut tally);
        by_answer[usize::from(number == 7)].saw(number, &table);
        kinds[usize::from(number == 7)].saw(number, &table);
        rows_left.saw(library::plan(&table).left.count_ones());
    }
    tally.assert_common(&[0, 7], 15_000);
    rows_left.assert_common(&[0, 1, 2, 3, 4], 1_000);
    for loadings in &by_answer {
        loadings.assert_every(400);
    }
    for kinds in &kinds {
        kinds.assert_all(1_500);
    }
}

#[test]
fn larger_tables_that_the_model_plans() {
    let mut random = Random::seeded(202);
    let mut tally = Tally::new("planner, up to 64 rows against the model");
    let mut loadings = Loadings::new("planner, up to 64 rows against the model, by K");
    for round in 0..300 {
        let table = tight(&mut random, 1 + round % 64, MODEL_LARGE);
        let number = compare_all(&table, &mut tally);
        loadings.saw(number, &table);
    }
    for n in [4, 16, 64] {
        for loading in [0, 1, 3] {
            compare_all(&easy_loading(n, loading), &mut tally);
            compare_all(&hard_loading(n, loading), &mut tally);
            compare_all(&one_period(n, loading), &mut tally);
            compare_all(&staggered(n, loading), &mut tally);
            compare_all(&promising(&hard_loading(n, loading)), &mut tally);
            compare_all(&late_promises(n, loading), &mut tally);
            compare_all(&chain(n, loading), &mut tally);
            compare_all(&grouped(n, loading), &mut tally);
        }
    }
    tally.assert_common(&[0, 7], 50);
    loadings.assert_every(2);
}

#[test]
fn random_large_tables() {
    let mut random = Random::seeded(203);
    let mut tally = Tally::new("planner, random tables of up to 64 rows");
    let mut trials = Tally::new("planner, rows tried, by powers of two");
    let mut by_answer = [
        Loadings::new("planner, random large tables with an order, by K"),
        Loadings::new("planner, random large tables without, by K"),
    ];
    let mut kinds = [
        Kinds::new("planner, random large tables with an order, by promises and waits"),
        Kinds::new("planner, random large tables without, by promises and waits"),
    ];
    for _ in 0..100_000 {
        let table = large_table(&mut random);
        let (number, tried) = compare_plain(&table, &mut tally);
        by_answer[usize::from(number == 7)].saw(number, &table);
        kinds[usize::from(number == 7)].saw(number, &table);
        trials.saw(tried.ilog2());
    }
    tally.assert_common(&[0, 7], 25_000);
    trials.assert_common(&[3, 4, 5, 6], 1_000);
    for loadings in &by_answer {
        loadings.assert_every(700);
    }
    for kinds in &kinds {
        kinds.assert_all(5_000);
    }
}

#[test]
fn refused_tables() {
    let mut random = Random::seeded(204);
    let mut tally = Tally::new("planner, refused tables");
    for round in 0..60_000 {
        let mut table = if random.once_in(2) {
            small_table(&mut random)
        } else {
            large_table(&mut random)
        };
        spoil_table(&mut random, &mut table, TABLE_CHECKS[round % 8]);
        if random.once_in(4) {
            table.degraded = random.between(0, 1_002);
        }
        if check_table(&table) != 0 {
            compare_all(&table, &mut tally);
        }
    }
    tally.assert_common(&TABLE_CHECKS, 4_000);
}

/// Sixty-four rows of the largest work at speed 1: the lowest place finishes at
/// 64,000,000 slots, or later by the release and by what all rows load.
#[test]
fn largest_works() {
    let mut tally = Tally::new("planner, largest works");
    for (release, loading) in [(0, 0), (1, 0), (999_999, 0), (0, 1), (999_999, 16)] {
        let high = largest(release).with_loading(loading);
        let mut low = high;
        low.level = [LO; 64];
        let promising = Table {
            promised: low.work,
            ..low
        };
        for table in [high, low, promising] {
            let none = Plan {
                number: 7,
                order: NO_ORDER,
                left: u64::MAX,
            };
            assert_eq!(by_both(&table).0, none);
            compare(&table, &none, &mut tally);
        }
    }
    // One such row alone just fits from slot 0.
    let mut one = Table::ZERO;
    (one.n, one.normal, one.degraded) = (1, 1, 1);
    (one.work[0], one.deadline[0]) = (1_000_000, 1_000_000);
    compare_all(&one, &mut tally);
    one.loading = 1;
    compare_all(&one, &mut tally);
    (one.release[0], one.loading) = (1, 0);
    compare_all(&one, &mut tally);
    // With 16 slots of loading it is the one with 16 slots less work.
    (one.release[0], one.loading) = (0, 16);
    one.work[0] = 999_984;
    compare_all(&one, &mut tally);
    tally.assert_common(&[7], 17);
    tally.assert_common(&[0], 2);
}
