//! The judge and the worst finishes of the library against the model's, and on
//! large tables against the plain ones. Every loading time from 0 to 16 slots
//! comes up, and tables with promises and waits and without.

mod common;

use common::{
    any_order, for_each_small_table, large_table, small_table, spoil_table, Kinds, Loadings, Tally,
    TABLE_CHECKS,
};
use compiled::library;
use compiled::sheets::largest;
use model::cases::{row, table};
use model::judge::{judge, judge_table, Verdict};
use model::order::{check_order, check_table_and_order, order_of, Order};
use model::plain;
use model::plan::worst_finish;
use model::random::{random_order, Random};
use model::table::{Row, Table, MOST_LOADING, ROWS};

/// What the judge said, for the tallies.
#[derive(Debug, PartialEq, Eq, PartialOrd, Ord)]
enum Said {
    Yes,
    No,
    Refused(u32),
}

fn said(verdict: &Verdict) -> Said {
    match (verdict.number, verdict.yes) {
        (0, true) => Said::Yes,
        (0, false) => Said::No,
        (number, _) => Said::Refused(number),
    }
}

/// The worst finishes of the model, in slots, every slot worked.
fn finishes_on_paper(table: &Table, order: &Order) -> (u32, [u32; ROWS]) {
    let mut finishes = [0; ROWS];
    let number = check_table_and_order(table, order);
    if number == 0 {
        for row in 1..=table.n as u8 {
            finishes[row as usize - 1] = worst_finish(table, order, row);
        }
    }
    (number, finishes)
}

fn compare_with_model(table: &Table, order: &Order, tally: &mut Tally<Said>) {
    let verdict = judge_table(table, order);
    let finishes = finishes_on_paper(table, order);
    assert_eq!(plain::judge(table, order), verdict, "{table:?} {order:?}");
    assert_eq!(
        plain::finishes(table, order),
        finishes,
        "{table:?} {order:?}"
    );
    compare(table, order, verdict, finishes, tally);
}

fn compare_with_plain(table: &Table, order: &Order, tally: &mut Tally<Said>) {
    let verdict = plain::judge(table, order);
    let finishes = plain::finishes(table, order);
    compare(table, order, verdict, finishes, tally);
}

fn compare(
    table: &Table,
    order: &Order,
    verdict: Verdict,
    finishes: (u32, [u32; ROWS]),
    tally: &mut Tally<Said>,
) {
    assert_eq!(library::judge(table, order), verdict, "{table:?} {order:?}");
    assert_eq!(
        library::finishes(table, order),
        finishes,
        "{table:?} {order:?}"
    );
    tally.saw(said(&verdict));
}

#[test]
fn all_small_tables() {
    let mut random = Random::seeded(301);
    let mut tally = Tally::new("judge, all tables of the grid");
    let mut loadings = Loadings::new("judge, all tables of the grid, by K");
    for_each_small_table(|table| {
        let order = any_order(&mut random, table, 8);
        compare_with_model(table, &order, &mut tally);
        loadings.saw(check_order(table, &order), table);
    });
    loadings.assert_every(12_000);
    let common = [Said::Yes, Said::No, Said::Refused(6)];
    tally.assert_common(&common, 20_000);
}

#[test]
fn random_large_tables() {
    let mut random = Random::seeded(302);
    let mut tally = Tally::new("judge, random tables of up to 64 rows");
    let mut loadings = Loadings::new("judge, random tables of up to 64 rows, by K");
    let mut kinds = Kinds::new("judge, random tables of up to 64 rows, by promises and waits");
    for _ in 0..50_000 {
        let table = large_table(&mut random);
        let order = any_order(&mut random, &table, 8);
        compare_with_plain(&table, &order, &mut tally);
        loadings.saw(check_order(&table, &order), &table);
        kinds.saw(check_order(&table, &order), &table);
        let planned = library::plan(&table);
        if planned.number == 0 {
            compare_with_plain(&table, &planned.order, &mut tally);
        }
    }
    loadings.assert_every(1_000);
    kinds.assert_all(10_000);
    let common = [Said::Yes, Said::No, Said::Refused(6)];
    tally.assert_common(&common, 5_000);
}

#[test]
fn refused_tables_and_orders() {
    let mut random = Random::seeded(303);
    let mut tally = Tally::new("judge, refusals");
    for round in 0..50_000 {
        let mut table = small_table(&mut random);
        let order = any_order(&mut random, &table, 2);
        if let Some(&number) = TABLE_CHECKS.get(round % 9) {
            spoil_table(&mut random, &mut table, number);
        }
        compare_with_model(&table, &order, &mut tally);
    }
    tally.assert_common(&TABLE_CHECKS.map(Said::Refused), 3_000);
    tally.assert_common(&[Said::Refused(6)], 2_000);
}

/// Two rows or more of the same least slack: the lower row is named, wherever
/// it stands in the order.
#[test]
fn ties() {
    let mut random = Random::seeded(304);
    let mut ties = Tally::new("judge, rows that share the least slack");
    let mut tally = Tally::new("judge, ties");
    let mut loadings = Loadings::new("judge, ties, by K");
    for _ in 0..50_000 {
        let table = small_table(&mut random);
        let order = random_order(&mut random, &table);
        compare_with_model(&table, &order, &mut tally);
        let verdict = library::judge(&table, &order);
        let (_, slacks) = plain::slacks(&table, &order);
        let shares = |&index: &usize| slacks[index] == verdict.slack;
        let sharing: Vec<usize> = (0..table.n as usize).filter(shares).collect();
        assert_eq!(sharing[0] + 1, verdict.row as usize);
        ties.saw(sharing.len());
        if sharing.len() > 1 {
            loadings.saw(verdict.number, &table);
        }
    }
    ties.assert_common(&[1, 2], 2_000);
    ties.assert_common(&[3], 100);
    loadings.assert_every(10);
    let equal = table(1, 1, &[[0, 1, 3, 0], [0, 1, 2, 1], [0, 1, 1, 0]]);
    let order = model::order::order_of(&[3, 2, 1]);
    let expected = judge(1, 1, 0, &equal.rows(), &order);
    assert_eq!((expected.row, expected.slack), (1, 0));
    compare_with_model(&equal, &order, &mut tally);
    // With 1 slot of loading the lowest row has the least slack.
    let expected = judge(1, 1, 1, &equal.rows(), &order);
    assert_eq!((expected.row, expected.slack), (1, -3));
    compare_with_model(&equal.with_loading(1), &order, &mut tally);
}

/// Slacks down to about minus 64 million slots.
#[test]
fn largest_works() {
    let mut random = Random::seeded(305);
    let mut tally = Tally::new("judge, largest works");
    let figures = [(0, 0), (1, 0), (500_000, 9), (999_999, 0), (999_999, 16)];
    for (release, loading) in figures {
        let table = largest(release).with_loading(loading);
        let order = random_order(&mut random, &table);
        compare_with_plain(&table, &order, &mut tally);
        let verdict = library::judge(&table, &order);
        let lowest = order[63];
        assert_eq!((verdict.row, verdict.yes), (lowest, false));
        let lowest = release + 64 * (loading + 1_000_000);
        assert_eq!(verdict.slack, 1_000_000 - i64::from(lowest));
        let (_, finishes) = library::finishes(&table, &order);
        for place in 1..=64u32 {
            let row = order[place as usize - 1];
            let finish = release + place * (loading + 1_000_000);
            assert_eq!(finishes[row as usize - 1], finish);
        }
    }
    tally.assert_common(&[Said::No], 5);
    // The largest slack there is: one slot of work, a million slots of time.
    let idle = table(1, 1, &[[0, 1, 1_000_000, 1]]);
    let order = model::order::order_of(&[1]);
    compare_with_model(&idle, &order, &mut tally);
    assert_eq!(library::judge(&idle, &order).slack, 999_999);
}

/// Lists of 0, 1, 64, 65 and 1,000 rows, and of every length between, as the
/// judge borrows them.
#[test]
fn lists_of_rows() {
    let mut random = Random::seeded(505);
    let mut tally = Tally::new("judge, lists of rows");
    let mut loadings = Loadings::new("judge, lists of rows, by K");
    let mut compare = |figures: [u32; 3], rows: &[Row], order: &Order| {
        let [normal, degraded, loading] = figures;
        let verdict = judge(normal, degraded, loading, rows, order);
        let found = library::judge_rows(normal, degraded, loading, rows, order);
        assert_eq!(found, verdict, "{figures:?} {rows:?} {order:?}");
        tally.saw(said(&verdict));
        verdict.number
    };
    for round in 0..20_000 {
        let mut table = small_table(&mut random);
        let order = any_order(&mut random, &table, 4);
        if let Some(&number) = [11, 12, 13, 14, 15].get(round % 10) {
            spoil_table(&mut random, &mut table, number);
        }
        let figures = [table.normal, table.degraded, table.loading];
        let number = compare(figures, &table.rows(), &order);
        loadings.saw(number, &table);
    }
    loadings.assert_every(150);
    // Every fourth row promises all of its work and follows the row four before it.
    let row = |index: u32| {
        let (work, deadline) = (1 + index % 5, 200 + index % 50);
        let (promised, follows) = match index % 4 {
            0 => (work, index.saturating_sub(3)),
            _ => (0, 0),
        };
        row([index / 20, work, deadline, index % 2, promised, follows])
    };
    let rows: Vec<Row> = (0..1_000).map(row).collect();
    for n in (0..=66).chain([100, 1_000]) {
        let places: Vec<u8> = (1..=n.min(ROWS) as u8).collect();
        let loading = n as u32 % (MOST_LOADING + 1);
        compare([5, 2, loading], &rows[..n], &order_of(&places));
        compare([2, 5, 17], &rows[..n], &order_of(&places));
    }
    tally.assert_common(&[Said::Yes, Said::No, Said::Refused(6)], 1_000);
    tally.assert_common(&[Said::Refused(3)], 8);
    tally.assert_common(&[Said::Refused(4)], 60);
    tally.assert_common(&[11, 12, 13, 14, 15].map(Said::Refused), 1_000);
}
