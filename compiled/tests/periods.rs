//! The planner of the library where busy periods and ties decide: against the model on
//! tables of up to 8 rows, and against plain Rust on those of up to 64.

mod common;

use common::periods::{joined, tied, ties, Joint, ABOUT_THE_END, IN_ONE_PERIOD};
use common::planning::{compare_all, compare_plain};
use common::{Kinds, Loadings, Tally};
use compiled::sheets::{
    chain, easy_loading, grouped, hard_loading, late_promises, one_period, promising, staggered,
};
use model::random::Random;
use model::table::{Table, MOST_LOADING};

/// Compares 20,000 small and as many large tables that `make` makes of so many rows, and
/// shows that 0 and 7 are both common, with every loading time, with promises and waits and
/// without.
fn compare_tables(of: &'static str, seed: u64, mut make: impl FnMut(&mut Random, u32) -> Table) {
    let mut random = Random::seeded(seed);
    let mut answers = Tally::new(of);
    let mut by_answer = [Loadings::new(of), Loadings::new(of)];
    let mut kinds = [Kinds::new(of), Kinds::new(of)];
    for round in 0..20_000 {
        let small = make(&mut random, 1 + round % 8);
        let number = compare_all(&small, &mut answers);
        by_answer[usize::from(number == 7)].saw(number, &small);
        kinds[usize::from(number == 7)].saw(number, &small);
        let large = make(&mut random, 1 + round % 64);
        let (number, _) = compare_plain(&large, &mut answers);
        by_answer[usize::from(number == 7)].saw(number, &large);
        kinds[usize::from(number == 7)].saw(number, &large);
    }
    answers.assert_common(&[0, 7], 10_000);
    for loadings in &by_answer {
        loadings.assert_every(250);
    }
    for kinds in &kinds {
        kinds.assert_all(1_500);
    }
}

/// Compares tables that these joints make, and gives how often each pair of gaps came
/// up, at N and at G; 2 slots and more count as 2.
fn compare_joined(of: &'static str, seed: u64, joints: &[Joint]) -> Tally<[i64; 2]> {
    let mut gaps = Tally::new(of);
    compare_tables(of, seed, |random, n| {
        let made = joined(random, n, joints);
        for pair in made.gaps {
            gaps.saw(pair.map(|gap| gap.clamp(-1, 2)));
        }
        made.table
    });
    gaps
}

#[test]
fn one_busy_period() {
    let gaps = compare_joined("planner, one busy period", 211, &IN_ONE_PERIOD);
    gaps.assert_only(&[[-1, -1]]);
}

#[test]
fn busy_periods_that_touch() {
    let gaps = compare_joined("planner, busy periods that touch", 212, &ABOUT_THE_END);
    let at_normal_alone = [[0, -1], [1, -1], [2, -1]];
    let at_both = [[0, 0], [1, 1]];
    let at_degraded_later = [[1, 0], [2, 0], [2, 1]];
    for pairs in [
        &[[-1, -1]][..],
        &at_normal_alone,
        &at_both,
        &at_degraded_later,
    ] {
        gaps.assert_common(pairs, 10_000);
    }
}

#[test]
fn tied_rows() {
    let mut quarters = Tally::new("planner, quarters of all rows that are tied");
    compare_tables("planner, tied rows", 213, |random, n| {
        let table = tied(random, n);
        quarters.saw(4 * ties(&table) / n as usize);
        table
    });
    quarters.assert_common(&[1, 2, 3, 4], 2_000);
}

/// As they are the sheets of the benchmark have an order, and with one deadline a slot
/// earlier they often have none.
#[test]
fn sheets_of_the_benchmark() {
    let mut tally = Tally::new("planner, sheets of the benchmark");
    let mut moved = Tally::new("planner, with a deadline a slot earlier");
    let mut random = Random::seeded(214);
    for n in 1..=64 {
        for loading in 0..=MOST_LOADING {
            for mut table in sheets(n, loading) {
                compare_sheet(&table, &mut tally);
                let index = random.between(0, n - 1) as usize;
                let earliest = table.release[index] + 1;
                table.deadline[index] = earliest.max(table.deadline[index] - 1);
                compare_sheet(&table, &mut moved);
            }
        }
    }
    tally.assert_only(&[0]);
    moved.assert_common(&[0, 7], 1_000);
}

/// Compares with the model where it does not take too long, with plain Rust always.
fn compare_sheet(table: &Table, tally: &mut Tally<u32>) {
    if table.n <= 8 {
        compare_all(table, tally);
    } else {
        compare_plain(table, tally);
    }
}

fn sheets(n: u32, loading: u32) -> Vec<Table> {
    let mut tables = vec![
        chain(n, loading),
        easy_loading(n, loading),
        one_period(n, loading),
        staggered(n, loading),
    ];
    tables.push(promising(&easy_loading(n, loading)));
    if n.is_multiple_of(4) {
        let hard = hard_loading(n, loading);
        tables.extend([hard, promising(&hard), late_promises(n, loading)]);
        tables.push(grouped(n, loading));
    }
    tables
}

/// What each sheet is for: how many trials it takes with so many rows, in the sequence
/// of `docs/BENCHMARKS.md`. K, in slots, changes none of them.
#[test]
fn trials_of_the_sheets() {
    let mut tally = Tally::new("planner, sheets whose trials are counted");
    let mut trials = |table: Table| compare_plain(&table, &mut tally).1;
    for loading in 0..=MOST_LOADING {
        for (n, hard, one, others, waits) in [
            (8, 26, 24, 8, 14),
            (16, 100, 80, 48, 44),
            (32, 392, 288, 203, 152),
            (64, 1_552, 1_088, 643, 560),
        ] {
            assert_eq!(trials(chain(n, loading)), n);
            assert_eq!(trials(grouped(n, loading)), waits);
            assert_eq!(trials(easy_loading(n, loading)), n);
            assert_eq!(trials(promising(&easy_loading(n, loading))), n);
            assert_eq!(trials(hard_loading(n, loading)), hard);
            assert_eq!(trials(promising(&hard_loading(n, loading))), hard);
            assert_eq!(trials(late_promises(n, loading)), hard);
            assert_eq!(trials(one_period(n, loading)), one);
            assert_eq!(trials(staggered(n, loading)), others);
        }
    }
}
