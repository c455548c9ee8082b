//! How much choice there is (section 25 of the rules): the cases, the choices
//! listed and counted by the lowest row, what the counts add up to and can be at most, and what
//! a count of 0 says.

mod common;

use common::correct::{correct_by_every_course, TINY};
use common::{all_rows, any_table, SHORT};
use model::cases::choices::{choices as cases, four_alike, ChoicesCase, LENT};
use model::choices::{
    check_counting, choices, correct_orders, count_by_listing, count_by_lowest, count_choices,
    every_row, lowest_counts, may_stand_lowest, table_alone, words, Choices, MOST_COUNTED,
    MOST_LISTED, SCRATCH,
};
use model::judge::judge_table;
use model::order::{arrangements, check_order, every_arrangement, order_of, Order, NO_ORDER};
use model::plain;
use model::plan::{plan, rows_in_word, slack};
use model::proposal::Proposal;
use model::random::commits::spoil;
use model::random::{loading_table_in, Random, Ranges};
use model::run::step;
use model::table::{check_table, Row, Table, ROWS};
use std::collections::HashSet;

/// The counting of a call.
type Counting = fn(&Table, &mut [u32]) -> Choices;

/// What a call answers, and the scratch afterwards.
fn called(by: Counting, table: &Table, lent: usize) -> (Choices, Vec<u32>) {
    let mut scratch = vec![LENT; lent];
    let answer = by(table, &mut scratch);
    (answer, scratch)
}

/// 1 × 2 × ... × k.
fn factorial(k: u32) -> u32 {
    (1..=k).product()
}

/// How often a table had no choice, all arrangements, or a number between.
#[derive(Default, Debug)]
struct Seen {
    none: u32,
    between: u32,
    all: u32,
}

impl Seen {
    fn saw(&mut self, table: &Table, count: u32) {
        match count {
            0 => self.none += 1,
            _ if count == factorial(table.n) => self.all += 1,
            _ => self.between += 1,
        }
    }

    /// Fails unless each came up so many times.
    fn assert_all(&self, least: u32) {
        println!("choices: {self:?}");
        let all = [self.none, self.between, self.all];
        assert!(all.iter().all(|&times| times >= least), "{self:?}");
    }
}

/// The scratch of a case afterwards: what it tells, and sevens after it.
fn scratch_of(case: &ChoicesCase) -> Vec<u32> {
    let mut scratch = case.entries.clone();
    scratch.resize(case.lent, LENT);
    scratch
}

/// Each case as it says, by every way of counting; no two have the same name.
#[test]
fn choices_of_the_cases() {
    let mut names = HashSet::new();
    for case in cases() {
        let (what, table) = (case.what, &case.table);
        let told = (case.answer, scratch_of(&case));
        let mut ways: Vec<Counting> = vec![count_choices, count_by_lowest, plain::count_choices];
        if table.n <= 4 || case.answer.number != 0 {
            ways.push(count_by_listing);
        } else {
            assert_eq!(table.n, MOST_COUNTED, "{what}");
        }
        for by in ways {
            assert!(called(by, table, case.lent) == told, "{what}");
        }
        let entries = case.entries.len();
        assert_eq!(
            entries,
            if case.answer.number == 0 {
                1 << table.n
            } else {
                0
            }
        );
        assert!(names.insert(what), "{what} twice");
    }
    let numbers: HashSet<u32> = cases().iter().map(|case| case.answer.number).collect();
    let all = [0, 3, 4, 5, 10, 11, 12, 13, 14, 15, 20];
    assert_eq!(numbers, HashSet::from(all));
}

/// Listing every arrangement and counting by the lowest row give the same answer and the same
/// scratch (rule 25.7), and so do sweeps.
#[test]
fn listed_and_counted_by_the_lowest_row() {
    let mut random = Random::seeded(151);
    let mut seen = Seen::default();
    let (mut waiting, mut promising) = (0, 0);
    let mut loadings = [0; 4];
    let rounds = [
        (1, 100),
        (2, 700),
        (3, 1_500),
        (4, 1_500),
        (5, 400),
        (6, 80),
        (7, 12),
    ];
    for (rows, times) in rounds {
        for _ in 0..times {
            let table = any_table(&mut random, rows);
            assert!(table.n <= MOST_LISTED);
            let listed = called(count_by_listing, &table, SCRATCH + 2);
            for by in [count_choices, count_by_lowest, plain::count_choices] {
                assert!(called(by, &table, SCRATCH + 2) == listed, "{table:?}");
            }
            let (answer, scratch) = listed;
            assert!(scratch[1 << rows..].iter().all(|&entry| entry == LENT));
            if rows > 1 {
                seen.saw(&table, answer.count);
            }
            waiting += u32::from(table != table.without_waits());
            promising += u32::from(table != table.without_promises());
            loadings[table.loading as usize] += 1;
        }
    }
    println!("{waiting} tables with waits, {promising} with promises, by loading {loadings:?}");
    seen.assert_all(500);
    assert!(waiting > 800 && promising > 800);
    assert!(loadings.iter().all(|&times| times > 800));
}

/// The choices of a table are the orders that the judge says yes to (rules 7.2 and 25.2), of a
/// word those of its rows alone, and a word without a row has one (rule 25.3).
#[test]
fn every_arrangement_is_judged() {
    let mut random = Random::seeded(152);
    for round in 0..600 {
        let table = any_table(&mut random, 1 + round % 4);
        let judged = |table: &Table| {
            let mut orders = every_arrangement(table.n);
            orders.retain(|numbers| judge_table(table, numbers).yes);
            orders
        };
        assert_eq!(correct_orders(&table), judged(&table));
        let (answer, scratch) = called(count_by_lowest, &table, SCRATCH);
        assert_eq!(scratch[0], 1);
        for word in words(&table).skip(1) {
            let alone = table_alone(&table, word);
            assert_eq!(check_table(&alone), 0, "{table:?} {word}");
            let choices = judged(&alone).len() as u32;
            assert_eq!(scratch[word as usize], choices, "{table:?} {word}");
        }
        assert_eq!(answer.lowest, lowest_counts(&table));
        assert_eq!(answer.count, choices(&table));
    }
}

/// The choices are the orders that are correct under every course of speed (rules 3.4 and 25.2).
#[test]
fn correct_under_every_course_of_speed() {
    let mut random = Random::seeded(153);
    let mut seen = Seen::default();
    for round in 0..600 {
        let loading = random.between(0, 1);
        let table = loading_table_in(&mut random, 2 + round % 2, loading, TINY);
        let correct = |numbers: &&Order| {
            check_order(&table, numbers) == 0 && correct_by_every_course(step, &table, numbers)
        };
        let count = every_arrangement(table.n).iter().filter(correct).count() as u32;
        assert_eq!(called(count_by_lowest, &table, SCRATCH).0.count, count);
        seen.saw(&table, count);
    }
    seen.assert_all(30);
}

/// The table of a word alone has its rows' figures; a row of the word that was followed is
/// followed under its new number, and one outside it is not (rule 25.3).
#[test]
fn rows_of_a_word_alone() {
    let follows = |table: &Table, word| {
        let alone = table_alone(table, word);
        alone.follows[..alone.n as usize].to_vec()
    };
    let table = four_alike(1, 2);
    assert_eq!(follows(&table, 0b1111), [0, 0, 1, 2]);
    assert_eq!(follows(&table, 0b1110), [0, 0, 1]);
    assert_eq!(follows(&table, 0b1101), [0, 1, 0]);
    assert_eq!(follows(&table, 0b1010), [0, 1]);
    assert_eq!(follows(&table, 0b1100), [0, 0]);
    assert_eq!(follows(&table, 0b1000), [0]);
    assert_eq!(table_alone(&table, 0b1111), table);
    let mut random = Random::seeded(154);
    for _ in 0..500 {
        let rows = random.between(1, 7);
        let table = any_table(&mut random, rows);
        let word = random.word() & every_row(&table);
        let alone = table_alone(&table, word);
        let speeds = |of: &Table| [of.normal, of.degraded, of.loading];
        assert_eq!(speeds(&alone), speeds(&table));
        assert_eq!(alone.n, word.count_ones());
        for (new, old) in (1..).zip(rows_in_word(word)) {
            let (row, before) = (alone.row(new), table.row(old));
            let figures = |row: Row| row.figures()[..5].to_vec();
            assert_eq!(figures(row), figures(before));
            if row.follows != 0 {
                let followed = rows_in_word(word)[row.follows as usize - 1];
                assert_eq!(u32::from(followed), before.follows);
            } else {
                let outside = before.follows == 0 || word >> (before.follows - 1) & 1 == 0;
                assert!(outside, "{table:?} {word}");
            }
        }
        let rest = &alone.release[alone.n as usize..];
        assert!(rest.iter().all(|&release| release == 0));
    }
}

/// Where no row of a word follows the lowest, its slack is the same in whatever order the others
/// stand above it, also if they break waits (rule 25.7).
#[test]
fn whatever_stands_above() {
    let mut random = Random::seeded(155);
    let (mut looked_at, mut broken) = (0, 0);
    for round in 0..800 {
        let table = any_table(&mut random, 2 + round % 4);
        let rows = all_rows(&table);
        for &lowest in &rows {
            if rows
                .iter()
                .any(|&row| table.row(row).follows == u32::from(lowest))
            {
                assert!(!may_stand_lowest(&table, every_row(&table), lowest));
                continue;
            }
            let others: Vec<u8> = rows.iter().copied().filter(|&row| row != lowest).collect();
            let mut slacks = HashSet::new();
            for mut places in arrangements(&others) {
                places.push(lowest);
                let numbers = order_of(&places);
                broken += u32::from(check_order(&table, &numbers) != 0);
                slacks.insert(slack(&table, &numbers, lowest));
            }
            assert_eq!(slacks.len(), 1, "{table:?} {lowest}");
            let may = may_stand_lowest(&table, every_row(&table), lowest);
            assert_eq!(slacks.iter().all(|&slack| slack >= 0), may);
            looked_at += 1;
        }
    }
    println!("{looked_at} rows, {broken} arrangements above them that break a wait");
    assert!(looked_at > 1_000 && broken > 500);
}

/// Asserts what rules 25.8 to 25.10 say of an accepted table of up to twelve rows.
fn assert_counts(table: &Table, answer: &Choices, scratch: &[u32]) {
    assert_eq!(answer.number, 0);
    let all = every_row(table);
    assert_eq!(scratch[all as usize], answer.count);
    assert_eq!(answer.lowest.iter().sum::<u32>(), answer.count);
    assert_eq!(
        answer.lowest[table.n as usize..],
        [0; ROWS][table.n as usize..]
    );
    for word in words(table) {
        let choices = scratch[word as usize];
        assert!(choices <= factorial(word.count_ones()), "{table:?} {word}");
    }
    let each_lowest = all_rows(table)
        .iter()
        .all(|&row| may_stand_lowest(table, all, row));
    let unwaiting = *table == table.without_waits();
    let has_all = answer.count == factorial(table.n);
    assert_eq!(has_all, unwaiting && each_lowest, "{table:?}");
    let planned = plan(table).number;
    assert_eq!(answer.count == 0, planned == 7, "{table:?}");
}

/// No count is above k!, rows as lowest add up, and a count of 0 is a planner's 7 (rules 25.8 to
/// 25.10), up to twelve rows. By sweeps the counts are the same.
#[test]
fn what_the_counts_add_up_to() {
    let mut random = Random::seeded(156);
    let mut seen = Seen::default();
    let rounds = [
        (3, 400),
        (5, 200),
        (7, 60),
        (9, 12),
        (10, 6),
        (11, 3),
        (12, 3),
    ];
    for (rows, times) in rounds {
        for _ in 0..times {
            let table = any_table(&mut random, rows);
            let (answer, scratch) = called(plain::count_choices, &table, SCRATCH);
            assert_counts(&table, &answer, &scratch);
            let by_slots = called(count_by_lowest, &table, SCRATCH);
            assert!(by_slots == (answer, scratch), "{table:?}");
            seen.saw(&table, answer.count);
        }
    }
    seen.assert_all(60);
}

/// Tables of large figures, of which a worst run has many slots: every arrangement of four rows
/// judged by sweeps, against sweeps over words.
#[test]
fn large_figures() {
    let ranges = Ranges {
        rows: 4,
        speed: 1_000,
        release: 200_000,
        need: 900,
        window: 4_000,
    };
    let mut random = Random::seeded(157);
    let mut seen = Seen::default();
    for _ in 0..2_000 {
        let loading = random.between(0, 16);
        let release = random.one_of(&[0, 500, 5_000, 200_000]);
        let table = loading_table_in(&mut random, 4, loading, Ranges { release, ..ranges });
        let (answer, scratch) = called(plain::count_choices, &table, SCRATCH);
        for word in words(&table).skip(1) {
            let alone = table_alone(&table, word);
            let mut orders = every_arrangement(alone.n);
            orders.retain(|numbers| plain::judge(&alone, numbers).yes);
            assert_eq!(scratch[word as usize], orders.len() as u32, "{table:?}");
        }
        seen.saw(&table, answer.count);
    }
    seen.assert_all(100);
}

/// A table that a check refuses has its number, whatever is lent; then 20 refuses more than
/// twelve rows, and 10 less than 4,096 numbers. The scratch is as it was (rules 11.13 and 25.6).
#[test]
fn refused_calls_leave_the_scratch() {
    let mut random = Random::seeded(158);
    let numbers = [3, 4, 11, 5, 12, 13, 14, 15, 0];
    let lengths = [0, 1, 16, SCRATCH - 1, SCRATCH, SCRATCH + 1];
    let mut seen = [0; 21];
    for round in 0..1_000 {
        let rows = random.one_of(&[1, 3, 11, 12, 13, 14, 40, 64]);
        let mut spoiled = Proposal {
            table: loading_table_in(&mut random, rows, 1, SHORT),
            order: NO_ORDER,
        };
        let number = numbers[round % numbers.len()];
        if number != 0 {
            spoil(&mut random, &mut spoiled, number, 0);
        }
        let (table, lent) = (spoiled.table, random.one_of(&lengths));
        let expected = match check_table(&table) {
            0 if table.n > 12 => 20,
            0 if lent < 4_096 => 10,
            refusal => refusal,
        };
        assert_eq!(check_counting(&table, lent), expected, "{table:?}");
        seen[expected as usize] += 1;
        if expected == 0 {
            continue;
        }
        let untouched = (Choices::refused(expected), vec![LENT; lent]);
        for by in [
            count_choices,
            count_by_listing,
            count_by_lowest,
            plain::count_choices,
        ] {
            assert_eq!(called(by, &table, lent), untouched, "{table:?}");
        }
    }
    println!("by number: {seen:?}");
    let all = [0, 3, 4, 5, 10, 11, 12, 13, 14, 15, 20];
    assert!(all.iter().all(|&number| seen[number] > 10), "{seen:?}");
}
