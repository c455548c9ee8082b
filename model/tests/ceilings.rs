//! A ceiling on planning (section 23 of the rules): the cases worked out by hand, every ceiling
//! up to a table's count of trials and the next, the count found in other ways, the most that it
//! can be, and what 19 says of a table.

mod common;

use common::correct::{correct_by_every_course, correct_by_slacks, TINY};
use common::{all_rows, Kinds, SMALL};
use model::cases::ceilings::{ceilings, counted, crowded, most_tried, over, unplanned};
use model::cases::waits::checked_waits;
use model::cases::{checked_promises, p1};
use model::order::{order_of, orders, NO_ORDER};
use model::plan::{
    most_trials, plan, plan_and_trials, plan_within, rows_in_word, slack, Counted, Plan,
};
use model::planners::{each_place, each_trial};
use model::proposal::{ask, Proposal};
use model::random::commits::spoil;
use model::random::{random_order, table_in, table_of_rows_in, tight_under, Random, Ranges};
use model::run::step;
use model::sheet::sheet_of;
use model::table::{check_table, Table, LO};
use std::cmp::Reverse;
use std::collections::HashSet;

/// Tables of more rows, with less room for each.
const LARGER: Ranges = Ranges {
    rows: 9,
    speed: 4,
    release: 12,
    need: 3,
    window: 20,
};

/// An accepted table; once in two times its deadlines leave few slots to spare under one of
/// its orders.
fn any_table(random: &mut Random, ranges: Ranges) -> Table {
    let table = table_in(random, ranges);
    if random.once_in(2) {
        return table;
    }
    let order = random_order(random, &table);
    tight_under(random, &table, &order, &[-1, 0, 1, 2])
}

/// By rules 23.4 and 23.5: what is answered at a ceiling to an accepted table with this answer
/// and this count.
fn at_ceiling(plan: Plan, count: u32, ceiling: u32) -> Counted {
    if count > ceiling {
        over(ceiling)
    } else {
        counted(plan, count)
    }
}

/// Each case as it says; no two have the same name.
#[test]
fn ceilings_worked_out_by_hand() {
    let mut names = HashSet::new();
    for case in ceilings() {
        let (what, table) = (case.what, &case.table);
        assert_eq!(plan_within(table, case.ceiling), case.answer, "{what}");
        assert!(names.insert(what), "{what} twice");
        let Counted { plan, trials } = case.answer;
        if plan.number != 19 {
            for by in [
                plan_and_trials,
                each_trial::plan_and_trials,
                each_place::plan_and_trials,
            ] {
                assert_eq!(by(table), (plan, trials), "{what}");
            }
        }
    }
    let answered: HashSet<u32> = ceilings().iter().map(|it| it.answer.plan.number).collect();
    let numbers = [0, 3, 4, 5, 7, 11, 12, 13, 14, 15, 19];
    assert_eq!(answered, HashSet::from(numbers));
}

/// Below the count of the table 19 with zeros and the ceiling as trials, and from the count on
/// what the planner answers without a ceiling, with the count (rules 23.4 and 23.5).
#[test]
fn every_ceiling_up_to_the_count_and_one_more() {
    let mut random = Random::seeded(131);
    let (mut answered, mut asked) = ([0; 2], 0);
    let mut kinds = Kinds::default();
    let mut promising = 0;
    for _ in 0..10_000 {
        let table = any_table(&mut random, SMALL);
        kinds.saw(&table);
        promising += u32::from(table != table.without_promises());
        let (plan, count) = plan_and_trials(&table);
        for ceiling in 0..=count + 1 {
            let answer = plan_within(&table, ceiling);
            assert_eq!(answer, at_ceiling(plan, count, ceiling), "{table:?}");
            if ceiling < count {
                assert_eq!((answer.plan.number, answer.trials), (19, ceiling));
                assert_eq!((answer.plan.order, answer.plan.left), (NO_ORDER, 0));
            }
            asked += 1;
        }
        answered[usize::from(plan.number == 7)] += 1;
    }
    println!("answers 0 and 7 {answered:?}, {asked} ceilings, {promising} tables with promises");
    assert!(answered.iter().all(|&times| times > 2_000), "{answered:?}");
    assert!(asked > 50_000 && promising > 1_000);
    kinds.assert_all(200);
}

/// An answer of 0 or 7 stays at every higher ceiling (rule 23.8), up to the highest, and at
/// n × (n + 1) / 2 there is no 19 (rule 23.9).
#[test]
fn higher_ceilings_change_no_answer() {
    let mut random = Random::seeded(132);
    let mut seen = [0; 3];
    for _ in 0..4_000 {
        let table = any_table(&mut random, LARGER);
        let most = most_trials(table.n);
        let low = random.between(0, most);
        let answer = plan_within(&table, low);
        let higher = random.one_of(&[low, low + 1, most, most + 1, 1 << 16, 1 << 31]);
        for ceiling in [low.max(higher), random.between(low, u32::MAX), u32::MAX] {
            let then = plan_within(&table, ceiling);
            if answer.plan.number != 19 {
                assert_eq!(then, answer, "{low} and {ceiling}: {table:?}");
            }
            assert!(then.plan.number != 19 || then.trials >= answer.trials);
        }
        let enough = plan_within(&table, most);
        assert_eq!((enough.plan, enough.trials), plan_and_trials(&table));
        assert_eq!(enough.plan, plan(&table));
        assert!([0, 7].contains(&enough.plan.number), "{table:?}");
        assert_eq!(ask(&sheet_of(&table)).number, enough.plan.number);
        let numbers = [0, 7, 19];
        let seen_at = numbers.iter().position(|&it| it == answer.plan.number);
        seen[seen_at.expect("one of the three")] += 1;
    }
    println!("0, 7 and 19 at the lower ceiling: {seen:?}");
    assert!(seen.iter().all(|&times| times > 400), "{seen:?}");
}

/// A table that a check refuses has its number, zeros and 0 trials at every ceiling (rules
/// 11.11 and 23.7).
#[test]
fn refused_tables_take_no_trial() {
    let assert_unplanned = |table: &Table, number: u32| {
        for ceiling in [0, 1, u32::MAX] {
            assert_eq!(plan_within(table, ceiling), unplanned(number), "{table:?}");
        }
    };
    let by_hand = [checked_promises(), checked_waits()].concat();
    for (_, table, number) in by_hand.iter().filter(|(.., number)| *number != 0) {
        assert_unplanned(table, *number);
    }
    for n in [0, 65, 66, 92_682, u32::MAX] {
        assert_unplanned(&Table { n, ..p1() }, 3);
    }
    let mut random = Random::seeded(133);
    let numbers = [3, 4, 11, 5, 12, 13, 14, 15];
    for round in 0..4_000 {
        let table = table_in(&mut random, SMALL);
        let order = NO_ORDER;
        let mut spoiled = Proposal { table, order };
        spoil(&mut random, &mut spoiled, numbers[round % numbers.len()], 0);
        let refusal = check_table(&spoiled.table);
        assert!(numbers.contains(&refusal), "{:?}", spoiled.table);
        assert_unplanned(&spoiled.table, refusal);
    }
}

/// The rows that are asked at a place where these are left: those that no other row left
/// follows, LO before HI, later deadlines first, then lower rows (rules 4.3 and 4.11).
fn asked(table: &Table, left: &[u8]) -> Vec<u8> {
    let followed: Vec<u32> = left.iter().map(|&row| table.row(row).follows).collect();
    let mut asked = left.to_vec();
    asked.retain(|&row| !followed.contains(&u32::from(row)));
    asked.sort_by_key(|&row| {
        let job = table.row(row);
        (job.level != LO, Reverse(job.deadline), row)
    });
    asked
}

/// The count of a table with this order of the planner, without a trial: at each place where
/// the row that has it stands among those asked.
fn count_by_order(table: &Table, order: &[u8]) -> u32 {
    let mut count = 0;
    for place in 0..order.len() {
        let left = &order[..=place];
        let at = asked(table, left)
            .iter()
            .position(|&row| row == left[place]);
        count += at.expect("the row was asked") as u32 + 1;
    }
    count
}

/// The count of any accepted table, and the rows left: at each place every row left has its
/// slack below all others left, which stand by their numbers, and the first one asked whose
/// slack is not below 0 gets the place. Where there is none, all that are asked count.
fn count_by_slacks(table: &Table) -> (u32, Vec<u8>) {
    let (mut left, mut placed) = (all_rows(table), Vec::new());
    let mut count = 0;
    loop {
        let in_time = |row: &u8| {
            let mut places: Vec<u8> = left.iter().copied().filter(|other| other != row).collect();
            places.push(*row);
            places.extend(&placed);
            slack(table, &order_of(&places), *row) >= 0
        };
        let asked = asked(table, &left);
        let passing: Vec<bool> = asked.iter().map(in_time).collect();
        let Some(first) = passing.iter().position(|&passes| passes) else {
            return (count + asked.len() as u32, left);
        };
        count += first as u32 + 1;
        placed.insert(0, asked[first]);
        left.retain(|&row| row != asked[first]);
    }
}

/// The count is the one that the finished order gives, and the one by the slacks of all rows;
/// plain planners count as many (rules 23.1 and 23.2).
#[test]
fn trials_counted_in_other_ways() {
    let mut random = Random::seeded(134);
    let (mut answered, mut skipping) = ([0; 2], 0);
    let mut kinds = Kinds::default();
    for round in 0..6_000 {
        let ranges = [SMALL, LARGER][round % 2];
        let table = any_table(&mut random, ranges);
        kinds.saw(&table);
        let Counted { plan, trials } = plan_within(&table, u32::MAX);
        let (count, left) = count_by_slacks(&table);
        assert_eq!(trials, count, "{table:?}");
        assert_eq!(rows_in_word(plan.left), left, "{table:?}");
        if plan.number == 0 {
            let order = &plan.order[..table.n as usize];
            assert_eq!(trials, count_by_order(&table, order), "{table:?}");
        }
        for by_plain in [each_trial::plan_and_trials, each_place::plan_and_trials] {
            assert_eq!(by_plain(&table), (plan, trials), "{table:?}");
        }
        skipping += u32::from(plan_and_trials(&table.without_waits()).1 != trials);
        answered[usize::from(plan.number == 7)] += 1;
    }
    println!("answers 0 and 7 {answered:?}, waits change the count of {skipping} tables");
    assert!(answered.iter().all(|&times| times > 1_500), "{answered:?}");
    assert!(skipping > 300, "{skipping}");
    kinds.assert_all(100);
}

/// No count is above n × (n + 1) / 2 (rule 23.3).
#[test]
fn no_more_trials_than_there_can_be() {
    let mut random = Random::seeded(135);
    let mut most_of = [0; 9];
    for round in 0..9_000 {
        let n = 1 + round % 9;
        let mut table = table_of_rows_in(&mut random, n, LARGER);
        if random.once_in(2) {
            let order = random_order(&mut random, &table);
            table = tight_under(&mut random, &table, &order, &[0, 0, 1]);
        }
        let count = plan_within(&table, u32::MAX).trials;
        assert!((1..=most_trials(n)).contains(&count), "{table:?}");
        let most = &mut most_of[n as usize - 1];
        *most = count.max(*most);
    }
    println!("most trials by row count: {most_of:?}");
    assert_eq!(
        [1, 2, 3, 4, 63, 64].map(most_trials),
        [1, 3, 6, 10, 2_016, 2_080]
    );
    assert_eq!([0, 65_535].map(most_trials), [0, 2_147_450_880]);
}

/// Some table of each row count takes as many as there can be, and has an order; a trial less
/// is too few for it (rules 23.3 and 23.9).
#[test]
fn as_many_trials_as_there_can_be() {
    for n in (1..=16).chain([31, 32, 33, 63, 64]) {
        let table = most_tried(n);
        let most = most_trials(n);
        let rows = order_of(&all_rows(&table));
        let Counted { plan, trials } = plan_within(&table, most);
        assert_eq!(
            (plan.number, plan.order, trials),
            (0, rows, most),
            "{n} rows"
        );
        assert_eq!(plan_within(&table, most - 1), over(most - 1), "{n} rows");
        assert_eq!(
            each_trial::plan_and_trials(&table),
            (plan, most),
            "{n} rows"
        );
        assert_eq!(
            each_place::plan_and_trials(&table),
            (plan, most),
            "{n} rows"
        );
    }
}

/// Tables that are answered 19 have a correct order or have none, over all arrangements of
/// their rows and every course of speed (rule 23.11).
#[test]
fn tables_with_a_correct_order_and_without_are_answered_19() {
    let mut random = Random::seeded(136);
    let mut kinds = [0; 2];
    for _ in 0..3_000 {
        let table = any_table(&mut random, TINY);
        let (_, count) = plan_and_trials(&table);
        let ceiling = random.between(0, count - 1);
        assert_eq!(plan_within(&table, ceiling), over(ceiling), "{table:?}");
        let exists = orders(&table)
            .iter()
            .any(|order| correct_by_every_course(step, &table, order));
        kinds[usize::from(exists)] += 1;
    }
    println!("without and with a correct order: {kinds:?}");
    assert!(kinds.iter().all(|&tables| tables > 500), "{kinds:?}");
}

/// The two tables of rule 13.17: P1 at 5 and three HI rows at 2.
#[test]
fn p1_and_a_table_without_a_correct_order_are_answered_19() {
    assert_eq!(plan_within(&p1(), 5), over(5));
    assert_eq!(plan_within(&crowded(), 2), over(2));
    let correct = |table: &Table| {
        let orders = orders(table).into_iter();
        orders
            .filter(|order| correct_by_slacks(table, order))
            .count()
    };
    assert!(correct(&p1()) > 0);
    assert_eq!(correct(&crowded()), 0);
    for order in orders(&crowded()) {
        assert!(!correct_by_every_course(step, &crowded(), &order));
    }
}
