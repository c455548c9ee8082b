//! The least workable speeds (section 18 of the rules): by hand, against every
//! order of small tables, and by plain means; and that correct orders stay correct
//! at larger speeds, which is why the least speed tells of all others.

mod common;

use common::correct::{correct_by_every_course, correct_by_slacks, survives_random_courses, TINY};
use common::{all_rows, Kinds, SMALL};
use model::cases::{cooler, least_of, least_speeds, table};
use model::order::{orders, Order, NO_ORDER};
use model::plain::{least_and_plannings, least_by_halves, least_by_scan};
use model::plan::{plan, slack};
use model::random::{table_in, Random, Ranges};
use model::run::step;
use model::sheet::{sheet_of, write_sheet};
use model::speeds::{least, read_least, Least, Sought, BOTH};
use model::table::{check_table, Table, MOST_SPEED};

/// The model's answer, which the plain ones have to be as well.
fn least_by_all_means(table: &Table, sought: Sought) -> Least {
    let answer = least(table, sought);
    assert_eq!(least_by_scan(table, sought), answer, "{sought:?} {table:?}");
    assert_eq!(
        least_by_halves(table, sought),
        answer,
        "{sought:?} {table:?}"
    );
    answer
}

#[test]
fn cases_worked_out_by_hand() {
    for case in least_speeds() {
        let (what, sought) = (case.what, case.sought);
        let answer = least_by_all_means(&case.table, sought);
        assert_eq!(answer, case.answer, "{sought:?}: {what}");
        let sheet = sheet_of(&case.table);
        assert_eq!(read_least(&sheet, sought), answer, "{sought:?}: {what}");
    }
}

/// Whatever G the table has, and whatever N: the answer is the same while its own
/// figure is within its limits, and 4 where it is not.
#[test]
fn the_stated_figure_is_checked_and_matters_no_more() {
    for degraded in 1..=20 {
        let own = cooler(degraded);
        let has_order = plan(&own).number == 0;
        assert_eq!(has_order, degraded >= 19, "G {degraded}");
        let answer = least_by_all_means(&own, Sought::Degraded);
        assert_eq!(answer, least_of(19, &[2, 1]), "G {degraded}");
    }
    for normal in 19..=MOST_SPEED {
        let own = Sought::Normal.put(&cooler(19), normal);
        let answer = least_by_halves(&own, Sought::Normal);
        assert_eq!(answer, least_of(20, &[2, 1]), "N {normal}");
    }
    let refused = [
        (Sought::Degraded, vec![0, 21, 1_000, u32::MAX]),
        (Sought::Normal, vec![0, 1, 18, 1_001, u32::MAX]),
    ];
    for (sought, speeds) in refused {
        for speed in speeds {
            let own = sought.put(&cooler(19), speed);
            let answer = least_by_all_means(&own, sought);
            assert_eq!(answer, Least::refused(4), "{sought:?} {speed}");
        }
    }
    let mut random = Random::seeded(62);
    for _ in 0..300 {
        let table = table_in(&mut random, SMALL);
        let answer = least_by_all_means(&table, Sought::Degraded);
        for own in Sought::Degraded.range(&table) {
            let other = Sought::Degraded.put(&table, own);
            assert_eq!(least(&other, Sought::Degraded), answer, "{other:?}");
        }
    }
}

/// Tables with more speeds to choose from. No work is above 48 work units, so that
/// from N of 48 work units per slot on each takes one slot.
const FAST: Ranges = Ranges {
    rows: 4,
    speed: 12,
    release: 5,
    need: 4,
    window: 12,
};

/// The least speed at which one of all orders is correct, by this judgement: a G up
/// to the table's N, or an N from its G up to `most`.
fn least_of_every_order(
    table: &Table,
    sought: Sought,
    most: u32,
    is_correct: impl Fn(&Table, &Order) -> bool,
) -> Option<u32> {
    let all = orders(table);
    let (mut speeds, at): (_, fn(&mut Table) -> &mut u32) = match sought {
        Sought::Degraded => (1..=table.normal, |table| &mut table.degraded),
        Sought::Normal => (table.degraded..=most, |table| &mut table.normal),
    };
    speeds.find(|&speed| {
        let mut changed = *table;
        *at(&mut changed) = speed;
        all.iter().any(|order| is_correct(&changed, order))
    })
}

/// Where the least speed is found in its range.
fn end_of_range(table: &Table, sought: Sought, answer: &Least) -> usize {
    let range = sought.range(table);
    match answer.speed {
        0 => 0,
        speed if speed == *range.start() => 1,
        speed if speed == *range.end() => 2,
        _ => 3,
    }
}

/// The speed is the least at which any order is correct, and the order is the one
/// that the planner makes at it. Speeds above the largest work change nothing, so
/// none of them is looked at for the orders.
#[test]
fn every_order_of_small_tables() {
    let mut random = Random::seeded(61);
    let mut seen = [[0; 4]; 2];
    let mut kinds = Kinds::default();
    for round in 0..6_000 {
        let table = table_in(&mut random, if round % 2 == 0 { SMALL } else { FAST });
        kinds.saw(&table);
        // The range of N has up to 1,000 speeds, and none of them may do.
        let few = if round % 6 == 0 {
            &BOTH[..]
        } else {
            &BOTH[..1]
        };
        for &sought in few {
            let answer = least_by_all_means(&table, sought);
            let expected = least_of_every_order(&table, sought, 48, correct_by_slacks);
            assert_eq!(answer.speed, expected.unwrap_or(0), "{sought:?} {table:?}");
            assert_is_planned(&table, sought, &answer);
            seen[sought as usize][end_of_range(&table, sought, &answer)] += 1;
        }
    }
    println!("none, first, last and others by speed sought: {seen:?}");
    let [degraded, normal] = seen;
    assert!(degraded.iter().all(|&times| times > 200), "{seen:?}");
    assert!(
        [0, 1, 3].map(|end| normal[end] > 100) == [true; 3],
        "{seen:?}"
    );
    kinds.assert_all(100);
}

/// The number is 0 with the planner's order at the least speed, or 7 with zeros.
fn assert_is_planned(table: &Table, sought: Sought, answer: &Least) {
    if answer.speed == 0 {
        assert_eq!(*answer, Least::refused(7));
        return;
    }
    let made = plan(&sought.put(table, answer.speed));
    assert_eq!((answer.number, made.number), (0, 0));
    assert_eq!(answer.order, made.order, "{sought:?} {table:?}");
}

/// The same with correct as it is defined: over every course of speed.
#[test]
fn every_order_under_every_course_of_speed() {
    let mut random = Random::seeded(63);
    let (mut found, mut none) = (0, 0);
    for round in 0..600 {
        let table = table_in(&mut random, TINY);
        let sought = BOTH[round % 2];
        let answer = least(&table, sought);
        let by_courses = |table: &Table, order: &Order| correct_by_every_course(step, table, order);
        let expected = least_of_every_order(&table, sought, 6, by_courses);
        assert_eq!(answer.speed, expected.unwrap_or(0), "{sought:?} {table:?}");
        *(if answer.number == 0 {
            &mut found
        } else {
            &mut none
        }) += 1;
    }
    assert!(found > 100 && none > 100, "{found} {none}");
}

/// Over all orders, all G up to N, and N up to where each row takes one slot.
#[test]
fn correct_orders_stay_correct_at_larger_speeds() {
    let mut random = Random::seeded(64);
    let (mut kept, mut gained) = (0, 0);
    let mut kinds = Kinds::default();
    for _ in 0..2_000 {
        let table = table_in(&mut random, FAST);
        kinds.saw(&table);
        let (all, sought) = (orders(&table), random.one_of(&BOTH));
        let speeds = sought.range(&table).take_while(|&speed| speed <= 50);
        let at = |speed| sought.put(&table, speed);
        let mut before = vec![false; all.len()];
        for speed in speeds {
            for (was_correct, order) in before.iter_mut().zip(&all) {
                let is_correct = correct_by_slacks(&at(speed), order);
                let spoiled = *was_correct && !is_correct;
                assert!(!spoiled, "{sought:?} {speed}: {order:?} {table:?}");
                kept += u32::from(*was_correct);
                gained += u32::from(is_correct && !*was_correct);
                *was_correct = is_correct;
            }
        }
    }
    println!("{kept} times still correct, {gained} times newly");
    assert!(kept > 50_000 && gained > 2_000);
    kinds.assert_all(30);
}

/// Under any order no slack falls when G, N or both are raised.
#[test]
fn no_larger_speeds_lower_a_slack() {
    let mut random = Random::seeded(67);
    let (mut same, mut more) = (0, 0);
    for _ in 0..3_000 {
        let table = table_in(&mut random, FAST);
        let order = random.one_of(&orders(&table));
        let normal = table.normal + random.between(0, 5);
        let degraded = random.between(table.degraded, normal);
        let faster = Sought::Degraded.put(&Sought::Normal.put(&table, normal), degraded);
        assert_eq!(check_table(&faster), 0);
        for row in all_rows(&table) {
            let [before, after] = [&table, &faster].map(|table| slack(table, &order, row));
            assert!(before <= after, "row {row} {order:?} {table:?} {faster:?}");
            *(if before == after {
                &mut same
            } else {
                &mut more
            }) += 1;
        }
    }
    assert!(same > 500 && more > 1_000, "{same} {more}");
}

/// An order that is correct keeps what it has to keep under random courses at
/// every larger speed.
#[test]
fn orders_hold_at_larger_speeds_under_random_courses() {
    let mut random = Random::seeded(65);
    let mut larger = 0;
    for round in 0..1_500 {
        let table = table_in(&mut random, SMALL);
        let sought = BOTH[round % 2];
        let answer = least_by_halves(&table, sought);
        if answer.order == NO_ORDER {
            continue;
        }
        let range = sought.range(&table);
        for speed in (answer.speed..=*range.end()).take(6) {
            let at = sought.put(&table, speed);
            let survives = survives_random_courses(step, &at, &answer.order, &mut random);
            assert!(survives, "{sought:?} {speed}: {table:?}");
            larger += u32::from(speed > answer.speed);
        }
    }
    assert!(larger > 1_000, "{larger}");
}

/// The plain search by halves makes 10 plannings at most. (Those of the library are
/// counted by tools/plannings.sh.)
#[test]
fn a_search_by_halves_makes_few_plannings() {
    let mut most = 0;
    for work in 1..=1_001 {
        for (sought, level) in [(Sought::Degraded, 1), (Sought::Normal, 0)] {
            let alone = table(1_000, 1, &[[0, work, 1, level]]);
            let (answer, plannings) = least_and_plannings(&alone, sought);
            let speed = if work <= 1_000 { work } else { 0 };
            assert_eq!(answer.speed, speed, "{sought:?}");
            most = most.max(plannings);
        }
    }
    assert_eq!(most, 10);
}

/// Tables and sheets that are refused: the first check that refuses them gives the
/// number, and speed and order are zeros.
#[test]
fn refusals_are_those_of_the_planner_and_of_the_reader() {
    let mut random = Random::seeded(66);
    let mut numbers = [0; 16];
    let figures = [0, 1, 2, 17, 65, 1_000, 1_001, 1_000_001];
    for _ in 0..4_000 {
        let mut spoiled = table_in(&mut random, SMALL);
        for _ in 0..random.between(1, 2) {
            let figure = random.one_of(&figures);
            match random.between(0, 10) {
                0 => spoiled.n = figure,
                1 => spoiled.normal = figure,
                2 => spoiled.degraded = figure,
                3 => spoiled.loading = figure,
                4 => spoiled.work[0] = figure,
                5 => spoiled.deadline[0] = figure,
                6 => spoiled.level[63] = figure,
                7 => spoiled.promised[0] = figure,
                8 => spoiled.promised[63] = figure,
                9 => spoiled.follows[0] = figure,
                _ => spoiled.follows[63] = figure,
            }
        }
        let refusal = check_table(&spoiled);
        if refusal == 0 {
            continue;
        }
        for sought in BOTH {
            let answer = least_by_all_means(&spoiled, sought);
            assert_eq!((answer.number, answer.speed), (refusal, 0));
            assert_eq!(answer.order, NO_ORDER);
        }
        numbers[refusal as usize] += 1;
    }
    assert!([3, 4, 5, 11, 12, 13]
        .iter()
        .all(|&number| numbers[number] > 100));
    let rows = cooler(19).rows();
    let sheets = [
        (Vec::new(), 1),
        (vec![b'x'; 33], 2),
        (write_sheet(0, 20, 19, 0, &rows), 3),
        (write_sheet(65, 20, 19, 0, &rows), 3),
        (write_sheet(3, 20, 19, 0, &rows), 1),
        (write_sheet(2, 20, 21, 17, &rows), 4),
        (write_sheet(2, 20, 0, 0, &rows), 4),
        (write_sheet(2, 1_001, 19, 0, &rows), 4),
        (write_sheet(2, 20, 19, 17, &rows), 11),
    ];
    for (sheet, number) in &sheets {
        for sought in BOTH {
            assert_eq!(read_least(sheet, sought), Least::refused(*number));
        }
    }
}
