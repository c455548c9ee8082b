//! Rows that follow rows (section 21 of the rules): the planner against every arrangement
//! of the rows, what is correct over every course of speed, that waiting changes no slot
//! under an order, the finishes of trials above which waits are broken, when followers run,
//! least speeds, and the checks. Every table here has a wait; cases worked out by hand are
//! in `cases`, those of the checks in `numbers`.

mod common;

use common::correct::{correct_by_every_course, correct_by_slacks, TINY};
use common::{all_rows, fresh, slots_with_loading, Kinds, RULES, SMALL};
use model::judge::judge_table;
use model::order::{
    check_order, check_table_and_order, every_arrangement, keeps_waits, orders, Order, NO_ORDER,
};
use model::plain;
use model::plan::{
    is_skipped, passes_lowest, plan, plan_and_trials, promised_moment, rows_in_word, worst_finish,
};
use model::planners::{each_place, each_trial};
use model::random::{
    random_order, spoil_promise, spoil_wait, supplies, table_in, tight_under, wait, Random, Ranges,
};
use model::run::{is_waiting, step, Rule, State};
use model::speeds::{least, BOTH};
use model::table::{allowance, check_table, check_wait, Table, HI, ROWS};
use std::collections::HashMap;

/// An accepted table in which some row follows another.
fn waiting_table(random: &mut Random, ranges: Ranges) -> Table {
    loop {
        let mut table = table_in(random, ranges);
        for row in all_rows(&table) {
            table.follows[row as usize - 1] = wait(random, &table, row);
        }
        if table.follows != [0; ROWS] {
            assert_eq!(check_table(&table), 0);
            return table;
        }
    }
}

/// The same with deadlines that leave few slots to spare under some order or, once in two
/// times, under an arrangement that may break waits: then waits often decide.
fn tight_table(random: &mut Random, ranges: Ranges) -> Table {
    let table = waiting_table(random, ranges);
    let free = table.without_waits();
    let order = if random.once_in(2) {
        random_order(random, &table)
    } else {
        random_order(random, &free)
    };
    let moves = random.one_of(&[[-1, 0, 1], [0, 1, 2], [0, 1, 2], [0, 1, 2]]);
    Table {
        follows: table.follows,
        ..tight_under(random, &free, &order, &moves)
    }
}

/// Tables with deadlines of either kind, in turns.
fn any_table(random: &mut Random, round: u32, ranges: Ranges) -> Table {
    if round.is_multiple_of(2) {
        waiting_table(random, ranges)
    } else {
        tight_table(random, ranges)
    }
}

/// The planner finds an order exactly if one of all arrangements keeps all waits and is
/// correct (rules 4.10 and 21.4), and that is such a one. With 7 every row left that is
/// tried fails, and there is one. Both plain planners answer the same, with as many trials.
#[test]
fn an_order_is_answered_exactly_if_one_that_keeps_all_waits_is_correct() {
    let mut random = Random::seeded(111);
    let (mut answered, mut lost, mut changed) = ([0; 2], 0, 0);
    let mut kinds = Kinds::default();
    for round in 0..15_000 {
        let table = any_table(&mut random, round, SMALL);
        kinds.saw(&table);
        let (answer, trials) = plan_and_trials(&table);
        let all = every_arrangement(table.n);
        let is_correct = |order: &Order| correct_by_slacks(&table, order);
        let exists = all
            .iter()
            .any(|order| check_order(&table, order) == 0 && is_correct(order));
        assert_eq!(answer.number, if exists { 0 } else { 7 }, "{table:?}");
        if exists {
            assert!(keeps_waits(&table, &answer.order), "{table:?}");
            assert!(judge_table(&table, &answer.order).yes, "{table:?}");
        } else {
            assert_all_fail(&table, &rows_in_word(answer.left));
        }
        for by_plain in [each_trial::plan_and_trials, each_place::plan_and_trials] {
            assert_eq!(by_plain(&table), (answer, trials), "{table:?}");
        }
        let free = plan(&table.without_waits());
        assert!(free.number <= answer.number, "{table:?}");
        lost += u32::from(free.number < answer.number);
        changed += u32::from(exists && free.order != answer.order);
        answered[usize::from(!exists)] += 1;
    }
    println!("answers 0 and 7 {answered:?}, {lost} have 7 and {changed} another order by waits");
    assert!(answered.iter().all(|&times| times > 2_000) && lost > 1_000 && changed > 500);
    kinds.assert_loadings(100);
}

/// Of the rows left some are followed by none of them, and each of these fails below the
/// others.
fn assert_all_fail(table: &Table, left: &[u8]) {
    let mut placed = all_rows(table);
    placed.retain(|row| !left.contains(row));
    let mut tried = left.to_vec();
    tried.retain(|&row| !is_skipped(table, left, row));
    assert!(!tried.is_empty(), "{table:?}");
    for row in tried {
        assert!(!passes_lowest(table, left, &placed, row), "{table:?}");
    }
}

/// Over every course of speed, with runs that wait: an order is correct exactly if no slack
/// is below zero, and the planner has one exactly if one is (rules 3.4 and 21.4).
#[test]
fn slacks_judge_as_every_course_of_speed_does() {
    let mut random = Random::seeded(112);
    let (mut correct, mut incorrect, mut without) = (0, 0, 0);
    for round in 0..3_000 {
        let table = any_table(&mut random, round, TINY);
        let mut exists = false;
        for order in orders(&table) {
            let by_courses = correct_by_every_course(step, &table, &order);
            assert_eq!(correct_by_slacks(&table, &order), by_courses, "{table:?}");
            exists |= by_courses;
            *(if by_courses {
                &mut correct
            } else {
                &mut incorrect
            }) += 1;
        }
        assert_eq!(plan(&table).number, if exists { 0 } else { 7 }, "{table:?}");
        without += u32::from(!exists);
    }
    println!("{correct} correct orders, {incorrect} others; {without} tables have none");
    assert!(correct > 1_000 && incorrect > 1_000 && without > 500);
}

/// The slots of a run by this rule, each with the state before it and the row run.
fn slots_of(rule: Rule, table: &Table, order: &Order, course: &[u32]) -> Vec<(State, u8)> {
    let mut state = State::FRESH;
    let mut slots = Vec::new();
    for &supply in course {
        let before = state;
        slots.push((before, rule(table, order, &mut state, supply)));
    }
    slots.push((state, 0));
    slots
}

/// Does a row that is released and open wait in this state?
fn some_row_waits(table: &Table, state: &State) -> bool {
    all_rows(table).into_iter().any(|row| {
        let released = table.row(row).release <= state.clock;
        released && state.closing[row as usize - 1] == 0 && is_waiting(table, state, row)
    })
}

/// Under an order, waiting changes no slot: at every clock the state is that of the table
/// without waits, by either rule of a slot and whatever is supplied (rule 21.2). Other
/// arrangements often make another run.
#[test]
fn waiting_changes_no_slot_under_an_order() {
    let mut random = Random::seeded(113);
    let (mut waited, mut parted) = (0, 0);
    for round in 0..6_000 {
        let rule = RULES[round as usize % 2];
        let table = any_table(&mut random, round, SMALL);
        let slots = slots_with_loading(&table, 30);
        let course = supplies(&mut random, slots);
        let order = random.one_of(&every_arrangement(table.n));
        let [waiting, free] =
            [table, table.without_waits()].map(|table| slots_of(rule, &table, &order, &course));
        if check_order(&table, &order) == 0 {
            assert_eq!(waiting, free, "{table:?} {order:?}");
            let waits = |(state, _): &&(State, u8)| some_row_waits(&table, state);
            waited += waiting.iter().filter(waits).count();
        } else {
            parted += u32::from(waiting != free);
        }
    }
    println!("a row waits in {waited} slots; {parted} arrangements make another run");
    assert!(waited > 5_000 && parted > 1_000);
}

/// The same from any state, reached or not: which row is chosen depends on which rows are
/// closed and on the clock alone, so that all of these are tried.
#[test]
fn an_order_never_chooses_a_row_that_waits() {
    let mut random = Random::seeded(114);
    let mut waited = 0;
    for round in 0..400 {
        let table = any_table(&mut random, round, SMALL);
        let latest = table.release.iter().copied().max().unwrap();
        for order in orders(&table) {
            for closed in 0..1u32 << table.n {
                for clock in [0, latest / 2, latest] {
                    let mut state = State {
                        clock,
                        ..State::FRESH
                    };
                    for index in (0..table.n as usize).filter(|index| closed >> index & 1 == 1) {
                        state.closing[index] = 1;
                    }
                    let [row, of_free] = [table, table.without_waits()]
                        .map(|table| model::run::chosen(&table, &order, &state));
                    assert_eq!(row, of_free, "{state:?} {order:?} {table:?}");
                    waited += u32::from(some_row_waits(&table, &state));
                }
            }
        }
    }
    println!("a row waits in {waited} states");
    assert!(waited > 50_000);
}

/// Under any arrangement, whatever waits it breaks: a slot is idle only if no row is
/// released and open, and never runs a follower of an open row. Followers run once that is
/// done, dropped for its slots or dropped by the clock (rule 2.15), but HI followers only
/// once it is done (rule 9.19).
#[test]
fn followers_run_once_the_followed_row_is_closed() {
    let mut random = Random::seeded(115);
    let (mut broken, mut idle, mut high, mut after) = (0, 0, 0, [0; 3]);
    for round in 0..6_000 {
        let rule = RULES[round as usize % 2];
        let table = any_table(&mut random, round, SMALL);
        let order = random.one_of(&every_arrangement(table.n));
        broken += u32::from(!keeps_waits(&table, &order));
        let slots = slots_with_loading(&table, 30);
        let course = supplies(&mut random, slots);
        for (state, row) in &slots_of(rule, &table, &order, &course)[..course.len()] {
            if *row == 0 {
                let is_pending =
                    |index: usize| table.release[index] <= state.clock && state.closing[index] == 0;
                assert!(
                    !(0..table.n as usize).any(is_pending),
                    "{table:?} {order:?}"
                );
                idle += 1;
            } else if table.row(*row).follows != 0 {
                let followed = table.row(*row).follows as u8;
                let index = followed as usize - 1;
                assert!(state.closing[index] != 0, "{table:?} {order:?}");
                let is_done = state.got[index] == table.work[index];
                let is_high = table.row(*row).level == HI;
                assert!(is_done || !is_high, "{table:?} {order:?}");
                high += u32::from(is_high);
                let used_up = state.used[index] >= allowance(&table, followed);
                after[usize::from(!is_done) + usize::from(!is_done && !used_up)] += 1;
            }
        }
    }
    println!("{broken} arrangements break a wait, {idle} slots are idle, {high} of HI followers");
    println!("followers of a row done, dropped for its slots, by the clock: {after:?} slots");
    assert!(broken > 2_000 && idle > 5_000 && high > 1_000);
    assert!(after.iter().all(|&slots| slots > 300));
}

/// In a trial the rows above may break waits among themselves. The worst finish and the
/// promised moment of the row below them are those of the set, for each of its
/// arrangements, and those of the rows without waits (rule 21.3). All that it takes is that
/// none of the rows follows one outside the set, or the lowest of them.
#[test]
fn trials_depend_on_the_set_above_whatever_waits_it_breaks() {
    let mut random = Random::seeded(116);
    let (mut compared, mut broken, mut others) = (0, 0, 0);
    for round in 0..1_000 {
        let table = any_table(&mut random, round, SMALL);
        let free = table.without_waits();
        let mut found: HashMap<(u8, Vec<u8>), (u32, u32)> = HashMap::new();
        for order in every_arrangement(table.n) {
            for place in 0..table.n as usize {
                let (row, set) = (order[place], &order[..=place]);
                let mut above = order[..place].to_vec();
                above.sort_unstable();
                let ends = |table: &Table| {
                    let moment = promised_moment(table, &order, row);
                    (worst_finish(table, &order, row), moment)
                };
                let of_free = ends(&free);
                if !is_trial(&table, set, row) {
                    others += u32::from(ends(&table) != of_free);
                    continue;
                }
                let this = ends(&table);
                assert_eq!(this, of_free, "row {row} {order:?} {table:?}");
                let other = *found.entry((row, above)).or_insert(this);
                assert_eq!(this, other, "row {row} {order:?} {table:?}");
                compared += 1;
                broken += u32::from(breaks_a_wait(&table, set));
            }
        }
    }
    println!("{compared} finishes, {broken} below a broken wait; {others} others are not so");
    assert!(compared > 50_000 && broken > 5_000 && others > 5_000);
}

/// The set is one that the planner tries this row in: no row of it follows one outside, and
/// none follows this row.
fn is_trial(table: &Table, set: &[u8], row: u8) -> bool {
    let follows_within = |&other: &u8| {
        let follows = table.row(other).follows;
        follows == 0 || set.iter().any(|&held| u32::from(held) == follows)
    };
    set.iter().all(follows_within) && !is_skipped(table, set, row)
}

/// One of these rows, highest place first, stands above the row that it follows.
fn breaks_a_wait(table: &Table, places: &[u8]) -> bool {
    (0..places.len()).any(|place| {
        let below = &places[place + 1..];
        let follows = table.row(places[place]).follows;
        below.iter().any(|&row| u32::from(row) == follows)
    })
}

/// The least speeds by a scan with the model and by halves in plain Rust. A wait never
/// makes one smaller, and at the least speed the order answered keeps all waits.
#[test]
fn least_speeds_with_waits() {
    let mut random = Random::seeded(117);
    let (mut larger, mut none) = ([0; 2], [0; 2]);
    for round in 0..1_500 {
        let table = any_table(&mut random, round, SMALL);
        // The scan for N may go through 1,000 speeds.
        let sought = BOTH[usize::from(round.is_multiple_of(25))];
        let answer = least(&table, sought);
        let by_halves = plain::least_by_halves(&table, sought);
        assert_eq!(by_halves, answer, "{sought:?} {table:?}");
        let free = plain::least_by_halves(&table.without_waits(), sought);
        if answer.number == 0 {
            assert!(answer.speed >= free.speed && free.number == 0);
            let at = sought.put(&table, answer.speed);
            assert!(judge_table(&at, &answer.order).yes, "{sought:?} {table:?}");
        }
        larger[sought as usize] += u32::from(answer.speed > free.speed);
        none[sought as usize] += u32::from(answer.number == 7 && free.number == 0);
    }
    println!("by waits: {larger:?} speeds are larger, {none:?} have none");
    assert!(larger[0] > 15 && none[0] > 100 && none[1] > 2);
}

/// A run of records under the planned order is that of the table without waits, with the
/// waits still in the record.
#[test]
fn records_with_waits_run_as_without() {
    let mut random = Random::seeded(118);
    let mut planned = 0;
    for round in 0..4_000 {
        let table = any_table(&mut random, round, SMALL);
        let answer = plan(&table);
        if answer.number != 0 {
            continue;
        }
        let slots = slots_with_loading(&table, 30);
        let course = supplies(&mut random, slots);
        let worked = fresh(&table, &answer.order).forward(&course).record;
        let free = fresh(&table.without_waits(), &answer.order).forward(&course);
        assert_eq!(worked.state(), free.record.state(), "{table:?}");
        assert_eq!((worked.table, worked.order), (table, answer.order));
        let mut by_plain = fresh(&table, &answer.order);
        plain::forward(&mut by_plain, &course);
        assert_eq!(by_plain, worked, "{table:?}");
        planned += 1;
    }
    assert!(planned > 1_000, "{planned}");
}

/// Each of 13, 14 and 15 is given where it was put; a row before it that follows itself
/// makes it 13, and one after it changes nothing. 12 comes before all of them, and 6 after
/// them (rules 5.10, 11.3 and 11.4).
#[test]
fn checks_of_waits_come_row_by_row_after_12_and_before_6() {
    let mut random = Random::seeded(119);
    let mut seen = [0; 3];
    for round in 0..9_000 {
        let mut table = table_in(&mut random, SMALL);
        let asked = 13 + round % 3;
        let number = if table.n == 1 { 13 } else { asked };
        spoil_wait(&mut random, &mut table, asked);
        assert_eq!(check_table(&table), number, "{table:?}");
        assert_eq!(check_table_and_order(&table, &NO_ORDER), number);
        let refused = |&row: &u8| check_wait(&table, row) != 0;
        let at_fault = all_rows(&table).into_iter().find(refused).unwrap();
        for row in all_rows(&table).into_iter().filter(|&row| row != at_fault) {
            let mut both = table;
            both.follows[row as usize - 1] = u32::from(row);
            let first = if row < at_fault { 13 } else { number };
            assert_eq!(check_table(&both), first, "row {row} {table:?}");
        }
        spoil_promise(&mut random, &mut table);
        assert_eq!(check_table(&table), 12, "{table:?}");
        seen[number as usize - 13] += 1;
    }
    assert!(seen.iter().all(|&times| times > 2_000), "{seen:?}");
}

/// Whatever w is: above 0 and below the row's number it names a row, and from there on up
/// to the largest number it is refused with 13.
#[test]
fn every_w_that_is_no_lower_row_is_refused_with_13() {
    let rows = [model::cases::row([0, 1, 64, 0]); ROWS];
    let table = Table::of(1, 1, 0, &rows);
    for row in 1..=ROWS as u32 {
        let number = |follows| {
            let mut waiting = table;
            waiting.follows[row as usize - 1] = follows;
            check_table(&waiting)
        };
        let high = [256, 257, 1 << 16, (1 << 16) + 1, 1 << 31, u32::MAX];
        for follows in (0..=130).chain(high) {
            let expected = if follows < row { 0 } else { 13 };
            assert_eq!(number(follows), expected, "row {row}, w {follows}");
        }
    }
}
