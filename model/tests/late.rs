//! Late previews (section 19 of the rules): what the running rule adds to the
//! planning rule, that a correct order serves, and that both rules make one run
//! while the speed is normal. Cases worked out by hand are in `cases`, check 9 is in
//! `soundness`.

mod common;

use common::correct::{
    correct_by_every_course, correct_by_slacks, kept_in_its_window, survives_random_courses, TINY,
};
use common::{all_rows, fresh, rows_at_level, slots_with_loading, table_and_order, Kinds, SMALL};
use model::cases::row;
use model::order::{orders, Order};
use model::plan::plan;
use model::random::{calls_for, supplies, table_in, with_waits, Random};
use model::run::{kept_deadline, running_step, step, State};
use model::table::{allowance, Table, HI, LO};

/// A table and an order; once in three times all of its rows have one deadline.
fn table_about_deadlines(random: &mut Random) -> (Table, Order) {
    let (mut table, order) = table_and_order(random);
    if random.once_in(3) {
        let rows = &mut table.deadline[..table.n as usize];
        rows.fill(rows.iter().copied().max().unwrap());
    }
    (table, order)
}

/// What became of a LO row by the end of slot d - 1, d its deadline, in a run that is
/// worked, and of a HI row.
#[derive(Default, Debug)]
struct AtDeadlines {
    /// Done by this very slot (rule 19.3).
    done: u32,
    /// Dropped for its allowance by this very slot (rule 19.3).
    used_up: u32,
    /// Dropped for its deadline after it ran in this slot (rule 19.2).
    late_running: u32,
    /// Dropped for its deadline while it waited (rule 19.2).
    late_waiting: u32,
    /// HI and open: it goes on (rule 19.4).
    high_open: u32,
}

/// A step by the running rule is one by the planning rule, of the same row, and after
/// it the LO rows that are open at a clock which has reached their deadlines are
/// dropped with that clock. Nothing else is other than by the planning rule (rules
/// 19.2 to 19.4 and 19.7).
#[test]
fn the_clock_drops_late_previews_and_nothing_else() {
    let mut random = Random::seeded(81);
    let mut seen = AtDeadlines::default();
    let (mut alike, mut at_once) = (0, 0);
    let mut kinds = Kinds::default();
    for _ in 0..12_000 {
        let (table, order) = table_about_deadlines(&mut random);
        kinds.saw(&table);
        let slots = slots_with_loading(&table, 40);
        let mut state = State::FRESH;
        for supply in supplies(&mut random, slots) {
            let (mut planned, before) = (state, state);
            let row = running_step(&table, &order, &mut state, supply);
            assert_eq!(step(&table, &order, &mut planned, supply), row);
            let mut dropped = 0;
            for other in all_rows(&table) {
                dropped += u32::from(dropped_by_clock(&table, &planned, &state, other));
                count_at_deadline(&table, &before, &state, other, row, &mut seen);
            }
            assert_eq!(planned == state, dropped == 0, "{table:?} {order:?}");
            alike += u32::from(dropped == 0);
            at_once += u32::from(dropped > 1);
        }
    }
    println!("{seen:?}; {alike} steps alike, {at_once} dropped two rows or more");
    assert!(seen.done > 200 && seen.used_up > 200 && seen.high_open > 1_000);
    assert!(seen.late_running > 1_000 && seen.late_waiting > 1_000);
    assert!(alike > 100_000 && at_once > 50);
    kinds.assert_all(60);
}

/// Was the row dropped by the clock? `planned` is the state that the planning rule
/// makes of the same slot. A row that was not has the same entries in both.
fn dropped_by_clock(table: &Table, planned: &State, state: &State, row: u8) -> bool {
    let index = row as usize - 1;
    let job = table.row(row);
    let entries = |of: &State| (of.got[index], of.used[index], of.closing[index]);
    let (got, used, closing) = entries(planned);
    let dropped = job.level == LO && closing == 0 && job.deadline <= planned.clock;
    let expected = if dropped { planned.clock } else { closing };
    assert_eq!(entries(state), (got, used, expected), "row {row} {table:?}");
    dropped
}

/// Counts what became of a row that was open before the slot which ends at its
/// deadline.
fn count_at_deadline(
    table: &Table,
    before: &State,
    after: &State,
    row: u8,
    ran: u8,
    seen: &mut AtDeadlines,
) {
    let index = row as usize - 1;
    let job = table.row(row);
    if before.closing[index] != 0 || after.clock != job.deadline {
        return;
    }
    let done = after.got[index] == job.work;
    let used_up = after.used[index] >= allowance(table, row);
    if job.level == HI {
        assert_eq!(after.closing[index] != 0, done, "{table:?}");
        seen.high_open += u32::from(!done);
        return;
    }
    assert_eq!(after.closing[index], job.deadline, "{table:?}");
    assert_eq!(kept_deadline(table, after, row), done);
    *(match (done, used_up) {
        (true, _) => &mut seen.done,
        (false, true) => &mut seen.used_up,
        (false, false) if row == ran => &mut seen.late_running,
        (false, false) => &mut seen.late_waiting,
    }) += 1;
}

/// In a record that calls have reached no LO row is open at its deadline or was closed
/// after it, and a dropped row tells why it was dropped (rule 19.9). A HI row has a
/// closing slot only if it is done, and may be done late (rule 19.4). The record is
/// sound (rule 8.16).
#[test]
fn why_a_row_was_dropped() {
    let mut random = Random::seeded(82);
    let (mut used_up, mut late, mut high_late) = ([0; 2], 0, 0);
    for _ in 0..12_000 {
        let (table, order) = table_about_deadlines(&mut random);
        let slots = slots_with_loading(&table, 40);
        let course = supplies(&mut random, slots);
        let (_, record) = fresh(&table, &order).play(&calls_for(&mut random, &course));
        assert_eq!(record.reasons(), []);
        for row in all_rows(&table) {
            let index = row as usize - 1;
            let job = table.row(row);
            let (used, closing) = (record.used[index], record.closing[index]);
            let done = record.got[index] == job.work;
            if job.level == HI {
                assert_eq!(closing != 0, done);
                high_late += u32::from(closing > job.deadline);
                continue;
            }
            assert!(closing != 0 || record.clock < job.deadline, "{record:?}");
            assert!(closing <= job.deadline, "{record:?}");
            if closing == 0 || done {
                continue;
            }
            if used < allowance(&table, row) {
                assert_eq!(closing, job.deadline, "{record:?}");
                late += 1;
            } else {
                assert_eq!(used, allowance(&table, row), "{record:?}");
                used_up[usize::from(closing == job.deadline)] += 1;
            }
        }
    }
    println!("{used_up:?} dropped for their allowance before and at their deadline");
    println!("{late} dropped for their deadline, {high_late} HI rows done late");
    assert!(used_up.iter().all(|&rows| rows > 200) && late > 1_000 && high_late > 1_000);
}

/// A crowded table of three rows, in which some order serves without being correct
/// more often than in others.
fn crowded_table(random: &mut Random) -> Table {
    let loading = random.one_of(&[0, 0, 1, 2]);
    let row = |random: &mut Random| {
        let release = random.between(0, 1);
        let window = random.between(1, 4) + loading * random.between(1, 3);
        let work = random.between(1, 4);
        row([release, work, release + window, random.between(0, 1)])
    };
    let rows = [(); 3].map(|()| row(random));
    let table = Table::of(random.between(2, 3), 1, loading, &rows);
    with_waits(random, &table)
}

/// Over every course of speed: a correct order serves, and each of its rows keeps its
/// deadline if the slots of its window do their part (rule 19.5). Other orders serve
/// too, some of them in tables without a correct order, to which the planner answers
/// 7 (rule 19.8).
#[test]
fn correct_orders_serve_and_some_others_do() {
    let mut random = Random::seeded(83);
    let (mut correct, mut others, mut serving, mut without) = (0, 0, 0, 0);
    let mut lost = 0;
    let mut kinds = Kinds::default();
    for round in 0..12_000 {
        let table = if round % 2 == 0 {
            table_in(&mut random, TINY)
        } else {
            crowded_table(&mut random)
        };
        kinds.saw(&table);
        let has_correct = plan(&table).number == 0;
        let mut is_served = false;
        for order in orders(&table) {
            let serves = correct_by_every_course(running_step, &table, &order);
            let in_windows = |&row: &u8| kept_in_its_window(running_step, &table, &order, row);
            if correct_by_slacks(&table, &order) {
                assert!(serves, "{table:?} {:?}", &order[..3]);
                let rows = all_rows(&table);
                assert!(rows.iter().all(in_windows), "{table:?} {:?}", &order[..3]);
                correct += 1;
                continue;
            }
            others += 1;
            serving += u32::from(serves);
            is_served |= serves;
            lost += u32::from(!all_rows(&table).iter().all(in_windows));
        }
        without += u32::from(is_served && !has_correct);
    }
    println!("{correct} correct orders; of {others} others {serving} serve, {lost} lose a row");
    println!("{without} tables without a correct order have one that serves");
    assert!(correct > 3_000 && others > 3_000 && serving > 10 && without > 10);
    assert!(lost > 3_000);
    kinds.assert_all(150);
}

/// The same on larger tables, under random courses of speed.
#[test]
fn correct_orders_serve_under_random_courses() {
    let mut random = Random::seeded(84);
    let (mut correct, mut failed) = (0, 0);
    let mut kinds = Kinds::default();
    for _ in 0..10_000 {
        let table = table_in(&mut random, SMALL);
        kinds.saw(&table);
        let order = random.one_of(&orders(&table));
        let planned = plan(&table);
        let candidates = [order, planned.order];
        for order in &candidates[..if planned.number == 0 { 2 } else { 1 }] {
            let survives = survives_random_courses(running_step, &table, order, &mut random);
            if correct_by_slacks(&table, order) {
                assert!(survives, "{table:?} {order:?}");
                correct += 1;
            }
            failed += u32::from(!survives);
        }
    }
    println!("{correct} correct orders, {failed} orders that do not serve");
    assert!(correct > 2_000 && failed > 2_000);
    kinds.assert_all(200);
}

/// A course whose slots before `from` supply anything and those from there on at least
/// `least`, in work units.
fn course_from(random: &mut Random, slots: u32, from: u32, least: u32) -> Vec<u32> {
    let any = supplies(random, slots);
    (0..)
        .zip(any)
        .map(|(slot, supply)| {
            if slot < from {
                supply
            } else {
                least.saturating_add(supply)
            }
        })
        .collect()
}

/// The first slot after which the rules make two different states, if there is one.
fn first_difference(table: &Table, order: &Order, course: &[u32]) -> Option<u32> {
    let (mut planned, mut worked) = (State::FRESH, State::FRESH);
    course.iter().find_map(|&supply| {
        step(table, order, &mut planned, supply);
        running_step(table, order, &mut worked, supply);
        (planned != worked).then_some(planned.clock - 1)
    })
}

/// Under a correct order both rules make one run as long as each slot from the least
/// release on supplies at least N (rule 19.6). Where a slot supplies less they part in
/// many runs, and so they do under other orders.
#[test]
fn one_run_while_the_speed_is_normal() {
    let mut random = Random::seeded(85);
    let (mut same, mut part_below, mut part_otherwise) = (0, 0, 0);
    let mut kinds = Kinds::default();
    for _ in 0..12_000 {
        let table = table_in(&mut random, SMALL);
        let slots = slots_with_loading(&table, 40);
        let earliest = table.rows().iter().map(|job| job.release).min().unwrap();
        let order = random.one_of(&orders(&table));
        let planned = plan(&table);
        let candidates = [order, planned.order];
        for order in &candidates[..if planned.number == 0 { 2 } else { 1 }] {
            let course = course_from(&mut random, slots, earliest, table.normal);
            let parted = first_difference(&table, order, &course);
            if !correct_by_slacks(&table, order) {
                part_otherwise += u32::from(parted.is_some());
                continue;
            }
            assert_eq!(parted, None, "{table:?} {order:?}");
            kinds.saw(&table);
            same += 1;
            // From some slot on, every one supplies less.
            let from = random.between(earliest, earliest + 10);
            let mut slower = course;
            slower[from as usize..].fill(random.between(0, table.normal - 1));
            if let Some(slot) = first_difference(&table, order, &slower) {
                assert!(slot >= from, "{table:?} {order:?}");
                part_below += 1;
            }
        }
    }
    println!("{same} runs alike, {part_below} part after a slot below N");
    println!("{part_otherwise} part under an order that is not correct");
    assert!(same > 5_000 && part_below > 500 && part_otherwise > 2_000);
    kinds.assert_all(50);
}

/// The table with every row HI, and so without promises.
fn all_high(table: &Table) -> Table {
    let mut high = table.without_promises();
    high.level[..table.n as usize].fill(HI);
    high
}

/// A table of HI rows alone runs as it did before there was a running rule, whatever
/// is supplied (rule 19.7), while the same rows at their own levels often do not.
#[test]
fn tables_of_hi_rows_run_as_before() {
    let mut random = Random::seeded(86);
    let (mut parted, mut late) = (0, 0);
    for _ in 0..6_000 {
        let (table, order) = table_and_order(&mut random);
        let slots = slots_with_loading(&table, 40);
        let course = supplies(&mut random, slots);
        let high = all_high(&table);
        assert_eq!(rows_at_level(&high, LO), []);
        assert_eq!(first_difference(&high, &order, &course), None, "{table:?}");
        parted += u32::from(first_difference(&table, &order, &course).is_some());
        let record = fresh(&high, &order).forward(&course).record;
        let is_late = |row: &u8| record.closing[*row as usize - 1] > high.row(*row).deadline;
        late += all_rows(&high).iter().filter(|&row| is_late(row)).count();
    }
    assert!(
        parted > 1_000 && late > 1_000,
        "{parted} parted, {late} rows done late"
    );
}
