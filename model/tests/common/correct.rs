//! Correct orders by three ways: slacks, every course of speed, random courses. The
//! last two ask it of either rule of a slot; an order of which it holds by the
//! running rule serves (rule 19.5).

use super::{all_rows, rows_at_level};
use model::order::Order;
use model::plan::{slack, worst_speed};
use model::random::{Random, Ranges};
use model::run::{has_promised, kept_deadline, run_by, window, Rule, State};
use model::table::{Table, HI};
use std::collections::HashSet;
use std::ops::RangeInclusive;

/// Tables on which every course of speed can be tried.
pub const TINY: Ranges = Ranges {
    rows: 3,
    speed: 3,
    release: 2,
    need: 2,
    window: 3,
};

/// Judged by slacks: none is below zero.
pub fn correct_by_slacks(table: &Table, order: &Order) -> bool {
    all_rows(table)
        .into_iter()
        .all(|row| slack(table, order, row) >= 0)
}

/// Do all these rows keep their deadlines under this course of speed? The course
/// reaches the latest deadline.
fn all_kept(rule: Rule, table: &Table, order: &Order, course: &[u32], rows: &[u8]) -> bool {
    let state = run_by(rule, table, order, course);
    rows.iter().all(|&row| kept_deadline(table, &state, row))
}

/// Has every row that promises a part got it by its deadline under this course of
/// speed?
fn all_promises_kept(rule: Rule, table: &Table, order: &Order, course: &[u32]) -> bool {
    promising_rows(table).iter().all(|&row| {
        let until_deadline = &course[..table.row(row).deadline as usize];
        has_promised(table, &run_by(rule, table, order, until_deadline), row)
    })
}

/// The rows of a table that promise a part.
pub fn promising_rows(table: &Table) -> Vec<u8> {
    let mut rows = all_rows(table);
    rows.retain(|&row| table.row(row).promised > 0);
    rows
}

/// The latest deadline, in slots.
fn horizon(table: &Table) -> usize {
    table.deadline.iter().copied().max().unwrap() as usize
}

/// Is this so of every state that a run has within so many slots, under any course of
/// speed with supplies from these, in work units, for each slot? Courses that have come
/// to the same state go on together.
fn every_state(
    rule: Rule,
    table: &Table,
    order: &Order,
    slots: u32,
    supplies: &dyn Fn(u32) -> RangeInclusive<u32>,
    is_so: &dyn Fn(&State) -> bool,
) -> bool {
    every_state_from(0, rule, table, order, slots, supplies, is_so)
}

/// The same of a run that starts at this clock with zeros for all rows (rule 22.8), up to the
/// clock that shows `end` slots.
pub fn every_state_from(
    clock: u32,
    rule: Rule,
    table: &Table,
    order: &Order,
    end: u32,
    supplies: &dyn Fn(u32) -> RangeInclusive<u32>,
    is_so: &dyn Fn(&State) -> bool,
) -> bool {
    let mut states = HashSet::from([State::at(clock)]);
    for slot in clock..end {
        let stepped = |state: &State, supply| {
            let mut after = *state;
            rule(table, order, &mut after, supply);
            after
        };
        let after = |state| supplies(slot).map(move |supply| stepped(state, supply));
        states = states.iter().flat_map(after).collect();
        if !states.iter().all(is_so) {
            return false;
        }
    }
    true
}

/// The largest work, in work units: a supply above it brings no more than it does.
pub fn largest_work(table: &Table) -> u32 {
    table.work.iter().copied().max().unwrap()
}

/// Judged by the definition (rules 3.2 to 3.4 and 3.8, and rule 19.5 for the running
/// rule): every course that stays at N or above keeps all deadlines, and every one at G
/// or above keeps those of HI rows and all promises. All courses are tried. Supplies
/// above the largest work bring no more than it does, and slots from the latest
/// deadline on come too late to matter.
pub fn correct_by_every_course(rule: Rule, table: &Table, order: &Order) -> bool {
    let largest = largest_work(table);
    let slots = horizon(table) as u32;
    let kept = |state: &State, rows: &[u8]| {
        state.clock < slots || rows.iter().all(|&row| kept_deadline(table, state, row))
    };
    let all_courses = |least: u32, is_so: &dyn Fn(&State) -> bool| {
        let supplies = |_| least..=largest.max(least);
        every_state(rule, table, order, slots, &supplies, is_so)
    };
    let (everything, high) = (all_rows(table), rows_at_level(table, HI));
    let promising = promising_rows(table);
    let promises_kept = |state: &State| {
        let mut due = promising
            .iter()
            .filter(|&&row| table.row(row).deadline == state.clock);
        due.all(|&row| has_promised(table, state, row))
    };
    all_courses(table.normal, &|state| kept(state, &everything))
        && all_courses(table.degraded, &|state| {
            kept(state, &high) && promises_kept(state)
        })
}

/// Does the row keep its deadline under every course in which each slot of its window
/// (rule 9.14) supplies at least N for a LO row, or G for a HI row, and every other
/// slot anything (rule 19.5)? It is asked at every clock up to two slots after the deadline.
pub fn kept_in_its_window(rule: Rule, table: &Table, order: &Order, row: u8) -> bool {
    let least = worst_speed(table, row);
    in_its_window(rule, table, order, row, least, |state| {
        kept_deadline(table, state, row)
    })
}

/// Has the row got its promised part from its deadline on under every course in which
/// each slot of its window supplies at least G, and every other slot anything (rule
/// 9.18)? It is asked at every clock up to two slots after the deadline.
pub fn promised_in_its_window(rule: Rule, table: &Table, order: &Order, row: u8) -> bool {
    in_its_window(rule, table, order, row, table.degraded, |state| {
        has_promised(table, state, row)
    })
}

/// Is this so of every state from the row's deadline on, up to two slots after it, under
/// every course in which each slot of its window supplies at least `least`?
fn in_its_window(
    rule: Rule,
    table: &Table,
    order: &Order,
    row: u8,
    least: u32,
    is_so: impl Fn(&State) -> bool,
) -> bool {
    let deadline = table.row(row).deadline;
    let from_deadline = |state: &State| state.clock < deadline || is_so(state);
    in_its_window_from(0, rule, table, order, row, least, &from_deadline)
}

/// Is this so of every state of a run that starts at this clock with zeros for all rows, up to
/// two slots after the row's deadline, under every such course?
pub fn in_its_window_from(
    clock: u32,
    rule: Rule,
    table: &Table,
    order: &Order,
    row: u8,
    least: u32,
    is_so: &dyn Fn(&State) -> bool,
) -> bool {
    let (deadline, largest) = (table.row(row).deadline, largest_work(table));
    let in_window = window(table, row, deadline);
    let supplies = |slot| match slot {
        slot if in_window.contains(&slot) => least..=largest.max(least),
        _ => 0..=largest,
    };
    every_state_from(clock, rule, table, order, deadline + 2, &supplies, is_so)
}

/// A course with every supply at least `least`: often exactly that, sometimes a
/// little more, sometimes as much as there is.
fn random_course(random: &mut Random, slots: usize, least: u32) -> Vec<u32> {
    let mostly_least = random.once_in(2);
    (0..slots)
        .map(|_| match random.between(0, 9) {
            0 => u32::MAX,
            1..=3 => least + random.between(0, 6),
            _ if mostly_least => least,
            _ => least + random.between(0, 1),
        })
        .collect()
}

/// The two constant courses and several random ones: does each keep what it has
/// to keep?
pub fn survives_random_courses(
    rule: Rule,
    table: &Table,
    order: &Order,
    random: &mut Random,
) -> bool {
    let slots = horizon(table);
    let (everything, high) = (all_rows(table), rows_at_level(table, HI));
    let at_normal = |course: &[u32]| all_kept(rule, table, order, course, &everything);
    let at_degraded = |course: &[u32]| {
        all_kept(rule, table, order, course, &high) && all_promises_kept(rule, table, order, course)
    };
    let mut survives =
        at_normal(&vec![table.normal; slots]) && at_degraded(&vec![table.degraded; slots]);
    for _ in 0..6 {
        let normal = random_course(random, slots, table.normal);
        let degraded = random_course(random, slots, table.degraded);
        survives &= at_normal(&normal) && at_degraded(&degraded);
    }
    survives
}
