//! Rules of a slot and checks of a record with one fault each in how they treat late
//! previews (rules 14.16 to 14.21), the smallest tables on which they go wrong, and
//! the cases and random runs that tell them.

use crate::search::{figures, first_of, FirstOf};
use model::cases::{late_runs, table as table_of, HandRun};
use model::order::{every_arrangement, order_of, orders, Order};
use model::random::{table_in, Random, Ranges};
use model::record::{Record, Unsound};
use model::run::{chosen, is_finished, is_late_preview, running_step, step, Rule, State};
use model::table::Table;
use std::collections::HashSet;

/// A running rule with a fault.
pub struct Faulty {
    pub name: &'static str,
    pub rule: Rule,
}

/// The clock is looked at before the work of the slot is added: the last slot of a LO
/// row counts as used and brings nothing.
const BEFORE_THE_WORK: Faulty = Faulty {
    name: "closed before the slot counts (rule 14.16)",
    rule: |table, order, state, supply| {
        let row = chosen(table, order, state);
        let is_last = row != 0 && is_late_preview(table, row, state.clock + 1);
        running_step(table, order, state, if is_last { 0 } else { supply })
    },
};

/// LO rows are dropped when the clock is past their deadlines.
const A_SLOT_LATE: Faulty = Faulty {
    name: "closed one slot late (rule 14.17)",
    rule: |table, order, state, supply| {
        let row = step(table, order, state, supply);
        let clock = state.clock;
        drop_rows(table, state, |row| is_late_preview(table, row, clock - 1));
        row
    },
};

/// The clock closes HI rows too.
const HI_ROWS_TOO: Faulty = Faulty {
    name: "HI rows closed (rule 14.18)",
    rule: |table, order, state, supply| {
        let row = step(table, order, state, supply);
        let clock = state.clock;
        drop_rows(table, state, |row| table.row(row).deadline <= clock);
        row
    },
};

/// Of the late rows only the one that has just run is dropped.
const RUNNING_ROW_ONLY: Faulty = Faulty {
    name: "running row only (rule 14.19)",
    rule: |table, order, state, supply| {
        let ran = step(table, order, state, supply);
        let clock = state.clock;
        let is_dropped = |row| row == ran && is_late_preview(table, row, clock);
        drop_rows(table, state, is_dropped);
        ran
    },
};

/// Late rows go on, as they do by the planning rule.
const NONE_DROPPED: Faulty = Faulty {
    name: "no late row closed",
    rule: step,
};

const FAULTS: [Faulty; 5] = [
    BEFORE_THE_WORK,
    A_SLOT_LATE,
    HI_ROWS_TOO,
    RUNNING_ROW_ONLY,
    NONE_DROPPED,
];

/// Drops every open row of which this is true, with the clock as its closing slot.
fn drop_rows(table: &Table, state: &mut State, is_dropped: impl Fn(u8) -> bool) {
    for row in 1..=table.n as u8 {
        let closing = &mut state.closing[row as usize - 1];
        if *closing == 0 && is_dropped(row) {
            *closing = state.clock;
        }
    }
}

/// A run in which a faulty rule makes another state than the true one, by its last
/// slot and not before.
#[derive(Debug, PartialEq, Eq)]
pub struct Parting {
    table: Table,
    order: Order,
    /// What each slot supplies, in work units.
    supplies: Vec<u32>,
    /// Work got, slots used and closing slot of each row by the true rule.
    truth: Vec<[u32; 3]>,
    /// The same by the faulty one.
    faulty: Vec<[u32; 3]>,
}

fn entries(table: &Table, state: &State) -> Vec<[u32; 3]> {
    (0..table.n as usize)
        .map(|index| [state.got[index], state.used[index], state.closing[index]])
        .collect()
}

/// The shortest such run of a table, over every arrangement and every course of supplies up
/// to its largest work, two slots past its latest deadline at most.
fn shortest(fault: &Faulty, table: &Table) -> Option<Parting> {
    every_arrangement(table.n)
        .iter()
        .filter_map(|order| shortest_under(fault, table, order))
        .min_by_key(|parting| parting.supplies.len())
}

fn shortest_under(fault: &Faulty, table: &Table, order: &Order) -> Option<Parting> {
    let (largest, latest) = (table.work.iter().max()?, table.deadline.iter().max()?);
    // Runs that have come to the same state go on together.
    let mut runs = vec![(State::FRESH, Vec::new())];
    for _ in 0..latest + 2 {
        let mut seen = HashSet::new();
        let mut next = Vec::new();
        for (state, supplies) in &runs {
            for supply in 0..=*largest {
                let supplies = [supplies.as_slice(), &[supply]].concat();
                let (mut truth, mut faulty) = (*state, *state);
                running_step(table, order, &mut truth, supply);
                (fault.rule)(table, order, &mut faulty, supply);
                if truth != faulty {
                    return Some(Parting {
                        table: *table,
                        order: *order,
                        supplies,
                        truth: entries(table, &truth),
                        faulty: entries(table, &faulty),
                    });
                }
                if seen.insert(truth) {
                    next.push((truth, supplies));
                }
            }
        }
        runs = next;
    }
    None
}

/// The shortest run of the smallest table on which this rule goes wrong.
pub fn smallest(first_of: FirstOf<Parting>, fault: &Faulty) -> Parting {
    let found = first_of(&|table: &Table| shortest(fault, table)).expect(fault.name);
    println!("{}\n  {}", fault.name, figures(&found.table));
    let order = &found.order[..found.table.n as usize];
    println!("  order {order:?}, supplies {:?}", found.supplies);
    println!("  true {:?}, faulty {:?}", found.truth, found.faulty);
    found
}

/// The run that is told, in few words: table, order, supplies, and the entries of
/// each row by the true rule and by the faulty one.
pub fn parting(
    table: Table,
    rows: &[u8],
    supplies: &[u32],
    truth: &[[u32; 3]],
    faulty: &[[u32; 3]],
) -> Parting {
    Parting {
        table,
        order: order_of(rows),
        supplies: supplies.to_vec(),
        truth: truth.to_vec(),
        faulty: faulty.to_vec(),
    }
}

#[test]
fn smallest_runs() {
    let one = |work, level| table_of(1, 1, &[[0, work, 1, level]]);
    let two = table_of(1, 1, &[[0, 1, 1, 0], [0, 1, 1, 0]]);
    let late = |faulty| parting(one(2, 0), &[1], &[0], &[[0, 1, 1]], &[faulty]);
    // Each of them by the first slot, at the end of which the clock shows 1.
    let expected = [
        // Its only slot brings the row all of its work.
        (
            &BEFORE_THE_WORK,
            parting(one(1, 0), &[1], &[1], &[[1, 1, 1]], &[[0, 1, 1]]),
        ),
        // One of its two slots is left.
        (&A_SLOT_LATE, late([0, 1, 0])),
        (&NONE_DROPPED, late([0, 1, 0])),
        // A HI row that has got nothing stays open.
        (
            &HI_ROWS_TOO,
            parting(one(1, 1), &[1], &[0], &[[0, 1, 0]], &[[0, 1, 1]]),
        ),
        // Row 2 waits for row 1.
        (
            &RUNNING_ROW_ONLY,
            parting(
                two,
                &[1, 2],
                &[0],
                &[[0, 1, 1], [0, 0, 1]],
                &[[0, 1, 1], [0, 0, 0]],
            ),
        ),
    ];
    assert_eq!(expected.len(), FAULTS.len());
    for (fault, run) in expected {
        assert_eq!(smallest(first_of, fault), run, "{}", fault.name);
    }
}

/// Does this rule make another state than the true one somewhere in this run?
pub fn tells(fault: &Faulty, table: &Table, order: &Order, supplies: &[u32]) -> bool {
    let (mut truth, mut faulty) = (State::FRESH, State::FRESH);
    supplies.iter().any(|&supply| {
        running_step(table, order, &mut truth, supply);
        (fault.rule)(table, order, &mut faulty, supply);
        truth != faulty
    })
}

const RANGES: Ranges = Ranges {
    rows: 4,
    speed: 4,
    release: 6,
    need: 3,
    window: 9,
};

/// Tables, an order of each, and what 60 slots supply.
fn random_runs(seed: u64, count: usize) -> Vec<(Table, Order, Vec<u32>)> {
    let mut random = Random::seeded(seed);
    let mut run = || {
        let table = table_in(&mut random, RANGES);
        let order = random.one_of(&orders(&table));
        let supplies = (0..60).map(|_| random.between(0, table.normal)).collect();
        (table, order, supplies)
    };
    (0..count).map(|_| run()).collect()
}

/// The first of the runs worked out by hand, P7 and P8 and those of rule 13.13 in
/// front, that tells each fault; random runs tell it as well.
#[test]
fn cases_and_random_runs_that_tell_a_fault() {
    let idle_after = "dropped for its deadline, and the slot after that is idle";
    let expected = [
        (&BEFORE_THE_WORK, "done by its last slot"),
        (&A_SLOT_LATE, idle_after),
        (
            &HI_ROWS_TOO,
            "P7: dropped for its allowance, and a HI row done late",
        ),
        (
            &RUNNING_ROW_ONLY,
            "dropped for its deadline without a slot of its own",
        ),
        (&NONE_DROPPED, idle_after),
    ];
    let runs = random_runs(72, 1_000);
    for (fault, first) in expected {
        let is_told = |run: &HandRun| tells(fault, &run.table, &run.order, &run.supplies);
        let cases = late_runs().into_iter().map(|case| case.run);
        let told: Vec<&str> = cases.filter(is_told).map(|run| run.what).collect();
        let by_runs = |run: &&(Table, Order, Vec<u32>)| tells(fault, &run.0, &run.1, &run.2);
        let count = runs.iter().filter(by_runs).count();
        println!("{}: {} cases, {count} random runs", fault.name, told.len());
        assert_eq!(told.first(), Some(&first), "{}", fault.name);
        assert!(count > 20, "{}: {count} random runs", fault.name);
    }
}

/// A check 9 with a fault.
struct FaultyCheck {
    name: &'static str,
    is_sound: fn(&Record) -> bool,
}

/// A LO row that was closed at its deadline with work missing and allowance left is
/// refused.
const CLOSINGS_REFUSED: FaultyCheck = FaultyCheck {
    name: "closings refused (rule 14.20)",
    is_sound: |record| record.is_sound() && !has_row_dropped_for_its_deadline(record),
};

fn has_row_dropped_for_its_deadline(record: &Record) -> bool {
    (1..=record.table.n as u8).any(|row| {
        let index = row as usize - 1;
        let (got, used, closing) = (record.got[index], record.used[index], record.closing[index]);
        closing != 0 && !is_finished(&record.table, row, got, used)
    })
}

/// An open LO row whose deadline the clock has reached is accepted.
const LATE_LET_THROUGH: FaultyCheck = FaultyCheck {
    name: "late rows let through (rule 14.21)",
    is_sound: |record| {
        let reasons = record.reasons();
        reasons
            .iter()
            .all(|&reason| reason == Unsound::OpenThoughLate)
    },
};

/// Every record that a run of the table reaches, over every order and every course of
/// supplies up to its largest work, two slots past its latest deadline at most.
fn reached_records(table: &Table) -> Vec<Record> {
    let largest = table.work.iter().copied().max().unwrap();
    let latest = table.deadline.iter().copied().max().unwrap();
    let mut records = Vec::new();
    for order in orders(table) {
        let mut states = vec![State::FRESH];
        for _ in 0..latest + 2 {
            let held = |state| Record::holding(table, &order, state);
            records.extend(states.iter().map(held));
            let stepped = |state: &State, supply| {
                let mut after = *state;
                running_step(table, &order, &mut after, supply);
                after
            };
            let after = |state| (0..=largest).map(move |supply| stepped(state, supply));
            let mut seen = HashSet::new();
            let next = states.iter().flat_map(after);
            states = next.filter(|state| seen.insert(*state)).collect();
        }
    }
    records
}

/// Fresh records of the table, in its row order, set to every clock up to two slots
/// past its latest deadline.
fn fresh_records_at_clocks(table: &Table) -> Vec<Record> {
    let latest = table.deadline.iter().copied().max().unwrap();
    let order = orders(table)[0];
    let at = |clock| Record {
        clock,
        ..Record::holding(table, &order, &State::FRESH)
    };
    (0..=latest + 2).map(at).collect()
}

/// The first of these records of the smallest table on which this check goes wrong.
fn smallest_record(check: &FaultyCheck, records: fn(&Table) -> Vec<Record>) -> Option<Record> {
    let is_wrong = |record: &Record| (check.is_sound)(record) != record.is_sound();
    let found = first_of(&|table: &Table| records(table).into_iter().find(is_wrong))?;
    println!("{}\n  {}", check.name, figures(&found.table));
    let entries = entries(&found.table, &found.state());
    println!("  clock {}, rows {entries:?}", found.clock);
    Some(found)
}

#[test]
fn smallest_records() {
    // A run reaches it: of two slots that the row needs it has had one.
    let dropped = smallest_record(&CLOSINGS_REFUSED, reached_records).unwrap();
    assert_eq!(dropped.table, table_of(1, 1, &[[0, 2, 1, 0]]));
    assert!(dropped.is_sound() && dropped.clock == 1);
    assert_eq!(entries(&dropped.table, &dropped.state()), [[0, 1, 1]]);
    // A row that has not run at its deadline.
    let late = smallest_record(&LATE_LET_THROUGH, fresh_records_at_clocks).unwrap();
    assert_eq!(late.table, table_of(1, 1, &[[0, 1, 1, 0]]));
    assert_eq!(late.reasons(), [Unsound::OpenThoughLate]);
    assert_eq!((late.clock, late.closing[0]), (1, 0));
}

/// A check that refuses closings ends runs with 9 on the way, random ones and some of
/// the cases. No run reaches a record that only the other check lets through, so that
/// records have to be made up for it.
#[test]
fn runs_and_records_that_tell_a_faulty_check() {
    let runs = random_runs(73, 1_000);
    let cases = late_runs().into_iter().map(|case| case.run);
    let cases: Vec<_> = cases
        .map(|run| (run.table, run.order, run.supplies))
        .collect();
    let ends_with_9 = |(table, order, supplies): &&(Table, Order, Vec<u32>)| {
        let mut record = Record::holding(table, order, &State::FRESH);
        supplies.iter().any(|&supply| {
            record = record.one_slot(supply).record;
            assert!(record.is_sound());
            !(CLOSINGS_REFUSED.is_sound)(&record)
        })
    };
    let [of_runs, of_cases] = [&runs, &cases].map(|of| of.iter().filter(ends_with_9).count());
    let is_let_through = |record: &Record| (LATE_LET_THROUGH.is_sound)(record);
    let made_up = runs.iter().flat_map(|run| fresh_records_at_clocks(&run.0));
    let wrong = made_up.filter(|record| is_let_through(record) && !record.is_sound());
    let let_through = wrong.count();
    println!("{of_runs} runs and {of_cases} cases end with 9, {let_through} records let through");
    assert!(of_runs > 100 && of_cases > 5 && let_through > 100);
}
