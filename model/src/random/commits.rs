//! Random proposals, records and days, with which commits are compared (section 22 of the
//! rules).

use super::{calls_for, random_order, spoil_promise, spoil_wait, supplies, table_in, tight_under};
use super::{Random, Ranges};
use crate::calls::{Call, LAST_CLOCK};
use crate::judge::judge_table;
use crate::order::Order;
use crate::plan::plan;
use crate::proposal::{Act, InHand, Proposal};
use crate::record::Record;
use crate::table::{earliest_release, Table, ROWS};

/// The numbers by which a commit can refuse a proposal on a sound record with all rows closed
/// (rule 11.10).
pub const SPOILED: [u32; 11] = [3, 4, 11, 5, 12, 13, 14, 15, 6, 16, 18];

/// A proposal in which nothing is wrong at this clock, in slots: a table whose earliest
/// release is at the clock or up to 3 slots later, and a correct order, planned or any other.
/// Some have no slot to spare.
pub fn proposal(random: &mut Random, ranges: Ranges, clock: u32) -> Proposal {
    loop {
        let table = table_in(random, ranges);
        let planned = plan(&table);
        if planned.number != 0 {
            continue;
        }
        let any = random_order(random, &table);
        let order = if is_correct(&table, &any) {
            any
        } else {
            planned.order
        };
        let table = if random.once_in(3) {
            tight_under(random, &table, &order, &[0, 0, 1])
        } else {
            table
        };
        let earliest = clock + random.between(0, 3);
        let table = moved(&table, earliest);
        return Proposal { table, order };
    }
}

fn is_correct(table: &Table, order: &Order) -> bool {
    judge_table(table, order).yes
}

/// The accepted table with every release and every deadline moved so that this is its
/// earliest release, in slots.
pub fn moved(table: &Table, earliest: u32) -> Table {
    let now = earliest_release(table);
    let mut moved = *table;
    for index in 0..table.n as usize {
        moved.release[index] = earliest + (table.release[index] - now);
        moved.deadline[index] = earliest + (table.deadline[index] - now);
    }
    moved
}

/// Changes a proposal in which nothing is wrong so that a commit at this clock (slots) refuses
/// it by the number asked for, one of `SPOILED`. A table of one row gives 13 where 14 or 15 is
/// asked for, and at clock 0, before which nothing is released, nothing changes for 18.
pub fn spoil(random: &mut Random, proposal: &mut Proposal, number: u32, clock: u32) {
    let table = &mut proposal.table;
    match number {
        3 => table.n = random.one_of(&[0, 65, 66, u32::MAX]),
        4 => spoil_speeds(random, table),
        11 => table.loading = random.one_of(&[17, 18, u32::MAX]),
        5 => spoil_row(random, table),
        12 => spoil_promise(random, table),
        13..=15 => spoil_wait(random, table, number),
        6 => spoil_order(random, proposal),
        16 => spoil_correctness(random, proposal),
        18 if clock > 0 => {
            let earliest = clock - 1 - random.between(0, (clock - 1).min(3));
            *table = moved(table, earliest);
        }
        18 => {}
        other => panic!("no proposal is refused with {other}"),
    }
}

fn spoil_speeds(random: &mut Random, table: &mut Table) {
    (table.normal, table.degraded) = random.one_of(&[
        (0, 0),
        (table.normal, 0),
        (table.normal, table.normal + 1),
        (1_001, table.degraded),
        (u32::MAX, u32::MAX),
    ]);
}

/// A row beyond its limits, or figures after the last row.
fn spoil_row(random: &mut Random, table: &mut Table) {
    let index = random.between(0, table.n - 1) as usize;
    match random.between(0, 4) {
        0 => table.deadline[index] = table.release[index],
        1 => table.work[index] = random.one_of(&[0, 1_000_001, u32::MAX]),
        2 => table.deadline[index] = random.one_of(&[0, 1_000_001, u32::MAX]),
        3 if (table.n as usize) < ROWS => table.work[ROWS - 1] = 1,
        _ => table.level[index] = random.one_of(&[2, u32::MAX]),
    }
}

/// A row left out, a number of no row, a row twice, a number after the last place or, if rows
/// follow rows, all waits broken.
fn spoil_order(random: &mut Random, proposal: &mut Proposal) {
    let Proposal { table, order } = proposal;
    let n = table.n as usize;
    match random.between(0, 4) {
        0 => order[random.between(0, n as u32 - 1) as usize] = 0,
        1 => order[n - 1] = random.one_of(&[n as u8 + 1, 65, 255]),
        2 if n > 1 => order[n - 1] = order[0],
        3 if table.follows != [0; ROWS] => order[..n].reverse(),
        _ if n < ROWS => order[random.one_of(&[n, ROWS - 1])] = 1,
        _ => order[0] = 0,
    }
}

/// Deadlines a slot too early, another order of the table that is not correct, if one is found
/// soon, or a row with more work than N does in its time.
fn spoil_correctness(random: &mut Random, proposal: &mut Proposal) {
    let Proposal { table, order } = proposal;
    if random.once_in(2) {
        let tight = tight_under(random, table, order, &[-1, 0]);
        if !is_correct(&tight, order) {
            *table = tight;
            return;
        }
    }
    for _ in 0..4 {
        let other = random_order(random, table);
        if !is_correct(table, &other) {
            *order = other;
            return;
        }
    }
    let index = random.between(0, table.n - 1) as usize;
    let time = table.deadline[index] - table.release[index];
    table.work[index] = time * table.normal + 1;
}

/// A proposal that may be good, spoiled in one way, or spoiled in two.
pub fn any_proposal(random: &mut Random, ranges: Ranges, clock: u32) -> Proposal {
    let mut made = proposal(random, ranges, clock);
    if random.once_in(2) {
        let number = random.one_of(&SPOILED);
        spoil(random, &mut made, number, clock);
        if random.once_in(4) {
            made.order = random.one_of(&[made.order, [0; ROWS], [1; ROWS]]);
        }
    }
    made
}

/// One act on this sheet in hand: a commit in one of two times once all rows are closed, and
/// seldom before that; else a run call of few slots.
pub fn act(random: &mut Random, ranges: Ranges, hand: &InHand) -> Act {
    let commits = random.once_in(if hand.is_over() { 2 } else { 12 });
    if commits {
        let clock = hand.state.clock;
        return Act::Commit(Box::new(any_proposal(random, ranges, clock)));
    }
    let slots = random.between(1, 7);
    let supplies = supplies(random, slots);
    Act::Call(calls_for(random, &supplies)[0].clone())
}

/// A day of so many acts from this sheet in hand on. Each act is made up where the day on
/// paper has come to, so that many commits are accepted.
pub fn day(random: &mut Random, ranges: Ranges, start: &InHand, acts: u32) -> Vec<Act> {
    let mut hand = *start;
    let mut day = Vec::new();
    for _ in 0..acts {
        let act = act(random, ranges, &hand);
        hand.act(&act);
        day.push(act);
    }
    day
}

/// A sound record whose rows are all closed, at this clock or, if rows are still open then,
/// as soon as they are closed.
pub fn closed_record(random: &mut Random, ranges: Ranges, clock: u32) -> Record {
    let table = table_in(random, ranges);
    let order = random_order(random, &table);
    let mut hand = InHand::starting(&table, &order, 0);
    while hand.state.clock < clock || !hand.is_over() {
        let supply = random.between(0, 5);
        hand.act(&Act::Call(Call::OneSlot(supply)));
    }
    hand.record()
}

/// A record of some kind: all rows closed or a few slots worked, and once in two times damaged
/// in one figure, which may leave it sound.
pub fn any_record(random: &mut Random, ranges: Ranges) -> Record {
    let clock = random.between(0, 20);
    let mut record = closed_record(random, ranges, clock);
    if random.once_in(3) {
        let supplies = supplies(random, clock);
        let fresh = Record::starting(&record.table, &record.order, 0);
        record = fresh.forward(&supplies).record;
    }
    if random.once_in(2) {
        damage(random, &mut record);
    }
    record
}

/// Puts another value into one figure of a record. It may still be sound.
pub fn damage(random: &mut Random, record: &mut Record) {
    let any = random.one_of(&[0, 0, 1, 2, 3, LAST_CLOCK, LAST_CLOCK + 1, u32::MAX]);
    let last = record.table.n as usize;
    let index = random.one_of(&[0, last - 1, last.min(ROWS - 1), ROWS - 1]);
    match random.between(0, 9) {
        0 => record.clock = any,
        1 => record.got[index] = any,
        2 => record.used[index] = any,
        3 | 4 => record.closing[index] = any,
        5 => record.table.n = any,
        6 => record.table.deadline[index] = any,
        7 => record.table.follows[index] = any,
        8 => record.table.loading = any,
        _ => record.order[index] = any as u8,
    }
}
