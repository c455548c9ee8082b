//! Proposals of up to 64 rows, by sweeps, and records that are over (section 22 of the rules).

use super::{records::sound_record_at, LARGE};
use compiled::sheets::tight;
use model::order::NO_ORDER;
use model::plain;
use model::proposal::Proposal;
use model::random::commits::{moved, spoil, SPOILED};
use model::random::{random_order, Random};
use model::record::Record;
use model::table::{check_table, ROWS};

/// A proposal of this many rows in which nothing is wrong at this clock, in slots: its
/// earliest release is there or up to 3 slots later. The order is the planner's or, if it is
/// correct, any other.
pub fn large_proposal(random: &mut Random, n: u32, clock: u32) -> Proposal {
    loop {
        let table = tight(random, n, LARGE);
        let planned = plain::plan(&table);
        if planned.number != 0 {
            continue;
        }
        let any = random_order(random, &table);
        let is_correct = plain::judge(&table, &any).yes;
        let order = if is_correct { any } else { planned.order };
        let table = moved(&table, clock + random.between(0, 3));
        if check_table(&table) == 0 {
            return Proposal { table, order };
        }
    }
}

/// The same, or spoiled so that a commit at this clock (slots) refuses it, or both its order
/// and something before it.
pub fn any_large_proposal(random: &mut Random, n: u32, clock: u32) -> Proposal {
    let mut made = large_proposal(random, n, clock);
    if random.once_in(2) {
        let number = random.one_of(&SPOILED);
        spoil_large(random, &mut made, number, clock);
        if random.once_in(6) {
            made.order = random.one_of(&[NO_ORDER, [1; ROWS]]);
        }
    }
    made
}

/// Changes such a proposal so that a commit refuses it by this number, one of `SPOILED`.
pub fn spoil_large(random: &mut Random, proposal: &mut Proposal, number: u32, clock: u32) {
    match number {
        16 => leave_too_little_time(random, proposal),
        _ => spoil(random, proposal, number, clock),
    }
}

/// Moves the deadline of a row to a slot before its worst finish, or before its promised
/// moment if that is later. Rows that are over after their first slot stay.
fn leave_too_little_time(random: &mut Random, proposal: &mut Proposal) {
    let Proposal { table, order } = proposal;
    let (_, slacks) = plain::slacks(table, order);
    let too_early = |index: usize| table.deadline[index] - slacks[index] as u32 - 1;
    let rows = 0..table.n as usize;
    let rows: Vec<usize> = rows
        .filter(|&index| too_early(index) > table.release[index])
        .collect();
    if !rows.is_empty() {
        let index = random.one_of(&rows);
        table.deadline[index] = too_early(index);
    }
}

/// A sound record at this clock, from 1 on, in slots, with all rows closed; most of them such
/// that no run reaches them.
pub fn closed_record_at(random: &mut Random, clock: u32) -> Record {
    let mut record = sound_record_at(random, clock);
    close_all(random, &mut record);
    assert!(record.is_sound(), "{record:?}");
    record
}

/// Makes every open row done, at any clock up to the record's.
pub fn close_all(random: &mut Random, record: &mut Record) {
    for index in 0..record.table.n as usize {
        if record.closing[index] == 0 {
            record.got[index] = record.table.work[index];
            record.closing[index] = random.between(1, record.clock);
        }
    }
}
