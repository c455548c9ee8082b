//! What a slot does by the planning rule (section 2 of the rules) and by the
//! running rule (section 19). The table is accepted (rule 5.5), and the order holds each
//! of its rows once. Trials have orders that break waits (rule 21.3), so that a slot looks
//! at the waits and not at how the order stands to them.

use crate::order::Order;
use crate::table::{allowance, earliest_release, Table, LO, ROWS};
use std::ops::Range;

/// The state of a run (rule 2.13). The entry of row i stands at index i - 1.
#[derive(Clone, Copy, Debug, PartialEq, Eq, Hash)]
pub struct State {
    /// The clock t, in slots: slot t is the next one to be worked.
    pub clock: u32,
    /// Work got by each row, in work units.
    pub got: [u32; ROWS],
    /// Slots used by each row.
    pub used: [u32; ROWS],
    /// Closing slot of each row, 0 while it is open (rule 2.10).
    pub closing: [u32; ROWS],
}

impl State {
    /// The state at the start: zeros (rule 2.13).
    pub const FRESH: State = State {
        clock: 0,
        got: [0; ROWS],
        used: [0; ROWS],
        closing: [0; ROWS],
    };

    /// The state at this clock (slots) with zeros for all rows (rules 22.4 and 22.7).
    pub fn at(clock: u32) -> State {
        State {
            clock,
            ..State::FRESH
        }
    }
}

/// The ready row with the highest place, 0 if no row is ready (rule 2.3). It has no
/// supply argument, so it cannot depend on one (rule 2.4).
pub fn chosen(table: &Table, order: &Order, state: &State) -> u8 {
    let places = order[..table.n as usize].iter();
    let mut ready = places.filter(|&&row| is_ready(table, state, row));
    ready.next().copied().unwrap_or(0)
}

/// The row is released and open, and does not wait (rule 2.2).
pub fn is_ready(table: &Table, state: &State, row: u8) -> bool {
    let index = row as usize - 1;
    let released = table.release[index] <= state.clock;
    released && state.closing[index] == 0 && !is_waiting(table, state, row)
}

/// The row follows one that is open. A row that was dropped is as closed as one that is
/// done (rule 2.15).
pub fn is_waiting(table: &Table, state: &State, row: u8) -> bool {
    match table.row(row).follows {
        0 => false,
        followed => state.closing[followed as usize - 1] == 0,
    }
}

/// A rule of a slot: makes one step with this supply (work units) and gives the
/// row run, 0 for an idle slot. There are two, `step` and `running_step` (rule
/// 19.1).
pub type Rule = fn(&Table, &Order, &mut State, u32) -> u8;

/// One step by the planning rule with this supply (work units); gives the row
/// run, 0 for an idle slot (rules 2.3 and 2.12). A late row goes on (rule 2.9).
/// There is no last clock here: a worst run has none (rule 3.5). The calls and
/// the record add it.
pub fn step(table: &Table, order: &Order, state: &mut State, supply: u32) -> u8 {
    let row = chosen(table, order, state);
    if row != 0 {
        run_row(table, row, state, supply);
    }
    state.clock += 1;
    row
}

/// One step by the running rule: a slot by the planning rule, all of its work
/// counted (rule 19.3), and then a look at the clock after it (rule 19.2).
pub fn running_step(table: &Table, order: &Order, state: &mut State, supply: u32) -> u8 {
    let row = step(table, order, state, supply);
    drop_late_previews(table, state);
    row
}

/// Each open row that is a late preview at this clock is dropped, with the clock
/// as its closing slot. Nothing else changes (rule 19.2).
fn drop_late_previews(table: &Table, state: &mut State) {
    for row in 1..=table.n as u8 {
        let index = row as usize - 1;
        if state.closing[index] == 0 && is_late_preview(table, row, state.clock) {
            state.closing[index] = state.clock;
        }
    }
}

/// The row, if it is open, is worth nothing any more: it is LO, and this clock
/// (slots) has reached its deadline (rules 9.13 and 19.2). No HI row ever is (rule
/// 19.4).
pub fn is_late_preview(table: &Table, row: u8, clock: u32) -> bool {
    let job = table.row(row);
    job.level == LO && clock >= job.deadline
}

/// The row has used one slot more and gets what the slot brings, never more than
/// its work in all (rules 2.1 and 2.5). If that closes it, the closing slot is
/// the clock after this slot (rule 2.10).
fn run_row(table: &Table, row: u8, state: &mut State, supply: u32) {
    let index = row as usize - 1;
    let work = u64::from(table.work[index]);
    let brought = brought(table, state.used[index], supply);
    let got = u64::from(state.got[index]) + u64::from(brought);
    state.used[index] += 1;
    state.got[index] = got.min(work) as u32;
    if is_finished(table, row, state.got[index], state.used[index]) {
        state.closing[index] = state.clock + 1;
    }
}

/// The work units that a slot with this supply brings a row which has used this
/// many slots before it: none while the row loads, and loading goes on from where
/// a preemption broke it off (rule 2.14).
fn brought(table: &Table, used_before: u32, supply: u32) -> u32 {
    if used_before < table.loading {
        0
    } else {
        supply
    }
}

/// What closes a row: it is done (rule 2.6), or LO with its allowance used up
/// (rules 2.7 and 2.8). `got` is in work units, `used` in slots.
pub fn is_finished(table: &Table, row: u8, got: u32, used: u32) -> bool {
    let job = table.row(row);
    let done = got == job.work;
    let allowance_used_up = || job.level == LO && used >= allowance(table, row);
    done || allowance_used_up()
}

/// The state after one step by the planning rule for each supply, first to last,
/// from the fresh state.
pub fn run(table: &Table, order: &Order, supplies: &[u32]) -> State {
    run_by(step, table, order, supplies)
}

/// The same by this rule.
pub fn run_by(rule: Rule, table: &Table, order: &Order, supplies: &[u32]) -> State {
    let mut state = State::FRESH;
    for &supply in supplies {
        rule(table, order, &mut state, supply);
    }
    state
}

/// The row has got at least its promised part (rule 3.8).
pub fn has_promised(table: &Table, state: &State, row: u8) -> bool {
    state.got[row as usize - 1] >= table.row(row).promised
}

/// The row is done, and was closed no later than its deadline (rule 3.1).
pub fn kept_deadline(table: &Table, state: &State, row: u8) -> bool {
    let index = row as usize - 1;
    let job = table.row(row);
    state.got[index] == job.work && (1..=job.deadline).contains(&state.closing[index])
}

/// The slots of a row's window that a run has worked when the clock shows so many slots: from
/// the earliest release of the row's own table on, up to the row's deadline at most (rules
/// 9.14, 9.20 and 22.8).
pub fn window(table: &Table, row: u8, clock: u32) -> Range<u32> {
    earliest_release(table)..table.row(row).deadline.min(clock)
}
