//! The two run calls on paper. They never look into a record, and each of their
//! steps is one by the running rule (rule 9.6).

use crate::order::Order;
use crate::run::{running_step, State};
use crate::table::Table;

/// The clock at which no further slot is worked, in slots (rule 8.13).
pub const LAST_CLOCK: u32 = 2_000_000;

/// A run call (rule 9.5). Supplies are in work units, any number of 32 bits
/// (rule 8.11).
#[derive(Clone, Debug, PartialEq, Eq)]
pub enum Call {
    /// One slot with this supply (rule 8.9).
    OneSlot(u32),
    /// Forward, the second entry, over these supplies (rule 8.10).
    Forward(Vec<u32>),
}

/// What a call answers: its number and the row run or the slots worked.
#[derive(Clone, Copy, Debug, PartialEq, Eq)]
pub enum Answer {
    /// One slot answers a number and its row, 0 for idle (rule 9.7).
    OneSlot { number: u32, row: u8 },
    /// Forward answers a number and its count of slots (rule 9.8).
    Forward { number: u32, worked: u32 },
}

/// One slot: a single step, with number 0 and its row. At the last clock it has
/// number 8 and row 0, and the state stays (rule 9.7).
pub fn one_slot_on_paper(
    table: &Table,
    order: &Order,
    state: &mut State,
    supply: u32,
) -> (u32, u8) {
    if state.clock == LAST_CLOCK {
        return (8, 0);
    }
    (0, running_step(table, order, state, supply))
}

/// Forward: as many steps as supplies, with number 0 and that count. A supply
/// at the last clock ends it with number 8 and the count so far (rule 9.8).
pub fn forward_on_paper(
    table: &Table,
    order: &Order,
    state: &mut State,
    supplies: &[u32],
) -> (u32, u32) {
    let mut worked = 0;
    for &supply in supplies {
        if state.clock == LAST_CLOCK {
            return (8, worked);
        }
        running_step(table, order, state, supply);
        worked += 1;
    }
    (0, worked)
}

/// One call on paper: what it answers, and the state as it leaves it.
pub fn call_on_paper(table: &Table, order: &Order, state: &mut State, call: &Call) -> Answer {
    match call {
        Call::OneSlot(supply) => {
            let (number, row) = one_slot_on_paper(table, order, state, *supply);
            Answer::OneSlot { number, row }
        }
        Call::Forward(supplies) => {
            let (number, worked) = forward_on_paper(table, order, state, supplies);
            Answer::Forward { number, worked }
        }
    }
}

/// The whole list of calls on paper from the fresh state: every answer in turn
/// and the state at the end (rules 9.5 and 9.6).
pub fn play_on_paper(table: &Table, order: &Order, calls: &[Call]) -> (Vec<Answer>, State) {
    play_on_paper_from(table, order, 0, calls)
}

/// The same from this clock (slots) with zeros for all rows (rules 9.6 and 22.8).
pub fn play_on_paper_from(
    table: &Table,
    order: &Order,
    clock: u32,
    calls: &[Call],
) -> (Vec<Answer>, State) {
    let mut state = State::at(clock);
    let answers = calls
        .iter()
        .map(|call| call_on_paper(table, order, &mut state, call))
        .collect();
    (answers, state)
}
