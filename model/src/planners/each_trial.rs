//! A sweep for each trial.

use super::left::{Left, DEGRADED};
use super::{planned, turns_in, Sweeps, Trials};
use crate::plan::Plan;
use crate::table::Table;

/// The planner.
pub fn plan(table: &Table) -> Plan {
    planned::<EachTrial>(table).0
}

/// The planner, and how many rows it tried until it had its answer.
pub fn plan_and_trials(table: &Table) -> (Plan, u32) {
    planned::<EachTrial>(table)
}

/// Nothing is kept from one trial to the next.
struct EachTrial;

impl Sweeps for EachTrial {
    fn of(_: &Trials, _: &Left) -> EachTrial {
        EachTrial
    }

    fn first_to_pass(&mut self, trials: &Trials, left: &Left) -> Option<usize> {
        turns_in(trials.to_try()).find(|&turn| {
            let speed = (trials.tried[DEGRADED] >> turn & 1) as usize;
            let due = trials.deadlines[turn];
            left.finish(turn, speed, due) <= due && trials.keeps_promise(left, turn, || 0)
        })
    }

    fn renew(&mut self, _: &Trials, _: &Left, _: usize) {}
}
