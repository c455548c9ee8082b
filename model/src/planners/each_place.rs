//! A sweep for each place and speed, for all trials of the place.
//!
//! A busy period has one end, and whichever of its rows stands lowest finishes then. Of
//! those at one level the first in the trial sequence has the latest deadline: if it
//! fails, they all do. So of the rows that promise nothing and that no row follows one of
//! each busy period is looked at. When a row gets its place, just the busy period in which
//! it stood is swept again; a row that passes goes on passing, skipped or not. A promise is
//! looked at when its row is in time and every row tried before it fails, over its busy
//! period at G; if it is not kept, again when this period has lost a row.

use super::left::{is_over, Left, DEGRADED, SPEEDS};
use super::{planned, turns_in, Sweeps, Trials};
use crate::plan::Plan;
use crate::table::{Table, ROWS};
use std::ops::Range;

/// The planner.
pub fn plan(table: &Table) -> Plan {
    planned::<EachPlace>(table).0
}

/// The planner, and how many rows are tried until it has its answer.
pub fn plan_and_trials(table: &Table) -> (Plan, u32) {
    planned::<EachPlace>(table)
}

/// What the sweeps have found.
struct EachPlace {
    /// Of each busy period the first row that is not watched, if it passes, and those that
    /// are watched and in time.
    passing: u64,
    /// Of these, rows whose promise is not kept.
    failing: u64,
    /// Where among the rows left a busy period starts, for each speed.
    starts: [u64; 2],
}

impl Sweeps for EachPlace {
    fn of(trials: &Trials, left: &Left) -> EachPlace {
        let mut sweeps = EachPlace {
            passing: 0,
            failing: 0,
            starts: [1; 2],
        };
        for speed in SPEEDS {
            sweeps.sweep(trials, left, speed, 0..left.jobs().len());
        }
        sweeps
    }

    fn first_to_pass(&mut self, trials: &Trials, left: &Left) -> Option<usize> {
        for turn in turns_in(self.passing & !self.failing & !trials.skipped) {
            if trials.keeps_promise(left, turn, || self.start_of(left.place_of(turn))) {
                return Some(turn);
            }
            self.failing |= 1 << turn;
        }
        None
    }

    #[inline(always)]
    fn renew(&mut self, trials: &Trials, left: &Left, at: usize) {
        self.passing &= trials.left;
        for speed in SPEEDS {
            let rows = self.lose(left, speed, at);
            if speed == DEGRADED && self.failing != 0 {
                let turns = left.jobs()[rows.clone()].iter().map(|job| job.turn);
                turns.for_each(|turn| self.failing &= !(1 << turn));
            }
            self.sweep(trials, left, speed, rows);
        }
    }
}

impl EachPlace {
    /// Where the busy period at G starts to which the row left at `at` belongs.
    fn start_of(&self, at: usize) -> usize {
        let up_to = self.starts[DEGRADED] & u64::MAX >> (ROWS - 1 - at);
        up_to.ilog2() as usize
    }

    /// A row left was taken out at `at`: what is left of its busy period.
    fn lose(&mut self, left: &Left, speed: usize, at: usize) -> Range<usize> {
        let up_to = self.starts[speed] & u64::MAX >> (ROWS - 1 - at);
        let after = (self.starts[speed] ^ up_to) >> 1;
        self.starts[speed] = up_to | after;
        let next = after.trailing_zeros() as usize;
        up_to.ilog2() as usize..next.min(left.jobs().len())
    }

    /// Sweeps over these rows left, which are whole busy periods, or were one before a
    /// row was taken out. It is needed as long as a row is tried at this speed, and at G
    /// as long as one promises a part. Inlined, as is its caller, so that either speed
    /// has its own loop.
    #[inline(always)]
    fn sweep(&mut self, trials: &Trials, left: &Left, speed: usize, rows: Range<usize>) {
        let tried = trials.left & trials.tried[speed];
        let asks_for_starts = speed == DEGRADED && trials.left & trials.promising != 0;
        if tried == 0 && !asks_for_starts {
            return;
        }
        let (mut end, mut period, mut starts, mut passing) = (0, 0, 0, 0);
        for (at, job) in left.jobs()[rows.clone()].iter().enumerate() {
            if is_over(end, job.release) {
                passing |= trials.in_time(speed, period & tried, end);
                starts |= 1 << at;
                (end, period) = (job.release, 0);
            }
            end += job.caps[speed];
            period |= 1 << job.turn;
        }
        self.passing |= passing | trials.in_time(speed, period & tried, end);
        self.starts[speed] |= starts << rows.start;
    }
}
