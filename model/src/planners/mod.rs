//! The planner in plain Rust, twice: `each_trial` sweeps for each row that it tries,
//! `each_place` once for each place, for all rows that are tried there. `lowest` counts choices
//! by sweeps over words of rows.
//!
//! A sweep goes through the rows left by rising release and adds up what they take:
//! where the processor is free by the next release a busy period ends, and that is the
//! worst finish of each row in it that stands below all others. A row that promises a
//! part has a sweep of its own for it, in which it takes its need of that part. A row that
//! a row left follows is skipped; for the finishes of others it is a row left like any.
//!
//! Clocks, caps, deadlines and finishes are in slots. A row's turn is where it stands
//! in the trial sequence, from 0 on; words have a bit for each turn.

pub mod each_place;
pub mod each_trial;
pub mod left;
pub mod lowest;

use crate::order::NO_ORDER;
use crate::plan::Plan;
use crate::table::{check_table, promised_need, Table, LATEST_DEADLINE, ROWS};
use left::{sweep_speed, Left, Sorted, NORMAL};

/// The trial sequence (rules 4.3 and 4.11), and whose turn is still to come.
struct Trials {
    /// The row of each turn.
    rows: [u8; ROWS],
    /// The turn of each row, which stands at index row - 1.
    turns: [u8; ROWS],
    /// The deadline of each turn's row.
    deadlines: [u32; ROWS],
    /// The rows left.
    left: u64,
    /// The rows that are tried at each speed: LO rows at N, HI rows at G.
    tried: [u64; 2],
    /// The rows that promise a part, which are tried at G as well.
    promising: u64,
    /// The need of each promised part at G, in slots.
    parts: [u32; ROWS],
    /// The rows that promise a part and those that any row follows: such a row may be in
    /// time and yet not get the place, so that each of them is looked at by itself.
    watched: u64,
    /// The rows that a row left follows.
    skipped: u64,
    /// How many rows left follow the row of each turn.
    followers: [u8; ROWS],
    /// The row that the row of each turn follows, 0 for none.
    follows: [u8; ROWS],
}

impl Trials {
    fn of(table: &Table) -> Trials {
        let n = table.n as usize;
        let sequence = Sorted::by(n, |index| {
            table.level[index] << 20 | (LATEST_DEADLINE - table.deadline[index])
        });
        let mut trials = Trials {
            rows: [0; ROWS],
            turns: [0; ROWS],
            deadlines: [0; ROWS],
            left: u64::MAX >> (ROWS - n),
            tried: [0; 2],
            promising: 0,
            parts: [0; ROWS],
            watched: 0,
            skipped: 0,
            followers: [0; ROWS],
            follows: [0; ROWS],
        };
        for (turn, index) in sequence.indices().enumerate() {
            trials.rows[turn] = index as u8 + 1;
            trials.turns[index] = turn as u8;
            trials.deadlines[turn] = table.deadline[index];
            trials.tried[sweep_speed(table.level[index])] |= 1 << turn;
            if table.promised[index] > 0 {
                trials.promising |= 1 << turn;
                trials.parts[turn] = promised_need(table, index as u8 + 1);
            }
        }
        for index in (0..n).filter(|&index| table.follows[index] != 0) {
            let followed = table.follows[index] as u8;
            let turn = trials.turn_of(followed);
            trials.follows[trials.turns[index] as usize] = followed;
            trials.followers[turn] += 1;
            trials.skipped |= 1 << turn;
        }
        trials.watched = trials.promising | trials.skipped;
        trials
    }

    /// The turn of this row.
    fn turn_of(&self, row: u8) -> usize {
        self.turns[row as usize - 1] as usize
    }

    /// The row of this turn has its place and is left no more. If it was the last one left
    /// to follow a row, that one is skipped no more.
    fn place(&mut self, turn: usize) {
        self.left &= !(1 << turn);
        if self.follows[turn] != 0 {
            let followed = self.turn_of(self.follows[turn]);
            self.followers[followed] -= 1;
            if self.followers[followed] == 0 {
                self.skipped &= !(1 << followed);
            }
        }
    }

    /// The row promises nothing, or has got its part by its deadline, in its own sweep:
    /// from the row left at `from` on, with which a busy period at G starts.
    fn keeps_promise(&self, left: &Left, turn: usize, from: impl Fn() -> usize) -> bool {
        let (part, due) = (self.parts[turn], self.deadlines[turn]);
        self.promising >> turn & 1 == 0 || left.promised_moment(turn, part, from(), due) <= due
    }

    /// The first of these rows alone, if it is in time with this finish, else none.
    fn first_if_in_time(&self, rows: u64, finish: u32) -> u64 {
        let turn = rows.trailing_zeros() as usize;
        if turn < ROWS && finish <= self.deadlines[turn] {
            1 << turn
        } else {
            0
        }
    }

    /// Of these rows, which share this finish at this speed: the first that is not watched,
    /// if it is in time, and every one that is watched and in time.
    fn in_time(&self, speed: usize, rows: u64, finish: u32) -> u64 {
        let watched = match rows & self.watched {
            0 => 0,
            watched => watched & self.all_in_time(speed, finish),
        };
        watched | self.first_if_in_time(rows & !self.watched, finish)
    }

    /// The turns up to the last row tried at this speed that is in time with this finish:
    /// all rows of its level up to there are, since their deadlines fall.
    fn all_in_time(&self, speed: usize, finish: u32) -> u64 {
        let [low, high] = self.tried.map(|tried| tried.count_ones() as usize);
        let at_level = if speed == NORMAL {
            0..low
        } else {
            low..low + high
        };
        let from = at_level.start;
        let in_time = self.deadlines[at_level].partition_point(|&deadline| finish <= deadline);
        let after = (ROWS - from - in_time) as u32;
        u64::MAX.checked_shr(after).unwrap_or(0)
    }

    /// The rows left that are tried.
    fn to_try(&self) -> u64 {
        self.left & !self.skipped
    }

    /// How many of them come no later than this turn.
    fn up_to(&self, turn: usize) -> u32 {
        (self.to_try() & u64::MAX >> (ROWS - 1 - turn)).count_ones()
    }

    /// The rows left as the planner tells them (rule 4.8).
    fn word(&self) -> u64 {
        let turns = turns_in(self.left);
        turns.map(|turn| 1 << (self.rows[turn] - 1)).sum()
    }
}

/// The turns whose bits are set, first to last.
fn turns_in(mut word: u64) -> impl Iterator<Item = usize> {
    std::iter::from_fn(move || {
        let turn = word.trailing_zeros() as usize;
        word &= word.checked_sub(1)?;
        Some(turn)
    })
}

/// How a planner finds the row for a place.
trait Sweeps {
    /// Before the first place.
    fn of(trials: &Trials, left: &Left) -> Self;

    /// The first turn whose row passes.
    fn first_to_pass(&mut self, trials: &Trials, left: &Left) -> Option<usize>;

    /// The row that stood at `at` has its place now and is left no more.
    fn renew(&mut self, trials: &Trials, left: &Left, at: usize);
}

/// The answer, and how many rows were tried for it. It is part of each function that
/// calls it, so that those which only answer count nothing.
#[inline(always)]
fn planned<By: Sweeps>(table: &Table) -> (Plan, u32) {
    let refusal = check_table(table);
    if refusal != 0 {
        return (Plan::refused(refusal, 0), 0);
    }
    let n = table.n as usize;
    let mut trials = Trials::of(table);
    let mut left = Left::of(table, &trials.turns[..n]);
    let mut sweeps = By::of(&trials, &left);
    let (mut order, mut tried) = (NO_ORDER, 0);
    for place in (0..n).rev() {
        let Some(turn) = sweeps.first_to_pass(&trials, &left) else {
            tried += trials.to_try().count_ones();
            return (Plan::refused(7, trials.word()), tried);
        };
        tried += trials.up_to(turn);
        order[place] = trials.rows[turn];
        trials.place(turn);
        let at = left.take(turn);
        sweeps.renew(&trials, &left, at);
    }
    let plan = Plan {
        number: 0,
        order,
        left: 0,
    };
    (plan, tried)
}
