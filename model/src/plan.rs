//! Worst finish, promised moment, slack, the planner's choice and its trials.

use crate::order::{order_of, Order, NO_ORDER};
use crate::run::{step, State};
use crate::table::{check_table, Table, HI, LO};

/// What each slot of a row's worst run supplies, in work units: N for a LO row,
/// G for a HI row (rule 3.5).
pub fn worst_speed(table: &Table, row: u8) -> u32 {
    if table.row(row).level == LO {
        table.normal
    } else {
        table.degraded
    }
}

/// A row's closing slot in its worst run (rule 3.6). The run is worked slot by
/// slot until the row is closed (rule 3.5). The table is accepted and the order
/// is one of its orders.
pub fn worst_finish(table: &Table, order: &Order, row: u8) -> u32 {
    let supply = worst_speed(table, row);
    let index = row as usize - 1;
    let mut state = State::FRESH;
    while state.closing[index] == 0 {
        step(table, order, &mut state, supply);
    }
    state.closing[index]
}

/// The first clock, in slots, at which a LO row has got its promised part in the run
/// that supplies exactly G (rule 3.9). The run is worked slot by slot. The row is
/// not dropped before, since its allowance is no less than its need of that part.
pub fn promised_moment(table: &Table, order: &Order, row: u8) -> u32 {
    let index = row as usize - 1;
    let mut state = State::FRESH;
    while state.got[index] < table.promised[index] {
        step(table, order, &mut state, table.degraded);
    }
    state.clock
}

/// Deadline minus worst finish, in slots; for a LO row with a promise the lesser of
/// that and deadline minus promised moment (rule 3.7).
pub fn slack(table: &Table, order: &Order, row: u8) -> i64 {
    let job = table.row(row);
    let before_deadline = |clock: u32| i64::from(job.deadline) - i64::from(clock);
    let of_finish = before_deadline(worst_finish(table, order, row));
    if job.level == LO && job.promised > 0 {
        of_finish.min(before_deadline(promised_moment(table, order, row)))
    } else {
        of_finish
    }
}

/// The rows of `left` as they are tried at one place: first those at LO, then
/// those at HI (rule 4.3).
pub fn trial_sequence(table: &Table, left: &[u8]) -> Vec<u8> {
    let mut sequence = by_falling_deadline(table, left, LO);
    sequence.extend(by_falling_deadline(table, left, HI));
    sequence
}

/// The rows of `left` at this level, latest deadline first, lower row first
/// among equals (rule 4.3).
fn by_falling_deadline(table: &Table, left: &[u8], level: u32) -> Vec<u8> {
    let mut waiting: Vec<u8> = left
        .iter()
        .copied()
        .filter(|&row| table.row(row).level == level)
        .collect();
    let mut sequence = Vec::new();
    while !waiting.is_empty() {
        let latest = waiting
            .iter()
            .map(|&row| table.row(row).deadline)
            .max()
            .unwrap();
        let next = waiting
            .iter()
            .copied()
            .filter(|&row| table.row(row).deadline == latest)
            .min()
            .unwrap();
        sequence.push(next);
        waiting.retain(|&row| row != next);
    }
    sequence
}

/// The order that a row is tried in (rule 4.4): below the rest of the rows left, which keep
/// the sequence that they come in, and above the rows that have their places. Among the
/// rows above it waits may be broken (rule 21.3).
pub fn trial_order(left: &[u8], placed: &[u8], row: u8) -> Order {
    let mut places: Vec<u8> = left.iter().copied().filter(|&other| other != row).collect();
    places.push(row);
    places.extend_from_slice(placed);
    order_of(&places)
}

/// The rows of `left` that are tried at one place, in their sequence: all but those that
/// are skipped (rules 4.2 and 4.11).
pub fn tried(table: &Table, left: &[u8]) -> Vec<u8> {
    let mut tried = trial_sequence(table, left);
    tried.retain(|&row| !is_skipped(table, left, row));
    tried
}

/// A row is skipped, and not tried, while a row left follows it (rule 4.11).
pub fn is_skipped(table: &Table, left: &[u8], row: u8) -> bool {
    let followed = |&other: &u8| table.row(other).follows == u32::from(row);
    left.iter().any(followed)
}

/// A trial: is the row's slack not below zero, below every other row left (rule
/// 4.4)? `left` holds the rows left with the row itself, `placed` the rows that have
/// their places, highest first.
pub fn passes_lowest(table: &Table, left: &[u8], placed: &[u8], row: u8) -> bool {
    slack(table, &trial_order(left, placed, row), row) >= 0
}

/// The planner's answer: 0 with an order (rule 10.0), 7 with the rows left and
/// an order of zeros (rule 10.7), 3, 4, 11, 5, 12 to 15 or 19 with all zero.
#[derive(Clone, Copy, Debug, PartialEq, Eq)]
pub struct Plan {
    pub number: u32,
    pub order: Order,
    /// The rows left as a word (rule 4.8).
    pub left: u64,
}

impl Plan {
    /// The answer with this number and this word of rows left, and with an order of zeros.
    pub fn refused(number: u32, left: u64) -> Plan {
        Plan {
            number,
            order: NO_ORDER,
            left,
        }
    }

    /// How many rows are left: the set bits of the word (rule 4.9).
    pub fn rows_left(&self) -> u32 {
        rows_in_word(self.left).len() as u32
    }
}

/// The word that stands for these rows (rule 4.8).
pub fn word_of(rows: &[u8]) -> u64 {
    rows.iter().map(|&row| 1u64 << (row - 1)).sum()
}

/// The rows that stand in a word, the lowest first (rule 4.8).
pub fn rows_in_word(word: u64) -> Vec<u8> {
    let is_set = |row: &u8| (word >> (row - 1)) % 2 == 1;
    (1..=64).filter(is_set).collect()
}

/// The planner's answer at a ceiling, and the trials that it made (rule 23.4).
#[derive(Clone, Copy, Debug, PartialEq, Eq)]
pub struct Counted {
    pub plan: Plan,
    pub trials: u32,
}

/// The most trials that a table of so many rows can take: k at each place where k rows are
/// left, which is n × (n + 1) / 2 (rule 23.3). It is exact up to 65,535 rows. A table that
/// states more is refused like any of more than 64 rows, whatever the ceiling.
pub fn most_trials(rows: u32) -> u32 {
    rows.saturating_mul(rows.saturating_add(1)) / 2
}

/// The planner's choice without a ceiling, which is the one at the most trials that there
/// can be (rule 23.9).
pub fn plan(table: &Table) -> Plan {
    plan_and_trials(table).0
}

/// The same, and how many trials it takes: the count of the table (rule 23.2).
pub fn plan_and_trials(table: &Table) -> (Plan, u32) {
    let Counted { plan, trials } = plan_within(table, most_trials(table.n));
    (plan, trials)
}

/// The planner's choice at a ceiling, after the checks on the table (rule 11.11). For a
/// table that they refuse no trial is made (rule 23.7).
pub fn plan_within(table: &Table, ceiling: u32) -> Counted {
    let mut trials = 0;
    let plan = match check_table(table) {
        0 => choose(table, ceiling, &mut trials),
        refusal => Plan::refused(refusal, 0),
    };
    Counted { plan, trials }
}

/// The planner's choice for an accepted table: from the lowest place on, each goes to the
/// first row of the trial sequence that is tried and passes (rules 4.1, 4.5 and 4.11). Where
/// every row that is tried fails, the answer is 7 (rule 4.6). One trial is counted for each
/// row that is tried (rule 23.1); where another one would go above the ceiling it is not
/// made, and the answer is 19 (rules 23.5 and 23.6).
fn choose(table: &Table, ceiling: u32, trials: &mut u32) -> Plan {
    let rows: Vec<u8> = (1..=table.n as u8).collect();
    let mut left = trial_sequence(table, &rows);
    let mut placed: Vec<u8> = Vec::new();
    while !left.is_empty() {
        let mut first_to_pass = None;
        for row in tried(table, &left) {
            if *trials == ceiling {
                return Plan::refused(19, 0);
            }
            *trials += 1;
            if passes_lowest(table, &left, &placed, row) {
                first_to_pass = Some(row);
                break;
            }
        }
        let Some(row) = first_to_pass else {
            return Plan::refused(7, word_of(&left));
        };
        left.retain(|&other| other != row);
        placed.insert(0, row);
    }
    Plan {
        number: 0,
        order: order_of(&placed),
        left: 0,
    }
}
