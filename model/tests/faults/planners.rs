//! Planners with one fault each, and one without.

use model::order::{order_of, Order, NO_ORDER};
use model::plan::{passes_lowest, slack, trial_order, tried, word_of, worst_speed, Plan};
use model::run::{chosen, kept_deadline, running_step, step, State};
use model::table::{allowance, Table, HI, LO, ROWS};

/// The rows tried at a place, in their sequence, given the rows left.
pub type Sequence = fn(&Table, &[u8]) -> Vec<u8>;

/// Does this row pass lowest among the rows left, the placed ones below it?
pub type Trial = fn(&Table, &[u8], &[u8], u8) -> bool;

/// A planner: how it chooses the rows to try and how it tries one.
pub struct Planner {
    pub name: &'static str,
    pub sequence: Sequence,
    pub trial: Trial,
}

impl Planner {
    /// The planner's loop (rules 4.1 to 4.6 and 4.11) with this planner's two parts. The
    /// table is accepted.
    pub fn plan(&self, table: &Table) -> Plan {
        let mut left: Vec<u8> = (1..=table.n as u8).collect();
        let mut placed: Vec<u8> = Vec::new();
        while !left.is_empty() {
            let passing = (self.sequence)(table, &left)
                .into_iter()
                .find(|&row| (self.trial)(table, &left, &placed, row));
            let Some(row) = passing else {
                return Plan {
                    number: 7,
                    order: NO_ORDER,
                    left: word_of(&left),
                };
            };
            left.retain(|&other| other != row);
            placed.insert(0, row);
        }
        Plan {
            number: 0,
            order: order_of(&placed),
            left: 0,
        }
    }
}

/// No fault: the two parts as the model has them.
pub const TRUE_PLANNER: Planner = Planner {
    name: "no fault",
    sequence: tried,
    trial: passes_lowest,
};

/// One LO and one HI row is tried at each place (rule 14.1).
pub const TWO_LATEST: Planner = Planner {
    name: "two rows tried (rule 14.1)",
    sequence: two_latest,
    trial: passes_lowest,
};

pub fn two_latest(table: &Table, left: &[u8]) -> Vec<u8> {
    let sequence = tried(table, left);
    [LO, HI]
        .into_iter()
        .filter_map(|level| {
            let mut at_level = sequence
                .iter()
                .filter(|&&row| table.row(row).level == level);
            at_level.next().copied()
        })
        .collect()
}

/// LO rows above a HI row are counted with their need at G (rule 14.2).
pub const LO_AT_DEGRADED: Planner = Planner {
    name: "LO jobs charged at G (rule 14.2)",
    sequence: tried,
    trial: passes_with_lo_at_degraded,
};

pub fn passes_with_lo_at_degraded(table: &Table, left: &[u8], placed: &[u8], row: u8) -> bool {
    if table.row(row).level == LO {
        return passes_lowest(table, left, placed, row);
    }
    // In a run at G the normal speed enters through LO allowances alone.
    let allowances_at_degraded = Table {
        normal: table.degraded,
        ..*table
    };
    passes_lowest(&allowances_at_degraded, left, placed, row)
}

/// Late rows are taken out of the planner's runs (rule 14.3); the rows above
/// stand in row order.
pub const DROPPING_LATE: Planner = Planner {
    name: "late jobs taken out (rule 14.3)",
    sequence: tried,
    trial: |table, left, placed, row| {
        passes_with_late_dropped(table, &trial_order(left, placed, row), row)
    },
};

/// The same fault with the rows above in falling row order.
pub const DROPPING_LATE_FALLING: Planner = Planner {
    name: "late jobs taken out (rule 14.3), rows above in falling row order",
    sequence: tried,
    trial: |table, left, placed, row| {
        let falling: Vec<u8> = left.iter().rev().copied().collect();
        passes_with_late_dropped(table, &trial_order(&falling, placed, row), row)
    },
};

pub fn passes_with_late_dropped(table: &Table, order: &Order, row: u8) -> bool {
    let supply = worst_speed(table, row);
    let mut state = State::FRESH;
    while state.clock < table.row(row).deadline {
        drop_late_rows(table, &mut state);
        step(table, order, &mut state, supply);
    }
    kept_deadline(table, &state, row)
}

/// Closes every open row whose deadline the clock has reached.
pub fn drop_late_rows(table: &Table, state: &mut State) {
    for index in 0..table.n as usize {
        if state.closing[index] == 0 && table.deadline[index] <= state.clock {
            state.closing[index] = state.clock;
        }
    }
}

/// Rows are tried in runs by the running rule, in which LO rows stop at their
/// deadlines (rule 14.22), and pass if they are done in time.
pub const PLANNED_RUNNING: Planner = Planner {
    name: "planned by the running rule (rule 14.22)",
    sequence: tried,
    trial: |table, left, placed, row| {
        let state = worst_running(table, &trial_order(left, placed, row), row);
        kept_deadline(table, &state, row)
    },
};

/// The same, but a row passes if its closing slot in that run is no later than its
/// deadline, which that of a LO row never is.
pub const FINISHED_RUNNING: Planner = Planner {
    name: "worst finishes by the running rule (rule 14.22)",
    sequence: tried,
    trial: |table, left, placed, row| {
        let state = worst_running(table, &trial_order(left, placed, row), row);
        state.closing[row as usize - 1] <= table.row(row).deadline
    },
};

/// The state in which the row closes in its worst run by the running rule.
fn worst_running(table: &Table, order: &Order, row: u8) -> State {
    let supply = worst_speed(table, row);
    let mut state = State::FRESH;
    while state.closing[row as usize - 1] == 0 {
        running_step(table, order, &mut state, supply);
    }
    state
}

/// A HI row is tried among the HI rows alone (rule 14.4).
pub const LO_LEFT_OUT: Planner = Planner {
    name: "LO jobs left out (rule 14.4)",
    sequence: tried,
    trial: passes_without_lo,
};

pub fn passes_without_lo(table: &Table, left: &[u8], placed: &[u8], row: u8) -> bool {
    if table.row(row).level == LO {
        return passes_lowest(table, left, placed, row);
    }
    // LO rows left stand below the row tried and so never hold it up.
    let (high, low): (Vec<u8>, Vec<u8>) = left
        .iter()
        .copied()
        .partition(|&other| table.row(other).level == HI);
    passes_lowest(table, &high, &[low.as_slice(), placed].concat(), row)
}

/// The sum of works is rounded (rule 14.5): a slot is shared, so that what one
/// job leaves of it goes to the next.
pub const ROUNDING_ONCE: Planner = Planner {
    name: "works rounded once (rule 14.5)",
    sequence: tried,
    trial: passes_with_slots_shared,
};

pub fn passes_with_slots_shared(table: &Table, left: &[u8], placed: &[u8], row: u8) -> bool {
    let order = trial_order(left, placed, row);
    let at_normal = table.row(row).level == LO;
    // A slot has N × G parts. A work unit takes G parts at N and N parts at G, and
    // loading takes K whole slots.
    let slot_parts = table.normal * table.degraded;
    let loading = table.loading * slot_parts;
    let mut demand: Vec<u32> = (table.rows().iter())
        .map(|job| match (at_normal, job.level) {
            (false, HI) => loading + job.work * table.normal,
            _ => loading + job.work * table.degraded,
        })
        .collect();
    for clock in 0..table.row(row).deadline {
        let mut parts = slot_parts;
        for &other in &order[..table.n as usize] {
            if table.row(other).release <= clock {
                let taken = parts.min(demand[other as usize - 1]);
                demand[other as usize - 1] -= taken;
                parts -= taken;
            }
        }
    }
    demand[row as usize - 1] == 0
}

/// A preempted row loads again when it comes back (against rule 2.14).
pub const LOADING_AGAIN: Planner = Planner {
    name: "loaded again after a preemption",
    sequence: tried,
    trial: passes_with_loading_again,
};

pub fn passes_with_loading_again(table: &Table, left: &[u8], placed: &[u8], row: u8) -> bool {
    let order = trial_order(left, placed, row);
    // Slots that each row has run since it last began or came back.
    let mut since = [0; ROWS];
    let mut last = 0;
    let mut state = State::FRESH;
    while state.clock < table.row(row).deadline {
        let next = chosen(table, &order, &state);
        let mut supply = worst_speed(table, row);
        if next != 0 {
            let slots = &mut since[next as usize - 1];
            *slots = if next == last { *slots + 1 } else { 1 };
            if *slots <= table.loading {
                supply = 0;
            }
        }
        step(table, &order, &mut state, supply);
        last = next;
    }
    kept_deadline(table, &state, row)
}

/// K is added to what all rows take together, and not to each need (against rule
/// 1.8).
pub const LOADING_ONCE: Planner = Planner {
    name: "loading added once to the total",
    sequence: tried,
    trial: |table, left, placed, row| {
        let order = trial_order(left, placed, row);
        slack(&table.with_loading(0), &order, row) >= i64::from(table.loading)
    },
};

/// Does the row close in time in its worst run if a fault changes the state
/// before the first slot and after each?
fn passes_with_changes(
    table: &Table,
    order: &Order,
    row: u8,
    change: fn(&Table, &mut State),
) -> bool {
    let supply = worst_speed(table, row);
    let index = row as usize - 1;
    let mut state = State::FRESH;
    change(table, &mut state);
    while state.closing[index] == 0 {
        step(table, order, &mut state, supply);
        change(table, &mut state);
    }
    state.closing[index] <= table.row(row).deadline
}

/// A LO row may use the slots that its work takes at N, and none for loading
/// (against rule 1.9).
pub const ALLOWANCE_WITHOUT_LOADING: Planner = Planner {
    name: "loading missing from LO allowances",
    sequence: tried,
    trial: |table, left, placed, row| {
        passes_with_changes(table, &trial_order(left, placed, row), row, drop_early)
    },
};

/// Closes every open LO row that has used its allowance but for K slots.
fn drop_early(table: &Table, state: &mut State) {
    for row in (1..=table.n as u8).filter(|&row| table.row(row).level == LO) {
        let index = row as usize - 1;
        let early = allowance(table, row) - table.loading;
        if state.closing[index] == 0 && state.used[index] >= early {
            state.closing[index] = state.clock;
        }
    }
}

/// HI rows get work from their first slot on (against rule 1.8).
pub const HI_WITHOUT_LOADING: Planner = Planner {
    name: "loading missing from HI needs",
    sequence: tried,
    trial: |table, left, placed, row| {
        passes_with_changes(table, &trial_order(left, placed, row), row, load_high)
    },
};

/// Has every HI row loaded, as if it had used its loading slots before.
fn load_high(table: &Table, state: &mut State) {
    for row in (1..=table.n as u8).filter(|&row| table.row(row).level == HI) {
        let used = &mut state.used[row as usize - 1];
        *used = (*used).max(table.loading);
    }
}

/// Loading slots do not count as used, so that a LO row has its whole allowance
/// for the slots after them (against rules 1.10 and 2.5).
pub const LOADING_NOT_USED: Planner = Planner {
    name: "loading slots not counted as used",
    sequence: tried,
    trial: |table, left, placed, row| {
        passes_with_changes(table, &trial_order(left, placed, row), row, keep_longer)
    },
};

/// Opens every LO row again that was dropped with less than its allowance and K
/// slots used.
fn keep_longer(table: &Table, state: &mut State) {
    for row in (1..=table.n as u8).filter(|&row| table.row(row).level == LO) {
        let index = row as usize - 1;
        let done = state.got[index] == table.work[index];
        if !done && state.used[index] < allowance(table, row) + table.loading {
            state.closing[index] = 0;
        }
    }
}
