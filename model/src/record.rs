//! The run record: any values may stand in it, check 9 says which are sound
//! (rule 8.3).

use crate::calls::{forward_on_paper, one_slot_on_paper, Answer, Call, LAST_CLOCK};
use crate::order::{check_table_and_order, Order, NO_ORDER};
use crate::run::{is_finished, is_late_preview, State};
use crate::table::{Table, LO, ROWS};

/// A table, its order and the state of a run (rule 8.1). Clock, used and
/// closing are in slots, got in work units.
#[derive(Clone, Copy, Debug, PartialEq, Eq)]
pub struct Record {
    pub table: Table,
    pub order: Order,
    pub clock: u32,
    pub got: [u32; ROWS],
    pub used: [u32; ROWS],
    pub closing: [u32; ROWS],
}

/// Why check 9 refuses a record (rules 8.4 to 8.8).
#[derive(Clone, Copy, Debug, PartialEq, Eq)]
pub enum Unsound {
    /// The table or the order is refused, by this number (rule 8.4).
    TableOrOrder(u32),
    /// The clock is later than the last one (rule 8.5).
    Clock,
    /// A row has got more than its work (rule 8.6).
    GotOverWork,
    /// A row has used more slots than the clock shows (rule 8.6).
    UsedOverClock,
    /// A row's closing slot is later than the clock (rule 8.6).
    ClosingOverClock,
    /// An open row is missing no work, or has no allowance left (rule 8.7).
    OpenThoughFinished,
    /// An open row is LO, and the clock has reached its deadline (rule 8.7).
    OpenThoughLate,
    /// A closed row is missing work and is HI, or has allowance left and another
    /// closing slot than its deadline (rule 8.7).
    ClosedWithoutReason,
    /// Something other than 0 stands after row n (rule 8.8).
    EntryAfterLastRow,
}

/// What working one slot hands back.
#[derive(Clone, Copy, Debug, PartialEq, Eq)]
pub struct OneSlot {
    pub number: u32,
    /// The row run, 0 when idle and with 8 and 9 (rules 8.13 and 8.14).
    pub row: u8,
    pub record: Record,
}

/// What the second entry answers, with the record as it is left.
#[derive(Clone, Copy, Debug, PartialEq, Eq)]
pub struct Forward {
    pub number: u32,
    /// Slots worked.
    pub worked: u32,
    pub record: Record,
}

impl Record {
    /// The record of zeros that comes with every refusal of a fresh record (rule
    /// 8.2).
    pub const ZERO: Record = Record {
        table: Table::ZERO,
        order: NO_ORDER,
        clock: 0,
        got: [0; ROWS],
        used: [0; ROWS],
        closing: [0; ROWS],
    };

    /// The fresh record of a table and an order: a state of zeros beside them.
    /// Refused with 3, 4, 11, 5, 12 to 15 or 6, and then all zero (rule 8.2).
    pub fn fresh(table: &Table, order: &Order) -> (u32, Record) {
        match check_table_and_order(table, order) {
            0 => (0, Record::holding(table, order, &State::FRESH)),
            refusal => (refusal, Record::ZERO),
        }
    }

    /// The record that holds this table, order and state.
    pub fn holding(table: &Table, order: &Order, state: &State) -> Record {
        Record {
            table: *table,
            order: *order,
            clock: state.clock,
            got: state.got,
            used: state.used,
            closing: state.closing,
        }
    }

    /// The record with this table, this order, this clock (slots) and zeros for all rows
    /// (rule 22.8). With clock 0 it is the fresh one.
    pub fn starting(table: &Table, order: &Order, clock: u32) -> Record {
        Record::holding(table, order, &State::at(clock))
    }

    /// The clock and the entries of all rows, as the run on paper has them.
    pub fn state(&self) -> State {
        State {
            clock: self.clock,
            got: self.got,
            used: self.used,
            closing: self.closing,
        }
    }

    /// Every reason for which check 9 refuses this record, each named once. The
    /// rows are looked at only if table and order pass their own checks.
    pub fn reasons(&self) -> Vec<Unsound> {
        let refusal = check_table_and_order(&self.table, &self.order);
        if refusal != 0 {
            return vec![Unsound::TableOrOrder(refusal)];
        }
        let mut reasons = Vec::new();
        if self.clock > LAST_CLOCK {
            reasons.push(Unsound::Clock);
        }
        for row in 1..=ROWS as u8 {
            for reason in self.reasons_in_row(row) {
                if !reasons.contains(&reason) {
                    reasons.push(reason);
                }
            }
        }
        reasons
    }

    fn reasons_in_row(&self, row: u8) -> Vec<Unsound> {
        let index = row as usize - 1;
        let (got, used, closing) = (self.got[index], self.used[index], self.closing[index]);
        if u32::from(row) > self.table.n {
            let zero = got == 0 && used == 0 && closing == 0;
            return if zero {
                vec![]
            } else {
                vec![Unsound::EntryAfterLastRow]
            };
        }
        let open = closing == 0;
        let finished = is_finished(&self.table, row, got, used);
        let job = self.table.row(row);
        let closed_at_deadline = job.level == LO && closing == job.deadline;
        let mut reasons = Vec::new();
        if got > self.table.work[index] {
            reasons.push(Unsound::GotOverWork);
        }
        if used > self.clock {
            reasons.push(Unsound::UsedOverClock);
        }
        if closing > self.clock {
            reasons.push(Unsound::ClosingOverClock);
        }
        if open && finished {
            reasons.push(Unsound::OpenThoughFinished);
        }
        if open && is_late_preview(&self.table, row, self.clock) {
            reasons.push(Unsound::OpenThoughLate);
        }
        if !open && !finished && !closed_at_deadline {
            reasons.push(Unsound::ClosedWithoutReason);
        }
        reasons
    }

    /// Check 9: a record is sound if there is no reason against it (rule 8.3).
    pub fn is_sound(&self) -> bool {
        self.reasons().is_empty()
    }

    /// One slot by the running rule: from a record to the one after it, and the
    /// row that ran (rule 8.9). First 9 is checked, then 8 (rule 11.5); both have
    /// row 0 and leave the record alone.
    pub fn one_slot(self, supply: u32) -> OneSlot {
        if !self.is_sound() {
            return OneSlot {
                number: 9,
                row: 0,
                record: self,
            };
        }
        let mut state = self.state();
        let (number, row) = one_slot_on_paper(&self.table, &self.order, &mut state, supply);
        let record = Record::holding(&self.table, &self.order, &state);
        OneSlot {
            number,
            row,
            record,
        }
    }

    /// Forward: one slot for each supply by the running rule, and how many that
    /// were (rule 8.10).
    /// After 9 it is the record that came, and 0 slots (rule 8.14); after 8 the
    /// record that the slots up to there left, and their count (rule 8.13).
    pub fn forward(self, supplies: &[u32]) -> Forward {
        if !self.is_sound() {
            return Forward {
                number: 9,
                worked: 0,
                record: self,
            };
        }
        let mut state = self.state();
        let (number, worked) = forward_on_paper(&self.table, &self.order, &mut state, supplies);
        let record = Record::holding(&self.table, &self.order, &state);
        Forward {
            number,
            worked,
            record,
        }
    }

    /// One call of either kind: its answer and the record as it leaves it.
    pub fn call(self, call: &Call) -> (Answer, Record) {
        match call {
            Call::OneSlot(supply) => {
                let OneSlot {
                    number,
                    row,
                    record,
                } = self.one_slot(*supply);
                (Answer::OneSlot { number, row }, record)
            }
            Call::Forward(supplies) => {
                let Forward {
                    number,
                    worked,
                    record,
                } = self.forward(supplies);
                (Answer::Forward { number, worked }, record)
            }
        }
    }

    /// A whole list of calls, each on the record the last one left: every
    /// answer in turn and the record at the end (rule 9.5).
    pub fn play(self, calls: &[Call]) -> (Vec<Answer>, Record) {
        let mut record = self;
        let mut answers = Vec::new();
        for call in calls {
            let (answer, after) = record.call(call);
            answers.push(answer);
            record = after;
        }
        (answers, record)
    }
}
