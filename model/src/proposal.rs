//! A new sheet while plotting (section 22 of the rules): asking, committing, and days of run
//! calls and commits, on a record and on paper.

use crate::calls::{call_on_paper, Answer, Call};
use crate::judge::judge_table;
use crate::order::{Order, NO_ORDER};
use crate::plan::plan;
use crate::record::Record;
use crate::run::State;
use crate::sheet::read_sheet;
use crate::table::Table;

/// What asking answers. Table and order are zeros unless the number is 0, and the word of
/// rows left is 0 unless it is 7 (rule 22.2).
#[derive(Clone, Copy, Debug, PartialEq, Eq)]
pub struct Asked {
    pub number: u32,
    pub table: Table,
    pub order: Order,
    /// The rows left as a word (rule 4.8).
    pub left: u64,
}

impl Asked {
    /// The answer with this number and these rows left, and with zeros for the rest.
    pub fn refused(number: u32, left: u64) -> Asked {
        Asked {
            number,
            table: Table::ZERO,
            order: NO_ORDER,
            left,
        }
    }
}

/// Asking: the bytes are read (rule 11.9), and the table that they state is planned. It is
/// handed no record, so that it cannot touch one (rule 22.2).
pub fn ask(bytes: &[u8]) -> Asked {
    let (refusal, table) = read_sheet(bytes);
    if refusal != 0 {
        return Asked::refused(refusal, 0);
    }
    let planned = plan(&table);
    match planned.number {
        0 => Asked {
            number: 0,
            table,
            order: planned.order,
            left: 0,
        },
        number => Asked::refused(number, planned.left),
    }
}

/// A table and an order for it, to be committed. They need not come from asking, and any
/// values may stand in them (rule 22.3).
#[derive(Clone, Copy, Debug, PartialEq, Eq)]
pub struct Proposal {
    pub table: Table,
    pub order: Order,
}

impl Proposal {
    /// The same with every release and every deadline so many slots later.
    pub fn later(self, slots: u32) -> Proposal {
        let table = self.table.later(slots);
        Proposal { table, ..self }
    }

    /// The fresh record of this table and this order after slots with these supplies, in work
    /// units.
    pub fn worked(self, supplies: &[u32]) -> Record {
        let fresh = Record::starting(&self.table, &self.order, 0);
        fresh.forward(supplies).record
    }
}

/// The checks of a proposal alone: those of table and order (rule 11.4), and then 16 if the
/// order is not correct (rule 10.16). That is so if a slack is below zero, by which the judge
/// decides too (rule 7.2).
pub fn check_proposal(proposal: &Proposal) -> u32 {
    let verdict = judge_table(&proposal.table, &proposal.order);
    match verdict.number {
        0 if verdict.yes => 0,
        0 => 16,
        refusal => refusal,
    }
}

/// Check 17 refuses if some row of this table is open in this state (rule 10.17).
pub fn some_row_is_open(table: &Table, state: &State) -> bool {
    (0..table.n as usize).any(|index| state.closing[index] == 0)
}

/// Check 18 refuses if some row of this table is released before this clock, in slots (rule
/// 10.18).
pub fn some_release_is_before(table: &Table, clock: u32) -> bool {
    table.rows().iter().any(|row| row.release < clock)
}

/// All checks of a commit but 9, in their order: those of the proposal, then 17 and 18 (rule
/// 11.10). The first table is the one in hand or in the record, with the state of its run.
pub fn check_commit(table: &Table, state: &State, proposal: &Proposal) -> u32 {
    match check_proposal(proposal) {
        0 if some_row_is_open(table, state) => 17,
        0 if some_release_is_before(&proposal.table, state.clock) => 18,
        number => number,
    }
}

/// What a commit hands back.
#[derive(Clone, Copy, Debug, PartialEq, Eq)]
pub struct Committed {
    pub number: u32,
    pub record: Record,
}

/// One act of a day: a run call or a commit (rules 9.5 and 22.9).
#[derive(Clone, Debug, PartialEq, Eq)]
pub enum Act {
    Call(Call),
    Commit(Box<Proposal>),
}

/// What an act answers.
#[derive(Clone, Copy, Debug, PartialEq, Eq)]
pub enum Told {
    Call(Answer),
    /// A commit answers a number, and nothing else beside the record (rule 22.3).
    Commit(u32),
}

impl Record {
    /// A commit of this table and this order. First 9 is checked, then all others (rule
    /// 11.10). With 0 the record has the proposal's table and order, its own clock and zeros
    /// for all rows (rule 22.4); with any other number it is as it was (rule 22.5).
    pub fn commit(self, table: &Table, order: &Order) -> Committed {
        let (table, order) = (*table, *order);
        let number = if self.is_sound() {
            check_commit(&self.table, &self.state(), &Proposal { table, order })
        } else {
            9
        };
        let record = match number {
            0 => Record::starting(&table, &order, self.clock),
            _ => self,
        };
        Committed { number, record }
    }

    /// One act: what it answers and the record as it leaves it.
    pub fn act(self, act: &Act) -> (Told, Record) {
        match act {
            Act::Call(call) => {
                let (answer, record) = self.call(call);
                (Told::Call(answer), record)
            }
            Act::Commit(proposal) => {
                let done = self.commit(&proposal.table, &proposal.order);
                (Told::Commit(done.number), done.record)
            }
        }
    }

    /// A whole day, each act on the record that the last one left: every answer in turn and
    /// the record at the end (rules 9.5 and 22.9).
    pub fn day(self, acts: &[Act]) -> (Vec<Told>, Record) {
        let mut record = self;
        let mut told = Vec::new();
        for act in acts {
            let (answer, after) = record.act(act);
            told.push(answer);
            record = after;
        }
        (told, record)
    }
}

/// On paper, the sheet in hand: what the acts of a day are made on (rule 22.9). There is no
/// record here, and nothing that could be damaged, so that no act answers 9.
#[derive(Clone, Copy, Debug, PartialEq, Eq)]
pub struct InHand {
    pub table: Table,
    pub order: Order,
    pub state: State,
}

impl InHand {
    /// The sheet in hand at the start: a table, an order, this clock (slots) and zeros for
    /// all rows (rules 22.7 and 22.8).
    pub fn starting(table: &Table, order: &Order, clock: u32) -> InHand {
        InHand {
            table: *table,
            order: *order,
            state: State::at(clock),
        }
    }

    /// One act on paper. A run call works the state. A commit answered 0 puts the proposal in
    /// hand, at the clock that it was and with zeros for all rows (rule 22.9).
    pub fn act(&mut self, act: &Act) -> Told {
        match act {
            Act::Call(call) => {
                let answer = call_on_paper(&self.table, &self.order, &mut self.state, call);
                Told::Call(answer)
            }
            Act::Commit(proposal) => {
                let number = check_commit(&self.table, &self.state, proposal);
                if number == 0 {
                    *self = InHand::starting(&proposal.table, &proposal.order, self.state.clock);
                }
                Told::Commit(number)
            }
        }
    }

    /// A whole day on paper: every answer in turn and the sheet in hand at the end (rule
    /// 22.9).
    pub fn day(mut self, acts: &[Act]) -> (Vec<Told>, InHand) {
        let told = acts.iter().map(|act| self.act(act)).collect();
        (told, self)
    }

    /// All rows of the sheet in hand are closed, so that 17 refuses no proposal.
    pub fn is_over(&self) -> bool {
        !some_row_is_open(&self.table, &self.state)
    }

    /// The record that holds this sheet, field by field.
    pub fn record(&self) -> Record {
        Record::holding(&self.table, &self.order, &self.state)
    }
}
