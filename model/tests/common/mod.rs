//! What several test files share: tables, answers, random runs, lent bytes.
#![allow(dead_code)]

pub mod correct;

use model::cases::p3;
use model::judge::Verdict;
use model::order::{order_of, orders, Order};
use model::random::{loading_table_in, random_order, table_in, tight_under, Random, Ranges};
use model::record::Record;
use model::run::{running_step, step, Rule, State};
use model::table::{Table, MOST_LOADING, ROWS};

/// The planning rule and the running rule (rule 19.1).
pub const RULES: [Rule; 2] = [step, running_step];

/// Loading times that are refused, in slots.
pub const TOO_LONG: [u32; 5] = [17, 18, 64, 1 << 31, u32::MAX];

/// Counts the tables of each loading time, and those without waits and with them, so that
/// a test can show that it looked at all from 0 to 16 slots, and at both.
#[derive(Default)]
pub struct Kinds {
    loadings: [u32; MOST_LOADING as usize + 1],
    waits: [u32; 2],
}

impl Kinds {
    pub fn saw(&mut self, table: &Table) {
        self.loadings[table.loading as usize] += 1;
        self.waits[usize::from(table.follows != [0; ROWS])] += 1;
    }

    /// Fails unless each loading time, tables without waits and tables with them came up
    /// `least` times.
    pub fn assert_all(&self, least: u32) {
        self.assert_loadings(least);
        println!("tables without and with waits: {:?}", self.waits);
        let both = self.waits.iter().all(|&times| times >= least);
        assert!(both, "{:?}", self.waits);
    }

    /// Fails unless each loading time came up `least` times.
    pub fn assert_loadings(&self, least: u32) {
        println!("tables by loading time: {:?}", self.loadings);
        let all = self.loadings.iter().all(|&times| times >= least);
        assert!(all, "{:?}", self.loadings);
    }
}

/// Every row of a table.
pub fn all_rows(table: &Table) -> Vec<u8> {
    (1..=table.n as u8).collect()
}

/// The rows of a table at this level.
pub fn rows_at_level(table: &Table, level: u32) -> Vec<u8> {
    let mut rows = all_rows(table);
    rows.retain(|&row| table.row(row).level == level);
    rows
}

/// The judge's refusal with this number: all zero.
pub fn refused_verdict(number: u32) -> Verdict {
    Verdict {
        number,
        yes: false,
        row: 0,
        slack: 0,
    }
}

/// Bytes that no sheet, report or sentence has, each other than its neighbours.
pub fn rubbish(length: usize) -> Vec<u8> {
    (0..length).map(|index| 128 | index as u8).collect()
}

/// Small tables on which both answers, 0 and 7, are common.
pub const SMALL: Ranges = Ranges {
    rows: 5,
    speed: 4,
    release: 8,
    need: 3,
    window: 11,
};

/// Tables whose runs are short.
pub const SHORT: Ranges = Ranges {
    rows: 7,
    speed: 3,
    release: 5,
    need: 2,
    window: 9,
};

/// An accepted table of so many rows; two times in three its deadlines leave few slots to spare
/// under one of its orders.
pub fn any_table(random: &mut Random, rows: u32) -> Table {
    let loading = random.between(0, 3);
    let table = loading_table_in(random, rows, loading, SHORT);
    if random.once_in(3) {
        return table;
    }
    let order = random_order(random, &table);
    let moves = random.one_of(&[&[0, 0, 1][..], &[0, 1, 2, 4], &[-1, 0, 2, 6]]);
    tight_under(random, &table, &order, moves)
}

/// Slots in which every row of a small table can be worked: some, and those in
/// which all rows load.
pub fn slots_with_loading(table: &Table, slots: u32) -> u32 {
    slots + table.n * table.loading
}

/// An accepted table with one of its orders.
pub fn table_and_order(random: &mut Random) -> (Table, Order) {
    let table = table_in(random, SMALL);
    let order = random.one_of(&orders(&table));
    (table, order)
}

/// The record of P3 under the order 1, 2 at this clock, in slots: row 1 was dropped
/// at its deadline, row 2 has not run.
pub fn p3_at(clock: u32) -> Record {
    let mut record = Record {
        clock,
        ..fresh(&p3(), &order_of(&[1, 2]))
    };
    record.closing[0] = 2;
    record
}

/// The fresh record of an accepted table and one of its orders.
pub fn fresh(table: &Table, order: &Order) -> Record {
    let (number, record) = Record::fresh(table, order);
    assert_eq!(number, 0);
    assert_eq!(record, Record::holding(table, order, &State::FRESH));
    record
}
