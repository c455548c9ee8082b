//! A new sheet while plotting: what it costs to ask for a proposal and to commit one.

use crate::pairs;
use compiled::raw::{self, StateWords, TableWords};
use compiled::sheets::{easy, hard};
use model::order::{order_of, Order};
use model::plain;
use model::record::Record;
use model::sheet::sheet_of;
use model::table::Table;
use std::hint::black_box;

const ROW_COUNTS: [u32; 2] = [8, 64];

pub fn measure() {
    for n in ROW_COUNTS {
        measure_ask("ask, hard", &hard(n));
    }
    for n in ROW_COUNTS {
        measure_commit("commit, accepted", &over(n), 0);
    }
    for n in ROW_COUNTS {
        measure_commit("commit, a row is open", &last_row_open(n), 17);
    }
    println!();
}

fn measure_ask(what: &str, table: &Table) {
    let sheet = sheet_of(table);
    let (mut words, mut order, mut left) = ([0; raw::TABLE_WORDS], [0; 64], 0);
    let mut library = || {
        let (bytes, length) = (black_box(&sheet).as_ptr(), sheet.len());
        // SAFETY: every pointer is to memory of the size that the library names.
        black_box(unsafe { raw::jb_ask(bytes, length, &mut words, &mut order, &mut left) });
        black_box((&words, &order, left));
    };
    let mut plain = || {
        black_box(plain::ask(black_box(&sheet)));
    };
    pairs::measure(what, table.n, &mut library, &mut plain);
    let asked = plain::ask(&sheet);
    let answer = (raw::table_of(&words), order, left);
    assert_eq!(answer, (asked.table, asked.order, asked.left), "{what}");
}

/// A record whose rows are all closed, at the clock at which the last of them was.
fn over(n: u32) -> Record {
    after(n, n)
}

/// The same a slot earlier.
fn last_row_open(n: u32) -> Record {
    after(n, n - 1)
}

/// An easy table, whose rows take a slot each, after so many slots.
fn after(n: u32, slots: u32) -> Record {
    let table = easy(n);
    let rows: Vec<u8> = (1..=n as u8).collect();
    let (_, fresh) = Record::fresh(&table, &order_of(&rows));
    fresh.forward(&vec![table.normal; slots as usize]).record
}

/// A record as the library takes it.
#[derive(Clone, Copy)]
struct Words {
    table: TableWords,
    order: Order,
    state: StateWords,
}

/// The commit of a hard table of as many rows, released at the record's clock, each time on a
/// copy of the record.
fn measure_commit(what: &str, record: &Record, number: u32) {
    let next = hard(record.table.n).later(record.clock);
    let order = plain::plan(&next).order;
    let words = raw::table_words(&next);
    let start = Words {
        table: raw::table_words(&record.table),
        order: record.order,
        state: raw::state_words(record),
    };
    let (mut run, mut of_library) = (start, 0);
    let mut library = || {
        run = *black_box(&start);
        let (table, order) = black_box((&words, &order));
        // SAFETY: as in `measure_ask`.
        of_library =
            unsafe { raw::jb_commit(table, order, &mut run.table, &mut run.order, &mut run.state) };
        black_box(&run);
    };
    let (mut kept, mut of_plain) = (*record, 0);
    let mut plain = || {
        kept = *black_box(record);
        let (table, order) = black_box((&next, &order));
        of_plain = plain::commit(&mut kept, table, order);
        black_box(&kept);
    };
    pairs::measure(what, record.table.n, &mut library, &mut plain);
    assert_eq!((of_library, of_plain), (number, number), "{what}");
    assert_eq!(raw::record_of(&run.table, &run.order, &run.state), kept);
}
