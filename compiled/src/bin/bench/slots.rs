//! One slot and forward: what a slot costs, what check 9 asks in it, and what it costs
//! to look for late previews and to drop them.

use crate::{for_each_count, pairs, Input};
use compiled::raw::{self, StateWords};
use compiled::sheets::easy;
use model::cases::row;
use model::order::order_of;
use model::plain;
use model::record::Record;
use model::table::{Row, Table, HI, LO, MOST_LOADING};
use std::hint::black_box;

/// Slots of a long run.
const MILLION: u32 = 1_000_000;

/// Slots after which a record that is worked slot by slot is set back.
const SET_BACK: u32 = 900_000;

/// The deadline, in slots, of all rows of `at_clock`.
const DEADLINE: u32 = 1_000;

pub fn measure() {
    for_each_count(|n| measure_slot("one slot", &last_row_open(n)));
    for_each_count(|n| measure_slot("one slot, LO open", &low_rows_open(n, 0, 0)));
    for_each_count(|n| measure_slot("one slot, LO open, r = c", &low_rows_open(n, 0, MILLION)));
    for_each_count(|n| {
        let record = low_rows_open(n, MOST_LOADING, 0);
        measure_slot("one slot, LO open, K 16", &record);
    });
    let before = DEADLINE - 2;
    for_each_count(|n| measure_from("one slot, HI, no deadline", &at_clock(n, HI, before)));
    for_each_count(|n| measure_from("one slot, HI, a deadline", &at_clock(n, HI, before + 1)));
    for_each_count(|n| measure_from("one slot, LO, no deadline", &at_clock(n, LO, before)));
    for_each_count(|n| measure_from("one slot, LO, all dropped", &at_clock(n, LO, before + 1)));
    let measure_busy = |what, table: &Table| measure_forward(what, table, MILLION);
    for_each_count(|n| measure_busy("forward, a million slots", &busy(n, HI, 0)));
    for_each_count(|n| measure_busy("forward, LO rows", &busy(n, LO, 0)));
    for_each_count(|n| measure_busy("forward, LO rows, r = c", &promising_all(n)));
    for_each_count(|n| measure_busy("forward, LO rows, K 16", &busy(n, LO, MOST_LOADING)));
    for_each_count(|n| measure_busy("forward, HI outranked", &outranked(n, |_| HI, MILLION)));
    for_each_count(|n| measure_busy("forward, LO dropped", &outranked(n, |_| LO, MILLION)));
    for_each_count(|n| measure_busy("forward, every other dropped", &outranked(n, mixed, MILLION)));
    for_each_count(|n| measure_forward("forward, n slots, HI", &outranked(n, |_| HI, n), n));
    for_each_count(|n| measure_forward("forward, n slots, LO dropped", &outranked(n, |_| LO, n), n));
}

/// A record in which the row at the lowest place alone is open, so that every
/// slot looks at all places. The row is HI and gets nothing, so it stays open.
fn last_row_open(n: u32) -> Record {
    let mut table = easy(n);
    table.level[n as usize - 1] = HI;
    let input = Input::of(&table);
    let (_, fresh) = Record::fresh(&table, &input.order);
    fresh.forward(&vec![table.normal; n as usize - 1]).record
}

/// A record in which every row but one is LO and open, so that check 9 asks of
/// each whether its allowance is used up. Each row was preempted by the next one
/// after 20 slots, `loading` of which loaded it, and promises so much. The row at the
/// highest place is HI, was released last and gets nothing, so it runs on.
fn low_rows_open(n: u32, loading: u32, promised: u32) -> Record {
    let row = |index: u32| {
        let (level, promised) = match index {
            last if last + 1 == n => (HI, 0),
            _ => (LO, promised),
        };
        row([20 * index, MILLION, MILLION, level, promised])
    };
    let rows: Vec<Row> = (0..n).map(row).collect();
    let table = Table::of(7, 3, loading, &rows);
    let places: Vec<u8> = (1..=n as u8).rev().collect();
    let (_, fresh) = Record::fresh(&table, &order_of(&places));
    fresh.forward(&vec![1; 20 * (n as usize - 1)]).record
}

/// A record at this clock, in slots, in which all rows are at this level, open and of
/// one deadline, and none has run.
fn at_clock(n: u32, level: u32, clock: u32) -> Record {
    let row = row([0, MILLION, DEADLINE, level]);
    let input = Input::of(&Table::of(7, 3, 0, &vec![row; n as usize]));
    let (_, fresh) = Record::fresh(&input.table, &input.order);
    Record { clock, ..fresh }
}

/// One slot after another on a record that stays in place. Its rows get nothing.
fn measure_slot(what: &str, record: &Record) {
    let words = raw::table_words(&record.table);
    let start = raw::state_words(record);
    let mut state = start;
    let mut row = 0;
    let mut library = || {
        if state[0] == SET_BACK {
            state = start;
        }
        // SAFETY: every pointer is to memory of the size that the library names.
        black_box(unsafe { raw::jb_slot(&words, &record.order, &mut state, 0, &mut row) });
        black_box((&state, row));
    };
    let mut kept = *record;
    let mut plain = || {
        if kept.clock == SET_BACK {
            kept = *record;
        }
        black_box(plain::one_slot(&mut kept, black_box(0)));
    };
    pairs::measure(what, record.table.n, &mut library, &mut plain);
}

/// The same slot again and again, each time from a copy of the record's state.
fn measure_from(what: &str, record: &Record) {
    let words = raw::table_words(&record.table);
    let start = raw::state_words(record);
    let (mut state, mut row, mut number) = (start, 0, 0);
    let mut library = || {
        state = start;
        // SAFETY: as in `measure_slot`.
        number = unsafe { raw::jb_slot(&words, &record.order, &mut state, 0, &mut row) };
        black_box((&state, row, number));
    };
    let (before, mut kept, mut answer) = (record.state(), *record, (0, 0));
    let mut plain = || {
        kept.clock = before.clock;
        (kept.got, kept.used, kept.closing) = (before.got, before.used, before.closing);
        answer = plain::one_slot(&mut kept, black_box(0));
        black_box((&kept, answer));
    };
    pairs::measure(what, record.table.n, &mut library, &mut plain);
    assert_eq!((number, answer.0), (0, 0), "{what}: refused");
}

/// A table of n rows at this level that fill a million slots, or little more with
/// a loading time (slots), at one work unit per slot.
pub fn busy(n: u32, level: u32, loading: u32) -> Table {
    let row = row([0, MILLION / n, MILLION, level]);
    Table::of(1, 1, loading, &vec![row; n as usize])
}

/// `busy` with LO rows that promise all of their work.
fn promising_all(n: u32) -> Table {
    let table = busy(n, LO, 0);
    Table {
        promised: table.work,
        ..table
    }
}

/// A table whose first row is HI and runs for a million slots, at one work unit per slot,
/// while all others stand below it, each at the level that its row number gives and with its own
/// deadline: the last one after so many slots, the others evenly before it.
fn outranked(n: u32, level: fn(u32) -> u32, last: u32) -> Table {
    let row = |number: u32| {
        let level = if number == 1 { HI } else { level(number) };
        row([0, MILLION, last / n * number, level])
    };
    let rows: Vec<Row> = (1..=n).map(row).collect();
    Table::of(1, 1, 0, &rows)
}

/// LO and HI in turns.
fn mixed(number: u32) -> u32 {
    match number % 2 {
        0 => LO,
        _ => HI,
    }
}

/// Forward over so many slots of one work unit each, from a fresh record.
fn measure_forward(what: &str, table: &Table, slots: u32) {
    let input = Input::of(table);
    let supplies = vec![1; slots as usize];
    let (_, fresh) = Record::fresh(table, &input.order);
    let start = raw::state_words(&fresh);
    let (mut of_library, mut of_plain) = ((0, 0), (0, 0));
    let mut library = || {
        let mut state = start;
        of_library = black_box(library_forward(&input, &mut state, &supplies));
        black_box(&state);
    };
    let mut plain = || {
        let mut record = fresh;
        of_plain = black_box(plain::forward(&mut record, black_box(&supplies)));
        black_box(&record);
    };
    pairs::measure(what, table.n, &mut library, &mut plain);
    assert_eq!((of_library, of_plain), ((0, slots), (0, slots)), "{what}");
}

/// The library's forward on this state; gives number and slots worked.
fn library_forward(input: &Input, state: &mut StateWords, supplies: &[u32]) -> (u32, u32) {
    let mut worked = 0;
    // SAFETY: as in `measure_slot`.
    let number = unsafe {
        raw::jb_forward(
            &input.words,
            &input.order,
            state,
            supplies.as_ptr(),
            supplies.len(),
            &mut worked,
        )
    };
    (number, worked)
}
