//! The C functions of the library, and tables and records as its words. The
//! declarations say the same as c/jasminebrace.h.

use model::order::Order;
use model::record::Record;
use model::table::{Table, FIGURES, ROWS};

/// Words in a table before its columns: n, N, G and K.
const FIRST_WORDS: usize = 4;

/// Words in a table: n, N, G, K and a column for each figure of a row.
pub const TABLE_WORDS: usize = FIRST_WORDS + FIGURES * ROWS;

/// Words in the state of a run: the clock and three columns.
pub const STATE_WORDS: usize = 1 + 3 * ROWS;

/// Most bytes that the planning program writes: a first line and a line for each place.
pub const TEXT: usize = 17 + 25 * ROWS;

pub type TableWords = [u32; TABLE_WORDS];
pub type StateWords = [u32; STATE_WORDS];

/// A row as the library takes it: release, work, deadline, level, promised part, the row
/// that it follows.
pub type RowWords = [u32; FIGURES];
pub type Finishes = [u32; ROWS];

/// In how many correct orders each row stands lowest.
pub type Lowest = [u32; ROWS];

extern "C" {
    pub fn jb_read(sheet: *const u8, length: usize, table: *mut TableWords) -> u32;
    pub fn jb_write(table: *const TableWords, sheet: *mut u8, room: usize, length: *mut u32)
        -> u32;
    pub fn jb_field(figure: u32, field: *mut [u8; 8]) -> u32;
    pub fn jb_plan(table: *const TableWords, order: *mut Order, left: *mut u64) -> u32;
    pub fn jb_plan_within(
        table: *const TableWords,
        ceiling: u32,
        order: *mut Order,
        left: *mut u64,
        trials: *mut u32,
    ) -> u32;
    pub fn jb_ask(
        sheet: *const u8,
        length: usize,
        table: *mut TableWords,
        order: *mut Order,
        left: *mut u64,
    ) -> u32;
    pub fn jb_least_degraded(table: *const TableWords, speed: *mut u32, order: *mut Order) -> u32;
    pub fn jb_least_normal(table: *const TableWords, speed: *mut u32, order: *mut Order) -> u32;
    pub fn jb_read_least_degraded(
        sheet: *const u8,
        length: usize,
        speed: *mut u32,
        order: *mut Order,
    ) -> u32;
    pub fn jb_read_least_normal(
        sheet: *const u8,
        length: usize,
        speed: *mut u32,
        order: *mut Order,
    ) -> u32;
    pub fn jb_judge(
        table: *const TableWords,
        order: *const Order,
        yes: *mut u32,
        row: *mut u32,
        slack: *mut i32,
    ) -> u32;
    pub fn jb_judge_rows(
        rows: *const RowWords,
        count: usize,
        normal: u32,
        degraded: u32,
        loading: u32,
        order: *const Order,
    ) -> u64;
    pub fn jb_finishes(
        table: *const TableWords,
        order: *const Order,
        finishes: *mut Finishes,
    ) -> u32;
    pub fn jb_report(
        table: *const TableWords,
        order: *const Order,
        report: *mut u8,
        room: usize,
        length: *mut u32,
    ) -> u32;
    pub fn jb_count(
        table: *const TableWords,
        scratch: *mut u32,
        numbers: usize,
        count: *mut u32,
        lowest: *mut Lowest,
    ) -> u32;
    pub fn jb_fresh(
        table: *const TableWords,
        order: *const Order,
        run_table: *mut TableWords,
        run_order: *mut Order,
        run_state: *mut StateWords,
    ) -> u32;
    pub fn jb_coming(
        table: *const TableWords,
        order: *const Order,
        state: *const StateWords,
        row: *mut u32,
    ) -> u32;
    pub fn jb_slot(
        table: *const TableWords,
        order: *const Order,
        state: *mut StateWords,
        supply: u32,
        row: *mut u32,
    ) -> u32;
    pub fn jb_forward(
        table: *const TableWords,
        order: *const Order,
        state: *mut StateWords,
        supplies: *const u32,
        count: usize,
        worked: *mut u32,
    ) -> u32;
    pub fn jb_commit(
        table: *const TableWords,
        order: *const Order,
        run_table: *mut TableWords,
        run_order: *mut Order,
        run_state: *mut StateWords,
    ) -> u32;
    pub fn jb_program(input: *const u8, length: usize, text: *mut [u8; TEXT]) -> u32;
    pub fn jb_plan_sentence(
        number: u32,
        left: u64,
        order: *const Order,
        trials: u32,
        line: *mut u8,
        room: usize,
        length: *mut u32,
    ) -> u32;
    pub fn jb_judge_sentence(
        number: u32,
        yes: u32,
        row: u32,
        slack: i32,
        line: *mut u8,
        room: usize,
        length: *mut u32,
    ) -> u32;
    pub fn jb_read_sentence(
        line: *const u8,
        length: usize,
        kind: *mut u32,
        number: *mut u32,
        left: *mut u64,
        order: *mut Order,
        trials: *mut u32,
        yes: *mut u32,
        row: *mut u32,
        slack: *mut i32,
    ) -> u32;
    pub fn jb_version() -> u32;
}

/// The words of a table.
pub fn table_words(table: &Table) -> TableWords {
    let mut words = [0; TABLE_WORDS];
    let figures = [table.n, table.normal, table.degraded, table.loading];
    words[..FIRST_WORDS].copy_from_slice(&figures);
    let columns = [
        &table.release,
        &table.work,
        &table.deadline,
        &table.level,
        &table.promised,
        &table.follows,
    ];
    put_columns(&mut words[FIRST_WORDS..], &columns);
    words
}

/// The table that these words hold.
pub fn table_of(words: &TableWords) -> Table {
    let columns = &words[FIRST_WORDS..];
    Table {
        n: words[0],
        normal: words[1],
        degraded: words[2],
        loading: words[3],
        release: column(columns, 0),
        work: column(columns, 1),
        deadline: column(columns, 2),
        level: column(columns, 3),
        promised: column(columns, 4),
        follows: column(columns, 5),
    }
}

/// The words of a record's clock and columns.
pub fn state_words(record: &Record) -> StateWords {
    let mut words = [0; STATE_WORDS];
    words[0] = record.clock;
    let columns = [&record.got, &record.used, &record.closing];
    put_columns(&mut words[1..], &columns);
    words
}

/// The record that these words hold.
pub fn record_of(table: &TableWords, order: &Order, state: &StateWords) -> Record {
    Record {
        table: table_of(table),
        order: *order,
        clock: state[0],
        got: column(&state[1..], 0),
        used: column(&state[1..], 1),
        closing: column(&state[1..], 2),
    }
}

fn put_columns(words: &mut [u32], columns: &[&[u32; ROWS]]) {
    for (place, column) in words.chunks_mut(ROWS).zip(columns) {
        place.copy_from_slice(*column);
    }
}

fn column(words: &[u32], index: usize) -> [u32; ROWS] {
    words[index * ROWS..][..ROWS]
        .try_into()
        .expect("a column has sixty-four entries")
}
