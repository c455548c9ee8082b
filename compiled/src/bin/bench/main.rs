//! Measures the compiled library against plain Rust.
//!
//!     cargo run --offline --release --bin bench
//!     cargo run --offline --release --bin bench -- plans
//!     cargo run --offline --release --bin bench -- ceilings
//!     cargo run --offline --release --bin bench -- slots
//!     cargo run --offline --release --bin bench -- commits
//!     cargo run --offline --release --bin bench -- choices
//!     cargo run --offline --release --bin bench -- searches
//!
//! The headline is the ratio: the library's time divided by plain Rust's, both
//! from this run, this machine and the same inputs. No time is asserted. With the
//! word `plans` planning alone is timed, with the word `ceilings` planning at ceilings, with
//! the word `slots` one slot and forward, with the word `commits` asking and committing, with the
//! word `choices` counting correct orders.
//! With the word `searches` nothing is timed: each search for a least speed is made
//! once, for tools/plannings.sh, which counts its plannings.

mod choices;
mod commits;
mod pairs;
mod plans;
mod searches;
mod slots;

use compiled::raw::{self, TableWords};
use compiled::sheets::hard;
use compiled::stack;
use model::order::{order_of, Order};
use model::plain;
use model::record::Record;
use model::report::LONGEST_REPORT;
use model::sheet::LONGEST_SHEET;
use model::table::{Table, HI};
use std::hint::black_box;

/// Row counts by which every cost is shown.
const ROW_COUNTS: [u32; 4] = [8, 16, 32, 64];

fn main() {
    match std::env::args().nth(1).as_deref() {
        Some("searches") => searches::make_each_once(),
        Some("plans") => measure_plans(),
        Some("ceilings") => measure_ceilings(),
        Some("slots") => measure_slots(),
        Some("commits") => measure_commits(),
        Some("choices") => measure_choices(),
        _ => measure_all(),
    }
}

/// Planning alone.
fn measure_plans() {
    print_conditions();
    plans::measure();
}

/// Planning at ceilings alone.
fn measure_ceilings() {
    print_conditions();
    plans::measure_ceilings();
}

/// One slot and forward alone.
fn measure_slots() {
    print_conditions();
    pairs::print_head();
    slots::measure();
}

/// Asking and committing alone.
fn measure_commits() {
    print_conditions();
    pairs::print_head();
    commits::measure();
}

/// Counting correct orders alone.
fn measure_choices() {
    print_conditions();
    choices::measure();
}

fn print_conditions() {
    println!("Ratio: time of the library divided by time of plain Rust, same run and inputs.");
    println!("Buffers for results are not cleared before a call, on either side; both sides");
    println!("write them whole, but of a sheet's or a report's buffer just the text. Run");
    println!("records stay in place from slot to slot; a forward call starts from a copy of a");
    println!("fresh record, and one slot about a deadline and a commit from a copy of their");
    println!("record, which is in the time of both. Plain Rust asks with the model's reader.");
    println!("K is 0 slots, and no row promises a part or follows another, where it is not");
    println!("named.");
    println!("Times are the best of several batches that take turns.\n");
}

fn measure_all() {
    measure_plans();
    plans::measure_ceilings();
    pairs::print_head();
    for_each_count(|n| measure_judge(&hard(n)));
    for_each_count(|n| measure_write(&hard(n)));
    for_each_count(|n| measure_report(&hard(n)));
    slots::measure();
    commits::measure();
    println!("Searches for the least workable speed, which is the last figure of their names,");
    println!("from 1 to 1,000 work units per slot; at the end one planning at that speed, and");
    println!("the ratio of the search to it.\n");
    searches::measure();
    println!();
    choices::measure();
    print_stack();
}

fn for_each_count(measure: impl Fn(u32)) {
    for n in ROW_COUNTS {
        measure(n);
    }
    println!();
}

/// A table as the library and as plain Rust take it, with an order.
struct Input {
    words: TableWords,
    table: Table,
    order: Order,
}

impl Input {
    fn of(table: &Table) -> Input {
        let rows: Vec<u8> = (1..=table.n as u8).collect();
        Input {
            words: raw::table_words(table),
            table: *table,
            order: order_of(&rows),
        }
    }
}

fn measure_judge(table: &Table) {
    let input = Input::of(table);
    let (mut yes, mut row, mut slack) = (0, 0, 0);
    let mut library = || {
        let (words, order) = black_box((&input.words, &input.order));
        // SAFETY: every pointer is to memory of the size that the library names.
        black_box(unsafe { raw::jb_judge(words, order, &mut yes, &mut row, &mut slack) });
        black_box((yes, row, slack));
    };
    let mut plain = || {
        let (table, order) = black_box((&input.table, &input.order));
        black_box(plain::judge(table, order));
    };
    pairs::measure("judge", table.n, &mut library, &mut plain);
}

fn measure_write(table: &Table) {
    let input = Input::of(table);
    let (mut sheet, mut length) = ([0; LONGEST_SHEET], 0);
    let mut library = || {
        let (lent, room) = (sheet.as_mut_ptr(), sheet.len());
        // SAFETY: as in `measure_judge`.
        black_box(unsafe { raw::jb_write(black_box(&input.words), lent, room, &mut length) });
        black_box((&sheet, length));
    };
    let mut other = [0; LONGEST_SHEET];
    let mut plain = || {
        black_box(plain::write_back(black_box(&input.table), &mut other));
        black_box(&other);
    };
    pairs::measure("write a sheet", table.n, &mut library, &mut plain);
}

fn measure_report(table: &Table) {
    let input = Input::of(table);
    let (mut report, mut length) = ([0; LONGEST_REPORT], 0);
    let mut library = || {
        let (words, order) = black_box((&input.words, &input.order));
        let (lent, room) = (report.as_mut_ptr(), report.len());
        // SAFETY: as in `measure_judge`.
        black_box(unsafe { raw::jb_report(words, order, lent, room, &mut length) });
        black_box((&report, length));
    };
    let mut other = [0; LONGEST_REPORT];
    let mut plain = || {
        let (table, order) = black_box((&input.table, &input.order));
        black_box(plain::report(table, order, &mut other));
        black_box(&other);
    };
    pairs::measure("report", table.n, &mut library, &mut plain);
}

/// Peak stack of every export, and of plain Rust's planning and forward.
fn print_stack() {
    println!("Peak stack in bytes, without what the caller lends (512 stands for less), and");
    println!("what the header states for it: 64 bytes more, rounded up to a multiple of 256:");
    for (name, bytes) in stack::peaks() {
        println!("  {name:<24}{bytes:>7}{:>7}", stack::to_state(bytes));
    }
    let (planned, run) = (hard(64), Input::of(&slots::busy(64, HI, 0)));
    let supplies = vec![1; 10_000];
    let (_, mut record) = Record::fresh(&run.table, &run.order);
    let plan = stack::peak(&mut || {
        black_box(plain::plan(&planned));
    });
    let forward = stack::peak(&mut || {
        black_box(plain::forward(&mut record, &supplies));
    });
    println!("  plain Rust: plan {plan}, forward {forward}");
}
