//! With w = 0 in every row all calls of the model and of plain Rust answer as they did
//! before rows followed rows (rule 21.5), with r = 0 too as before rows had a promise
//! (rule 20.2), and with K = 0 too as before tables had a loading time, one slot and
//! forward where there is no late preview to drop (rule 17.1). Sheets of these times lack
//! fields.

mod common;

use common::SMALL;
use model::before::{answers, Before, Calls, TIMES};
use model::cases::{p1, p2, p3, p4, promising_preview};
use model::judge::judge_table;
use model::plain;
use model::plan::plan;
use model::program::planning_program;
use model::random::{table_in, Random};
use model::record::{Forward, OneSlot, Record};
use model::report::report;
use model::sheet::{read_sheet, sheet_of, write_back, write_line};
use model::speeds::least;
use model::table::Table;

#[test]
fn the_model_answers_as_before() {
    let of_model = Calls {
        read: read_sheet,
        write: write_back,
        plan,
        judge: judge_table,
        report,
        one_slot: |record, supply| record.one_slot(supply),
        forward: |record, supplies| record.forward(supplies),
        program: planning_program,
        least,
    };
    assert_as_before(&of_model);
}

fn assert_as_before(calls: &Calls) {
    for before in TIMES {
        assert_eq!(answers(calls, before), before.stored(), "{before:?}");
    }
}

#[test]
fn the_plain_planner_answers_as_before() {
    let of_plain = Calls {
        read: read_sheet,
        write: plain::write_back,
        plan: plain::plan,
        judge: plain::judge,
        report: plain::report,
        one_slot: plain_slot,
        forward: plain_forward,
        program: plain::program,
        least: plain::least_by_halves,
    };
    assert_as_before(&of_plain);
}

fn plain_slot(record: &Record, supply: u32) -> OneSlot {
    let mut record = *record;
    let (number, row) = plain::one_slot(&mut record, supply);
    OneSlot {
        number,
        row,
        record,
    }
}

fn plain_forward(record: &Record, supplies: &[u32]) -> Forward {
    let mut record = *record;
    let (number, worked) = plain::forward(&mut record, supplies);
    Forward {
        number,
        worked,
        record,
    }
}

/// A sheet without a field of K is refused with 2, one without fields of r or of w with 1
/// (rules 17.3, 20.6 and 21.6), and with fields of 0 put in each is read as it was.
fn assert_old_sheets(table: &Table) {
    let n = table.n as usize;
    for (before, length, number) in [
        (Before::Loading, 25 + 33 * n, 2),
        (Before::Promises, 33 + 33 * n, 1),
        (Before::Waits, 33 + 41 * n, 1),
    ] {
        let kept = before.old_table(table);
        let old = before.old_sheet(&sheet_of(table));
        assert_eq!(old.len(), length);
        assert_eq!(read_sheet(&old), (number, Table::ZERO), "{table:?}");
        assert_eq!(planning_program(&old), write_line(&[number, 0]));
        assert_eq!(before.new_sheet(&old), sheet_of(&kept));
        assert_eq!(read_sheet(&before.new_sheet(&old)), (0, kept));
    }
}

#[test]
fn sheets_without_a_field_are_refused() {
    let mut random = Random::seeded(902);
    for _ in 0..5_000 {
        assert_old_sheets(&table_in(&mut random, SMALL));
    }
    for table in [p1(), p2(), p3(), p4()] {
        assert_old_sheets(&table);
    }
    // P1's stands here as bytes.
    let old = concat!(
        "       4       5       2\n",
        "       0      20      10       1\n",
        "       5      15      10       0\n",
        "       5      11      19       1\n",
        "       0       5       5       0\n",
    );
    assert_eq!(Before::Loading.old_sheet(&sheet_of(&p1())), old.as_bytes());
    // And this one had promises and no waits.
    let old = concat!(
        "       1       2       1       0\n",
        "       0       4       2       0       3\n",
    );
    let sheet = sheet_of(&promising_preview(2, 3));
    assert_eq!(Before::Waits.old_sheet(&sheet), old.as_bytes());
}
