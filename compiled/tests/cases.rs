//! The cases that must hold on the compiled library, starred and also run
//! (section 13 of the rules). In the starred ones no job loads; after them come
//! cases in which jobs do, cases in which previews are late, cases with promises, and cases
//! in which rows follow rows.

mod common;

use common::sheets::is_all_in_its_sheet;
use compiled::{library, raw};
use model::cases::waits::{
    checked_wait_orders, checked_waits, late_wait_runs, runs_that_break_waits, wait_plans,
    wait_runs,
};
use model::cases::{
    at_loading, at_loading_planned, checked_promises, late_runs, loading_runs, no_order, ordered,
    p1, p3, promise_at_deadline, promise_runs, promises, row, serving, table, HandPlan, HandRun,
};
use model::judge::Verdict;
use model::order::{order_of, Order, NO_ORDER};
use model::plan::Plan;
use model::record::Record;
use model::run::State;
use model::sheet::{sheet_of, write_line, write_sheet};
use model::speeds::{Least, BOTH};
use model::table::{Table, MOST_LOADING};

fn refused(number: u32) -> Plan {
    Plan {
        number,
        order: NO_ORDER,
        left: 0,
    }
}

#[test]
fn p1_to_p6_are_planned() {
    assert_eq!(library::plan(&p1()), ordered(&[1, 2, 3, 4]));
    let (_, finishes) = library::finishes(&p1(), &order_of(&[1, 2, 3, 4]));
    assert_eq!(finishes[..5], [10, 8, 19, 5, 0], "slacks 0 2 0 0");
    let p2 = [[0, 8, 5, 0], [0, 12, 10, 1], [3, 4, 5, 1], [2, 16, 10, 0]];
    assert_eq!(library::plan(&table(4, 3, &p2)), ordered(&[3, 1, 2, 4]));
    assert_eq!(library::plan(&p3()), no_order(0b11));
    let p4 = [[0, 20, 20, 1], [0, 18, 18, 0]];
    assert_eq!(library::plan(&table(2, 1, &p4)), no_order(0b11));
    let p5 = |work| table(3, 1, &[[0, work, 1, 0]]);
    assert_eq!(library::plan(&p5(3)), ordered(&[1]));
    assert_eq!(library::plan(&p5(4)), no_order(1));
    let p6 = |degraded| table(2, degraded, &[[0, 2, 1, 1]]);
    assert_eq!(library::plan(&p6(2)), ordered(&[1]));
    assert_eq!(library::plan(&p6(1)), no_order(1));
}

#[test]
fn p1_is_judged() {
    let yes = Verdict {
        number: 0,
        yes: true,
        row: 1,
        slack: 0,
    };
    assert_eq!(library::judge(&p1(), &order_of(&[1, 2, 3, 4])), yes);
    let no = library::judge(&p1(), &order_of(&[1, 4, 3, 2]));
    assert_eq!((no.number, no.yes), (0, false));
}

#[test]
fn p7_and_p8_are_run() {
    let (number, record) = library::fresh(&p3(), &order_of(&[1, 2]));
    assert_eq!(number, 0);
    let degraded = library::forward(&record, &[1; 5]).record;
    assert_eq!(degraded.closing[..2], [1, 5], "dropped at 1, done at 5");
    assert_eq!(degraded.got[..2], [1, 4]);
    let normal = library::forward(&record, &[2; 3]).record;
    assert_eq!(normal.closing[..2], [1, 3], "done at 1 and 3");
    assert_eq!(normal.got[..2], [2, 4]);
}

/// The library works the run as it says, slot by slot and in one call.
fn assert_worked(case: &HandRun) {
    let what = case.what;
    let (number, mut record) = library::fresh(&case.table, &case.order);
    assert_eq!(number, 0, "{what}");
    let whole = library::forward(&record, &case.supplies);
    for (&supply, &row) in case.supplies.iter().zip(&case.rows) {
        let coming = library::coming(&record);
        let slot = library::one_slot(&record, supply);
        assert_eq!((slot.number, slot.row), (0, row), "{what}");
        assert_eq!(coming, (0, row), "{what}");
        record = slot.record;
    }
    let entries = |index: usize| [record.got[index], record.used[index], record.closing[index]];
    let ends: Vec<[u32; 3]> = (0..case.table.n as usize).map(entries).collect();
    assert_eq!(ends, case.ends, "{what}");
    assert_eq!(whole.record, record, "{what}");
}

/// A preempted job goes on loading, or does not load again (rules 1.9, 1.10, 2.14).
#[test]
fn runs_that_load() {
    loading_runs().iter().for_each(assert_worked);
}

/// A preview that is late is dropped at its deadline, and one that is done by its last
/// slot is done (rules 13.13, 19.2 to 19.4).
#[test]
fn runs_with_late_previews() {
    for case in late_runs() {
        assert_worked(&case.run);
    }
}

/// The planner answers by the planning rule (rules 13.13, 19.8).
#[test]
fn a_table_without_a_correct_order_that_is_served() {
    assert_eq!(library::plan(&serving()), no_order(0b111));
    let (_, finishes) = library::finishes(&serving(), &order_of(&[1, 2, 3]));
    assert_eq!(finishes[..3], [2, 3, 5], "slacks 0 0 -1");
}

#[test]
fn an_order_with_1_slot_of_loading_and_none_with_2() {
    for (loading, answer) in (0..).zip(at_loading_planned()) {
        assert_eq!(library::plan(&at_loading(loading)), answer, "K {loading}");
    }
    for loading in 2..=MOST_LOADING {
        let answer = library::plan(&at_loading(loading));
        assert_eq!(answer, no_order(0b11), "K {loading}");
    }
    let verdict = library::judge(&at_loading(2), &order_of(&[1, 2]));
    assert_eq!((verdict.row, verdict.slack), (2, -2));
}

/// 16 slots are the most; the table is the one word that differs (rule 10.11).
#[test]
fn loading_of_16_and_of_17_slots() {
    let (most, over) = (p1().with_loading(16), p1().with_loading(17));
    assert_eq!(library::read(&sheet_of(&most)), (0, most));
    assert_eq!(library::read(&sheet_of(&over)), (11, Table::ZERO));
    assert_eq!(library::program(&sheet_of(&over)), b"      11       0\n");
    assert_eq!(library::plan(&over), refused(11));
    assert_eq!(raw::table_words(&most)[..5], [4, 5, 2, 16, 0]);
    let rows = most.rows();
    let order = order_of(&[1, 2, 3, 4]);
    let judged = |loading| library::judge_rows(5, 2, loading, &rows, &order);
    assert_eq!((judged(16).number, judged(16).slack), (0, -70));
    assert_eq!((judged(17).number, judged(17).slack), (11, 0));
}

/// A LO row has the allowance of its promise (rule 1.9).
#[test]
fn runs_with_promises() {
    promise_runs().iter().for_each(assert_worked);
}

/// A row waits for the one that it follows, preempted or not, until that is done or dropped
/// (rules 2.15 and 13.15).
#[test]
fn runs_with_waits() {
    wait_runs().iter().for_each(assert_worked);
    for case in late_wait_runs() {
        assert_worked(&case.run);
    }
}

#[test]
fn tables_with_promises() {
    assert_planned(promises());
}

#[test]
fn tables_with_waits() {
    assert_planned(wait_plans());
}

/// Worst finishes, verdict and planner's answer (rules 3.6 to 3.9 and 4.4).
fn assert_planned(cases: Vec<HandPlan>) {
    for case in cases {
        let (what, table, order) = (case.what, &case.table, &case.order);
        assert_eq!(library::plan(table), case.plan, "{what}");
        let (number, finishes) = library::finishes(table, order);
        assert_eq!(number, 0, "{what}");
        assert_eq!(finishes[..case.finishes.len()], case.finishes, "{what}");
        let least = *case.slacks.iter().min().expect("a row");
        let tightest = case.slacks.iter().position(|&slack| slack == least);
        let verdict = Verdict {
            number: 0,
            yes: least >= 0,
            row: tightest.expect("a row") as u8 + 1,
            slack: least,
        };
        assert_eq!(library::judge(table, order), verdict, "{what}");
        assert_eq!(judged_as_list(table, order), verdict, "{what}");
    }
}

/// What the judge says of a table whose rows it is lent as a list.
fn judged_as_list(table: &Table, order: &Order) -> Verdict {
    let (normal, degraded) = (table.normal, table.degraded);
    library::judge_rows(normal, degraded, table.loading, &table.rows(), order)
}

/// Row 2 has its promised part at clock 5, its deadline, and not at clock 4; what comes
/// later takes nothing from it (rule 9.18).
#[test]
fn a_promise_kept_at_its_deadline_alone() {
    let order = order_of(&[1, 2]);
    assert_eq!(library::plan(&promise_at_deadline()), ordered(&[1, 2]));
    let (_, fresh) = library::fresh(&promise_at_deadline(), &order);
    let got_after = |supplies: &[u32]| library::forward(&fresh, supplies).record.got[1];
    assert_eq!(got_after(&[1; 4]), 2);
    assert_eq!(got_after(&[1; 5]), 3);
    assert_eq!(got_after(&[1, 1, 1, 1, 1, 0, 0]), 3);
    assert_eq!(got_after(&[1, 1, 1, 0, 1, 9, 9]), 2);
}

/// 12 comes after 5 in all rows and before 6 and 10 (rules 5.9, 10.12 and 11.3).
#[test]
fn promises_above_the_work_and_of_hi_rows() {
    assert_checked(checked_promises());
}

/// 13, 14 and 15 come row by row after 12 in all rows and before 6 and 10 (rules 5.10, 10.13
/// to 10.15 and 11.3).
#[test]
fn waits_for_rows_that_cannot_be_followed() {
    assert_checked(checked_waits());
}

/// An order that has a follower above the row it follows is answered 6, as one that names a
/// row twice, and is within 9 for a record (rules 5.11 and 8.4).
#[test]
fn orders_that_break_waits() {
    let broken = runs_that_break_waits().into_iter();
    let broken = broken.map(|case| (case.what, case.table, case.order, 6));
    for (what, table, order, number) in checked_wait_orders().into_iter().chain(broken) {
        assert_eq!(library::judge(&table, &order).number, number, "{what}");
        assert_eq!(library::finishes(&table, &order).0, number, "{what}");
        assert_eq!(library::fresh(&table, &order).0, number, "{what}");
        assert_eq!(judged_as_list(&table, &order).number, number, "{what}");
        let record = Record::holding(&table, &order, &State::FRESH);
        let sound = if number == 0 { 0 } else { 9 };
        assert_eq!(library::one_slot(&record, 1).number, sound, "{what}");
        assert_eq!(library::coming(&record).0, sound, "{what}");
        assert_eq!(library::forward(&record, &[]).number, sound, "{what}");
        let room = if number == 0 { 10 } else { number };
        assert_eq!(library::report(&table, &order, &mut []), (room, 0));
    }
}

/// Each check on tables gives these their number, is answered as 5 is, and is within 9 for a
/// record (rule 8.4).
fn assert_checked(cases: Vec<(&'static str, Table, u32)>) {
    for (what, table, number) in cases {
        let rows: Vec<u8> = (1..=table.n as u8).collect();
        let order = order_of(&rows);
        assert_eq!(library::judge(&table, &order).number, number, "{what}");
        if is_all_in_its_sheet(&table) {
            let sheet = sheet_of(&table);
            let read = if number == 0 { table } else { Table::ZERO };
            assert_eq!(library::read(&sheet), (number, read), "{what}");
            assert_eq!(judged_as_list(&table, &order).number, number, "{what}");
            if number != 0 {
                assert_eq!(library::program(&sheet), write_line(&[number, 0]), "{what}");
            }
        }
        if number == 0 {
            continue;
        }
        assert_eq!(library::plan(&table), refused(number), "{what}");
        assert_eq!(library::judge(&table, &NO_ORDER).number, number, "{what}");
        assert_eq!(library::finishes(&table, &order), (number, [0; 64]));
        assert_eq!(library::fresh(&table, &order), (number, Record::ZERO));
        assert_eq!(library::write(&table, &mut []), (number, 0), "{what}");
        assert_eq!(library::report(&table, &order, &mut []), (number, 0));
        for sought in BOTH {
            assert_eq!(library::least(&table, sought), Least::refused(number));
        }
        let record = Record::holding(&table, &order, &State::FRESH);
        let slot = library::one_slot(&record, 1);
        assert_eq!((slot.number, slot.row, slot.record), (9, 0, record));
        assert_eq!(library::coming(&record), (9, 0), "{what}");
        assert_eq!(library::forward(&record, &[]).number, 9, "{what}");
    }
}

#[test]
fn the_interface_has_number_5() {
    // SAFETY: the call takes nothing.
    assert_eq!(unsafe { raw::jb_version() }, 5);
}

#[test]
fn sixty_four_and_sixty_five_rows() {
    let rows = |count: u32| vec![row([0, 1, count, 0]); count as usize];
    let full = Table::of(1, 1, 0, &rows(64));
    let falling: Vec<u8> = (1..=64).rev().collect();
    assert_eq!(library::plan(&full), ordered(&falling));
    assert_eq!(library::read(&sheet_of(&full)), (0, full));
    let over = write_sheet(65, 1, 1, 0, &rows(65));
    assert_eq!(library::read(&over), (3, Table::ZERO));
    assert_eq!(library::program(&over), b"       3       0\n");
    let counted_over = Table { n: 65, ..full };
    assert_eq!(library::plan(&counted_over), refused(3));
}

#[test]
fn deadline_one_million_and_one_more() {
    let last = table(1, 1, &[[0, 1_000_000, 1_000_000, 1]]);
    let over = table(1, 1, &[[0, 1_000_000, 1_000_001, 1]]);
    assert_eq!(library::plan(&last), ordered(&[1]));
    assert_eq!(library::plan(&over), refused(5));
    assert_eq!(library::read(&sheet_of(&last)), (0, last));
    assert_eq!(library::read(&sheet_of(&over)), (5, Table::ZERO));
}

#[test]
fn clock_1_999_999() {
    let (_, fresh) = library::fresh(&p3(), &order_of(&[1, 2]));
    let none = vec![0; 1_999_999];
    let before = library::forward(&fresh, &none);
    assert_eq!((before.number, before.worked), (0, 1_999_999));
    assert_eq!(library::coming(&before.record), (0, 2));
    let last = library::one_slot(&before.record, 1);
    assert_eq!((last.number, last.row), (0, 2));
    assert_eq!(last.record.clock, 2_000_000);
    let over = library::one_slot(&last.record, 5);
    assert_eq!((over.number, over.row), (8, 0));
    assert_eq!(over.record, last.record);
    let forward = library::forward(&before.record, &[0, 0, 0]);
    assert_eq!((forward.number, forward.worked), (8, 1));
    assert_eq!(library::forward(&last.record, &[]).number, 0);
}
