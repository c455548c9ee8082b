//! Asking of the library against the model's, which is the reader and then the planner (rule
//! 22.2): number, whole table, whole order and the rows left. Every loading time from 0 to 16
//! slots comes up, and tables with promises and waits and without. What is asked for and then
//! committed: `commits`.

mod common;

use common::sheets::{
    for_each_length, for_each_of_several_changes, for_each_single_byte_change, sheets_at_limits,
    small_sheets, text,
};
use common::{large_table, small_table, Kinds, Loadings, Tally};
use compiled::library;
use compiled::sheets::{
    chain, easy_loading, grouped, hard_loading, largest, late_promises, longest_windows,
    one_period, staggered,
};
use model::before::{Before, TIMES};
use model::cases::commits::ask_cases;
use model::plain;
use model::proposal::{ask, Asked};
use model::random::Random;
use model::sheet::sheet_of;
use model::table::{Table, MOST_LOADING};

/// The numbers that asking answers (rule 11.9).
const NUMBERS: [u32; 12] = [0, 1, 2, 3, 4, 5, 7, 11, 12, 13, 14, 15];

/// What the library's reader and then its planner answer.
fn read_then_plan(sheet: &[u8]) -> Asked {
    let (number, table) = library::read(sheet);
    if number != 0 {
        return Asked::refused(number, 0);
    }
    let planned = library::plan(&table);
    if planned.number != 0 {
        return Asked::refused(planned.number, planned.left);
    }
    Asked {
        number: 0,
        table,
        order: planned.order,
        left: 0,
    }
}

/// The library's answer is this one; gives its number.
fn compare(sheet: &[u8], expected: &Asked, tally: &mut Tally<u32>) -> u32 {
    let answer = library::ask(sheet);
    assert_eq!(answer, *expected, "{:?}", text(sheet));
    tally.saw(answer.number);
    answer.number
}

/// The same for the plain answer, with the library's reader and planner beside it.
fn compare_with_plain(sheet: &[u8], tally: &mut Tally<u32>) -> u32 {
    let expected = plain::ask(sheet);
    assert_eq!(read_then_plan(sheet), expected, "{:?}", text(sheet));
    compare(sheet, &expected, tally)
}

/// The same for the model's answer, which the plain one is like.
fn compare_with_model(sheet: &[u8], tally: &mut Tally<u32>) -> u32 {
    assert_eq!(plain::ask(sheet), ask(sheet), "{:?}", text(sheet));
    compare_with_plain(sheet, tally)
}

#[test]
fn sheets_worked_out_by_hand() {
    let mut tally = Tally::new("asking, by hand");
    for case in ask_cases() {
        assert_eq!(library::ask(&case.sheet), case.asked, "{}", case.what);
        compare_with_model(&case.sheet, &mut tally);
    }
    tally.assert_only(&NUMBERS);
}

/// Whole sheets, damaged ones, ones that the checks on tables refuse, and long ones.
#[test]
fn small_sheets_against_the_model() {
    let mut random = Random::seeded(901);
    let mut tally = Tally::new("asking, small sheets");
    for _ in 0..4_000 {
        for sheet in small_sheets(&mut random) {
            compare_with_model(&sheet, &mut tally);
        }
    }
    tally.assert_common(&NUMBERS, 300);
}

/// Whole sheets of small tables; without the field of K they are answered 2, and without
/// those of r or of w 1.
#[test]
fn every_loading_time() {
    let mut random = Random::seeded(902);
    let mut tally = Tally::new("asking, whole sheets");
    let mut left = Tally::new("asking, rows left");
    let mut by_answer = [(); 2].map(|()| Loadings::new("asking, whole sheets with 0 or 7, by K"));
    let mut kinds = [(); 2].map(|()| Kinds::new("asking, whole sheets with 0 or 7, by kind"));
    for _ in 0..8_000 {
        let table = small_table(&mut random);
        let sheet = sheet_of(&table);
        let number = compare_with_model(&sheet, &mut tally);
        by_answer[usize::from(number == 7)].saw(number, &table);
        kinds[usize::from(number == 7)].saw(number, &table);
        left.saw(library::ask(&sheet).left.count_ones());
        for before in TIMES {
            let number = if before == Before::Loading { 2 } else { 1 };
            let old = before.old_sheet(&sheet);
            assert_eq!(compare_with_plain(&old, &mut tally), number);
        }
    }
    tally.assert_common(&[0, 7], 1_500);
    left.assert_common(&[0, 1, 2, 3, 4], 100);
    by_answer.iter().for_each(|seen| seen.assert_every(40));
    kinds.iter().for_each(|seen| seen.assert_all(150));
}

/// Large sheets, by sweeps.
#[test]
fn large_sheets() {
    let mut random = Random::seeded(903);
    let mut tally = Tally::new("asking, sheets of up to 64 rows");
    let mut loadings = Loadings::new("asking, sheets of up to 64 rows, by K");
    let mut kinds = Kinds::new("asking, sheets of up to 64 rows, by promises and waits");
    let mut last_row = Tally::new("asking, 64 rows with 7, and row 64 is left");
    for _ in 0..20_000 {
        let table = large_table(&mut random);
        let sheet = sheet_of(&table);
        let number = compare_with_plain(&sheet, &mut tally);
        loadings.saw(number, &table);
        kinds.saw(number, &table);
        if number == 7 && table.n == 64 {
            last_row.saw(library::ask(&sheet).left >> 63 == 1);
        }
    }
    tally.assert_common(&[0, 7], 5_000);
    loadings.assert_every(400);
    kinds.assert_all(4_000);
    last_row.assert_common(&[false, true], 20);
}

/// Sixty-four rows that take few trials or many, and ones of which all are left.
#[test]
fn sheets_of_64_rows() {
    let mut tally = Tally::new("asking, sheets of 64 rows");
    for loading in [0, 1, MOST_LOADING] {
        let tables = [
            easy_loading(64, loading),
            hard_loading(64, loading),
            one_period(64, loading),
            staggered(64, loading),
            late_promises(64, loading),
            chain(64, loading),
            grouped(64, loading),
            longest_windows().with_loading(loading),
        ];
        for table in tables {
            compare_with_plain(&sheet_of(&table), &mut tally);
        }
        for release in [0, 1, 999_999] {
            let none = sheet_of(&largest(release).with_loading(loading));
            let all_left = Asked::refused(7, u64::MAX);
            compare(&none, &all_left, &mut tally);
        }
    }
    tally.assert_common(&[0, 7], 9);
}

#[test]
fn every_length() {
    let mut tally = Tally::new("asking, every length");
    for_each_length(|sheet| {
        compare_with_plain(sheet, &mut tally);
    });
    tally.assert_common(&[1, 2, 3], 2_000);
    // A base is a whole sheet at one length alone.
    tally.assert_common(&[0], 3);
    tally.assert_common(&[4, 5, 7, 11, 12, 13], 1);
}

#[test]
fn sheets_at_their_limits() {
    let mut tally = Tally::new("asking, limits");
    for (sheet, number) in &sheets_at_limits() {
        let answer = compare_with_plain(sheet, &mut tally);
        let planned = *number == 0 && answer == 7;
        assert!(answer == *number || planned, "{:?}", text(sheet));
    }
    tally.assert_common(&[0, 3, 4, 5, 7, 11, 12, 13, 14, 15], 2);
}

/// Few of the changes that the reader is tried with.
#[test]
fn damaged_sheets() {
    let mut tally = Tally::new("asking, damaged sheets");
    let mut index = 0;
    let mut one_in = |out_of: u32, sheet: &[u8]| {
        index += 1;
        if index % out_of == 0 {
            compare_with_plain(sheet, &mut tally);
        }
    };
    for_each_single_byte_change(|sheet| one_in(19, sheet));
    for_each_of_several_changes(|sheet| one_in(7, sheet));
    tally.assert_common(&[0, 1, 2, 3, 4, 5, 7, 11, 12, 13], 500);
    tally.assert_common(&[14, 15], 40);
}

/// What is refused hands over nothing that can be committed: the table has no rows.
#[test]
fn refusals_hand_over_zeros() {
    for case in ask_cases().iter().filter(|case| case.asked.number != 0) {
        let asked = library::ask(&case.sheet);
        assert_eq!((asked.table, asked.order), (Table::ZERO, [0; 64]));
        assert_eq!(asked.left != 0, asked.number == 7, "{}", case.what);
    }
}
