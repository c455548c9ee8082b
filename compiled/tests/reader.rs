//! The reader of the library against the model's: number and whole table, with
//! every loading time, with promises and waits and without, and sheets that lack the field
//! of K or those of r or w.

mod common;

use common::sheets::{
    damaged, for_each_length, for_each_of_several_changes, for_each_single_byte_change,
    sheets_at_limits, text,
};
use common::{large_table, small_table, Kinds, Loadings, Tally};
use compiled::library;
use model::before::{Before, TIMES};
use model::random::Random;
use model::sheet::{read_sheet, sheet_of};
use model::table::Table;

fn compare(sheet: &[u8], tally: &mut Tally<u32>) -> u32 {
    compare_table(sheet, tally).0
}

fn compare_table(sheet: &[u8], tally: &mut Tally<u32>) -> (u32, Table) {
    let answer = library::read(sheet);
    assert_eq!(answer, read_sheet(sheet), "{:?}", text(sheet));
    assert!(answer.0 == 0 || answer.1 == Table::ZERO);
    tally.saw(answer.0);
    answer
}

#[test]
fn every_length_of_several_bases() {
    let mut tally = Tally::new("reader, every length");
    for_each_length(|sheet| {
        compare(sheet, &mut tally);
    });
    tally.assert_common(&[1, 2, 3], 2_000);
    // A base is a whole sheet at one length alone.
    tally.assert_common(&[0], 4);
    tally.assert_common(&[4, 5, 11, 12, 13], 1);
}

#[test]
fn every_single_byte_change() {
    let mut tally = Tally::new("reader, every single-byte change");
    for_each_single_byte_change(|sheet| {
        compare(sheet, &mut tally);
    });
    tally.assert_common(&[0, 2, 5], 1_000);
    tally.assert_common(&[1, 3, 4, 11, 12, 13], 20);
    tally.assert_common(&[14, 15], 3);
}

/// Several changes at once, so that the order of the checks shows.
#[test]
fn several_changes_at_once() {
    let mut tally = Tally::new("reader, several changes");
    for_each_of_several_changes(|sheet| {
        compare(sheet, &mut tally);
    });
    tally.assert_common(&[0, 1, 2, 3, 4, 5, 11, 12, 13], 1_000);
    tally.assert_common(&[14, 15], 100);
}

#[test]
fn random_sheets_with_every_loading_time() {
    let mut random = Random::seeded(102);
    let mut tally = Tally::new("reader, random sheets");
    let mut loadings = Loadings::new("reader, random sheets, by K");
    let mut kinds = Kinds::new("reader, random sheets, by promises and waits");
    for round in 0..40_000 {
        let table = if round % 4 == 0 {
            large_table(&mut random)
        } else {
            small_table(&mut random)
        };
        let sheet = sheet_of(&table);
        assert_eq!(compare_table(&sheet, &mut tally), (0, table));
        loadings.saw(0, &table);
        kinds.saw(0, &table);
        compare(&damaged(&mut random, sheet), &mut tally);
    }
    tally.assert_common(&[0, 1, 2], 4_000);
    loadings.assert_every(800);
    kinds.assert_all(5_000);
}

/// A sheet without the field of K is refused with 2 and one without those of r or of w with
/// 1; with those of 0 put in they are read.
#[test]
fn sheets_without_fields_of_loading_promises_and_waits() {
    let mut random = Random::seeded(103);
    let mut tally = Tally::new("reader, sheets without the fields of K, r and w");
    for round in 0..20_000 {
        let table = if round % 4 == 0 {
            large_table(&mut random)
        } else {
            small_table(&mut random)
        };
        for before in TIMES {
            let old = before.old_sheet(&sheet_of(&table));
            let number = if before == Before::Loading { 2 } else { 1 };
            assert_eq!(compare(&old, &mut tally), number);
            let sheet = before.new_sheet(&old);
            let kept = before.old_table(&table);
            assert_eq!(compare_table(&sheet, &mut tally), (0, kept));
        }
    }
    tally.assert_common(&[2], 20_000);
    tally.assert_common(&[1], 40_000);
    tally.assert_common(&[0], 60_000);
}

#[test]
fn limits() {
    let mut tally = Tally::new("reader, limits");
    for (sheet, number) in &sheets_at_limits() {
        let answer = compare(sheet, &mut tally);
        assert_eq!(answer, *number, "{:?}", text(sheet));
    }
    tally.assert_common(&[0, 3, 4, 5, 11, 12, 13, 14, 15], 2);
}
