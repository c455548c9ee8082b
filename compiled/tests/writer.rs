//! The writer of the library against the model's, number, length and every lent
//! byte, and against the reader: each sheet that it accepts comes back byte for
//! byte (section 15 of the rules). Every loading time from 0 to 16 slots comes up, and
//! tables with promises and waits and without.

mod common;

use common::records::any_record;
use common::sheets::{
    damaged, for_each_length, for_each_of_several_changes, for_each_single_byte_change,
    sheets_at_limits, small_sheets, text, LONGEST,
};
use common::{
    for_each_length_of_figures, for_each_small_table, for_each_word_changed, large_table, rubbish,
    small_table, spoil_by_several, Kinds, Loadings, Tally, SMALL_TABLES, TABLE_CHECKS,
};
use compiled::sheets::{chain, easy, hard, hard_loading, largest, late_promises, longest_windows};
use compiled::{library, raw};
use model::cases::{p1, p2, p3, p4, table};
use model::plain;
use model::random::Random;
use model::sheet::{field_of, read_sheet, sheet_of, write_back, LONGEST_SHEET};
use model::table::{Table, MOST_LOADING};
use std::collections::HashMap;
use std::fs;

/// Bytes in the sheet of a table of n rows (rule 15.8).
fn length_of(n: u32) -> usize {
    33 + 49 * n as usize
}

/// The library's, the plain and the model's writer over the same bytes; gives
/// the number. An accepted table is read again from its sheet (rule 15.6).
fn compare_over(table: &Table, before: &[u8], tally: &mut Tally<u32>) -> u32 {
    let (mut ours, mut of_plain, mut paper) = (before.to_vec(), before.to_vec(), before.to_vec());
    let (number, length) = library::write(table, &mut ours);
    let answer = write_back(table, &mut paper);
    let room = before.len();
    assert_eq!((number, length), answer, "{table:?}, {room} bytes");
    assert_eq!(text(&ours), text(&paper), "{table:?}, {room} bytes");
    assert_eq!(plain::write_back(table, &mut of_plain), answer);
    assert!(ours == paper && of_plain == paper);
    if number == 0 {
        assert_eq!(length as usize, length_of(table.n));
        assert_eq!(library::read(&ours[..length as usize]), (0, *table));
    } else {
        assert!(length == 0 && ours == before);
    }
    tally.saw(number);
    number
}

/// The three writers into this many bytes of rubbish.
fn compare(table: &Table, room: usize, tally: &mut Tally<u32>) -> u32 {
    compare_over(table, &rubbish(room), tally)
}

/// None, a byte too few, just enough, one more and many more.
fn compare_around_the_length(table: &Table, tally: &mut Tally<u32>) {
    let length = length_of(table.n);
    for (room, number) in [
        (0, 10),
        (length - 1, 10),
        (length, 0),
        (length + 1, 0),
        (length + 5_000, 0),
    ] {
        assert_eq!(compare(table, room, tally), number, "{room} bytes");
    }
}

/// A sheet that the library reads is what it writes of the table read.
fn comes_back(sheet: &[u8], tally: &mut Tally<u32>) {
    let (number, table) = library::read(sheet);
    if number == 0 {
        let mut lent = rubbish(sheet.len());
        let answer = library::write(&table, &mut lent);
        assert_eq!(answer, (0, sheet.len() as u32), "{:?}", text(sheet));
        assert_eq!(text(&lent), text(sheet));
        assert_eq!(lent, sheet);
    }
    tally.saw(number);
}

#[test]
fn sheets_with_any_byte_changed_come_back() {
    let mut tally = Tally::new("writer, every single-byte change, by the reader's number");
    for_each_single_byte_change(|sheet| comes_back(sheet, &mut tally));
    tally.assert_common(&[0], 5_000);
}

/// No two of them are read as the same table (rules 9.4 and 15.7).
#[test]
fn sheets_with_several_changes_come_back() {
    let mut tally = Tally::new("writer, several changes, by the reader's number");
    let mut sheets: HashMap<raw::TableWords, Vec<u8>> = HashMap::new();
    for_each_of_several_changes(|sheet| {
        comes_back(sheet, &mut tally);
        let (number, table) = library::read(sheet);
        if number == 0 {
            let words = raw::table_words(&table);
            let other = sheets.entry(words).or_insert_with(|| sheet.to_vec());
            assert_eq!(other, sheet);
        }
    });
    println!("{} different accepted sheets", sheets.len());
    assert!(sheets.len() > 1_000);
    tally.assert_common(&[0], 20_000);
}

#[test]
fn sheets_of_every_length_and_at_limits_come_back() {
    let mut tally = Tally::new("writer, lengths and limits, by the reader's number");
    for_each_length(|sheet| comes_back(sheet, &mut tally));
    for (sheet, _) in &sheets_at_limits() {
        comes_back(sheet, &mut tally);
    }
    tally.assert_common(&[0], 10);
}

#[test]
fn random_sheets_and_samples_come_back() {
    let mut random = Random::seeded(701);
    let mut tally = Tally::new("writer, random sheets, by the reader's number");
    for _ in 0..20_000 {
        for sheet in small_sheets(&mut random) {
            comes_back(&sheet, &mut tally);
        }
        let large = sheet_of(&large_table(&mut random));
        comes_back(&large, &mut tally);
        comes_back(&damaged(&mut random, large), &mut tally);
    }
    tally.assert_common(&[0], 40_000);
    let samples = concat!(env!("CARGO_MANIFEST_DIR"), "/../samples");
    let mut read = 0;
    for entry in fs::read_dir(samples).expect("the samples") {
        let path = entry.expect("a sample").path();
        if path.extension().is_some_and(|kind| kind == "sheet") {
            let sheet = fs::read(&path).expect("a sheet");
            assert_eq!(library::read(&sheet).0, 0, "{}", path.display());
            comes_back(&sheet, &mut tally);
            read += 1;
        }
    }
    assert!(read >= 4, "{read} samples");
}

#[test]
fn all_small_tables() {
    let mut tally = Tally::new("writer, all tables of the grid");
    let mut loadings = Loadings::new("writer, all tables of the grid, by K");
    for_each_small_table(|table| {
        let room = length_of(table.n);
        let number = compare(table, room, &mut tally);
        loadings.saw(number, table);
    });
    tally.assert_common(&[0], SMALL_TABLES);
    loadings.assert_every(14_000);
}

#[test]
fn random_tables_and_rooms_around_their_length() {
    let mut random = Random::seeded(702);
    let mut tally = Tally::new("writer, random tables, room around the length");
    let mut loadings = Loadings::new("writer, random tables, by K");
    let mut kinds = Kinds::new("writer, random tables, by promises and waits");
    for _ in 0..8_000 {
        for table in [small_table(&mut random), large_table(&mut random)] {
            compare_around_the_length(&table, &mut tally);
            loadings.saw(0, &table);
            kinds.saw(0, &table);
        }
    }
    loadings.assert_every(400);
    kinds.assert_all(2_000);
    for n in (4..=64).step_by(4) {
        compare_around_the_length(&easy(n), &mut tally);
        compare_around_the_length(&hard(n), &mut tally);
        compare_around_the_length(&late_promises(n, n / 4), &mut tally);
        compare_around_the_length(&chain(n, n / 4), &mut tally);
    }
    for table in [p1(), p2(), p3(), p4(), longest_windows()] {
        compare_around_the_length(&table, &mut tally);
    }
    for release in [0, 1, 999_999] {
        compare_around_the_length(&largest(release), &mut tally);
    }
    tally.assert_common(&[0], 45_000);
    tally.assert_common(&[10], 30_000);
}

/// From no byte to more than the longest sheet has, one by one.
#[test]
fn every_room() {
    let mut tally = Tally::new("writer, every room");
    let one = table(1_000, 999, &[[999_999, 1_000_000, 1_000_000, 1]]);
    let least = table(1, 1, &[[0, 1, 1, 0]]);
    let tables = [
        least,
        one.with_loading(16),
        p1(),
        p3().with_loading(1),
        easy(63),
        hard_loading(12, 10),
        hard(64),
        largest(999_999).with_loading(16),
    ];
    for table in &tables {
        for room in 0..=LONGEST {
            let fits = room >= length_of(table.n);
            let number = compare(table, room, &mut tally);
            assert_eq!(number, if fits { 0 } else { 10 }, "{room} bytes");
        }
    }
    tally.assert_common(&[0, 10], 6_000);
    assert_eq!(length_of(64), LONGEST_SHEET);
}

/// In each field, every length of figure that it may hold, and 0.
#[test]
fn figures_of_every_length() {
    let mut tally = Tally::new("writer, figures of every length");
    for_each_length_of_figures(|figures| {
        let one = table(10, 9, &[figures]);
        compare(&one, length_of(1), &mut tally);
    });
    for normal in 1..=1_000 {
        for degraded in [1, 9, 10, 99, 100, 999, 1_000] {
            let paced = table(normal, degraded, &[[0, 1, 1, 0]]);
            compare(&paced, length_of(1), &mut tally);
        }
    }
    for loading in (0..200).chain([999, 9_999, 99_999_999, 100_000_000, u32::MAX]) {
        let loads = table(10, 9, &[[0, 1, 1, 0]]).with_loading(loading);
        let number = compare(&loads, length_of(1), &mut tally);
        let fine = loading <= MOST_LOADING;
        assert_eq!(number, if fine { 0 } else { 11 }, "K {loading}");
    }
    tally.assert_common(&[0, 4, 5, 12], 1_000);
}

/// What stood in the lent bytes before makes no difference: spaces, digits, line
/// ends, or the sheet of a table with other rows.
#[test]
fn over_an_older_sheet() {
    let mut random = Random::seeded(703);
    let mut tally = Tally::new("writer, over an older sheet");
    for _ in 0..20_000 {
        let (table, older) = (small_table(&mut random), small_table(&mut random));
        compare_over(&table, &sheet_of(&older), &mut tally);
        let byte = random.one_of(b" 0159\n\0\xff");
        let room = random.between(0, 300) as usize;
        compare_over(&table, &vec![byte; room], &mut tally);
    }
    tally.assert_common(&[0, 10], 10_000);
}

/// A table author's change of one figure changes the bytes of its field alone.
#[test]
fn one_figure_edited() {
    let sheet = sheet_of(&p1());
    let edited = |edit: fn(&mut Table)| {
        let (mut table, mut lent) = (p1(), sheet.clone());
        edit(&mut table);
        assert_eq!(library::write(&table, &mut lent), (0, 229));
        assert_eq!(read_sheet(&lent), (0, table));
        let differ = (0..229).filter(|&at| lent[at] != sheet[at]);
        differ.collect::<Vec<usize>>()
    };
    let work = edited(|table| table.work[2] = 1_000_000);
    assert_eq!(work, Vec::from_iter(140..147), "the work of row 3 alone");
    let loading = edited(|table| table.loading = 16);
    assert_eq!(loading, [30, 31], "the loading time alone");
    let promised = edited(|table| table.promised[1] = 15);
    assert_eq!(promised, [120, 121], "the promised part of row 2 alone");
    let follows = edited(|table| table.follows[2] = 1);
    assert_eq!(follows, [178], "the row that row 3 follows alone");
}

/// One refusal and several at once, with too little room and with enough: the
/// first in the order 3, 4, 11, 5, 12, 13 to 15, 10 is given (rule 11.6).
#[test]
fn damaged_tables() {
    let mut random = Random::seeded(704);
    let mut tally = Tally::new("writer, damaged tables");
    let mut by_room = Tally::new("writer, damaged tables, by answer and short room");
    for round in 0..120_000 {
        let mut table = if round % 8 == 0 {
            large_table(&mut random)
        } else {
            small_table(&mut random)
        };
        let length = length_of(table.n);
        if !random.once_in(4) {
            spoil_by_several(&mut random, &mut table);
        }
        let room = random.one_of(&[0, 32, length - 1, length, length + 1, LONGEST]);
        let number = compare(&table, room, &mut tally);
        by_room.saw((number, room < length));
    }
    tally.assert_common(&[0, 3, 4, 10], 10_000);
    tally.assert_common(&[5, 11, 12, 13, 14, 15], 2_000);
    for number in TABLE_CHECKS {
        by_room.assert_common(&[(number, true), (number, false)], 1_000);
    }
}

/// Each word of a table changed, those after the last row too.
#[test]
fn every_word_changed() {
    let mut tally = Tally::new("writer, every word changed");
    for table in [p1(), hard(64)] {
        for_each_word_changed(&table, |changed| {
            for room in [0, length_of(table.n) - 1, length_of(table.n), LONGEST] {
                compare(changed, room, &mut tally);
            }
        });
    }
    tally.assert_common(&[0, 5, 10], 1_000);
    tally.assert_common(&[3, 4, 11, 12, 13], 40);
}

/// Tables of any words at all, most of them with a row count beyond the limit.
#[test]
fn tables_of_any_words() {
    let mut random = Random::seeded(705);
    let mut tally = Tally::new("writer, tables of any words");
    for _ in 0..5_000 {
        let mut table = any_record(&mut random).table;
        for n in [table.n, 0, 1, 64, 65, u32::MAX] {
            table.n = n;
            let room = random.one_of(&[0, 33, 82, LONGEST_SHEET]);
            compare(&table, room, &mut tally);
            let paced = Table {
                normal: 3,
                degraded: 2,
                ..table
            };
            compare(&paced, room, &mut tally);
        }
    }
    tally.assert_common(&[3, 4, 11], 5_000);
}

#[test]
fn checks_come_in_their_order() {
    let mut tally = Tally::new("writer, checks one after another");
    let mut wrong = table(0, 1, &[[4, 1, 4, 0, 2, 1]]).with_loading(17);
    for room in [0, 81, 82, LONGEST] {
        let mut number = |table: &Table| compare(table, room, &mut tally);
        for n in [0, 65, u32::MAX] {
            wrong.n = n;
            assert_eq!(number(&wrong), 3);
        }
        let counted = Table { n: 1, ..wrong };
        assert_eq!(number(&counted), 4);
        let paced = Table {
            normal: 1,
            ..counted
        };
        assert_eq!(number(&paced), 11);
        let mut loads = paced.with_loading(16);
        assert_eq!(number(&loads), 5);
        loads.deadline[0] = 5;
        loads.level[63] = 1;
        assert_eq!(number(&loads), 5);
        loads.level[63] = 0;
        assert_eq!(number(&loads), 12);
        loads.promised[0] = 1;
        assert_eq!(number(&loads), 13);
        loads.follows[0] = 0;
        assert_eq!(number(&loads), if room < 82 { 10 } else { 0 });
    }
}

/// Every number of up to five digits, the limits of a field, and numbers that
/// have more than eight digits (rule 15.9).
#[test]
fn numbers_as_fields() {
    let mut random = Random::seeded(711);
    let mut tally = Tally::new("numbers as fields, by whether they hold the number");
    let limits = [99_999_998, 99_999_999, 100_000_000, 100_000_001, u32::MAX];
    let any = (0..200_000).map(|_| random.word() as u32 >> random.between(0, 31));
    for number in (0..100_000).chain(limits).chain(any) {
        let answer = library::field(number);
        assert_eq!(answer, field_of(number), "{number}");
        tally.saw(answer.0);
    }
    tally.assert_common(&[true, false], 10_000);
}
