//! Sheets, most of them damaged: what the tests of the reader, the program and
//! the writer have in common.

use super::{refused_sheet, small_table};
use compiled::sheets::{chain, hard, hard_loading, late_promises};
use model::cases::waits::{checked_waits, preempted};
use model::cases::{above_a_hi_row, checked_promises, p1, p3, row, table};
use model::program::KEPT;
use model::random::Random;
use model::sheet::{sheet_of, write_field, write_line, write_sheet, FIRST_LINE, ROW_LINE};
use model::table::{Row, Table, MOST_LOADING};

/// Bytes of the longest input tried at every length.
pub const LONGEST: usize = 3_260;

/// A sheet as far as it is text.
pub fn text(sheet: &[u8]) -> String {
    String::from_utf8_lossy(sheet).into_owned()
}

/// The sheet with the bytes of `tail` after it, again and again.
fn extended(mut sheet: Vec<u8>, tail: &[u8]) -> Vec<u8> {
    while sheet.len() < LONGEST {
        sheet.extend_from_slice(tail);
    }
    sheet.truncate(LONGEST);
    sheet
}

/// A sheet whose last field has a letter in it.
fn malformed_at_the_end(mut sheet: Vec<u8>) -> Vec<u8> {
    let end = sheet.len();
    sheet[end - 3] = b'x';
    sheet
}

/// Calls `with` on the first bytes of several inputs, none to 3,260 of them.
pub fn for_each_length(mut with: impl FnMut(&[u8])) {
    let a_row = write_line(&[0, 20, 10, 1, 0, 0]);
    let outside_limits = write_line(&[4, 1, 4, 0, 0, 0]);
    let promising_too_much = write_line(&[0, 20, 10, 0, 21, 0]);
    let following_itself = write_line(&[0, 20, 10, 0, 20, 9]);
    let bases = [
        extended(sheet_of(&hard_loading(64, 16)), &a_row),
        extended(sheet_of(&p1()), &a_row),
        extended(sheet_of(&p3().with_loading(3)), b" "),
        extended(sheet_of(&Table::of(1, 1, 0, &[row([0, 1, 1, 0])])), b"\n"),
        extended(write_line(&[65, 5, 2, 0]), &a_row),
        extended(write_line(&[20, 2, 3, 17]), &a_row),
        extended(write_line(&[9, 1_000, 1_000, 17]), &outside_limits),
        extended(write_line(&[9, 1_000, 1_000, 16]), &outside_limits),
        extended(write_line(&[9, 1_000, 1_000, 16]), &promising_too_much),
        extended(write_line(&[9, 1_000, 1_000, 16]), &following_itself),
        extended(sheet_of(&chain(64, 16)), &a_row),
        extended(sheet_of(&late_promises(64, 16)), b" "),
        extended(write_line(&[4, 5, 2]), &a_row),
        extended(malformed_at_the_end(sheet_of(&hard(32))), &a_row),
        extended(Vec::new(), b"        "),
        extended(Vec::new(), b"       1"),
        extended(Vec::new(), &[0, 255, 10]),
    ];
    for base in &bases {
        for length in 0..=LONGEST {
            with(&base[..length]);
        }
    }
}

/// Calls `with` on several sheets with each byte changed to each value.
pub fn for_each_single_byte_change(mut with: impl FnMut(&[u8])) {
    let largest_row = table(1_000, 999, &[[999_999, 1_000_000, 1_000_000, 1]]);
    let largest_promise = [[999_999, 1_000_000, 1_000_000, 0, 1_000_000]];
    let sheets = [
        sheet_of(&table(1_000, 999, &largest_promise)),
        sheet_of(&preempted()),
        sheet_of(&chain(12, 1)),
        sheet_of(&p1()),
        sheet_of(&p3().with_loading(9)),
        sheet_of(&largest_row.with_loading(16)),
        write_sheet(1, 1, 1, 0, &[row([0, 1, 1, 0])]),
        sheet_of(&late_promises(12, 1)),
        sheet_of(&hard(64)),
    ];
    for sheet in &sheets {
        for place in 0..sheet.len() {
            let mut changed = sheet.clone();
            for value in 0..=255 {
                changed[place] = value;
                with(&changed);
            }
        }
    }
}

/// Calls `with` on 200,000 sheets with several fields and bytes changed at once.
pub fn for_each_of_several_changes(mut with: impl FnMut(&[u8])) {
    let mut random = Random::seeded(101);
    let bases = [
        sheet_of(&p1()),
        sheet_of(&above_a_hi_row(2)),
        sheet_of(&preempted()),
        sheet_of(&hard(64)),
    ];
    let fields = [
        0, 1, 2, 3, 4, 9, 16, 17, 64, 65, 1_000, 1_001, 1_000_000, 1_000_001,
    ];
    for round in 0..200_000 {
        let mut sheet = bases[if round % 16 == 0 { 3 } else { round % 3 }].clone();
        for _ in 0..random.between(1, 3) {
            let field = match random.between(0, 4) as usize {
                0 => 8 * random.between(0, 3) as usize,
                row => FIRST_LINE + ROW_LINE * (row - 1) + 8 * random.between(0, 5) as usize,
            };
            if field + 8 <= sheet.len() {
                let number = random.one_of(&fields);
                sheet[field..field + 8].copy_from_slice(&write_field(number));
            }
            if random.once_in(6) {
                let place = random.between(0, sheet.len() as u32 - 1) as usize;
                sheet[place] = random.one_of(b"\n 0159x");
            }
        }
        if random.once_in(10) {
            sheet.pop();
        }
        with(&sheet);
    }
}

/// Sheets at and past each limit, with the reader's number.
pub fn sheets_at_limits() -> Vec<(Vec<u8>, u32)> {
    let row_of_one = row([0, 1, 1, 0]);
    let one = |figures| write_sheet(1, 5, 2, 0, &[row(figures)]);
    let speeds = |normal, degraded| write_sheet(1, normal, degraded, 0, &[row_of_one]);
    let loading = |loading| write_sheet(1, 5, 2, loading, &[row_of_one]);
    let rows = |count: usize| write_sheet(count as u32, 1, 1, 0, &vec![row_of_one; count]);
    let wrong = row([4, 1, 4, 0]);
    let mut sheets = vec![
        (rows(1), 0),
        (rows(64), 0),
        (rows(65), 3),
        (rows(0), 3),
        (speeds(1_000, 1_000), 0),
        (speeds(1_001, 1_000), 4),
        (speeds(1_000, 1_001), 4),
        (speeds(0, 0), 4),
        (speeds(5, 0), 4),
        (one([0, 1, 1_000_000, 1]), 0),
        (one([0, 1, 1_000_001, 1]), 5),
        (one([999_999, 1, 1_000_000, 0]), 0),
        (one([1_000_000, 1, 1_000_000, 0]), 5),
        (one([0, 1_000_000, 1, 0]), 0),
        (one([0, 1_000_001, 1, 0]), 5),
        (one([0, 0, 1, 0]), 5),
        (one([0, 1, 1, 2]), 5),
        (one([4, 1, 4, 0]), 5),
        (one([99_999_999, 99_999_999, 99_999_999, 99_999_999]), 5),
        (loading(17), 11),
        (loading(18), 11),
        (loading(99_999_999), 11),
        (write_sheet(1, 5, 6, 17, &[wrong]), 4),
        (write_sheet(1, 5, 5, 17, &[wrong]), 11),
        (write_sheet(1, 5, 5, 16, &[wrong]), 5),
        (Vec::new(), 1),
        (write_line(&[1, 1, 1]), 1),
        (vec![b' '; 32], 1),
        (vec![b' '; 33], 2),
    ];
    sheets.extend((0..=MOST_LOADING).map(|slots| (loading(slots), 0)));
    let checked = checked_promises().into_iter().chain(checked_waits());
    let in_sheets = checked.filter(|(_, table, _)| is_all_in_its_sheet(table));
    sheets.extend(in_sheets.map(|(_, table, number)| (sheet_of(&table), number)));
    sheets
}

/// The sheet of a table with these figures has all of them: none stands after the last row
/// or has more than eight digits.
pub fn is_all_in_its_sheet(table: &Table) -> bool {
    let rows = table.rows();
    let fits = |row: &Row| row.figures().iter().all(|&figure| figure < 100_000_000);
    let (normal, degraded, loading) = (table.normal, table.degraded, table.loading);
    rows.iter().all(fits) && Table::of(normal, degraded, loading, &rows) == *table
}

/// The sheet with a byte changed, or with a byte more or some fewer.
pub fn damaged(random: &mut Random, mut sheet: Vec<u8>) -> Vec<u8> {
    let place = random.between(0, sheet.len() as u32 - 1) as usize;
    match random.between(0, 3) {
        0 => sheet.truncate(place),
        1 => sheet.push(random.word() as u8),
        2 => sheet[place] = random.one_of(b"\n 0129x"),
        _ => sheet[place] = random.word() as u8,
    }
    sheet
}

/// The sheet followed by bytes up to more than the program keeps.
pub fn long(random: &mut Random, mut sheet: Vec<u8>) -> Vec<u8> {
    let length = KEPT + random.between(0, 4_000) as usize;
    let byte = random.one_of(b"\n 1");
    sheet.resize(length.max(sheet.len()), byte);
    sheet
}

/// The sheet of a small table as it is, damaged, outside its limits, and with
/// more bytes after it than the program keeps.
pub fn small_sheets(random: &mut Random) -> [Vec<u8>; 4] {
    let table = small_table(random);
    let sheet = sheet_of(&table);
    [
        damaged(random, sheet.clone()),
        refused_sheet(random, &table),
        long(random, sheet.clone()),
        sheet,
    ]
}
