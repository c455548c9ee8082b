//! Where a refused sheet is at fault, for the explanations that the command
//! gives: not a rule of its own, but which bytes the rules of `sheet` and
//! `table` speak of.

use crate::sheet::{
    read_field, read_sheet, FIELD, FIRST_FIELDS, FIRST_LINE, LINE_END, ROW_FIELDS, ROW_LINE,
};
use crate::table::{
    check_wait, promise_is_within_limit, row_is_within_limits, speeds_are_within_limits, Row, Table,
};

/// A place in a sheet. Row 0 is the first line; fields count from 1, and a line
/// end counts as the field after the last; bytes count from 1.
#[derive(Clone, Copy, Debug, PartialEq, Eq)]
pub struct Place {
    pub row: u32,
    pub field: u32,
    pub byte: u32,
}

/// The place that a sheet is refused for with 2, 3, 4, 5 or 11 to 15; none for 0 and
/// for 1, which speaks of the whole sheet.
pub fn place_of_fault(sheet: &[u8]) -> Option<Place> {
    match read_sheet(sheet).0 {
        2 => malformed(sheet),
        3 => Some(whole_field(0, 1)),
        4 => {
            let normal = figure(&sheet[FIELD..2 * FIELD]);
            let degraded_at_fault = speeds_are_within_limits(normal, 1);
            Some(whole_field(0, if degraded_at_fault { 3 } else { 2 }))
        }
        5 => outside_limits(sheet),
        11 => Some(whole_field(0, 4)),
        12 => {
            let index = first_row(sheet, |row| !promise_is_within_limit(row))?;
            Some(whole_field(index as u32 + 1, 5))
        }
        13..=15 => {
            let table = Table::of(0, 0, 0, &rows_of(sheet));
            let row = (1..=table.n as u8).find(|&row| check_wait(&table, row) != 0)?;
            Some(whole_field(u32::from(row), 6))
        }
        _ => None,
    }
}

/// The first byte of a field.
fn whole_field(row: u32, field: u32) -> Place {
    let line = match row {
        0 => 0,
        _ => FIRST_LINE as u32 + (row - 1) * ROW_LINE as u32,
    };
    let byte = line + FIELD as u32 * (field - 1) + 1;
    Place { row, field, byte }
}

/// The first byte that no well-formed field or line end could have there.
fn malformed(sheet: &[u8]) -> Option<Place> {
    let mut at = 0;
    let mut row = 0;
    while at < sheet.len() {
        let fields = if row == 0 { FIRST_FIELDS } else { ROW_FIELDS };
        for field in 1..=fields {
            let bytes: &[u8; FIELD] = sheet[at..at + FIELD].try_into().expect("a field");
            if read_field(bytes).is_none() {
                let (field, byte) = (field as u32, (at + goes_wrong(bytes)) as u32 + 1);
                return Some(Place { row, field, byte });
            }
            at += FIELD;
        }
        if sheet[at] != LINE_END {
            let byte = at as u32 + 1;
            return Some(Place {
                row,
                field: fields as u32 + 1,
                byte,
            });
        }
        at += 1;
        row += 1;
    }
    None
}

/// Where a malformed field goes wrong: at the first byte that is neither space
/// nor digit, at a space after a digit or in the last place, or at a zero that
/// other digits could only follow.
fn goes_wrong(bytes: &[u8; FIELD]) -> usize {
    let mut digit_before = false;
    for (index, &byte) in bytes.iter().enumerate() {
        let last = index == FIELD - 1;
        let wrong = match byte {
            b' ' => digit_before || last,
            b'0' => !digit_before && !last,
            b'1'..=b'9' => false,
            _ => true,
        };
        if wrong {
            return index;
        }
        digit_before |= byte != b' ';
    }
    unreachable!("the field is malformed")
}

/// The first row outside its limits, and the figure in it that is outside them
/// whatever the others are; the release if there is none, since its limit is
/// the deadline of its row.
fn outside_limits(sheet: &[u8]) -> Option<Place> {
    let index = first_row(sheet, |row| !row_is_within_limits(row))?;
    let Row {
        work,
        deadline,
        level,
        ..
    } = rows_of(sheet)[index];
    let good = Row::of([0, 1, 1, 0, 0, 0]);
    let alone = [
        (2, Row { work, ..good }),
        (3, Row { deadline, ..good }),
        (4, Row { level, ..good }),
    ];
    let at_fault = alone.iter().find(|(_, row)| !row_is_within_limits(row));
    let field = at_fault.map_or(1, |(field, _)| *field);
    Some(whole_field(index as u32 + 1, field))
}

/// Where the first row stands of which this is so, from 0 on.
fn first_row(sheet: &[u8], is_so: impl Fn(&Row) -> bool) -> Option<usize> {
    rows_of(sheet).iter().position(is_so)
}

fn figure(bytes: &[u8]) -> u32 {
    let bytes: &[u8; FIELD] = bytes.try_into().expect("a field");
    read_field(bytes).expect("a well-formed field")
}

/// The rows of a sheet whose lines are well formed.
fn rows_of(sheet: &[u8]) -> Vec<Row> {
    let field = |line: &[u8], index: usize| figure(&line[index * FIELD..][..FIELD]);
    let lines = sheet[FIRST_LINE..].chunks(ROW_LINE);
    lines
        .map(|line| Row::of(std::array::from_fn(|index| field(line, index))))
        .collect()
}
