//! The sheet: its fields, its reader (section 6 of the rules), and the writer
//! that gives a table's sheet back (section 15). Tests also write sheets that
//! are refused.

use crate::table::{check_table, count_is_within_limit, Row, Table, FIGURES, ROWS};

/// Bytes in a field (rule 6.1).
pub const FIELD: usize = 8;

/// Fields in the first line: n, N, G and K (rule 6.5).
pub const FIRST_FIELDS: usize = 4;

/// Fields in the line of a row: a, c, d, level, r and w (rule 6.6).
pub const ROW_FIELDS: usize = FIGURES;

/// Bytes in the first line: its fields and the line end (rule 6.5).
pub const FIRST_LINE: usize = 33;

/// Bytes in the line of a row: its fields and the line end (rule 6.6).
pub const ROW_LINE: usize = 49;

/// Bytes in the longest sheet, which has 64 rows (rules 6.7 and 15.8).
pub const LONGEST_SHEET: usize = FIRST_LINE + ROWS * ROW_LINE;

/// The last byte of every line (rule 6.4).
pub const LINE_END: u8 = 10;

/// What a digit counts for at each byte of a field, from the left (rule 6.3).
pub const WEIGHTS: [u32; FIELD] = [10_000_000, 1_000_000, 100_000, 10_000, 1_000, 100, 10, 1];

/// The number in a field, or none if it is malformed: spaces and then digits
/// only, at least one, and not 0 before other digits (rules 6.1 and 6.2).
pub fn read_field(bytes: &[u8; FIELD]) -> Option<u32> {
    let first = bytes.iter().position(|&byte| byte != b' ')?;
    let digits = &bytes[first..];
    if !digits.iter().all(|byte| byte.is_ascii_digit()) {
        return None;
    }
    if digits[0] == b'0' && digits.len() > 1 {
        return None;
    }
    let weighed = (first..FIELD).map(|place| u32::from(bytes[place] - b'0') * WEIGHTS[place]);
    Some(weighed.sum())
}

/// The numbers of one line of `COUNT` fields, or none if a field or the line
/// end is malformed. The line has exactly 8 × COUNT + 1 bytes.
fn read_line<const COUNT: usize>(line: &[u8]) -> Option<[u32; COUNT]> {
    let mut numbers = [0; COUNT];
    for (index, number) in numbers.iter_mut().enumerate() {
        let field: &[u8; FIELD] = line[index * FIELD..][..FIELD].try_into().unwrap();
        *number = read_field(field)?;
    }
    if line[COUNT * FIELD..] == [LINE_END] {
        Some(numbers)
    } else {
        None
    }
}

/// The sheet reader: the number and the table, a table of zeros with every
/// refusal (rule 6.8), by the checks in their order (rule 11.2).
pub fn read_sheet(bytes: &[u8]) -> (u32, Table) {
    match read_or_refuse(bytes) {
        Ok(table) => (0, table),
        Err(number) => (number, Table::ZERO),
    }
}

fn read_or_refuse(bytes: &[u8]) -> Result<Table, u32> {
    if bytes.len() < FIRST_LINE {
        return Err(1);
    }
    let (first_line, row_lines) = bytes.split_at(FIRST_LINE);
    let [n, normal, degraded, loading] = read_line(first_line).ok_or(2u32)?;
    if !count_is_within_limit(n) {
        return Err(3);
    }
    if row_lines.len() != ROW_LINE * n as usize {
        return Err(1);
    }
    let mut rows = Vec::new();
    for line in row_lines.chunks(ROW_LINE) {
        rows.push(Row::of(read_line(line).ok_or(2u32)?));
    }
    // The count has passed 3, so what is left of these checks is 4, 11, 5, 12, then 13 to
    // 15.
    let table = Table::of(normal, degraded, loading, &rows);
    match check_table(&table) {
        0 => Ok(table),
        refusal => Err(refusal),
    }
}

/// A number below 100,000,000 as a field (rules 6.1 and 6.2).
pub fn write_field(number: u32) -> [u8; FIELD] {
    assert!(number < 100_000_000, "{number} has more than eight digits");
    let mut field = [b' '; FIELD];
    let mut rest = number;
    for byte in field.iter_mut().rev() {
        *byte = b'0' + (rest % 10) as u8;
        rest /= 10;
        if rest == 0 {
            break;
        }
    }
    field
}

/// A number of 32 bits as eight bytes, and whether they hold all of it: its
/// field below 100,000,000, from there on its last eight digits (rule 15.9).
pub fn field_of(number: u32) -> (bool, [u8; FIELD]) {
    if number < 100_000_000 {
        return (true, write_field(number));
    }
    let digits = format!("{:08}", number % 100_000_000);
    let last = digits.as_bytes().try_into().expect("eight digits");
    (false, last)
}

/// One line: these numbers as fields, and the line end.
pub fn write_line(numbers: &[u32]) -> Vec<u8> {
    let mut line: Vec<u8> = numbers
        .iter()
        .flat_map(|&number| write_field(number))
        .collect();
    line.push(LINE_END);
    line
}

/// A sheet with this first line and these rows, accepted or not (rules 6.5 and
/// 6.6).
pub fn write_sheet(n: u32, normal: u32, degraded: u32, loading: u32, rows: &[Row]) -> Vec<u8> {
    let mut sheet = write_line(&[n, normal, degraded, loading]);
    for row in rows {
        sheet.extend(write_line(&row.figures()));
    }
    sheet
}

/// The sheet of a table with at most 64 rows (rule 15.1).
pub fn sheet_of(table: &Table) -> Vec<u8> {
    let (n, normal, degraded) = (table.n, table.normal, table.degraded);
    write_sheet(n, normal, degraded, table.loading, &table.rows())
}

/// The writer: the number, and the length in bytes of the sheet, which then
/// stands at the start of the lent bytes (rule 15.2). The table is checked
/// before the room (rules 15.4 and 11.6). Bytes after the sheet stay as they
/// were, and with a refusal all do (rules 15.3 and 15.5).
pub fn write_back(table: &Table, lent: &mut [u8]) -> (u32, u32) {
    match check_table(table) {
        0 => put_text(&sheet_of(table), lent),
        refusal => (refusal, 0),
    }
}

/// Puts a sheet, a report or a sentence at the start of lent bytes and leaves those after it
/// as they were; gives 0 and its length in bytes. With fewer lent bytes than it
/// has it gives 10 and 0, and leaves them all (rule 10.10).
pub fn put_text(text: &[u8], lent: &mut [u8]) -> (u32, u32) {
    if lent.len() < text.len() {
        return (10, 0);
    }
    lent[..text.len()].copy_from_slice(text);
    (0, text.len() as u32)
}
