//! The planning program from its input bytes to its output bytes (section 12 of
//! the rules).

use crate::plan::{plan, slack, Plan};
use crate::sheet::{read_sheet, write_line};
use crate::table::Table;

/// Bytes of input that the program keeps: a sheet of 64 rows and 1 byte (rule
/// 12.1).
pub const KEPT: usize = 3_170;

/// What the program writes for an input, of which it looks at the bytes kept
/// (rules 12.2 and 12.4).
pub fn planning_program(input: &[u8]) -> Vec<u8> {
    let kept = &input[..input.len().min(KEPT)];
    let (refusal, table) = read_sheet(kept);
    if refusal != 0 {
        return write_line(&[refusal, 0]);
    }
    let answer = plan(&table);
    match answer.number {
        0 => lines_after_success(&table, &answer),
        number => write_line(&[number, answer.rows_left()]),
    }
}

/// The lines after a success: 0 and n, then place, row and slack (in slots) of
/// each place (rules 12.4 and 12.5).
fn lines_after_success(table: &Table, answer: &Plan) -> Vec<u8> {
    let mut output = write_line(&[0, table.n]);
    for place in 1..=table.n {
        let row = answer.order[place as usize - 1];
        let slack = slack(table, &answer.order, row);
        let slack = u32::try_from(slack).expect("no row of a correct order is late");
        output.extend(write_line(&[place, u32::from(row), slack]));
    }
    output
}
