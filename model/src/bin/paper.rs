//! The C example on paper: plans a sheet and runs it slot by slot by the model
//! alone, and prints the same text as the example for the same arguments.
//!
//!     paper [SHEET [SUPPLY ...]]
//!
//! SHEET is a file, or - for standard input, which is also taken when it is
//! left out. Each SUPPLY is what one slot supplies, in work units, from slot 0
//! on; the last one is repeated. Without any, every slot supplies N.

use model::calls::one_slot_on_paper;
use model::order::Order;
use model::plan::{plan, rows_in_word};
use model::program::KEPT;
use model::report::{report, LONGEST_REPORT};
use model::run::{chosen, has_promised, kept_deadline, State};
use model::sheet::{read_sheet, write_back, LONGEST_SHEET};
use model::table::Table;
use std::fs::File;
use std::io::{self, BufWriter, Read, Write};
use std::process::ExitCode;

const REFUSED: u8 = 1;
const NOT_USABLE: u8 = 2;

/// The header's words for a number.
fn words_for(number: u32) -> &'static str {
    match number {
        0 => "success",
        1 => "the sheet has under 33 bytes, or not 33 + 49 for each row",
        2 => {
            "a field or a line end of the sheet is malformed, or the bytes are no answer's sentence"
        }
        3 => "the row count is not 1 to 64",
        4 => "N is not 1 to 1,000, or G is not 1 to N (work units per slot)",
        5 => concat!(
            "a row has work not 1 to 1,000,000 work units, a deadline over 1,000,000 slots, ",
            "a release not below its deadline or a level not 0 or 1, ",
            "or a row after the last is not zero"
        ),
        7 => "no correct order exists",
        8 => "the clock is 2,000,000 slots, and no further slot is worked",
        11 => "K is above 16 slots",
        12 => "a promised part is above its row's work, or above 0 work units on a HI row",
        13 => "a row follows what is not a row above it in the table",
        14 => "a row follows one that is released later than itself",
        15 => "a row is HI and the row that it follows LO",
        _ => unreachable!("no other number comes up in a run on paper"),
    }
}

/// The rows as the text lists them, a space before each.
fn listed(rows: impl Iterator<Item = u8>) -> String {
    rows.map(|row| format!(" {row}")).collect()
}

fn is_done(table: &Table, state: &State, row: u8) -> bool {
    state.got[row as usize - 1] == table.row(row).work
}

fn closing_word(table: &Table, state: &State, row: u8) -> &'static str {
    if is_done(table, state, row) {
        "done"
    } else {
        "dropped"
    }
}

fn deadline_word(table: &Table, state: &State, row: u8) -> &'static str {
    if kept_deadline(table, state, row) {
        "kept"
    } else if is_done(table, state, row) {
        "late"
    } else {
        "not kept"
    }
}

/// What a slot has brought its row, and its closing if the slot closed it.
fn after_slot(table: &Table, state: &State, row: u8) -> String {
    if row == 0 {
        return String::new();
    }
    let index = row as usize - 1;
    let got = format!(
        ", got {} of {} work units",
        state.got[index], table.work[index]
    );
    match state.closing[index] {
        0 => got,
        closing => format!(
            "{got}, {} at clock {closing}",
            closing_word(table, state, row)
        ),
    }
}

/// The rows that the last slot closed while another row ran in it: LO rows at
/// their deadlines (rule 19.2).
fn dropped_beside(table: &Table, state: &State, ran: u8) -> Vec<u8> {
    let closed_now = |row: &u8| state.closing[*row as usize - 1] == state.clock;
    (1..=table.n as u8)
        .filter(|row| *row != ran && closed_now(row))
        .collect()
}

fn summary_line(table: &Table, state: &State, row: u8) -> String {
    format!(
        "row {row}: {} at clock {}, deadline {} slots, {}{}",
        closing_word(table, state, row),
        state.closing[row as usize - 1],
        table.row(row).deadline,
        deadline_word(table, state, row),
        promise_words(table, state, row)
    )
}

/// Whether the row has got the part that it promises; nothing if it promises none.
fn promise_words(table: &Table, state: &State, row: u8) -> String {
    let got = if has_promised(table, state, row) {
        "got"
    } else {
        "not got"
    };
    match table.row(row).promised {
        0 => String::new(),
        promised => format!(", promised {promised} work units {got}"),
    }
}

/// The supply of a slot in work units: from the list, its last one repeated, or
/// N without a list.
fn supply_of(supplies: &[u32], normal: u32, slot: u32) -> u32 {
    match supplies.last() {
        None => normal,
        Some(&last) => supplies.get(slot as usize).copied().unwrap_or(last),
    }
}

fn refuse(out: &mut impl Write, number: u32) -> io::Result<u8> {
    writeln!(out, "number {number}: {}", words_for(number))?;
    Ok(REFUSED)
}

/// Whether a table's sheet is the one that was read, byte for byte (rule 15.7).
fn sheet_line(read: &[u8], written: &[u8]) -> String {
    let same = if written == read { "" } else { "not " };
    format!(
        "sheet: {} bytes, {same}the same as were read",
        written.len()
    )
}

/// Prints every job under an order as the report has it, headings before it;
/// gives the report's number.
fn print_report(out: &mut impl Write, table: &Table, order: &Order) -> io::Result<u32> {
    let mut lent = [0; LONGEST_REPORT];
    let (number, length) = report(table, order, &mut lent);
    if number == 0 {
        writeln!(
            out,
            "report: need, worst finish and slack in slots; \
             last line: sum of needs in slots, rows with slack below 0"
        )?;
        writeln!(out, "     place       row need at N    finish     slack")?;
        out.write_all(&lent[..length as usize])?;
    }
    Ok(number)
}

/// Reads a sheet, writes it back, plans, reports and runs it; gives the exit
/// status.
fn plan_and_run(out: &mut impl Write, sheet: &[u8], supplies: &[u32]) -> io::Result<u8> {
    let (number, table) = read_sheet(sheet);
    if number != 0 {
        return refuse(out, number);
    }
    let mut lent = [0; LONGEST_SHEET];
    let (number, length) = write_back(&table, &mut lent);
    if number != 0 {
        return refuse(out, number);
    }
    writeln!(out, "{}", sheet_line(sheet, &lent[..length as usize]))?;
    let answer = plan(&table);
    if answer.number == 7 {
        let left = listed(rows_in_word(answer.left).into_iter());
        writeln!(out, "number 7: {}, rows left:{left}", words_for(7))?;
        return Ok(REFUSED);
    }
    let places = answer.order.into_iter().take(table.n as usize);
    writeln!(out, "number 0: {}", words_for(0))?;
    writeln!(out, "order:{}", listed(places))?;
    let number = print_report(out, &table, &answer.order)?;
    if number != 0 {
        return refuse(out, number);
    }
    let mut state = State::FRESH;
    while state.closing[..table.n as usize].contains(&0) {
        let slot = state.clock;
        let row = chosen(&table, &answer.order, &state);
        let supply = supply_of(supplies, table.normal, slot);
        let (number, _) = one_slot_on_paper(&table, &answer.order, &mut state, supply);
        if number != 0 {
            return refuse(out, number);
        }
        let started = if row == 0 {
            "idle".to_string()
        } else {
            format!("row {row}")
        };
        let brought = after_slot(&table, &state, row);
        writeln!(
            out,
            "slot {slot}: {started}, supply {supply} work units{brought}"
        )?;
        for dropped in dropped_beside(&table, &state, row) {
            let clock = state.clock;
            writeln!(out, "clock {clock}: row {dropped} dropped at its deadline")?;
        }
    }
    for row in 1..=table.n as u8 {
        writeln!(out, "{}", summary_line(&table, &state, row))?;
    }
    Ok(0)
}

/// At most the bytes that the planning program keeps, which is enough to refuse
/// a longer input (rule 12.1).
fn read_file(name: &str) -> io::Result<Vec<u8>> {
    let mut sheet = Vec::new();
    let kept = KEPT as u64;
    if name == "-" {
        io::stdin().lock().take(kept).read_to_end(&mut sheet)?;
    } else {
        File::open(name)?.take(kept).read_to_end(&mut sheet)?;
    }
    Ok(sheet)
}

/// A supply in work units from decimal digits, 0 to 4,294,967,295.
fn read_supply(text: &str) -> Option<u32> {
    if text.bytes().all(|byte| byte.is_ascii_digit()) {
        text.parse().ok()
    } else {
        None
    }
}

fn not_usable(what: &str, name: &str) -> ExitCode {
    eprintln!("{what}: {name}\nusage: paper [SHEET [SUPPLY ...]]");
    ExitCode::from(NOT_USABLE)
}

fn main() -> ExitCode {
    let arguments: Vec<String> = std::env::args().skip(1).collect();
    let name = arguments.first().map_or("-", String::as_str);
    let mut supplies = Vec::new();
    for text in arguments.iter().skip(1) {
        match read_supply(text) {
            Some(supply) => supplies.push(supply),
            None => return not_usable("not a supply from 0 to 4294967295", text),
        }
    }
    let Ok(sheet) = read_file(name) else {
        return not_usable("cannot be read", name);
    };
    let mut out = BufWriter::new(io::stdout().lock());
    let status = plan_and_run(&mut out, &sheet, &supplies);
    match status.and_then(|status| out.flush().map(|()| status)) {
        Ok(status) => ExitCode::from(status),
        Err(_) => not_usable("cannot be written", "standard output"),
    }
}
