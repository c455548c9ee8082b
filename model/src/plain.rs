//! The same answers in plain Rust, by sweeps (`planners`): a worst finish is found
//! by one pass over the rows above by release, and not by working every slot. Tests
//! compare it with the model on small tables, use it in the model's place on large
//! ones, and the measurements take it as the measure of what Rust without proofs
//! costs.
//!
//! Clocks, needs and finishes are in slots; rows stand at index row - 1.

use crate::calls::LAST_CLOCK;
use crate::judge::Verdict;
use crate::order::Order;
use crate::plan::Plan;
use crate::planners::left::{sweep_speed, Left};
use crate::proposal::Asked;
use crate::record::Record;
use crate::report::{figure, LAST_LINE, PLACE_LINE};
use crate::sheet::{read_sheet, write_field, write_line, FIRST_LINE, LINE_END, ROW_LINE};
use crate::speeds::{Least, Sought};
use crate::table::{check_table, earliest_release, need, promised_need, Table, HI, ROWS};

/// The planner: of the two, the one that is faster on hard sheets.
pub use crate::planners::each_place::{plan, plan_and_trials};

/// The choices of a table and of each word of its rows.
pub use crate::planners::lowest::count_choices;

/// The least workable speed: every speed of the range is planned, from the least
/// on, until one has an order.
pub fn least_by_scan(table: &Table, sought: Sought) -> Least {
    let refusal = check_table(table);
    if refusal != 0 {
        return Least::refused(refusal);
    }
    let found = sought
        .range(table)
        .find_map(|speed| planned_at(table, sought, speed));
    found.unwrap_or(Least::refused(7))
}

/// The same by halves. It relies on it that correct orders stay correct at larger
/// speeds.
pub fn least_by_halves(table: &Table, sought: Sought) -> Least {
    least_and_plannings(table, sought).0
}

/// The search by halves, and how many plannings it made: always the middle one of
/// those speeds that can still be the least, the one after the range among them.
pub fn least_and_plannings(table: &Table, sought: Sought) -> (Least, u32) {
    let refusal = check_table(table);
    if refusal != 0 {
        return (Least::refused(refusal), 0);
    }
    let (mut low, most) = sought.range(table).into_inner();
    let (mut high, mut found, mut plannings) = (most + 1, Least::refused(7), 0);
    while low < high {
        let middle = low + (high - low) / 2;
        plannings += 1;
        match planned_at(table, sought, middle) {
            Some(slower) => (high, found) = (middle, slower),
            None => low = middle + 1,
        }
    }
    (found, plannings)
}

/// The answer with this speed and the planner's order for it, if there is one.
fn planned_at(table: &Table, sought: Sought, speed: u32) -> Option<Least> {
    let Plan { number, order, .. } = plan(&sought.put(table, speed));
    (number == 0).then_some(Least {
        number,
        speed,
        order,
    })
}

/// The checks of the table, then 6.
fn check(table: &Table, order: &Order) -> u32 {
    match check_table(table) {
        0 if is_order(table, order) => 0,
        0 => 6,
        refusal => refusal,
    }
}

/// One pass from the highest place down: no row is held before or out of range, and the
/// row that it follows is held already.
fn is_order(table: &Table, order: &Order) -> bool {
    let (places, after) = order.split_at(table.n as usize);
    let mut held = 0u64;
    for &row in places {
        if row == 0 || u32::from(row) > table.n || held >> (row - 1) & 1 == 1 {
            return false;
        }
        let followed = table.follows[row as usize - 1];
        if followed != 0 && held >> (followed - 1) & 1 == 0 {
            return false;
        }
        held |= 1 << (row - 1);
    }
    after.iter().all(|&row| row == 0)
}

/// The worst finish of every row, in slots.
pub fn finishes(table: &Table, order: &Order) -> (u32, [u32; ROWS]) {
    let (number, ends) = ends(table, order);
    (number, ends.finishes)
}

/// The slack of every row, in slots.
pub fn slacks(table: &Table, order: &Order) -> (u32, [i64; ROWS]) {
    let (number, ends) = ends(table, order);
    let mut slacks = [0; ROWS];
    if number == 0 {
        for (index, slack) in slacks.iter_mut().enumerate().take(table.n as usize) {
            *slack = ends.slack(table, index);
        }
    }
    (number, slacks)
}

/// The promised moment of every row, in slots, 0 for one that promises nothing.
pub fn promised_moments(table: &Table, order: &Order) -> (u32, [u32; ROWS]) {
    let (number, ends) = ends(table, order);
    (number, ends.moments)
}

/// When the rows of a table are through in their worst runs.
struct Ends {
    /// Worst finishes, in slots.
    finishes: [u32; ROWS],
    /// Promised moments, in slots, 0 for a row that promises nothing.
    moments: [u32; ROWS],
}

impl Ends {
    /// Of the row at this index, in slots.
    fn slack(&self, table: &Table, index: usize) -> i64 {
        let last = self.finishes[index].max(self.moments[index]);
        i64::from(table.deadline[index]) - i64::from(last)
    }
}

fn ends(table: &Table, order: &Order) -> (u32, Ends) {
    let mut ends = Ends {
        finishes: [0; ROWS],
        moments: [0; ROWS],
    };
    let refusal = check(table, order);
    if refusal != 0 {
        return (refusal, ends);
    }
    let places = &order[..table.n as usize];
    let mut turns = [0; ROWS];
    for (place, &row) in places.iter().enumerate() {
        turns[row as usize - 1] = place as u8;
    }
    // From the lowest place up, so that the rows left are those above and the row itself.
    let mut left = Left::of(table, &turns[..places.len()]);
    for (place, &row) in places.iter().enumerate().rev() {
        let index = row as usize - 1;
        let speed = sweep_speed(table.level[index]);
        ends.finishes[index] = left.finish(place, speed, u32::MAX);
        if table.promised[index] > 0 {
            let part = promised_need(table, row);
            ends.moments[index] = left.promised_moment(place, part, 0, u32::MAX);
        }
        left.take(place);
    }
    (0, ends)
}

/// The judge.
pub fn judge(table: &Table, order: &Order) -> Verdict {
    let (number, ends) = ends(table, order);
    let mut verdict = Verdict {
        number,
        yes: false,
        row: 0,
        slack: 0,
    };
    if number != 0 {
        return verdict;
    }
    for index in 0..table.n as usize {
        let slack = ends.slack(table, index);
        if verdict.row == 0 || slack < verdict.slack {
            verdict.row = index as u8 + 1;
            verdict.slack = slack;
        }
    }
    verdict.yes = verdict.slack >= 0;
    verdict
}

/// What closes a row: its work got, or a LO row's allowance used up. That is so
/// once its slots after loading would have brought all of its work at N and its
/// promised part at G.
fn is_over(table: &Table, index: usize, got: u32, used: u32) -> bool {
    let at_work = u64::from(used.saturating_sub(table.loading));
    let bring = |speed: u32, work: u32| at_work * u64::from(speed) >= u64::from(work);
    let used_up =
        || bring(table.normal, table.work[index]) && bring(table.degraded, table.promised[index]);
    got >= table.work[index] || table.level[index] != HI && used_up()
}

/// Check 9 does not refuse the record.
pub fn is_sound(record: &Record) -> bool {
    check(&record.table, &record.order) == 0
        && record.clock <= LAST_CLOCK
        && (0..ROWS).all(|index| entry_is_sound(record, index))
}

fn entry_is_sound(record: &Record, index: usize) -> bool {
    let (got, used, closing) = (record.got[index], record.used[index], record.closing[index]);
    if index >= record.table.n as usize {
        return got == 0 && used == 0 && closing == 0;
    }
    let low = record.table.level[index] != HI;
    let deadline = record.table.deadline[index];
    let is_over = is_over(&record.table, index, got, used);
    let closed_as_it_should_be = if closing == 0 {
        !(is_over || low && deadline <= record.clock)
    } else {
        is_over || low && deadline == closing
    };
    got <= record.table.work[index]
        && used <= record.clock
        && closing <= record.clock
        && closed_as_it_should_be
}

/// The row that the coming slot runs, 0 for an idle slot. The order keeps all waits, so
/// that the first row which is released and open never waits (rule 21.2).
fn chosen(record: &Record) -> u8 {
    let is_ready = |&&row: &&u8| {
        let index = row as usize - 1;
        record.closing[index] == 0 && record.table.release[index] <= record.clock
    };
    let places = &record.order[..record.table.n as usize];
    places.iter().find(is_ready).copied().unwrap_or(0)
}

/// A slot by the planning rule.
fn step(record: &mut Record, supply: u32) -> u8 {
    let row = chosen(record);
    record.clock += 1;
    if row != 0 {
        let index = row as usize - 1;
        if record.used[index] >= record.table.loading {
            let got = record.got[index].saturating_add(supply);
            record.got[index] = got.min(record.table.work[index]);
        }
        record.used[index] += 1;
        if is_over(&record.table, index, record.got[index], record.used[index]) {
            record.closing[index] = record.clock;
        }
    }
    row
}

/// Drops every open LO row whose deadline the clock has reached, and gives the
/// earliest deadline, in slots, of the LO rows that stay open. Until the clock
/// reaches that one there is nothing to drop.
fn drop_late(record: &mut Record) -> u32 {
    let mut next = u32::MAX;
    for index in 0..record.table.n as usize {
        if record.closing[index] == 0 && record.table.level[index] != HI {
            let deadline = record.table.deadline[index];
            if deadline <= record.clock {
                record.closing[index] = record.clock;
            } else {
                next = next.min(deadline);
            }
        }
    }
    next
}

/// The number and row of the coming slot.
pub fn coming(record: &Record) -> (u32, u8) {
    if !is_sound(record) {
        (9, 0)
    } else if record.clock == LAST_CLOCK {
        (8, 0)
    } else {
        (0, chosen(record))
    }
}

/// One slot on a record by reference: number and row run.
pub fn one_slot(record: &mut Record, supply: u32) -> (u32, u8) {
    if !is_sound(record) {
        (9, 0)
    } else if record.clock == LAST_CLOCK {
        (8, 0)
    } else {
        let row = step(record, supply);
        // A row that was not late before the slot is late after it at its deadline alone.
        if record.table.deadline.contains(&record.clock) {
            drop_late(record);
        }
        (0, row)
    }
}

/// Forward on a record by reference: number and slots worked. It looks for late
/// rows at the clocks at which there can be some, and not after every slot.
pub fn forward(record: &mut Record, supplies: &[u32]) -> (u32, u32) {
    if !is_sound(record) {
        return (9, 0);
    }
    // A sound record has no late row, so that nothing is dropped here.
    let mut next_deadline = drop_late(record);
    let mut worked = 0;
    for &supply in supplies {
        if record.clock == LAST_CLOCK {
            return (8, worked);
        }
        step(record, supply);
        if next_deadline <= record.clock {
            next_deadline = drop_late(record);
        }
        worked += 1;
    }
    (0, worked)
}

/// Asking: the model's reader and this planner.
pub fn ask(bytes: &[u8]) -> Asked {
    let (refusal, table) = read_sheet(bytes);
    if refusal != 0 {
        return Asked::refused(refusal, 0);
    }
    let made = plan(&table);
    match made.number {
        0 => Asked {
            number: 0,
            table,
            order: made.order,
            left: 0,
        },
        number => Asked::refused(number, made.left),
    }
}

/// A commit on a record by reference: its number.
pub fn commit(record: &mut Record, table: &Table, order: &Order) -> u32 {
    if !is_sound(record) {
        return 9;
    }
    let verdict = judge(table, order);
    if verdict.number != 0 {
        return verdict.number;
    }
    let rows = record.table.n as usize;
    if !verdict.yes {
        16
    } else if record.closing[..rows].contains(&0) {
        17
    } else if earliest_release(table) < record.clock {
        18
    } else {
        *record = Record::starting(table, order, record.clock);
        0
    }
}

/// The writer: number and length of the sheet in bytes. It allocates nothing.
pub fn write_back(table: &Table, lent: &mut [u8]) -> (u32, u32) {
    let refusal = check_table(table);
    if refusal != 0 {
        return (refusal, 0);
    }
    let length = FIRST_LINE + ROW_LINE * table.n as usize;
    let Some(sheet) = lent.get_mut(..length) else {
        return (10, 0);
    };
    let (first, rows) = sheet.split_at_mut(FIRST_LINE);
    let (n, normal, degraded) = (table.n, table.normal, table.degraded);
    put_line(first, &[n, normal, degraded, table.loading], write_field);
    for (index, line) in rows.chunks_exact_mut(ROW_LINE).enumerate() {
        put_line(line, &table.row(index as u8 + 1).figures(), write_field);
    }
    (0, length as u32)
}

/// These numbers, each as the bytes that `write` gives, and the line end in the
/// last byte.
fn put_line<Number: Copy, const WIDTH: usize>(
    line: &mut [u8],
    numbers: &[Number],
    write: impl Fn(Number) -> [u8; WIDTH],
) {
    for (bytes, &number) in line.chunks_exact_mut(WIDTH).zip(numbers) {
        bytes.copy_from_slice(&write(number));
    }
    line[WIDTH * numbers.len()] = LINE_END;
}

/// The report: number and length of its lines in bytes. It allocates nothing,
/// and takes both totals over the lines while it writes them.
pub fn report(table: &Table, order: &Order, lent: &mut [u8]) -> (u32, u32) {
    let (refusal, ends) = ends(table, order);
    if refusal != 0 {
        return (refusal, 0);
    }
    let of_places = PLACE_LINE * table.n as usize;
    let length = of_places + LAST_LINE;
    let Some(report) = lent.get_mut(..length) else {
        return (10, 0);
    };
    let (places, last) = report.split_at_mut(of_places);
    let (mut needs, mut late) = (0, 0);
    for (place, line) in places.chunks_exact_mut(PLACE_LINE).enumerate() {
        let row = order[place];
        let index = row as usize - 1;
        let need = i64::from(need(table, row, table.normal));
        let finish = i64::from(ends.finishes[index]);
        let slack = ends.slack(table, index);
        needs += need;
        late += i64::from(slack < 0);
        let numbers = [place as i64 + 1, i64::from(row), need, finish, slack];
        put_line(line, &numbers, figure);
    }
    put_line(last, &[needs, late], figure);
    (0, length as u32)
}

/// What the planning program writes: the model's reader and writer around this
/// planner.
pub fn program(input: &[u8]) -> Vec<u8> {
    let kept = &input[..input.len().min(crate::program::KEPT)];
    let (refusal, table) = read_sheet(kept);
    if refusal != 0 {
        return write_line(&[refusal, 0]);
    }
    let made = plan(&table);
    if made.number != 0 {
        return write_line(&[made.number, made.left.count_ones()]);
    }
    let mut text = write_line(&[0, table.n]);
    let (_, slacks) = slacks(&table, &made.order);
    for place in 1..=table.n {
        let row = made.order[place as usize - 1];
        let slack = slacks[row as usize - 1] as u32;
        text.extend(write_line(&[place, u32::from(row), slack]));
    }
    text
}
