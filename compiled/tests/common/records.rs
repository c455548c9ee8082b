//! Run records: sound ones, whether or not a run reaches them, and ones that
//! break one clause of check 9 alone.

use super::{large_table, no_order_of, small_table, spoil_table, supplies};
use model::calls::LAST_CLOCK;
use model::random::{random_order, Random};
use model::record::{Record, Unsound};
use model::run::is_late_preview;
use model::table::{allowance, Table, HI, LATEST_DEADLINE, LO, ROWS};

/// Every clause of check 9.
pub const CLAUSES: [Unsound; 17] = [
    Unsound::TableOrOrder(3),
    Unsound::TableOrOrder(4),
    Unsound::TableOrOrder(11),
    Unsound::TableOrOrder(5),
    Unsound::TableOrOrder(12),
    Unsound::TableOrOrder(13),
    Unsound::TableOrOrder(14),
    Unsound::TableOrOrder(15),
    Unsound::TableOrOrder(6),
    Unsound::Clock,
    Unsound::GotOverWork,
    Unsound::UsedOverClock,
    Unsound::ClosingOverClock,
    Unsound::OpenThoughFinished,
    Unsound::OpenThoughLate,
    Unsound::ClosedWithoutReason,
    Unsound::EntryAfterLastRow,
];

/// A fresh record of a small table, or once in four times of a large one.
pub fn fresh_record(random: &mut Random) -> Record {
    let table = if random.once_in(4) {
        large_table(random)
    } else {
        small_table(random)
    };
    let order = random_order(random, &table);
    Record::fresh(&table, &order).1
}

/// A record that a run of some slots reaches.
pub fn reached_record(random: &mut Random) -> Record {
    let record = fresh_record(random);
    let slots = random.between(0, 60 + 6 * record.table.loading);
    record.forward(&supplies(random, slots)).record
}

/// A sound record at a clock of any size, or about one of its deadlines, most of them
/// such that no run reaches them.
pub fn sound_record(random: &mut Random) -> Record {
    let fresh = fresh_record(random);
    let clock = match random.between(0, 7) {
        0 => random.between(0, 3),
        1 => random.between(LAST_CLOCK - 10, LAST_CLOCK - 1),
        2 => LAST_CLOCK,
        3 => random.between(0, LAST_CLOCK),
        4..=5 => about_a_deadline(random, &fresh.table),
        _ => random.between(0, 40),
    };
    with_sound_figures(random, fresh, clock)
}

/// A sound record at this clock, in slots.
pub fn sound_record_at(random: &mut Random, clock: u32) -> Record {
    let fresh = fresh_record(random);
    with_sound_figures(random, fresh, clock)
}

/// A clock about the deadline of some row, most often one slot before it.
fn about_a_deadline(random: &mut Random, table: &Table) -> u32 {
    let deadline = random.one_of(&table.deadline[..table.n as usize]);
    random.one_of(&[deadline - 1, deadline - 1, deadline, deadline + 1])
}

/// This fresh record at this clock, in slots, with any figures that are sound.
pub fn with_sound_figures(random: &mut Random, fresh: Record, clock: u32) -> Record {
    let mut record = Record { clock, ..fresh };
    for row in 1..=record.table.n as u8 {
        match random.between(0, 3) {
            0 if clock > 0 => set_done(random, &mut record, row),
            1 if can_be_dropped(&record, row) => set_dropped(random, &mut record, row),
            _ if is_late(&record, row) => set_dropped_at_deadline(random, &mut record, row),
            _ => set_open(random, &mut record, row),
        }
    }
    assert!(record.is_sound(), "{record:?}");
    record
}

/// The row is LO, and the clock has reached its deadline.
fn is_late(record: &Record, row: u8) -> bool {
    is_late_preview(&record.table, row, record.clock)
}

fn can_be_dropped(record: &Record, row: u8) -> bool {
    record.table.row(row).level == LO && allowance(&record.table, row) <= record.clock
}

/// Slots used that leave a row open: a LO row has used less than its allowance.
fn used_while_open(random: &mut Random, record: &Record, row: u8) -> u32 {
    let most = if record.table.row(row).level == HI {
        record.clock
    } else {
        record.clock.min(allowance(&record.table, row) - 1)
    };
    random.between(0, most)
}

fn set_open(random: &mut Random, record: &mut Record, row: u8) {
    let index = row as usize - 1;
    record.got[index] = random.between(0, record.table.work[index] - 1);
    record.used[index] = used_while_open(random, record, row);
}

fn set_done(random: &mut Random, record: &mut Record, row: u8) {
    let index = row as usize - 1;
    record.got[index] = record.table.work[index];
    record.used[index] = random.between(0, record.clock);
    record.closing[index] = random.between(1, record.clock);
}

fn set_dropped(random: &mut Random, record: &mut Record, row: u8) {
    let index = row as usize - 1;
    record.got[index] = random.between(0, record.table.work[index]);
    record.used[index] = random.between(allowance(&record.table, row), record.clock);
    record.closing[index] = random.between(1, record.clock);
}

/// With work missing and allowance left.
fn set_dropped_at_deadline(random: &mut Random, record: &mut Record, row: u8) {
    set_open(random, record, row);
    let index = row as usize - 1;
    record.closing[index] = record.table.deadline[index];
}

/// More slots were used than passed, so no run reaches the record.
pub fn is_out_of_reach(record: &Record) -> bool {
    let used: u64 = record.used.iter().map(|&slots| u64::from(slots)).sum();
    used > u64::from(record.clock)
}

/// A record that breaks this clause of check 9 and no other.
pub fn unsound_record(random: &mut Random, clause: Unsound) -> Record {
    loop {
        let mut record = sound_record(random);
        break_clause(random, &mut record, clause);
        if record.reasons() == [clause] {
            return record;
        }
    }
}

/// Tries to break the clause in some row; it may take several records until
/// one can be broken in this clause alone.
fn break_clause(random: &mut Random, record: &mut Record, clause: Unsound) {
    let n = record.table.n;
    let row = random.between(1, n) as u8;
    let index = row as usize - 1;
    let over = |figure: u32, random: &mut Random| random.one_of(&[figure + 1, u32::MAX]);
    match clause {
        Unsound::TableOrOrder(6) => record.order = no_order_of(random, &record.table),
        Unsound::TableOrOrder(number) => spoil_table(random, &mut record.table, number),
        Unsound::Clock => record.clock = over(LAST_CLOCK, random),
        Unsound::GotOverWork => record.got[index] = over(record.table.work[index], random),
        Unsound::UsedOverClock => record.used[index] = over(record.clock, random),
        Unsound::ClosingOverClock => record.closing[index] = over(record.clock, random),
        Unsound::OpenThoughFinished => open_though_finished(random, record, row),
        Unsound::OpenThoughLate => open_though_late(random, record, row),
        Unsound::ClosedWithoutReason => {
            set_open(random, record, row);
            let deadline = record.table.deadline[index];
            let closings = [random.between(0, record.clock), deadline - 1, deadline + 1];
            record.closing[index] = random.one_of(&closings);
        }
        Unsound::EntryAfterLastRow => {
            let after = random.between(n.min(63), 63) as usize;
            let columns = [&mut record.got, &mut record.used, &mut record.closing];
            let [got, used, closing] = columns;
            let column = match random.between(0, 2) {
                0 => got,
                1 => used,
                _ => closing,
            };
            column[after] = random.one_of(&[1, u32::MAX]);
        }
    }
}

fn open_though_finished(random: &mut Random, record: &mut Record, row: u8) {
    let index = row as usize - 1;
    record.closing[index] = 0;
    if random.once_in(2) {
        record.got[index] = record.table.work[index];
    } else {
        record.used[index] = allowance(&record.table, row);
    }
}

/// A deadline that the clock has reached, and the row open, if it was released before.
fn open_though_late(random: &mut Random, record: &mut Record, row: u8) {
    let index = row as usize - 1;
    let earliest = record.table.release[index] + 1;
    if earliest <= record.clock {
        let latest = record.clock.min(LATEST_DEADLINE);
        let deadlines = [earliest, latest, random.between(earliest, latest)];
        record.table.deadline[index] = random.one_of(&deadlines);
        set_open(random, record, row);
        record.closing[index] = 0;
    }
}

/// A record of any words at all.
pub fn any_record(random: &mut Random) -> Record {
    let mut record = Record::ZERO;
    let mut word = || random.word() as u32;
    record.table.n = word();
    record.table.normal = word();
    record.table.degraded = word();
    record.table.loading = word();
    record.table.release = std::array::from_fn(|_| word());
    record.table.work = std::array::from_fn(|_| word());
    record.table.deadline = std::array::from_fn(|_| word());
    record.table.level = std::array::from_fn(|_| word());
    record.table.promised = std::array::from_fn(|_| word());
    record.table.follows = std::array::from_fn(|_| word());
    record.order = [0; ROWS].map(|_: u8| word() as u8);
    record.clock = word();
    record.got = std::array::from_fn(|_| word());
    record.used = std::array::from_fn(|_| word());
    record.closing = std::array::from_fn(|_| word());
    record
}
