//! The least workable speeds (section 18 of the rules): how slow it may be,
//! for one of the two speeds while the other stays. Every speed of the range is
//! planned, from the least on, until one has an order.

use crate::order::{Order, NO_ORDER};
use crate::plan::plan;
use crate::sheet::read_sheet;
use crate::table::{check_table, Table, MOST_SPEED};
use std::ops::RangeInclusive;

/// The speed that is sought.
#[derive(Clone, Copy, Debug, PartialEq, Eq, PartialOrd, Ord)]
pub enum Sought {
    /// The least G, from 1 to the table's N.
    Degraded,
    /// The least N, from the table's G to 1,000.
    Normal,
}

/// Both of them.
pub const BOTH: [Sought; 2] = [Sought::Degraded, Sought::Normal];

impl Sought {
    /// The speeds that come into question for an accepted table, in work units per
    /// slot.
    pub fn range(self, table: &Table) -> RangeInclusive<u32> {
        match self {
            Sought::Degraded => 1..=table.normal,
            Sought::Normal => table.degraded..=MOST_SPEED,
        }
    }

    /// The table with this speed, in work units per slot, in the place of its own.
    pub fn put(self, table: &Table, speed: u32) -> Table {
        let mut changed = *table;
        match self {
            Sought::Degraded => changed.degraded = speed,
            Sought::Normal => changed.normal = speed,
        }
        changed
    }
}

/// The answer: 0 with the least speed and the planner's order for it, or the
/// number of a refusal, 7 among them, with speed 0 and an order of zeros.
#[derive(Clone, Copy, Debug, PartialEq, Eq)]
pub struct Least {
    pub number: u32,
    /// In work units per slot.
    pub speed: u32,
    pub order: Order,
}

impl Least {
    /// The answer with this number and zeros.
    pub fn refused(number: u32) -> Least {
        Least {
            number,
            speed: 0,
            order: NO_ORDER,
        }
    }
}

/// The least workable speed of a table with any values. The checks on tables come
/// first, and the table's own figure for the speed sought has to pass them; then
/// it does not matter. 7 if no speed of the range has a correct order.
pub fn least(table: &Table, sought: Sought) -> Least {
    let refusal = check_table(table);
    if refusal != 0 {
        return Least::refused(refusal);
    }
    for speed in sought.range(table) {
        let made = plan(&sought.put(table, speed));
        if made.number == 0 {
            return Least {
                number: 0,
                speed,
                order: made.order,
            };
        }
    }
    Least::refused(7)
}

/// The least workable speed of a sheet, any bytes: the reader's refusal, or what
/// the table that was read is answered.
pub fn read_least(sheet: &[u8], sought: Sought) -> Least {
    of_sheet(sheet, |table| least(table, sought))
}

/// What `of_table` answers to the table of a sheet, or the reader's refusal.
pub fn of_sheet(sheet: &[u8], of_table: impl Fn(&Table) -> Least) -> Least {
    match read_sheet(sheet) {
        (0, table) => of_table(&table),
        (refusal, _) => Least::refused(refusal),
    }
}
