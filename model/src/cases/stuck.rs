//! Tables with their stuck sets, the rows left, ways of choosing and slacks in a set (section 26
//! of the rules). Works are in work units, clocks and slacks in slots. All values were computed
//! by the model and then checked by hand, but for those of P1, of which no more than its order is
//! known otherwise (rule 13.1).

use super::choices::wherever;
use super::waits::urgent;
use super::{p1, p3, table};
use crate::table::Table;

/// A table, and what the rules of section 26 say of it.
#[derive(Clone, Debug, PartialEq, Eq)]
pub struct StuckCase {
    pub what: &'static str,
    pub table: Table,
    /// The word of the rows left, 0 if there is an order (rule 26.4).
    pub left: u64,
    /// The words of all stuck sets, in rising sequence, 0 first (rule 26.2).
    pub stuck: Vec<u64>,
    /// The slack of each row left in the set of rows left, in slots, by rising row number (rule
    /// 26.9).
    pub slacks: Vec<i64>,
    /// How many ways of choosing there are (rule 26.3).
    pub ways: usize,
    /// The word of the rows that some way takes at the lowest place.
    pub first: u64,
    /// The rows that the planner's choice takes, the lowest place first.
    pub placed: Vec<u8>,
    /// The word of the rows left of which each, cut alone, leaves a table with an order (rule
    /// 26.10).
    pub enough: u64,
}

/// Such a case in one line: the rows left, with their slacks and those that are enough; all
/// stuck sets; and the ways, with the rows that come first and the planner's.
fn case(
    what: &'static str,
    table: Table,
    (left, slacks, enough): (u64, &[i64], u64),
    stuck: &[u64],
    (ways, first, placed): (usize, u64, &[u8]),
) -> StuckCase {
    StuckCase {
        what,
        table,
        left,
        stuck: stuck.to_vec(),
        slacks: slacks.to_vec(),
        ways,
        first,
        placed: placed.to_vec(),
        enough,
    }
}

/// LO rows of one slot each, released at 0, with these deadlines in slots.
fn due(deadlines: &[u32]) -> Table {
    let rows: Vec<[u32; 4]> = deadlines.iter().map(|&d| [0, 1, d, 0]).collect();
    table(1, 1, &rows)
}

/// Row 1 is late by itself. Row 2 has time for both.
fn late_alone() -> Table {
    table(1, 1, &[[0, 2, 1, 0], [0, 1, 3, 0]])
}

/// Rows 1 and 2 want the same slot, and rows 3 and 4 a later one. Row 5 has time for all.
fn two_apart() -> Table {
    let rows = [
        [0, 1, 1, 0],
        [0, 1, 1, 0],
        [2, 1, 3, 0],
        [2, 1, 3, 0],
        [0, 1, 5, 0],
    ];
    table(1, 1, &rows)
}

/// Row 2 is late by itself and follows row 1, which is in time below it. Row 3 has time for all.
fn late_follower() -> Table {
    let rows = [[0, 1, 3, 0, 0, 0], [0, 2, 1, 0, 0, 1], [0, 1, 4, 0, 0, 0]];
    table(1, 1, &rows)
}

/// Rows 1 and 2 want the same slot, and row 3 follows row 1.
fn followed_and_left() -> Table {
    let rows = [[0, 1, 1, 0, 0, 0], [0, 1, 1, 0, 0, 0], [0, 1, 3, 0, 0, 1]];
    table(1, 1, &rows)
}

/// Row 1 is HI, and row 2 is LO, follows it and promises a part, which comes a slot too late. An
/// order would be there if nothing were promised, no row waited, no row loaded, row 1 were LO or
/// G were N.
fn late_part() -> Table {
    let rows = [[0, 2, 5, 1, 0, 0], [0, 2, 4, 0, 1, 1], [1, 2, 6, 0, 0, 0]];
    table(2, 1, &rows).with_loading(1)
}

/// Row 1 is HI and late by itself. Row 2 is LO and promises a part, which comes too late below
/// row 1. Row 3 has time for all.
fn late_above() -> Table {
    let rows = [[0, 2, 2, 1, 0], [0, 1, 4, 0, 1], [0, 1, 6, 0, 0]];
    table(2, 1, &rows).with_loading(1)
}

/// Row 2 follows row 1 and is late below it. Row 3 is LO and its promised part, all of its work,
/// comes too late below both. Rows 4 and 5 have time for all, and row 5 follows row 2.
fn five() -> Table {
    let rows = [
        [0, 2, 9, 1, 0, 0],
        [0, 2, 4, 1, 0, 1],
        [1, 2, 8, 0, 2, 0],
        [2, 1, 10, 0, 0, 0],
        [2, 1, 12, 0, 0, 2],
    ];
    table(2, 1, &rows).with_loading(1)
}

/// All cases. Those with an order come last.
pub fn stuck() -> Vec<StuckCase> {
    let mut cases = one_slot_each();
    cases.extend(waiting());
    cases.extend(both_levels());
    cases.extend(with_an_order());
    cases
}

/// Rows without waits, promised parts or loading; N and G are 1.
fn one_slot_each() -> Vec<StuckCase> {
    vec![
        case(
            "two rows want one slot",
            due(&[1, 1, 3]),
            (0b011, &[-1, -1], 0b011),
            &[0, 0b011],
            (1, 0b100, &[3]),
        ),
        case(
            "a row is late by itself",
            late_alone(),
            (0b01, &[-1], 0b01),
            &[0, 0b01],
            (1, 0b10, &[2]),
        ),
        case(
            "either of two rows may be taken first",
            due(&[1, 1, 4, 4]),
            (0b0011, &[-1, -1], 0b0011),
            &[0, 0b0011],
            (2, 0b1100, &[3, 4]),
        ),
        case(
            "a stuck set inside the rows left",
            due(&[1, 1, 2, 4]),
            (0b0111, &[-2, -2, -1], 0b0011),
            &[0, 0b0011, 0b0111],
            (1, 0b1000, &[4]),
        ),
        case(
            "three rows want one slot",
            due(&[1, 1, 1, 4]),
            (0b0111, &[-2, -2, -2], 0),
            &[0, 0b0011, 0b0101, 0b0110, 0b0111],
            (1, 0b1000, &[4]),
        ),
        case(
            "two stuck sets apart",
            two_apart(),
            (0b01111, &[-1, -1, -1, -1], 0),
            &[0, 0b00011, 0b01100, 0b01111],
            (1, 0b10000, &[5]),
        ),
    ]
}

/// Rows that follow rows; N and G are 1.
fn waiting() -> Vec<StuckCase> {
    vec![
        case(
            "stuck because of a wait",
            urgent(3, 1),
            (0b011, &[7, -1], 0b011),
            &[0, 0b011],
            (1, 0b100, &[3]),
        ),
        case(
            "a follower is stuck without the row that it follows",
            late_follower(),
            (0b011, &[0, -2], 0b010),
            &[0, 0b010, 0b011],
            (1, 0b100, &[3]),
        ),
        case(
            "a row left is followed by one that has its place",
            followed_and_left(),
            (0b011, &[-1, -1], 0b011),
            &[0, 0b011],
            (1, 0b100, &[3]),
        ),
    ]
}

/// HI and LO rows; N is 2 and G 1, and K is 1 but in P3.
fn both_levels() -> Vec<StuckCase> {
    vec![
        case(
            "a promised part is late below the row that it follows",
            late_part(),
            (0b011, &[0, -1], 0b011),
            &[0, 0b011],
            (1, 0b100, &[3]),
        ),
        case(
            "a promised part is late below a late row",
            late_above(),
            (0b011, &[-3, -1], 0b001),
            &[0, 0b001, 0b011],
            (1, 0b100, &[3]),
        ),
        case(
            "five rows, two ways",
            five(),
            (0b00111, &[0, -5, -1], 0b00011),
            &[0, 0b00011, 0b00111],
            (2, 0b11000, &[5, 4]),
        ),
        case(
            "P3: all rows are left",
            p3(),
            (0b11, &[-1, -1], 0b11),
            &[0, 0b11],
            (1, 0, &[]),
        ),
    ]
}

/// Tables of which no row is left, and so each way is an order, from its lowest place on.
fn with_an_order() -> Vec<StuckCase> {
    vec![
        case(
            "without the wait there are two orders",
            urgent(3, 0),
            (0, &[], 0),
            &[0],
            (2, 0b101, &[1, 3, 2]),
        ),
        case(
            "every way",
            wherever(3),
            (0, &[], 0),
            &[0],
            (6, 0b111, &[1, 2, 3]),
        ),
        case("P1", p1(), (0, &[], 0), &[0], (1, 0b1000, &[4, 3, 2, 1])),
    ]
}
