//! How much choice there is: what it costs to count the correct orders of twelve rows, against plain
//! Rust that counts by sweeps in the same way.

use crate::pairs;
use compiled::raw;
use compiled::sheets::{hard, staggered};
use model::cases::choices::{rising, wherever};
use model::cases::row;
use model::choices::{Choices, MOST_COUNTED, SCRATCH};
use model::plain;
use model::table::{Table, HI, LO, ROWS};
use std::hint::black_box;

/// What is counted: makes a table of so many rows.
type Kind = (&'static str, fn(u32) -> Table);

const KINDS: [Kind; 5] = [
    ("all orders", wherever),
    ("one order", rising),
    ("hard", hard),
    ("staggered", |n| staggered(n, 0)),
    ("waits and parts", mixed),
];

/// Row counts by which the cost is shown; `hard` takes multiples of four.
const ROW_COUNTS: [u32; 3] = [4, 8, MOST_COUNTED];

/// Rows of both levels that are released one after another, each with a deadline of its own, with
/// a loading time of one slot: every third one is HI, every LO row promises half of its work, and
/// every fourth row follows the one before it if it is LO.
fn mixed(n: u32) -> Table {
    let row = |index: u32| {
        let level = if index % 3 == 0 { HI } else { LO };
        let promised = if level == LO { 3 } else { 0 };
        let follows = match index % 4 {
            2 if level == LO => index,
            _ => 0,
        };
        row([index, 6, 3 * n + 2 * index, level, promised, follows])
    };
    let rows: Vec<_> = (0..n).map(row).collect();
    Table::of(3, 2, 1, &rows)
}

/// Prints how many orders of each table are correct, and what it took to count them.
pub fn measure() {
    println!("Counting the correct orders of a table, with scratch for every set of its rows; in");
    println!("brackets the count.\n");
    pairs::print_head();
    for (kind, make) in KINDS {
        for n in ROW_COUNTS {
            measure_count(kind, &make(n));
        }
        println!();
    }
}

fn measure_count(kind: &str, table: &Table) {
    let words = raw::table_words(table);
    let (mut scratch, mut count, mut lowest) = ([0; SCRATCH], 0, [0; ROWS]);
    let mut number = 0;
    let mut library = || {
        let (lent, numbers) = (scratch.as_mut_ptr(), scratch.len());
        let words = black_box(&words);
        // SAFETY: every pointer is to memory of the size that the library names.
        number = unsafe { raw::jb_count(words, lent, numbers, &mut count, &mut lowest) };
        black_box((&scratch, count, &lowest));
    };
    let (mut other, mut of_plain) = ([0; SCRATCH], Choices::refused(0));
    let mut plain = || {
        of_plain = plain::count_choices(black_box(table), &mut other);
        black_box((&other, &of_plain));
    };
    let counted = plain::count_choices(table, &mut [0; SCRATCH]).count;
    let what = format!("{kind} ({counted})");
    pairs::measure(&what, table.n, &mut library, &mut plain);
    let of_library = Choices {
        number,
        count,
        lowest,
    };
    assert_eq!(of_library, of_plain, "{what}");
    assert_eq!(number, 0, "{what}");
    assert!(scratch == other, "{what}");
}
