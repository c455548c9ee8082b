//! The searches for the least workable speed: how long they take, against plain Rust
//! with the same search and against one planning of the same table at the speed that
//! is answered; and each of them once, so that its plannings can be counted.

use crate::pairs;
use compiled::raw::{self, TableWords};
use compiled::sheets::{easy_at, hard_at};
use model::order::Order;
use model::plain;
use model::speeds::Sought;
use model::table::{Table, HI, LO};
use std::hint::black_box;

/// What is sought, and where: makes a table of so many rows, with the longest range,
/// that has this least speed.
type Kind = (&'static str, Sought, fn(u32, u32) -> Table);

const KINDS: [Kind; 4] = [
    ("least G, hard", Sought::Degraded, |n, speed| {
        hard_at(n, 1_000, speed)
    }),
    ("least G, easy", Sought::Degraded, |n, speed| {
        easy_at(n, HI, speed)
    }),
    ("least N, hard", Sought::Normal, |n, speed| {
        hard_at(n, speed, 1)
    }),
    ("least N, easy", Sought::Normal, |n, speed| {
        easy_at(n, LO, speed)
    }),
];

const ROW_COUNTS: [u32; 2] = [8, 64];

/// Least speeds at either end of the range and in its middle, in work units per slot.
const SPEEDS: [u32; 3] = [1, 500, 1_000];

struct Search {
    what: String,
    sought: Sought,
    table: Table,
}

fn searches() -> Vec<Search> {
    let mut searches = Vec::new();
    for (kind, sought, make) in KINDS {
        for speed in SPEEDS {
            searches.extend(ROW_COUNTS.map(|n| Search {
                what: format!("{kind}, {speed}"),
                sought,
                table: make(n, speed),
            }));
        }
    }
    searches
}

/// The library's search, which writes speed and order; gives its number.
fn by_library(sought: Sought, words: &TableWords, speed: &mut u32, order: &mut Order) -> u32 {
    let call = match sought {
        Sought::Degraded => raw::jb_least_degraded,
        Sought::Normal => raw::jb_least_normal,
    };
    // SAFETY: every pointer is to memory of the size that the library names.
    unsafe { call(words, speed, order) }
}

/// Measures the searches.
pub fn measure() {
    pairs::print_head_with_part("one planning");
    for search in searches() {
        let (sought, table) = (search.sought, &search.table);
        let words = raw::table_words(table);
        let (mut speed, mut order, mut left) = (0, [0; 64], 0);
        by_library(sought, &words, &mut speed, &mut order);
        let at_answer = raw::table_words(&sought.put(table, speed));
        let mut library = || {
            let words = black_box(&words);
            black_box(by_library(sought, words, &mut speed, &mut order));
            black_box((speed, &order));
        };
        let mut plain = || {
            black_box(plain::least_by_halves(black_box(table), sought));
        };
        let mut planned = [0; 64];
        let mut planning = || {
            let words = black_box(&at_answer);
            // SAFETY: as in `by_library`.
            black_box(unsafe { raw::jb_plan(words, &mut planned, &mut left) });
            black_box((&planned, left));
        };
        pairs::measure_with_part(
            &search.what,
            table.n,
            &mut library,
            &mut plain,
            &mut planning,
        );
    }
}

/// Makes each search once by the library and prints a line for each: what it is, its
/// rows, the speed answered, and how many plannings plain Rust made.
pub fn make_each_once() {
    for search in searches() {
        let Search {
            what,
            sought,
            table,
        } = search;
        let (mut speed, mut order) = (0, [0; 64]);
        let number = by_library(sought, &raw::table_words(&table), &mut speed, &mut order);
        assert_eq!(number, 0, "{what}");
        let (_, plannings) = plain::least_and_plannings(&table, sought);
        println!("{what:<28}{:>5}{speed:>8}{plannings:>12}", table.n);
    }
}
