//! Planning: what it costs against plain Rust with a sweep for each trial and with a
//! sweep for each place, and what it costs at ceilings.

use crate::{for_each_count, pairs, Input};
use compiled::raw;
use compiled::sheets::{
    chain, easy, grouped, hard, hard_loading, late_promises, one_period, promising, staggered,
};
use model::cases::ceilings::most_tried;
use model::planners::{each_place, each_trial};
use model::table::{Table, MOST_LOADING};
use std::hint::black_box;

/// What a table is like, and how it is made with so many rows.
type Kind = (&'static str, fn(u32) -> Table);

const KINDS: [Kind; 10] = [
    ("plan, hard", hard),
    ("plan, hard, K 16", |n| hard_loading(n, MOST_LOADING)),
    ("plan, easy", easy),
    ("plan, one busy period", |n| one_period(n, 0)),
    ("plan, staggered", |n| staggered(n, 0)),
    ("plan, hard, promises", |n| promising(&hard(n))),
    ("plan, easy, promises", |n| promising(&easy(n))),
    ("plan, late promises", |n| late_promises(n, 0)),
    ("plan, a chain", |n| chain(n, 0)),
    ("plan, hard, waits", |n| grouped(n, 0)),
];

/// Tables that are planned at ceilings.
const AT_CEILINGS: [Kind; 6] = [
    ("ceiling, hard", hard),
    ("ceiling, easy", easy),
    ("ceiling, one busy period", |n| one_period(n, 0)),
    ("ceiling, easy, promises", |n| promising(&easy(n))),
    ("ceiling, late promises", |n| late_promises(n, 0)),
    ("ceiling, most trials", most_tried),
];

/// How many rows they have.
const ROWS_AT_CEILINGS: u32 = 64;

pub fn measure() {
    println!("Sheets that are planned: easy ones, of which every row passes at its first trial;");
    println!("hard ones, of which many LO rows fail at every place, in busy periods of four rows");
    println!(
        "or in one; staggered ones, with busy periods that break and join; hard and easy ones"
    );
    println!(
        "in which every LO row promises the work of one slot at G, and hard ones whose LO rows"
    );
    println!("fail for that promise alone; chains, in which every row follows the one before it");
    println!("and all but one are skipped at each place, and hard ones in which of every three LO");
    println!("rows two are followed by the next. Plain Rust makes a sweep for each trial, and in");
    println!("its other planner one for each place and speed, over the busy period that has lost");
    println!("a row; a promise has a sweep of its own in both.\n");
    pairs::print_head_with_two("trials", "each trial", "each place");
    for (kind, make) in KINDS {
        for_each_count(|n| measure_kind(kind, &make(n)));
    }
}

fn measure_kind(what: &str, table: &Table) {
    let (planned, trials) = each_trial::plan_and_trials(table);
    assert_eq!(
        each_place::plan_and_trials(table),
        (planned, trials),
        "{what}"
    );
    let input = Input::of(table);
    let (mut order, mut left) = ([0; 64], 0);
    let mut library = || {
        // SAFETY: every pointer is to memory of the size that the library names.
        black_box(unsafe { raw::jb_plan(black_box(&input.words), &mut order, &mut left) });
        black_box((&order, left));
    };
    let mut by_trial = || {
        black_box(each_trial::plan(black_box(&input.table)));
    };
    let mut by_place = || {
        black_box(each_place::plan(black_box(&input.table)));
    };
    let counts = [table.n, trials];
    pairs::measure_with_two(what, counts, &mut library, &mut by_trial, &mut by_place);
    assert_eq!((order, left), (planned.order, planned.left), "{what}");
}

/// What planning takes against the trials that it makes.
pub fn measure_ceilings() {
    println!(
        "Sheets that are planned at ceilings, in trials: hard and easy ones, ones in one busy"
    );
    println!(
        "period, easy ones in which every LO row promises a part, hard ones whose LO rows fail"
    );
    println!(
        "for their promises alone, and one that takes the most trials there can be, which fail"
    );
    println!(
        "for promises too. At the last ceiling of each the sheet is planned; at the others the"
    );
    println!("answer is 19. Beside it planning without a ceiling, and the ratio to that.\n");
    pairs::print_head_with_ceilings();
    for (kind, make) in AT_CEILINGS {
        let table = make(ROWS_AT_CEILINGS);
        let (planned, count) = each_place::plan_and_trials(&table);
        for ceiling in ceilings_for(count) {
            let number = if ceiling < count { 19 } else { planned.number };
            measure_at(kind, &table, ceiling, [number, ceiling.min(count)]);
        }
        println!();
    }
}

/// Ceilings for a table that takes so many trials: some that are too low, the last of them by
/// one, and then one that is just enough.
fn ceilings_for(count: u32) -> Vec<u32> {
    let low = [0, 1, 64, 500, 1_000].into_iter();
    let mut ceilings: Vec<u32> = low.filter(|&ceiling| ceiling + 1 < count).collect();
    ceilings.extend([count - 1, count]);
    ceilings
}

/// Planning at this ceiling, which is answered with this number and so many trials.
fn measure_at(what: &str, table: &Table, ceiling: u32, [number, trials]: [u32; 2]) {
    let input = Input::of(table);
    let (mut order, mut left, mut made, mut answer) = ([0; 64], 0, 0, 0);
    let mut within = || {
        let (words, ceiling) = black_box((&input.words, ceiling));
        // SAFETY: every pointer is to memory of the size that the library names.
        answer = unsafe { raw::jb_plan_within(words, ceiling, &mut order, &mut left, &mut made) };
        black_box((&order, left, made));
    };
    let (mut other, mut other_left) = ([0; 64], 0);
    let mut without = || {
        // SAFETY: as above.
        black_box(unsafe { raw::jb_plan(black_box(&input.words), &mut other, &mut other_left) });
        black_box((&other, other_left));
    };
    let figures = [table.n, ceiling, trials, number];
    pairs::measure_with_ceiling(what, figures, &mut within, &mut without);
    assert_eq!((answer, made), (number, trials), "{what}");
}
