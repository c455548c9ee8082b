//! Cases in which rows follow rows (section 21 of the rules), worked out by hand; those of
//! rule 13.15 are among them. Works are in work units, clocks in slots.

use super::{
    by_either_rule, by_running_rule, hand_plan, hand_run, least_of, no_order, ordered, row,
    sought_in, table, HandPlan, HandRun, LateRun, LeastCase,
};
use crate::order::{order_of, Order};
use crate::speeds::{Least, Sought};
use crate::table::Table;

/// Three LO rows of one slot each, with time for all. Rows 2 and 3 follow these rows, 0
/// for none.
pub fn chain(second: u32, third: u32) -> Table {
    let row = |follows| [0, 1, 9, 0, 0, follows];
    table(1, 1, &[row(0), row(second), row(third)])
}

/// Row 1 takes three slots and row 2 follows it. Row 3 is HI, comes a slot later and
/// cannot wait for row 1 to be done.
pub fn preempted() -> Table {
    table(
        1,
        1,
        &[[0, 3, 9, 0, 0, 0], [0, 1, 9, 0, 0, 1], [1, 2, 4, 1, 0, 0]],
    )
}

/// Row 2 has time for itself alone, and follows this row. Row 1 could wait, and row 3, if
/// there are three, has time for all.
pub fn urgent(rows: usize, follows: u32) -> Table {
    let all = [
        [0, 1, 9, 0, 0, 0],
        [0, 1, 1, 0, 0, follows],
        [0, 1, 9, 0, 0, 0],
    ];
    table(1, 1, &all[..rows])
}

/// Rows 1 and 2 have the latest deadline, and row 2 follows this row; row 3 has an earlier
/// deadline.
fn skipping(follows: u32) -> Table {
    table(
        1,
        1,
        &[
            [0, 1, 9, 0, 0, 0],
            [0, 1, 9, 0, 0, follows],
            [0, 1, 8, 0, 0, 0],
        ],
    )
}

/// Row 2 is LO and follows row 1, which is HI, as row 3 is. In the trial sequence row 2
/// comes first, so that it stands above row 1 when row 3 is tried.
pub fn broken_above() -> Table {
    table(
        1,
        1,
        &[[0, 1, 9, 1, 0, 0], [0, 1, 2, 0, 0, 1], [0, 1, 9, 1, 0, 0]],
    )
}

/// A pen lift of 4 work units and a carriage move of 2 with this deadline, both HI. The
/// move follows this row.
fn lifting(deadline: u32, follows: u32) -> Table {
    table(2, 1, &[[0, 4, 9, 1, 0, 0], [0, 2, deadline, 1, 0, follows]])
}

/// Two LO rows of 2 work units; row 2, which has less time, follows this row.
fn slower_alone(follows: u32) -> Table {
    table(2, 1, &[[0, 2, 4, 0, 0, 0], [0, 2, 3, 0, 0, follows]])
}

/// Two LO rows that promise a part, and the second follows the first.
fn promising_chain() -> Table {
    table(4, 1, &[[0, 4, 4, 0, 2, 0], [0, 4, 6, 0, 1, 1]])
}

/// Tables in which rows follow rows, or one without waits to compare with, and their
/// planner's answers.
pub fn wait_plans() -> Vec<HandPlan> {
    let plan = hand_plan;
    vec![
        plan(
            "a chain of three",
            chain(1, 2),
            &[1, 2, 3],
            &[(1, 0, 8), (2, 0, 7), (3, 0, 6)],
            ordered(&[1, 2, 3]),
        ),
        plan(
            "the same rows without waits",
            chain(0, 0),
            &[3, 2, 1],
            &[(3, 0, 6), (2, 0, 7), (1, 0, 8)],
            ordered(&[3, 2, 1]),
        ),
        plan(
            "two rows follow one",
            chain(1, 1),
            &[1, 3, 2],
            &[(1, 0, 8), (3, 0, 6), (2, 0, 7)],
            ordered(&[1, 3, 2]),
        ),
        plan(
            "K 2: a chain of three has no slot to spare",
            chain(1, 2).with_loading(2),
            &[1, 2, 3],
            &[(3, 0, 6), (6, 0, 3), (9, 0, 0)],
            ordered(&[1, 2, 3]),
        ),
        plan(
            "K 3: it has no order",
            chain(1, 2).with_loading(3),
            &[1, 2, 3],
            &[(4, 0, 5), (8, 0, 1), (12, 0, -3)],
            no_order(0b111),
        ),
        plan(
            "the row followed is preempted",
            preempted(),
            &[3, 1, 2],
            &[(5, 0, 4), (6, 0, 3), (3, 0, 1)],
            ordered(&[3, 1, 2]),
        ),
        plan(
            "only orders that break the wait are correct",
            urgent(2, 1),
            &[1, 2],
            &[(1, 0, 8), (2, 0, -1)],
            no_order(0b11),
        ),
        plan(
            "without the wait such an order is answered",
            urgent(2, 0),
            &[2, 1],
            &[(2, 0, 7), (1, 0, 0)],
            ordered(&[2, 1]),
        ),
        plan(
            "a row that no wait concerns is not left",
            urgent(3, 1),
            &[1, 2, 3],
            &[(1, 0, 8), (2, 0, -1), (3, 0, 6)],
            no_order(0b011),
        ),
        plan(
            "a skip gives the place to the next row",
            skipping(1),
            &[3, 1, 2],
            &[(2, 0, 7), (3, 0, 6), (1, 0, 7)],
            ordered(&[3, 1, 2]),
        ),
        plan(
            "the row skipped would have had it",
            skipping(0),
            &[3, 2, 1],
            &[(3, 0, 6), (2, 0, 7), (1, 0, 7)],
            ordered(&[3, 2, 1]),
        ),
        plan(
            "a trial in which a wait is broken above",
            broken_above(),
            &[1, 2, 3],
            &[(1, 0, 8), (2, 0, 0), (3, 0, 6)],
            ordered(&[1, 2, 3]),
        ),
        plan(
            "the carriage waits for the pen at G",
            lifting(8, 1),
            &[1, 2],
            &[(4, 0, 5), (6, 0, 2)],
            ordered(&[1, 2]),
        ),
        plan(
            "without the wait it goes first",
            lifting(8, 0),
            &[2, 1],
            &[(6, 0, 3), (2, 0, 6)],
            ordered(&[2, 1]),
        ),
        plan(
            "it cannot wait so long",
            lifting(5, 1),
            &[1, 2],
            &[(4, 0, 5), (6, 0, -1)],
            no_order(0b11),
        ),
        plan(
            "a wait that takes a faster processor",
            slower_alone(1),
            &[1, 2],
            &[(1, 0, 3), (2, 0, 1)],
            ordered(&[1, 2]),
        ),
        plan(
            "promises along a chain",
            promising_chain(),
            &[1, 2],
            &[(1, 2, 2), (2, 3, 3)],
            ordered(&[1, 2]),
        ),
    ]
}

/// A LO row of two slots at N and four at G, and a LO row that follows it.
fn followed_preview() -> Table {
    table(2, 1, &[[0, 4, 9, 0, 0, 0], [0, 2, 9, 0, 0, 1]])
}

/// Runs in which a row waits. No LO row is late in them, so that both rules of a slot make
/// them.
pub fn wait_runs() -> Vec<HandRun> {
    let run = hand_run;
    vec![
        run(
            "it waits while the row that it follows is preempted",
            preempted(),
            &[3, 1, 2],
            vec![1; 6],
            &[1, 3, 3, 1, 1, 2],
            &[[3, 3, 5], [1, 1, 6], [2, 2, 3]],
        ),
        run(
            "it waits for a HI row that gets nothing",
            lifting(8, 1),
            &[1, 2],
            vec![2, 0, 0, 0, 2, 2],
            &[1, 1, 1, 1, 1, 2],
            &[[4, 5, 5], [2, 1, 6]],
        ),
        run(
            "it runs once the row that it follows is dropped for its slots",
            followed_preview(),
            &[1, 2],
            vec![1, 1, 2],
            &[1, 1, 2],
            &[[2, 2, 2], [2, 1, 3]],
        ),
        run(
            "one after the other along a chain",
            chain(1, 2),
            &[1, 2, 3],
            vec![1; 4],
            &[1, 2, 3, 0],
            &[[1, 1, 1], [1, 1, 2], [1, 1, 3]],
        ),
        run(
            "K 1: it does not load while it waits",
            chain(1, 2).with_loading(1),
            &[1, 2, 3],
            vec![9, 0, 9, 1, 9, 1],
            &[1, 1, 2, 2, 3, 3],
            &[[0, 2, 2], [1, 2, 4], [1, 2, 6]],
        ),
        run(
            "released when the row that it follows is done, it runs at once",
            table(1, 1, &[[0, 1, 9, 1, 0, 0], [2, 1, 9, 1, 0, 1]]),
            &[1, 2],
            vec![1; 3],
            &[1, 0, 2],
            &[[1, 1, 1], [1, 1, 3]],
        ),
    ]
}

/// Runs in which the clock ends a wait.
pub fn late_wait_runs() -> Vec<LateRun> {
    let run = hand_run;
    vec![
        by_running_rule(
            run(
                "it runs once the row that it follows is dropped by the clock",
                table(
                    1,
                    1,
                    &[[0, 2, 2, 0, 0, 0], [0, 1, 5, 0, 0, 1], [0, 2, 2, 1, 0, 0]],
                ),
                &[3, 1, 2],
                vec![1; 3],
                &[3, 3, 2],
                &[[0, 0, 2], [1, 1, 3], [2, 2, 2]],
            ),
            &[3, 3, 1],
            &[[1, 1, 0], [0, 0, 0], [2, 2, 2]],
        ),
        by_running_rule(
            run(
                "dropped by the clock while it waits, it ends the wait for it",
                table(
                    1,
                    1,
                    &[[0, 4, 9, 1, 0, 0], [0, 1, 2, 0, 0, 1], [0, 1, 9, 0, 0, 2]],
                ),
                &[1, 2, 3],
                vec![1; 6],
                &[1, 1, 1, 1, 3, 0],
                &[[4, 4, 4], [0, 0, 2], [1, 1, 5]],
            ),
            &[1, 1, 1, 1, 2, 3],
            &[[4, 4, 4], [1, 1, 5], [1, 1, 6]],
        ),
        by_either_rule(run(
            "done by its last slot, it is followed in the next",
            table(2, 1, &[[0, 4, 2, 0, 0, 0], [0, 2, 4, 0, 0, 1]]),
            &[1, 2],
            vec![2; 3],
            &[1, 1, 2],
            &[[4, 2, 2], [2, 1, 3]],
        )),
    ]
}

/// Runs under arrangements that break waits: none of them is an order, and a follower waits
/// all the same (rule 2.15). Trials have such runs above the row that is tried.
pub fn runs_that_break_waits() -> Vec<HandRun> {
    let run = hand_run;
    vec![
        run(
            "it waits though it stands above the row that it follows",
            preempted(),
            &[2, 1, 3],
            vec![1; 6],
            &[1, 1, 1, 2, 3, 3],
            &[[3, 3, 3], [1, 1, 4], [2, 2, 6]],
        ),
        run(
            "and while that row is preempted",
            preempted(),
            &[3, 2, 1],
            vec![1; 6],
            &[1, 3, 3, 1, 1, 2],
            &[[3, 3, 5], [1, 1, 6], [2, 2, 3]],
        ),
        run(
            "a chain from the bottom up",
            chain(1, 2),
            &[3, 2, 1],
            vec![1; 4],
            &[1, 2, 3, 0],
            &[[1, 1, 1], [1, 1, 2], [1, 1, 3]],
        ),
        run(
            "it takes its place once that row is dropped for its slots",
            followed_preview(),
            &[2, 1],
            vec![1, 1, 2],
            &[1, 1, 2],
            &[[2, 2, 2], [2, 1, 3]],
        ),
    ]
}

/// Row 1 with this release and level, and row 2 with those and the row that it follows.
fn two(first: [u32; 2], second: [u32; 2], follows: u32) -> Table {
    let [[release, level], [later, other]] = [first, second];
    table(
        1,
        1,
        &[
            [release, 1, 9, level, 0, 0],
            [later, 1, 9, other, 0, follows],
        ],
    )
}

/// Tables in which rows follow rows, and the number that the checks on tables give them
/// (rules 5.4, 5.10 and 11.3).
pub fn checked_waits() -> Vec<(&'static str, Table, u32)> {
    let (low, high) = ([0, 0], [0, 1]);
    let one = |figures: [u32; 6]| table(1, 1, &[figures]);
    let of = |rows: &[[u32; 6]]| table(1, 1, rows);
    let full = |follows| {
        let mut rows = [row([0, 1, 64, 0]); 64];
        rows[63].follows = follows;
        Table::of(1, 1, 0, &rows)
    };
    let mut after_the_last = one([0, 1, 9, 0, 0, 0]);
    after_the_last.follows[1] = 1;
    vec![
        ("LO follows LO", two(low, low, 1), 0),
        ("LO follows HI", two(high, low, 1), 0),
        ("HI follows HI", two(high, high, 1), 0),
        ("HI follows LO", two(low, high, 1), 15),
        ("HI beside LO", two(low, high, 0), 0),
        ("itself", one([0, 1, 9, 0, 0, 1]), 13),
        ("itself, in row 2", two(low, low, 2), 13),
        (
            "a row with a higher number",
            of(&[[0, 1, 9, 0, 0, 2], [0, 1, 9, 0, 0, 0]]),
            13,
        ),
        ("a row that is not there", two(low, low, 3), 13),
        ("row 64, which is not there", two(low, low, 64), 13),
        ("w of 65", two(low, low, 65), 13),
        ("w of 257, whose last byte is 1", two(low, low, 257), 13),
        ("w of eight digits", two(low, low, 99_999_999), 13),
        ("the largest w", two(low, low, u32::MAX), 13),
        ("row 64 follows row 63", full(63), 0),
        ("row 64 follows row 1", full(1), 0),
        ("row 64 follows itself", full(64), 13),
        ("row 64 with w of 65", full(65), 13),
        ("released later", two([1, 0], low, 1), 14),
        ("released with it", two([1, 0], [1, 0], 1), 0),
        ("released before it", two(low, [1, 0], 1), 0),
        (
            "13, and HI",
            of(&[[0, 1, 9, 1, 0, 2], [1, 1, 9, 0, 0, 0]]),
            13,
        ),
        ("14 and 15 in one row", two([1, 0], high, 1), 14),
        (
            "15 before 13 in a later row",
            of(&[[0, 1, 9, 0, 0, 0], [0, 1, 9, 1, 0, 1], [0, 1, 9, 0, 0, 3]]),
            15,
        ),
        (
            "14 before 13 in a later row",
            of(&[[1, 1, 9, 0, 0, 0], [0, 1, 9, 0, 0, 1], [0, 1, 9, 0, 0, 3]]),
            14,
        ),
        (
            "15 before 14 in a later row",
            of(&[[1, 1, 9, 0, 0, 0], [1, 1, 9, 1, 0, 1], [0, 1, 9, 0, 0, 1]]),
            15,
        ),
        (
            "13 before 12 in a later row",
            of(&[[0, 1, 9, 0, 0, 1], [0, 1, 9, 0, 2, 0]]),
            12,
        ),
        ("13 and 12 in one row", one([0, 1, 9, 0, 2, 1]), 12),
        (
            "13 before 5 in a later row",
            of(&[[0, 1, 9, 0, 0, 1], [4, 1, 4, 0, 0, 0]]),
            5,
        ),
        (
            "11 comes first",
            one([0, 1, 9, 0, 0, 1]).with_loading(17),
            11,
        ),
        ("so does 4", table(1, 2, &[[0, 1, 9, 0, 0, 1]]), 4),
        ("a wait after the last row", after_the_last, 5),
    ]
}

/// Tables, sixty-four numbers, and whether check 6 refuses these (rule 5.11).
pub fn checked_wait_orders() -> Vec<(&'static str, Table, Order, u32)> {
    let cases = [
        ("a chain from the top down", chain(1, 2), &[1, 2, 3][..], 0),
        ("its first wait broken", chain(1, 2), &[2, 1, 3], 6),
        ("its second wait broken", chain(1, 2), &[1, 3, 2], 6),
        ("both waits broken", chain(1, 2), &[3, 2, 1], 6),
        ("two followers, either first", chain(1, 1), &[1, 3, 2], 0),
        ("two followers, one above", chain(1, 1), &[2, 1, 3], 6),
        ("two followers, both above", chain(1, 1), &[3, 2, 1], 6),
        ("a row in between", chain(0, 1), &[1, 2, 3], 0),
        ("a row in between, turned round", chain(0, 1), &[3, 2, 1], 6),
        ("no waits", chain(0, 0), &[3, 2, 1], 0),
        ("waits kept, and a row twice", chain(1, 2), &[1, 2, 2], 6),
        (
            "waits kept, and a row too many",
            chain(1, 2),
            &[1, 2, 3, 1],
            6,
        ),
        ("the row followed is missing", chain(1, 2), &[2, 3], 6),
    ];
    let case = |(what, table, rows, number)| (what, table, order_of(rows), number);
    cases.map(case).to_vec()
}

/// Least workable speeds that a wait makes larger.
pub fn least_speeds_with_waits() -> Vec<LeastCase> {
    let (at, none) = (least_of, Least::refused(7));
    let degraded = [
        ("the carriage can wait at 1", lifting(8, 1), at(1, &[1, 2])),
        ("at 1 it waits too long", lifting(5, 1), at(2, &[1, 2])),
        ("no G is fast enough", lifting(2, 1), none),
        ("it need not wait", lifting(2, 0), at(1, &[2, 1])),
        ("it waits for itself", lifting(8, 2), Least::refused(13)),
    ];
    let normal = [
        ("2 with the wait", slower_alone(1), at(2, &[1, 2])),
        ("1 without", slower_alone(0), at(1, &[2, 1])),
        ("each takes a slot at any N", urgent(2, 1), none),
        ("it waits for itself", lifting(8, 2), Least::refused(13)),
    ];
    let mut cases = sought_in(Sought::Degraded, &degraded);
    cases.extend(sought_in(Sought::Normal, &normal));
    cases
}
