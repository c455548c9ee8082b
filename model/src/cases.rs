//! The tables and answers of cases P1 to P4 (section 13 of the rules), and cases,
//! runs and reports worked out by hand, for tests here and of the compiled library. Those
//! in which rows follow rows are in `waits`, commits in `commits`, ceilings in `ceilings`,
//! sentences in `sentences`, counted choices in `choices`, and stuck sets of rows in `stuck`; in
//! the last two, values that the model computed are said to be so.

pub mod ceilings;
pub mod choices;
pub mod commits;
pub mod sentences;
pub mod stuck;
pub mod waits;

use crate::order::{order_of, Order};
use crate::plan::Plan;
use crate::speeds::{Least, Sought, BOTH};
use crate::table::{Row, Table, FIGURES};

/// A row from its figures: a (slots), c (work units), d (slots), level, r (work units) and
/// w (a row number). Those that are left out at the end, r and w at most, are 0.
pub fn row<const COUNT: usize>(figures: [u32; COUNT]) -> Row {
    assert!((4..=FIGURES).contains(&COUNT), "a row has four to six");
    let mut all = [0; FIGURES];
    all[..COUNT].copy_from_slice(&figures);
    Row::of(all)
}

/// A table from N, G (work units per slot) and its rows' figures, with a loading
/// time of 0 slots.
pub fn table<const COUNT: usize>(normal: u32, degraded: u32, rows: &[[u32; COUNT]]) -> Table {
    let rows: Vec<Row> = rows.iter().map(|&figures| row(figures)).collect();
    Table::of(normal, degraded, 0, &rows)
}

/// Case P1 (rule 13.1).
pub fn p1() -> Table {
    table(
        5,
        2,
        &[[0, 20, 10, 1], [5, 15, 10, 0], [5, 11, 19, 1], [0, 5, 5, 0]],
    )
}

/// Case P2 (rule 13.2).
pub fn p2() -> Table {
    table(
        4,
        3,
        &[[0, 8, 5, 0], [0, 12, 10, 1], [3, 4, 5, 1], [2, 16, 10, 0]],
    )
}

/// Case P3 (rule 13.3); P7 and P8 run it.
pub fn p3() -> Table {
    table(2, 1, &[[0, 2, 2, 0], [0, 4, 4, 1]])
}

/// Case P4 (rule 13.4).
pub fn p4() -> Table {
    table(2, 1, &[[0, 20, 20, 1], [0, 18, 18, 0]])
}

/// The planner's answer with this order, highest place first.
pub fn ordered(rows: &[u8]) -> Plan {
    Plan {
        number: 0,
        order: order_of(rows),
        left: 0,
    }
}

/// The planner's answer 7 with this word of rows left.
pub fn no_order(left: u64) -> Plan {
    Plan::refused(7, left)
}

/// A table that has an order with a loading time of 0 slots, another one with 1
/// slot, and none with 2 (rule 13.11): row 1 takes K + 1 slots of its 4, and row 2,
/// which takes K + 4 slots at G and K + 2 at N, has 7.
pub fn at_loading(loading: u32) -> Table {
    table(2, 1, &[[0, 2, 4, 0], [0, 4, 7, 1]]).with_loading(loading)
}

/// The planner's answers to it, by loading time from 0 slots on.
pub fn at_loading_planned() -> [Plan; 3] {
    [ordered(&[2, 1]), ordered(&[1, 2]), no_order(0b11)]
}

/// A run from a fresh record, worked out by hand.
pub struct HandRun {
    pub what: &'static str,
    pub table: Table,
    pub order: Order,
    /// What each slot supplies, in work units.
    pub supplies: Vec<u32>,
    /// The row that each slot runs.
    pub rows: Vec<u8>,
    /// Work got, slots used and closing slot of each row afterwards.
    pub ends: Vec<[u32; 3]>,
}

/// Such a run in one line.
fn hand_run(
    what: &'static str,
    table: Table,
    order: &[u8],
    supplies: Vec<u32>,
    rows: &[u8],
    ends: &[[u32; 3]],
) -> HandRun {
    HandRun {
        what,
        table,
        order: order_of(order),
        supplies,
        rows: rows.to_vec(),
        ends: ends.to_vec(),
    }
}

/// Row 1 is LO, takes 2 slots at N when it has loaded for 2 slots, and is
/// preempted by row 2, released at this slot, which loads for as long.
fn preempted(release: u32) -> Table {
    table(2, 1, &[[0, 4, 9, 0], [release, 2, 9, 1]]).with_loading(2)
}

/// One row of 4 work units and N of 2, at this level, with 20 slots.
fn alone(level: u32, loading: u32) -> Table {
    table(2, 1, &[[0, 4, 20, level]]).with_loading(loading)
}

/// Runs in which jobs load (rules 1.9, 1.10 and 2.14; those of rule 13.11 are here).
/// No LO job is late in them, so that both rules of a slot make them (rule 19.7).
pub fn loading_runs() -> Vec<HandRun> {
    let run = hand_run;
    vec![
        run(
            "preempted between its loading slots, it goes on loading",
            preempted(1),
            &[2, 1],
            vec![2; 7],
            &[1, 2, 2, 2, 1, 1, 1],
            &[[4, 4, 7], [2, 3, 4]],
        ),
        run(
            "preempted after its last loading slot, it goes on to work",
            preempted(2),
            &[2, 1],
            vec![2; 7],
            &[1, 1, 2, 2, 2, 1, 1],
            &[[4, 4, 7], [2, 3, 5]],
        ),
        run(
            "preempted at work, it does not load again",
            preempted(3),
            &[2, 1],
            vec![2; 7],
            &[1, 1, 1, 2, 2, 2, 1],
            &[[4, 4, 7], [2, 3, 6]],
        ),
        run(
            "preempted twice while it loads for 3 slots",
            table(3, 1, &[[0, 3, 20, 1], [1, 3, 20, 0], [6, 3, 20, 1]]).with_loading(3),
            &[3, 2, 1],
            vec![3; 12],
            &[1, 2, 2, 2, 2, 1, 3, 3, 3, 3, 1, 1],
            &[[3, 4, 12], [3, 4, 5], [3, 4, 10]],
        ),
        run(
            "dropped with its allowance of 2 slots, without loading",
            alone(0, 0),
            &[1],
            vec![1; 8],
            &[1, 1, 0, 0, 0, 0, 0, 0],
            &[[2, 2, 2]],
        ),
        run(
            "dropped with its allowance of 3 + 2 slots",
            alone(0, 3),
            &[1],
            vec![1; 8],
            &[1, 1, 1, 1, 1, 0, 0, 0],
            &[[2, 5, 5]],
        ),
        run(
            "done in its last allowed slot",
            alone(0, 3),
            &[1],
            vec![9, 9, 9, 2, 2, 1, 9],
            &[1, 1, 1, 1, 1, 0, 0],
            &[[4, 5, 5]],
        ),
        run(
            "HI, and so not dropped after many slots more",
            alone(1, 3),
            &[1],
            vec![9, 9, 9, 0, 0, 0, 0, 0, 0, 0, 5],
            &[1; 11],
            &[[4, 11, 11]],
        ),
        run(
            "the most that there is to supply brings nothing in 16 slots",
            alone(0, 16),
            &[1],
            vec![u32::MAX; 16],
            &[1; 16],
            &[[0, 16, 0]],
        ),
        run(
            "and all of its work in the slot after them",
            alone(0, 16),
            &[1],
            vec![u32::MAX; 17],
            &[1; 17],
            &[[4, 17, 17]],
        ),
    ]
}

/// A run by the running rule, and what the planning rule makes of it.
pub struct LateRun {
    pub run: HandRun,
    /// The row that each slot runs by the planning rule.
    pub planned_rows: Vec<u8>,
    /// Work got, slots used and closing slot of each row by the planning rule.
    pub planned_ends: Vec<[u32; 3]>,
}

/// A run that both rules make.
fn by_either_rule(run: HandRun) -> LateRun {
    LateRun {
        planned_rows: run.rows.clone(),
        planned_ends: run.ends.clone(),
        run,
    }
}

/// A run by the running rule, and the rows and ends by the planning rule.
fn by_running_rule(run: HandRun, planned_rows: &[u8], planned_ends: &[[u32; 3]]) -> LateRun {
    LateRun {
        run,
        planned_rows: planned_rows.to_vec(),
        planned_ends: planned_ends.to_vec(),
    }
}

/// A LO row of this work (work units) with 2 slots, alone; N is 2.
fn preview(work: u32) -> Table {
    table(2, 1, &[[0, work, 2, 0]])
}

/// Row 1 is HI and takes 6 slots of 1 work unit each; the others are LO and have 2
/// slots.
fn previews_below(previews: usize) -> Table {
    let mut rows = vec![[0, 6, 9, 1]];
    rows.extend(vec![[0, 2, 2, 0]; previews]);
    table(2, 1, &rows)
}

/// A table without a correct order for which the order 1, 2, 3 serves (rules 13.13
/// and 19.8).
pub fn serving() -> Table {
    table(2, 1, &[[0, 2, 2, 1], [0, 3, 3, 0], [0, 1, 4, 1]])
}

/// P7 and P8, the runs of rule 13.13 after them, and then some of our own, at last those
/// of rows with a promise.
pub fn late_runs() -> Vec<LateRun> {
    let mut runs = late_runs_of_the_rule();
    runs.extend(more_late_runs());
    runs.extend(late_promise_runs());
    runs
}

/// The runs of rule 13.13.
fn late_runs_of_the_rule() -> Vec<LateRun> {
    let run = hand_run;
    vec![
        by_either_rule(run(
            "P7: dropped for its allowance, and a HI row done late",
            p3(),
            &[1, 2],
            vec![1; 5],
            &[1, 2, 2, 2, 2],
            &[[1, 1, 1], [4, 4, 5]],
        )),
        by_either_rule(run(
            "P8: both done",
            p3(),
            &[1, 2],
            vec![2; 3],
            &[1, 2, 2],
            &[[2, 1, 1], [4, 2, 3]],
        )),
        by_either_rule(run(
            "done by its last slot",
            preview(6),
            &[1],
            vec![4, 2],
            &[1, 1],
            &[[6, 2, 2]],
        )),
        by_running_rule(
            run(
                "dropped for its deadline, and the slot after that is idle",
                preview(6),
                &[1],
                vec![4, 1, 9],
                &[1, 1, 0],
                &[[5, 2, 2]],
            ),
            &[1, 1, 1],
            &[[6, 3, 3]],
        ),
        by_either_rule(run(
            "dropped for its allowance by its last slot",
            preview(4),
            &[1],
            vec![2, 1, 9],
            &[1, 1, 0],
            &[[3, 2, 2]],
        )),
        by_running_rule(
            run(
                "dropped for its deadline without a slot of its own",
                previews_below(1),
                &[1, 2],
                vec![1; 7],
                &[1, 1, 1, 1, 1, 1, 0],
                &[[6, 6, 6], [0, 0, 2]],
            ),
            &[1, 1, 1, 1, 1, 1, 2],
            &[[6, 6, 6], [1, 1, 7]],
        ),
        by_running_rule(
            run(
                "two dropped by the same step",
                previews_below(2),
                &[1, 2, 3],
                vec![1; 7],
                &[1, 1, 1, 1, 1, 1, 0],
                &[[6, 6, 6], [0, 0, 2], [0, 0, 2]],
            ),
            &[1, 1, 1, 1, 1, 1, 2],
            &[[6, 6, 6], [1, 1, 7], [0, 0, 0]],
        ),
        by_either_rule(run(
            "HI, open at its deadline, and done late",
            table(2, 1, &[[0, 4, 2, 1]]),
            &[1],
            vec![1; 5],
            &[1, 1, 1, 1, 0],
            &[[4, 4, 4]],
        )),
        by_running_rule(
            run(
                "row 2 is dropped at 3, so that row 3 keeps its deadline",
                serving(),
                &[1, 2, 3],
                vec![1; 5],
                &[1, 1, 2, 3, 0],
                &[[2, 2, 2], [1, 1, 3], [1, 1, 4]],
            ),
            &[1, 1, 2, 2, 3],
            &[[2, 2, 2], [2, 2, 4], [1, 1, 5]],
        ),
    ]
}

/// More runs in which a preview is about to be late.
fn more_late_runs() -> Vec<LateRun> {
    let run = hand_run;
    vec![
        by_running_rule(
            run(
                "loading when its deadline comes",
                table(2, 1, &[[0, 2, 3, 0]]).with_loading(5),
                &[1],
                vec![9; 6],
                &[1, 1, 1, 0, 0, 0],
                &[[0, 3, 3]],
            ),
            &[1; 6],
            &[[2, 6, 6]],
        ),
        by_either_rule(run(
            "released into its only slot, and done by it",
            table(2, 1, &[[4, 2, 5, 0]]),
            &[1],
            vec![0, 0, 0, 0, 2, 9],
            &[0, 0, 0, 0, 1, 0],
            &[[2, 1, 5]],
        )),
        by_running_rule(
            run(
                "released into its only slot, and dropped after it",
                table(2, 1, &[[4, 3, 5, 0]]),
                &[1],
                vec![0, 0, 0, 0, 2, 9],
                &[0, 0, 0, 0, 1, 0],
                &[[2, 1, 5]],
            ),
            &[0, 0, 0, 0, 1, 1],
            &[[3, 2, 6]],
        ),
        by_running_rule(
            run(
                "dropped while another LO row runs, which its slots then serve",
                table(1, 1, &[[1, 3, 9, 0], [0, 9, 2, 0], [0, 2, 4, 0]]),
                &[1, 2, 3],
                vec![2, 3, 1, 1],
                &[2, 1, 3, 3],
                &[[3, 1, 2], [2, 1, 2], [2, 2, 4]],
            ),
            &[2, 1, 2, 2],
            &[[3, 1, 2], [4, 3, 0], [0, 0, 0]],
        ),
        by_running_rule(
            run(
                "a HI row of the same deadline goes on beside the dropped one",
                table(1, 1, &[[0, 3, 2, 1], [0, 1, 2, 0]]),
                &[1, 2],
                vec![1; 4],
                &[1, 1, 1, 0],
                &[[3, 3, 3], [0, 0, 2]],
            ),
            &[1, 1, 1, 2],
            &[[3, 3, 3], [1, 1, 4]],
        ),
        by_running_rule(
            run(
                "one deadline after the other, and none drops the row before its own",
                table(
                    1,
                    1,
                    &[[0, 9, 9, 1], [0, 1, 1, 0], [0, 1, 2, 0], [0, 1, 4, 0]],
                ),
                &[1, 4, 3, 2],
                vec![0; 4],
                &[1; 4],
                &[[0, 4, 0], [0, 0, 1], [0, 0, 2], [0, 0, 4]],
            ),
            &[1; 4],
            &[[0, 4, 0], [0, 0, 0], [0, 0, 0], [0, 0, 0]],
        ),
    ]
}

/// A table under an order of it, and its planner's answer, worked out by hand. Clocks and
/// slacks are in slots and stand by row.
pub struct HandPlan {
    pub what: &'static str,
    pub table: Table,
    pub order: Order,
    /// Worst finishes.
    pub finishes: Vec<u32>,
    /// Promised moments, 0 for a row that promises nothing.
    pub moments: Vec<u32>,
    pub slacks: Vec<i64>,
    /// What the planner answers.
    pub plan: Plan,
}

/// Such a case in one line; each row has worst finish, promised moment and slack.
fn hand_plan(
    what: &'static str,
    table: Table,
    order: &[u8],
    rows: &[(u32, u32, i64)],
    plan: Plan,
) -> HandPlan {
    HandPlan {
        what,
        table,
        order: order_of(order),
        finishes: rows.iter().map(|row| row.0).collect(),
        moments: rows.iter().map(|row| row.1).collect(),
        slacks: rows.iter().map(|row| row.2).collect(),
        plan,
    }
}

/// A LO row of 4 work units with this deadline (slots) and promised part (work units),
/// alone. N is 2 and G is 1.
pub fn promising_preview(deadline: u32, promised: u32) -> Table {
    table(2, 1, &[[0, 4, deadline, 0, promised]])
}

/// Row 1 is LO, has time for its whole work at G alone, and is late below row 2, which
/// is HI. It promises so many of its 2 work units: with 2 its allowance is 2 slots, and
/// row 2 is late below it.
pub fn above_a_hi_row(promised: u32) -> Table {
    table(2, 1, &[[0, 2, 2, 0, promised], [0, 3, 4, 1, 0]])
}

/// Row 1 is LO and in time below row 2, which is HI, but gets no more than 1 of its 2
/// work units there by its deadline at G. So it stands above row 2 if it promises 2.
pub fn either_place(promised: u32) -> Table {
    table(2, 1, &[[0, 2, 4, 0, promised], [0, 3, 7, 1, 0]])
}

/// Two LO rows of 2 work units. Row 1 promises so many of them, and if that makes its
/// allowance 2 slots, row 2 below it has its own 2 work units a slot later at G.
pub fn above_a_promise(promised: u32) -> Table {
    table(2, 1, &[[0, 2, 2, 0, promised], [0, 2, 3, 0, 2]])
}

/// `cooler` with a promised part, in work units, of its LO row.
pub fn promising_cooler(degraded: u32, promised: u32) -> Table {
    let mut table = cooler(degraded);
    table.promised[1] = promised;
    table
}

/// Promises alone (rules 3.7 and 3.9): the promised part and its moment against
/// the deadline, with and without loading.
fn promises_of_one_row() -> Vec<HandPlan> {
    let (yes, no) = (ordered(&[1]), no_order(1));
    let alone = |what, table, row, plan| hand_plan(what, table, &[1], &[row], plan);
    vec![
        alone(
            "in time at N, and its promise fails",
            promising_preview(2, 3),
            (2, 3, -1),
            no,
        ),
        alone("no part promised", promising_preview(2, 0), (2, 0, 0), yes),
        alone("both slacks are 0", promising_preview(2, 2), (2, 2, 0), yes),
        alone("both slacks are 1", promising_preview(3, 2), (2, 2, 1), yes),
        alone(
            "the finish has the lesser slack",
            promising_preview(3, 1),
            (2, 1, 1),
            yes,
        ),
        alone(
            "kept at its deadline, and not a slot before",
            promising_preview(3, 3),
            (2, 3, 0),
            yes,
        ),
        alone("r = c, kept", promising_preview(4, 4), (2, 4, 0), yes),
        alone(
            "r = c, a slot short",
            promising_preview(3, 4),
            (2, 4, -1),
            no,
        ),
        alone(
            "K 1: loading counts in the promise too",
            promising_preview(4, 3).with_loading(1),
            (3, 4, 0),
            yes,
        ),
        alone(
            "K 1, a slot short",
            promising_preview(3, 3).with_loading(1),
            (3, 4, -1),
            no,
        ),
    ]
}

/// Promises beside other rows: what they take from a HI row and from another promise.
fn promises_of_several_rows() -> Vec<HandPlan> {
    let (plan, none) = (hand_plan, no_order(0b11));
    vec![
        plan(
            "r = 0 above a HI row",
            above_a_hi_row(0),
            &[1, 2],
            &[(1, 0, 1), (4, 0, 0)],
            ordered(&[1, 2]),
        ),
        plan(
            "a promise within the need at N takes no slot more",
            above_a_hi_row(1),
            &[1, 2],
            &[(1, 1, 1), (4, 0, 0)],
            ordered(&[1, 2]),
        ),
        plan(
            "a longer allowance, and the HI row below is late",
            above_a_hi_row(2),
            &[1, 2],
            &[(1, 2, 0), (5, 0, -1)],
            none,
        ),
        plan(
            "the other order of it",
            above_a_hi_row(2),
            &[2, 1],
            &[(3, 5, -3), (3, 0, 1)],
            none,
        ),
        plan(
            "K 1: the longer allowance has the loading too",
            table(2, 1, &[[0, 2, 3, 0, 2], [0, 3, 6, 1, 0]]).with_loading(1),
            &[1, 2],
            &[(2, 3, 0), (7, 0, -1)],
            none,
        ),
        plan(
            "r = 0 lets the LO row stand below",
            either_place(0),
            &[2, 1],
            &[(3, 0, 1), (3, 0, 4)],
            ordered(&[2, 1]),
        ),
        plan(
            "so does r = 1, with no slot to spare",
            either_place(1),
            &[2, 1],
            &[(3, 4, 0), (3, 0, 4)],
            ordered(&[2, 1]),
        ),
        plan(
            "r = c makes it stand above",
            either_place(2),
            &[1, 2],
            &[(1, 2, 2), (5, 0, 2)],
            ordered(&[1, 2]),
        ),
        plan(
            "below the HI row r = c fails",
            either_place(2),
            &[2, 1],
            &[(3, 5, -1), (3, 0, 4)],
            ordered(&[1, 2]),
        ),
        plan(
            "a promise below a LO row",
            above_a_promise(1),
            &[1, 2],
            &[(1, 1, 1), (2, 3, 0)],
            ordered(&[1, 2]),
        ),
        plan(
            "a promise below a LO row with a longer allowance",
            above_a_promise(2),
            &[1, 2],
            &[(1, 2, 0), (2, 4, -1)],
            none,
        ),
        plan(
            "kept in time, though the row is dropped too late at G",
            promise_at_deadline(),
            &[1, 2],
            &[(2, 0, 1), (5, 5, 0)],
            ordered(&[1, 2]),
        ),
        plan(
            "the largest promise at G 19 of the cooler's table",
            promising_cooler(19, 171),
            &[2, 1],
            &[(20, 0, 0), (9, 9, 9)],
            ordered(&[2, 1]),
        ),
        plan(
            "a work unit more takes a slot more",
            promising_cooler(19, 172),
            &[2, 1],
            &[(21, 0, -1), (9, 10, 8)],
            none,
        ),
    ]
}

/// Tables with promises and their planner's answers.
pub fn promises() -> Vec<HandPlan> {
    let mut cases = promises_of_one_row();
    cases.extend(promises_of_several_rows());
    cases
}

/// Runs in which a LO row has a longer allowance by its promise (rule 1.9). No LO row
/// is late in them, so that both rules of a slot make them.
pub fn promise_runs() -> Vec<HandRun> {
    let run = hand_run;
    let preview = |promised| promising_preview(20, promised);
    vec![
        run(
            "dropped with its allowance of 2 slots, r is 2",
            preview(2),
            &[1],
            vec![1; 4],
            &[1, 1, 0, 0],
            &[[2, 2, 2]],
        ),
        run(
            "dropped with its allowance of 3 slots, r is 3",
            preview(3),
            &[1],
            vec![1; 4],
            &[1, 1, 1, 0],
            &[[3, 3, 3]],
        ),
        run(
            "it is the slots that count, and not what they bring",
            preview(3),
            &[1],
            vec![0, 0, 0, 9],
            &[1, 1, 1, 0],
            &[[0, 3, 3]],
        ),
        run(
            "it goes on past its promised part",
            preview(3),
            &[1],
            vec![0, 3, 1],
            &[1, 1, 1],
            &[[4, 3, 3]],
        ),
        run(
            "r = c, and so it is done at G",
            preview(4),
            &[1],
            vec![1; 5],
            &[1, 1, 1, 1, 0],
            &[[4, 4, 4]],
        ),
        run(
            "K 2: dropped with its allowance of 2 + 3 slots",
            preview(3).with_loading(2),
            &[1],
            vec![1; 6],
            &[1, 1, 1, 1, 1, 0],
            &[[3, 5, 5]],
        ),
        run(
            "a longer allowance keeps a HI row waiting",
            above_a_hi_row(2),
            &[1, 2],
            vec![1; 5],
            &[1, 1, 2, 2, 2],
            &[[2, 2, 2], [3, 3, 5]],
        ),
    ]
}

/// Row 1 is HI, row 2 is LO and promises 3 of its 8 work units. The planner's order is
/// 1, 2, and neither slack of row 2 has a slot to spare.
pub fn promise_at_deadline() -> Table {
    table(2, 1, &[[0, 2, 3, 1, 0], [0, 8, 5, 0, 3]])
}

/// Runs of it: every slot before clock 5 supplies at least G, and row 2 has got 3 work
/// units at clock 5, whatever comes later (rule 9.18).
fn late_promise_runs() -> Vec<LateRun> {
    let run = |what, supplies, got| {
        let rows = &[1, 1, 2, 2, 2, 0, 0];
        let ends = &[[2, 2, 2], [got, 3, 5]];
        hand_run(what, promise_at_deadline(), &[1, 2], supplies, rows, ends)
    };
    let planned = &[1, 1, 2, 2, 2, 2, 0];
    vec![
        by_running_rule(
            run(
                "dropped for its deadline with its promised part, by its last slot",
                vec![1; 7],
                3,
            ),
            planned,
            &[[2, 2, 2], [4, 4, 6]],
        ),
        by_running_rule(
            run(
                "its promised part stays when no slot supplies any more",
                vec![1, 1, 1, 1, 1, 0, 0],
                3,
            ),
            planned,
            &[[2, 2, 2], [3, 4, 6]],
        ),
        by_running_rule(
            run(
                "a slot below G, and a work unit is missing",
                vec![1, 1, 1, 0, 1, 9, 9],
                2,
            ),
            planned,
            &[[2, 2, 2], [8, 4, 6]],
        ),
    ]
}

/// Tables with a promise, and the number that the checks on tables give them (rules 5.4,
/// 5.9 and 11.3).
pub fn checked_promises() -> Vec<(&'static str, Table, u32)> {
    let of = |rows: &[[u32; 5]]| table(2, 1, rows);
    let after_the_last = |promised| {
        let mut table = of(&[[0, 4, 2, 0, 4]]);
        table.promised[63] = promised;
        table
    };
    let outside = [4, 1, 4, 0, 0];
    vec![
        ("r = c", of(&[[0, 4, 2, 0, 4]]), 0),
        ("r above c", of(&[[0, 4, 2, 0, 5]]), 12),
        ("r far above c", of(&[[0, 4, 2, 0, 99_999_999]]), 12),
        ("HI with r = 0", of(&[[0, 4, 2, 1, 0]]), 0),
        ("HI with a promise", of(&[[0, 4, 2, 1, 1]]), 12),
        ("HI with r = c", of(&[[0, 4, 2, 1, 4]]), 12),
        ("in row 2", of(&[[0, 4, 2, 0, 4], [0, 4, 2, 0, 5]]), 12),
        (
            "12 before 5 in a later row",
            of(&[[0, 4, 2, 0, 5], outside]),
            5,
        ),
        (
            "12 after 5 in an earlier row",
            of(&[outside, [0, 4, 2, 0, 5]]),
            5,
        ),
        ("12 and 5 in one row", of(&[[0, 4, 2, 2, 5]]), 5),
        ("no work, and a promise", of(&[[0, 0, 2, 0, 1]]), 5),
        ("a promise after the last row", after_the_last(1), 5),
        ("none there", after_the_last(0), 0),
        (
            "11 comes first",
            of(&[[0, 4, 2, 0, 5]]).with_loading(17),
            11,
        ),
        ("so does 4", table(2, 3, &[[0, 4, 2, 1, 1]]), 4),
    ]
}

/// A least workable speed, worked out by hand.
pub struct LeastCase {
    pub what: &'static str,
    pub table: Table,
    pub sought: Sought,
    pub answer: Least,
}

/// The answer with this speed (work units per slot) and order, highest place first.
pub fn least_of(speed: u32, rows: &[u8]) -> Least {
    Least {
        number: 0,
        speed,
        order: order_of(rows),
    }
}

/// Row 1 is HI and has 20 slots for 200 work units, row 2 is LO and has 18 slots
/// for 180. N is 20, and at each G from 19 on the HI row fits below the LO row.
pub fn cooler(degraded: u32) -> Table {
    table(20, degraded, &[[0, 200, 20, 1], [0, 180, 18, 0]])
}

/// One row, released at 0 with a deadline of 1 slot.
fn one_slot(normal: u32, degraded: u32, work: u32, level: u32) -> Table {
    table(normal, degraded, &[[0, work, 1, level]])
}

/// The same speed sought in these tables, each with what it is answered.
fn sought_in(sought: Sought, cases: &[(&'static str, Table, Least)]) -> Vec<LeastCase> {
    let case = |&(what, table, answer): &(&'static str, Table, Least)| LeastCase {
        what,
        table,
        sought,
        answer,
    };
    cases.iter().map(case).collect()
}

/// Least workable speeds (section 18 of the rules): of P1 to P6, at both ends of
/// the range and past them, with loading, and of tables that are refused.
pub fn least_speeds() -> Vec<LeastCase> {
    let (at, none) = (least_of, Least::refused(7));
    let degraded = [
        ("G 18 is too slow and 19 is not", cooler(1), at(19, &[2, 1])),
        ("P1", p1(), at(2, &[1, 2, 3, 4])),
        (
            "P2 would do with less than its G",
            p2(),
            at(2, &[3, 1, 2, 4]),
        ),
        ("P3 has none with its own G", p3(), at(2, &[1, 2])),
        ("P4 has none with its own G", p4(), at(2, &[2, 1])),
        ("P5, a LO row alone", one_slot(3, 3, 3, 0), at(1, &[1])),
        ("P5 with 4 work units", one_slot(3, 3, 4, 0), none),
        ("P6", one_slot(2, 1, 2, 1), at(2, &[1])),
        ("1 is enough", one_slot(1_000, 1_000, 1, 1), at(1, &[1])),
        ("1 would do, 1 is N", one_slot(1, 1, 1, 1), at(1, &[1])),
        (
            "it has to be 2 of 1,000",
            one_slot(1_000, 1, 2, 1),
            at(2, &[1]),
        ),
        (
            "it has to be 999",
            one_slot(1_000, 1, 999, 1),
            at(999, &[1]),
        ),
        (
            "it has to be 1,000",
            one_slot(1_000, 1, 1_000, 1),
            at(1_000, &[1]),
        ),
        ("1,000 is too slow", one_slot(1_000, 1, 1_001, 1), none),
        ("N is too slow for a HI row", one_slot(7, 7, 8, 1), none),
        ("K 1", at_loading(1), at(1, &[1, 2])),
        ("K 2", at_loading(2), at(2, &[1, 2])),
        ("K 3", at_loading(3), none),
        ("G above N", cooler(21), Least::refused(4)),
        ("G of 0", cooler(0), Least::refused(4)),
    ];
    let normal = [
        ("with G 19 it is 20", cooler(19), at(20, &[2, 1])),
        (
            "with G 18 it is above its own N",
            cooler(18),
            at(23, &[1, 2]),
        ),
        ("P1", p1(), at(5, &[1, 2, 3, 4])),
        ("P2", p2(), at(4, &[3, 1, 2, 4])),
        ("P3 has none with its own N", p3(), at(4, &[2, 1])),
        ("P4 has none with its own N", p4(), at(3, &[1, 2])),
        ("P5", one_slot(3, 1, 3, 0), at(3, &[1])),
        ("P5 with 4 work units", one_slot(3, 1, 4, 0), at(4, &[1])),
        ("P6", one_slot(2, 2, 2, 1), at(2, &[1])),
        ("P6 with G 1", one_slot(2, 1, 2, 1), none),
        ("G is enough", one_slot(1_000, 1, 1, 0), at(1, &[1])),
        ("less than G would do", one_slot(9, 7, 3, 0), at(7, &[1])),
        ("it has to be G and 1", one_slot(9, 7, 8, 0), at(8, &[1])),
        ("it has to be 999", one_slot(1, 1, 999, 0), at(999, &[1])),
        (
            "it has to be 1,000",
            one_slot(1, 1, 1_000, 0),
            at(1_000, &[1]),
        ),
        ("1,000 is too slow", one_slot(1, 1, 1_001, 0), none),
        ("1,000 is G", one_slot(1_000, 1_000, 9, 0), at(1_000, &[1])),
        (
            "another order than at its own N",
            at_loading(0),
            at(1, &[1, 2]),
        ),
        ("K 1", at_loading(1), at(2, &[1, 2])),
        ("K 2", at_loading(2), none),
        ("N below G", cooler(21), Least::refused(4)),
        ("N of 1,001", one_slot(1_001, 1, 1, 0), Least::refused(4)),
    ];
    let (no_rows, no_work) = (Table { n: 0, ..p1() }, one_slot(2, 1, 0, 0));
    let loading_above = no_work.with_loading(17);
    let refused = [
        ("no rows", no_rows, Least::refused(3)),
        ("N of 0", Sought::Normal.put(&p1(), 0), Least::refused(4)),
        ("K 17, and no work", loading_above, Least::refused(11)),
        ("no work", no_work, Least::refused(5)),
    ];
    let mut cases = sought_in(Sought::Degraded, &degraded);
    cases.extend(sought_in(Sought::Normal, &normal));
    cases.extend(least_speeds_with_promises());
    cases.extend(waits::least_speeds_with_waits());
    cases.extend(
        BOTH.into_iter()
            .flat_map(|sought| sought_in(sought, &refused)),
    );
    cases
}

/// Least workable speeds of tables with promises, most of them of the cooler's.
fn least_speeds_with_promises() -> Vec<LeastCase> {
    let (at, none) = (least_of, Least::refused(7));
    let cooler = promising_cooler;
    let degraded = [
        (
            "r 171 fits into 9 slots at G 19",
            cooler(1, 171),
            at(19, &[2, 1]),
        ),
        ("r 172 needs G 20", cooler(1, 172), at(20, &[2, 1])),
        ("r = c needs G 20", cooler(19, 180), at(20, &[2, 1])),
        ("a preview with r = 0", promising_preview(2, 0), at(1, &[1])),
        (
            "a preview with a promise",
            promising_preview(2, 3),
            at(2, &[1]),
        ),
        ("r above c", cooler(1, 181), Least::refused(12)),
    ];
    let normal = [
        ("r 171 with G 19", cooler(19, 171), at(20, &[2, 1])),
        ("r 172 with G 19", cooler(19, 172), none),
        ("r 108 with G 18", cooler(18, 108), at(23, &[1, 2])),
        (
            "r 109 takes the other order",
            cooler(18, 109),
            at(23, &[2, 1]),
        ),
        ("r 144 with G 18", cooler(18, 144), at(23, &[2, 1])),
        ("r 145 with G 18", cooler(18, 145), none),
        ("no N keeps a promise at G", promising_preview(2, 3), none),
        ("r above c", cooler(19, 181), Least::refused(12)),
    ];
    let mut cases = sought_in(Sought::Degraded, &degraded);
    cases.extend(sought_in(Sought::Normal, &normal));
    cases
}

/// What the planning program writes for P1 (rule 13.10).
pub const P1_TEXT: &str = concat!(
    "       0       4\n",
    "       1       1       0\n",
    "       2       2       2\n",
    "       3       3       0\n",
    "       4       4       0\n",
);

/// Tables, an order of each, and their reports byte for byte (section 16 of the
/// rules). P1 is reported under the planner's order and from its last row up,
/// P3 under both of its orders. Then come single rows: the most slack that there
/// is, the last slack that is not late, and the first that is. Then tables that
/// load: one for 1 slot and for 2, P1 for 16. At last tables with promises, and one in
/// which a row follows another.
pub fn reports() -> [(Table, Order, &'static str); 13] {
    let alone = order_of(&[1]);
    [
        (
            p1(),
            order_of(&[1, 2, 3, 4]),
            concat!(
                "         1         1         4        10         0\n",
                "         2         2         3         8         2\n",
                "         3         3         3        19         0\n",
                "         4         4         1         5         0\n",
                "        11         0\n",
            ),
        ),
        (
            p1(),
            order_of(&[4, 3, 2, 1]),
            concat!(
                "         1         4         1         1         4\n",
                "         2         3         3        11         8\n",
                "         3         2         3        11        -1\n",
                "         4         1         4        20       -10\n",
                "        11         2\n",
            ),
        ),
        (
            p3(),
            order_of(&[1, 2]),
            concat!(
                "         1         1         1         1         1\n",
                "         2         2         2         5        -1\n",
                "         3         1\n",
            ),
        ),
        (
            p3(),
            order_of(&[2, 1]),
            concat!(
                "         1         2         2         4         0\n",
                "         2         1         1         3        -1\n",
                "         3         1\n",
            ),
        ),
        (
            table(1, 1, &[[0, 1, 1_000_000, 0]]),
            alone,
            concat!(
                "         1         1         1         1    999999\n",
                "         1         0\n",
            ),
        ),
        (
            table(10, 1, &[[3, 7, 10, 1]]),
            alone,
            concat!(
                "         1         1         1        10         0\n",
                "         1         0\n",
            ),
        ),
        (
            table(10, 1, &[[3, 7, 9, 1]]),
            alone,
            concat!(
                "         1         1         1        10        -1\n",
                "         1         1\n",
            ),
        ),
        (
            at_loading(1),
            order_of(&[1, 2]),
            concat!(
                "         1         1         2         2         2\n",
                "         2         2         3         7         0\n",
                "         5         0\n",
            ),
        ),
        (
            at_loading(2),
            order_of(&[1, 2]),
            concat!(
                "         1         1         3         3         1\n",
                "         2         2         4         9        -2\n",
                "         7         1\n",
            ),
        ),
        (
            p1().with_loading(16),
            order_of(&[1, 2, 3, 4]),
            concat!(
                "         1         1        20        26       -16\n",
                "         2         2        19        39       -29\n",
                "         3         3        19        67       -48\n",
                "         4         4        17        75       -70\n",
                "        75         4\n",
            ),
        ),
        (
            promising_preview(2, 3),
            alone,
            concat!(
                "         1         1         2         2        -1\n",
                "         2         1\n",
            ),
        ),
        (
            above_a_hi_row(2),
            order_of(&[2, 1]),
            concat!(
                "         1         2         2         3         1\n",
                "         2         1         1         3        -3\n",
                "         3         1\n",
            ),
        ),
        (
            waits::preempted(),
            order_of(&[3, 1, 2]),
            concat!(
                "         1         3         2         3         1\n",
                "         2         1         3         5         4\n",
                "         3         2         1         6         3\n",
                "         6         0\n",
            ),
        ),
    ]
}
