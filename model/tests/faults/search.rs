//! The search for the smallest table on which a planner differs from the true one.
//!
//! A table is smaller than another if it has fewer rows, or as many and a lower
//! sum of all its figures (N, G, K, and every a, c, d, level, r and w). All tables without
//! promises and waits up to the sums in `TRIED` are tried in this sequence, and of those
//! with the same sum the ones with less loading first. Faults that need a promise are
//! looked for among all tables without waits up to the sums in `TRIED_PROMISING`, and those
//! that need a wait among all without promises up to the sums in `TRIED_WAITING`.

use crate::planners::Planner;
use model::cases::HandPlan;
use model::order::check_order;
use model::plan::{plan, slack, Plan};
use model::table::{
    check_table, check_wait, promise_is_within_limit, Row, Table, MOST_LOADING, ROWS,
};

/// How a faulty answer differs from the true one.
#[derive(Clone, Copy, Debug, PartialEq, Eq)]
pub enum Kind {
    /// 0 though no correct order exists.
    AnswersWronglyAnOrder,
    /// 7 though a correct order exists.
    RefusesWrongly,
    /// Both 0, another order that is correct too.
    OtherCorrectOrder,
    /// Both 0, an order that is not correct, or none because it breaks a wait.
    OtherIncorrectOrder,
    /// Both 7, other rows left.
    OtherRowsLeft,
}

pub const KINDS: [Kind; 5] = [
    Kind::AnswersWronglyAnOrder,
    Kind::RefusesWrongly,
    Kind::OtherIncorrectOrder,
    Kind::OtherCorrectOrder,
    Kind::OtherRowsLeft,
];

/// How these two answers to a table differ, if they do.
pub fn difference(table: &Table, truth: &Plan, faulty: &Plan) -> Option<Kind> {
    if truth == faulty {
        return None;
    }
    let is_in_time = |row| slack(table, &faulty.order, row) >= 0;
    let is_correct =
        || check_order(table, &faulty.order) == 0 && (1..=table.n as u8).all(is_in_time);
    Some(match (truth.number, faulty.number) {
        (7, 0) => Kind::AnswersWronglyAnOrder,
        (0, 7) => Kind::RefusesWrongly,
        (7, 7) => Kind::OtherRowsLeft,
        _ if is_correct() => Kind::OtherCorrectOrder,
        _ => Kind::OtherIncorrectOrder,
    })
}

/// Calls `visit` with every accepted table of n rows whose figures sum to `sum`.
pub fn every_table(n: u32, sum: u32, visit: &mut dyn FnMut(&Table)) {
    for loading in 0..=sum.min(MOST_LOADING) {
        every_table_without_loading(n, sum - loading, &mut |table| {
            visit(&table.with_loading(loading));
        });
    }
}

/// Calls `visit` with each that has a loading time of 0 slots.
pub fn every_table_without_loading(n: u32, sum: u32, visit: &mut dyn FnMut(Table)) {
    for normal in 1..=sum {
        for degraded in 1..=normal.min(sum - normal) {
            let of_rows = sum - normal - degraded;
            every_list_of_rows(n, of_rows, &mut Vec::new(), &mut |rows| {
                visit(Table::of(normal, degraded, 0, rows));
            });
        }
    }
}

/// Calls `visit` with `rows` followed by n more rows whose figures sum to `sum`.
pub fn every_list_of_rows(n: u32, sum: u32, rows: &mut Vec<Row>, visit: &mut dyn FnMut(&[Row])) {
    if n == 0 {
        if sum == 0 {
            visit(rows);
        }
        return;
    }
    for of_row in 0..=sum {
        every_row(of_row, &mut |row| {
            rows.push(row);
            every_list_of_rows(n - 1, sum - of_row, rows, visit);
            rows.pop();
        });
    }
}

/// Calls `visit` with every row within its limits whose figures sum to `sum`.
pub fn every_row(sum: u32, visit: &mut dyn FnMut(Row)) {
    for level in 0..=sum.min(1) {
        for deadline in 1..=sum - level {
            for release in 0..deadline.min(sum - level - deadline) {
                let work = sum - level - deadline - release;
                visit(Row {
                    release,
                    work,
                    deadline,
                    level,
                    promised: 0,
                    follows: 0,
                });
            }
        }
    }
}

/// Calls `visit` with every accepted table of n rows whose figures sum to `sum`, their
/// promised parts among them.
pub fn every_promising_table(n: u32, sum: u32, visit: &mut dyn FnMut(&Table)) {
    every_table_with(&PROMISES, n, sum, visit);
}

/// The same with waits in the place of promised parts.
pub fn every_waiting_table(n: u32, sum: u32, visit: &mut dyn FnMut(&Table)) {
    every_table_with(&WAITS, n, sum, visit);
}

/// A column of figures that every other table lacks, and which of them a row may have.
struct Column {
    of: fn(&mut Table) -> &mut [u32; ROWS],
    is_fine: fn(&Table, u8) -> bool,
}

const PROMISES: Column = Column {
    of: |table| &mut table.promised,
    is_fine: |table, row| promise_is_within_limit(&table.row(row)),
};

const WAITS: Column = Column {
    of: |table| &mut table.follows,
    is_fine: |table, row| check_wait(table, row) == 0,
};

/// Calls `visit` with every accepted table of n rows whose figures sum to `sum`, those of
/// this column among them.
fn every_table_with(column: &Column, n: u32, sum: u32, visit: &mut dyn FnMut(&Table)) {
    for in_column in 0..=sum {
        every_table(n, sum - in_column, &mut |table| {
            every_entry(column, *table, 1, in_column, visit);
        });
    }
}

/// Calls `visit` with the table in which the rows from this one on have figures in this
/// column that sum to `sum`.
fn every_entry(
    column: &Column,
    mut table: Table,
    row: u8,
    sum: u32,
    visit: &mut dyn FnMut(&Table),
) {
    if u32::from(row) > table.n {
        if sum == 0 {
            visit(&table);
        }
        return;
    }
    for figure in 0..=sum {
        (column.of)(&mut table)[row as usize - 1] = figure;
        if (column.is_fine)(&table, row) {
            every_entry(column, table, row + 1, sum - figure, visit);
        }
    }
}

/// The largest sum of figures tried for each row count, in the sequence tried.
pub const TRIED: [(u32, u32); 3] = [(1, 16), (2, 18), (3, 15)];

/// The same for tables that may have promises.
pub const TRIED_PROMISING: [(u32, u32); 2] = [(1, 14), (2, 15)];

/// The same for tables that may have waits.
pub const TRIED_WAITING: [(u32, u32); 2] = [(2, 15), (3, 15)];

/// A table on which a planner with a fault differs from the true one.
pub struct Witness {
    pub table: Table,
    pub truth: Plan,
    pub faulty: Plan,
}

/// The smallest table on which this planner differs from the true one in one of
/// these kinds, among the tables tried.
pub fn smallest(planner: &Planner, kinds: &[Kind]) -> Option<Witness> {
    smallest_by(first_of, planner, kinds)
}

/// The same among the tables with promises that are tried.
pub fn smallest_promising(planner: &Planner, kinds: &[Kind]) -> Option<Witness> {
    smallest_by(first_promising_of, planner, kinds)
}

/// The same among the tables with waits that are tried.
pub fn smallest_waiting(planner: &Planner, kinds: &[Kind]) -> Option<Witness> {
    smallest_by(first_waiting_of, planner, kinds)
}

/// A search for the smallest table.
pub type FirstOf<Found> = fn(&dyn Fn(&Table) -> Option<Found>) -> Option<Found>;

fn smallest_by(
    first_of: FirstOf<(Kind, Witness)>,
    planner: &Planner,
    kinds: &[Kind],
) -> Option<Witness> {
    let of_kind = |table: &Table| witness(planner, table).filter(|(kind, _)| kinds.contains(kind));
    let (kind, witness) = first_of(&of_kind)?;
    print(planner, kind, &witness);
    Some(witness)
}

/// What `found` makes of the smallest table of which it makes anything, among the
/// tables tried.
pub fn first_of<Found>(found: &dyn Fn(&Table) -> Option<Found>) -> Option<Found> {
    first_in(&TRIED, every_table, found)
}

/// The same among the tables with promises that are tried.
pub fn first_promising_of<Found>(found: &dyn Fn(&Table) -> Option<Found>) -> Option<Found> {
    first_in(&TRIED_PROMISING, every_promising_table, found)
}

/// The same among the tables with waits that are tried.
pub fn first_waiting_of<Found>(found: &dyn Fn(&Table) -> Option<Found>) -> Option<Found> {
    first_in(&TRIED_WAITING, every_waiting_table, found)
}

/// Calls a visitor with every table of so many rows and of this sum of figures.
type EveryTable = fn(u32, u32, &mut dyn FnMut(&Table));

fn first_in<Found>(
    tried: &[(u32, u32)],
    every_table: EveryTable,
    found: &dyn Fn(&Table) -> Option<Found>,
) -> Option<Found> {
    let mut first = None;
    for &(n, most) in tried {
        for sum in 0..=most {
            every_table(n, sum, &mut |table| {
                if first.is_none() {
                    first = found(table);
                }
            });
            if first.is_some() {
                return first;
            }
        }
    }
    None
}

/// How this planner differs from the true one on this table, if it does.
pub fn witness(planner: &Planner, table: &Table) -> Option<(Kind, Witness)> {
    let (truth, faulty) = (plan(table), planner.plan(table));
    let kind = difference(table, &truth, &faulty)?;
    let witness = Witness {
        table: *table,
        truth,
        faulty,
    };
    Some((kind, witness))
}

pub fn print(planner: &Planner, kind: Kind, witness: &Witness) {
    let table = &witness.table;
    let mut text = format!("{}\n  {kind:?}\n  {}", planner.name, figures(table));
    for (name, answer) in [("true", &witness.truth), ("faulty", &witness.faulty)] {
        let order = &answer.order[..table.n as usize];
        let (number, left) = (answer.number, answer.left);
        text += &format!("\n  {name}: {number}, order {order:?}, rows left {left:#b}");
    }
    println!("{text}");
}

/// The figures of a table, as they are printed.
pub fn figures(table: &Table) -> String {
    let (normal, degraded, loading) = (table.normal, table.degraded, table.loading);
    let mut text = format!("N {normal}, G {degraded}, K {loading}, rows");
    for job in table.rows() {
        let figures = job.figures().map(|figure| figure.to_string());
        text += &format!(" ({})", figures.join(" "));
    }
    text
}

/// The smallest witness of these kinds that `smallest` finds for this planner is this table
/// with these two answers.
pub fn expect_by(
    smallest: fn(&Planner, &[Kind]) -> Option<Witness>,
    planner: &Planner,
    kinds: &[Kind],
    table: Table,
    truth: Plan,
    faulty: Plan,
) {
    let found = smallest(planner, kinds).expect(planner.name);
    assert_eq!(found.table, table, "{}", planner.name);
    assert_eq!(found.truth, truth, "{}", planner.name);
    assert_eq!(found.faulty, faulty, "{}", planner.name);
}

/// Of the cases worked out by hand the first whose planner's answer tells each planner is
/// the one named; and so do at least so many of the random tables.
pub fn assert_told(
    expected: &[(&Planner, &str)],
    cases: &[HandPlan],
    tables: &[Table],
    least: usize,
) {
    for (planner, first) in expected {
        let tells = |table: &Table| witness(planner, table).is_some();
        let told = cases.iter().filter(|case| tells(&case.table));
        let told: Vec<&str> = told.map(|case| case.what).collect();
        let count = tables.iter().filter(|table| tells(table)).count();
        println!("{}: {} cases, {count} tables", planner.name, told.len());
        assert_eq!(told.first(), Some(first), "{}", planner.name);
        assert!(count >= least, "{}: {count} tables", planner.name);
    }
}

/// The cases that tell this check from the true one, which gives them their numbers.
pub fn told_by_cases(
    cases: Vec<(&'static str, Table, u32)>,
    check: impl Fn(&Table) -> u32,
) -> Vec<&'static str> {
    let told = cases.into_iter().filter(|(_, table, number)| {
        assert_eq!(check_table(table), *number);
        check(table) != *number
    });
    told.map(|(what, ..)| what).collect()
}
