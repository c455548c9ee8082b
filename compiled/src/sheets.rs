//! Tables on which the planner has little or much to do, and random tables on
//! which both of its answers are common.

use model::cases::row;
use model::order::{order_of, Order};
use model::plain;
use model::random::{random_order, table_of_rows_in, Random, Ranges};
use model::table::{Row, Table, HI, LO, ROWS};

/// `easy_loading` without loading.
pub fn easy(n: u32) -> Table {
    easy_loading(n, 0)
}

/// Rows that pass at their first trial: LO rows of one slot after their loading
/// time (slots), each with time enough for all.
pub fn easy_loading(n: u32, loading: u32) -> Table {
    let row = |index| row([0, 5, (n + index) * (loading + 1), LO]);
    let rows: Vec<Row> = (0..n).map(row).collect();
    Table::of(5, 2, loading, &rows)
}

/// A chain: LO rows as those of `easy_loading`, each of which follows the one before it.
/// The first has the latest deadline, and so on, so that at each place all rows left are
/// skipped but the last, which passes.
pub fn chain(n: u32, loading: u32) -> Table {
    let row = |index| row([0, 5, (2 * n - index) * (loading + 1), LO, 0, index]);
    let rows: Vec<Row> = (0..n).map(row).collect();
    Table::of(5, 2, loading, &rows)
}

/// `hard_loading` without loading.
pub fn hard(n: u32) -> Table {
    hard_loading(n, 0)
}

/// Rows of which few pass (n is a multiple of 4). In each group three LO rows of
/// one slot after their loading time (slots) just fit if their HI row stands below
/// them, and the groups follow each other in time: each is a busy period of its own,
/// at both speeds. As long as the HI row of a group waits, its LO rows are late
/// wherever they are tried. The HI row of the first group has the latest deadline, so
/// the first group is placed first, each of its rows after the LO rows of all other
/// groups have been tried and failed.
pub fn hard_loading(n: u32, loading: u32) -> Table {
    let mut rows = Vec::new();
    for group in 0..n / 4 {
        let release = 8 * group * (loading + 1);
        let low = |place| row([release, 5, release + place * (loading + 1), LO]);
        rows.extend([low(1), low(2), low(3)]);
        rows.push(row([release, 5, 10_000 - group, HI]));
    }
    Table::of(5, 2, loading, &rows)
}

/// `hard_loading` in which the second LO row of a group follows the first and the third the
/// second, as they stand in a correct order: one of three is tried, and fails as often.
pub fn grouped(n: u32, loading: u32) -> Table {
    let mut table = hard_loading(n, loading);
    for index in 0..n {
        if matches!(index % 4, 1 | 2) {
            table.follows[index as usize] = index;
        }
    }
    table
}

/// The table with a promise of one slot at G, or of the whole work if that is less, for
/// each LO row. Their allowances are those without promises, and so are all worst
/// finishes.
pub fn promising(table: &Table) -> Table {
    let mut promising = *table;
    for index in 0..table.n as usize {
        if table.level[index] == LO {
            promising.promised[index] = table.degraded.min(table.work[index]);
        }
    }
    promising
}

/// `hard_loading` with LO rows that are all in time below their HI row, but promise one
/// slot's work at G, which they do not have in time there. So they fail as often, and
/// for their promises alone.
pub fn late_promises(n: u32, loading: u32) -> Table {
    let mut table = promising(&hard_loading(n, loading));
    for index in 0..n as usize {
        if table.level[index] == LO {
            table.deadline[index] = table.release[index] + 4 * (loading + 1);
        }
    }
    table
}

/// Rows in one busy period, at either speed and at every place. Every other one is a
/// LO row of one slot after its loading time (slots), the rest are HI rows of one slot
/// at N and three at G. Two of each are released at every multiple of the time that a
/// LO row takes. The k-th LO row has time for k LO rows, so that none of them is in
/// time before the last HI row, which all have time, is placed. No table in one busy
/// period takes more trials, n * n / 4 + n for an even n: whichever of its rows stands
/// lowest finishes when it ends, and so the row of a level that is tried first fails
/// only if they all do.
pub fn one_period(n: u32, loading: u32) -> Table {
    let row = |index: u32| {
        let (number, is_low) = (index / 2, index % 2 == 1);
        let (deadline, level) = if is_low {
            ((number + 1) * (loading + 1), LO)
        } else {
            (10_000 - number, HI)
        };
        row([number / 2 * (loading + 1), 5, deadline, level])
    };
    let rows: Vec<Row> = (0..n).map(row).collect();
    Table::of(5, 2, loading, &rows)
}

/// Rows that are released one after another, 2 slots and a loading time (slots) apart,
/// so that busy periods break and join as rows are placed. At N they take 3, 2, 2, 2,
/// 2, 2, 2 and 1 slots in turn after loading: eight of them fill the time until the
/// next is released, and their busy period ends just there. Every third row is HI and
/// takes 1 or 2 slots more at G, where all rows are in one busy period at first. No
/// deadline leaves a slot to spare under the order in which the row released first
/// stands lowest, then the last, the second, the last but one and so on; so that order
/// is correct. In the table every other row comes first.
pub fn staggered(n: u32, loading: u32) -> Table {
    let turns: Vec<u32> = (0..n).step_by(2).chain((1..n).step_by(2)).collect();
    let row = |&turn: &u32| {
        let work = 10 * [3, 2, 2, 2, 2, 2, 2, 1][turn as usize % 8];
        let level = if turn % 3 == 2 { HI } else { LO };
        row([turn * (2 + loading), work, 1_000_000, level])
    };
    let rows: Vec<Row> = turns.iter().map(row).collect();
    let table = Table::of(10, 7, loading, &rows);
    let mut places: Vec<u8> = (1..=n as u8).collect();
    places.sort_by_key(|&row| {
        let turn = turns[row as usize - 1];
        std::cmp::Reverse((2 * turn).min(2 * (n - 1 - turn) + 1))
    });
    without_slack(&table, &order_of(&places))
}

/// The table with deadlines under which every row's slack is 0 slots in this order.
pub fn without_slack(table: &Table, order: &Order) -> Table {
    let (number, slacks) = plain::slacks(table, order);
    assert_eq!(number, 0, "the table and the order are accepted");
    let mut tight = *table;
    for (deadline, slack) in tight.deadline.iter_mut().zip(slacks) {
        let moved = i64::from(*deadline) - slack;
        *deadline = u32::try_from(moved).expect("no row is through before slot 0");
    }
    tight
}

/// A hard table with the longest range of speeds, N of 1,000 and G of 1 work unit per
/// slot. Its LO rows have this much work and just fit if that is one slot each at N;
/// so has its last HI row, with this much work, at G. All other HI rows have time.
pub fn hard_at(n: u32, low: u32, high: u32) -> Table {
    let mut table = Table {
        normal: 1_000,
        degraded: 1,
        ..hard(n)
    };
    for index in 0..n as usize {
        if table.level[index] == LO {
            table.work[index] = low;
        } else {
            table.work[index] = high;
            table.deadline[index] += 900_000;
        }
    }
    let last = n as usize - 1;
    table.deadline[last] = table.release[last] + 4;
    table
}

/// An easy table with the longest range of speeds, whose rows at this level have this
/// much work each and fit if that is one slot, and not if it is two.
pub fn easy_at(n: u32, level: u32, work: u32) -> Table {
    let mut table = easy(n);
    (table.normal, table.degraded) = (1_000, 1);
    table.level[..n as usize].fill(level);
    table.work[..n as usize].fill(work);
    table
}

/// A table of n rows whose deadlines leave no slack under a random order, or
/// a little, so that it just has a correct order; then, once
/// in two times, one deadline is moved forward, so that it often has none.
pub fn tight(random: &mut Random, n: u32, ranges: Ranges) -> Table {
    let table = table_of_rows_in(random, n, ranges);
    tightened(random, &table)
}

/// This accepted table with such deadlines.
pub fn tightened(random: &mut Random, table: &Table) -> Table {
    let n = table.n;
    let mut table = without_slack(table, &random_order(random, table));
    let spare = random.between(0, 3);
    for deadline in &mut table.deadline[..n as usize] {
        *deadline += random.between(0, spare);
    }
    if random.once_in(2) {
        let index = random.between(0, n - 1) as usize;
        let earliest = table.release[index] + 1;
        let moved = table.deadline[index].saturating_sub(random.between(1, 4));
        table.deadline[index] = moved.max(earliest);
    }
    table
}

/// Sixty-four rows of the largest work at speed 1, all released at `release`;
/// the k-th place finishes at release + k × 1,000,000 slots, or with a loading
/// time K at release + k × (K + 1,000,000) slots.
pub fn largest(release: u32) -> Table {
    let row = row([release, 1_000_000, 1_000_000, HI]);
    Table::of(1, 1, 0, &[row; ROWS])
}

/// Sixty-four LO rows that all have time until the last deadline, every other
/// one released later than the one before it.
pub fn longest_windows() -> Table {
    let row = |index: u32| row([1_000 * (index / 2), 1_000 + index, 1_000_000, LO]);
    let rows: Vec<Row> = (0..ROWS as u32).map(row).collect();
    Table::of(7, 3, 0, &rows)
}
