//! Tables by their busy periods: rows that are released while others run, just when
//! these are done or a slot later, at N and at G; and tables with many ties.

use compiled::sheets::tightened;
use model::cases::row;
use model::random::{loading, promise, with_promises, with_waits, Random};
use model::table::{allowance, need, Row, Table, HI, LATEST_DEADLINE, LO};

/// Where a row is released: at the end, at N (0) or at G (1), of the busy period of all
/// rows before it, or so many slots after that.
pub type Joint = (usize, i64);

/// Before the end at N, and so at G, whatever it is.
pub const IN_ONE_PERIOD: [Joint; 3] = [(0, -1), (0, -2), (0, -3)];

/// A slot before the end at either speed, at it, and a slot after it.
pub const ABOUT_THE_END: [Joint; 6] = [(0, -1), (0, 0), (0, 1), (1, -1), (1, 0), (1, 1)];

/// A table of n rows and how many slots after the end of the busy period before it, at
/// N and at G, each row but the first was released: below 0 if it joins that period.
pub struct Joined {
    pub table: Table,
    pub gaps: Vec<[i64; 2]>,
}

/// A table whose rows are released by these joints, one drawn for each, and have
/// deadlines with which 0 and 7 are both likely. Its rows stand in any sequence.
pub fn joined(random: &mut Random, n: u32, joints: &[Joint]) -> Joined {
    let normal = random.between(1, 5);
    let degraded = random.between(1, normal);
    let loading = loading(random);
    let (mut rows, mut gaps) = (Vec::new(), Vec::new());
    let (mut ends, mut release) = ([0, 0], 0);
    let promises = random.once_in(2);
    for _ in 0..n {
        let (speed, gap) = random.one_of(joints);
        release = release.max(ends[speed] + gap);
        gaps.push(ends.map(|end| release - end));
        let (work, level) = (random.between(1, 3 * normal), random.one_of(&[LO, HI]));
        let promised = if promises {
            promise(random, work, level)
        } else {
            0
        };
        let row = row([release as u32, work, LATEST_DEADLINE, level, promised]);
        let alone = Table::of(normal, degraded, loading, &[row]);
        ends = [0, 1].map(|speed| release.max(ends[speed]) + taken(&alone)[speed]);
        rows.push(row);
    }
    let table = Table::of(normal, degraded, loading, &random.shuffled(&rows));
    let waiting = with_waits(random, &table);
    Joined {
        table: tightened(random, &waiting),
        gaps: gaps.split_off(1),
    }
}

/// The slots that the only row of a table takes at N and at G.
fn taken(alone: &Table) -> [i64; 2] {
    let at_degraded = if alone.level[0] == LO {
        allowance(alone, 1)
    } else {
        need(alone, 1, alone.degraded)
    };
    [need(alone, 1, alone.normal), at_degraded].map(i64::from)
}

/// A table of n rows with few different releases, works and deadlines, on which 0 and 7
/// are both likely.
pub fn tied(random: &mut Random, n: u32) -> Table {
    let normal = random.between(1, 5);
    let degraded = random.between(1, normal);
    let span = random.between(1, 3 * n);
    let row = |random: &mut Random| {
        let release = random.one_of(&[0, 0, span]);
        let work = random.one_of(&[1, normal, 2 * normal]);
        let level = random.one_of(&[LO, LO, HI]);
        row([release, work, LATEST_DEADLINE, level])
    };
    let rows: Vec<Row> = (0..n).map(|_| row(random)).collect();
    let table = Table::of(normal, degraded, loading(random), &rows);
    let promising = with_promises(random, &table);
    let waiting = with_waits(random, &promising);
    let tight = tightened(random, &waiting);
    with_steps(random, &tight)
}

/// The table with every deadline put off to the next multiple of so many slots, and
/// once in two times all of one deadline moved forward by as many.
fn with_steps(random: &mut Random, table: &Table) -> Table {
    let mut stepped = *table;
    let n = table.n as usize;
    let step = random.one_of(&[4, 16, 64]);
    for deadline in &mut stepped.deadline[..n] {
        *deadline = deadline.next_multiple_of(step);
    }
    if random.once_in(2) {
        let moved = random.one_of(&stepped.deadline[..n]);
        for (deadline, &release) in stepped.deadline.iter_mut().zip(&table.release).take(n) {
            if *deadline == moved && *deadline > release + step {
                *deadline -= step;
            }
        }
    }
    stepped
}

/// The rows of a table that have release, deadline and level of another row.
pub fn ties(table: &Table) -> usize {
    let keys: Vec<[u32; 3]> = table
        .rows()
        .iter()
        .map(|row| [row.release, row.deadline, row.level])
        .collect();
    let is_tied = |key: &&[u32; 3]| keys.iter().filter(|other| other == key).count() > 1;
    keys.iter().filter(is_tied).count()
}
