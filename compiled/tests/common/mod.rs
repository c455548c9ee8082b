//! What several test files share: tallies of answers and of loading times, tables,
//! orders, supplies, lent bytes.
#![allow(dead_code)]

pub mod periods;
pub mod planning;
pub mod proposals;
pub mod records;
pub mod sheets;

use compiled::raw;
use compiled::sheets::tight;
use model::cases::row;
use model::order::{check_order, Order, NO_ORDER};
use model::random::{
    random_order, spoil_promise, spoil_wait, table_in, with_promises, with_waits, Random, Ranges,
};
use model::sheet::write_sheet;
use model::table::{Row, Table, MOST_LOADING, ROWS};
use std::collections::BTreeMap;
use std::fmt::Debug;

/// Counts how often each kind of case came up, so that a test can show that it
/// looked at all of them. It prints its counts when the test ends.
pub struct Tally<Kind: Ord + Debug> {
    of: &'static str,
    seen: BTreeMap<Kind, u64>,
}

impl<Kind: Ord + Debug> Tally<Kind> {
    pub fn new(of: &'static str) -> Self {
        let seen = BTreeMap::new();
        Tally { of, seen }
    }

    pub fn saw(&mut self, kind: Kind) {
        *self.seen.entry(kind).or_insert(0) += 1;
    }

    /// Fails unless each of these came up `least` times.
    pub fn assert_common(&self, kinds: &[Kind], least: u64) {
        for kind in kinds {
            let times = self.seen.get(kind).copied().unwrap_or(0);
            assert!(times >= least, "{}: {kind:?} only {times} times", self.of);
        }
    }

    /// Fails unless these came up, and no other ones.
    pub fn assert_only(&self, kinds: &[Kind]) {
        let seen: Vec<&Kind> = self.seen.keys().collect();
        let expected: Vec<&Kind> = kinds.iter().collect();
        assert_eq!(seen, expected, "{}", self.of);
    }
}

impl<Kind: Ord + Debug> Drop for Tally<Kind> {
    fn drop(&mut self) {
        let total: u64 = self.seen.values().sum();
        println!("{}: {total} cases, by answer {:?}", self.of, self.seen);
    }
}

/// Counts how often each loading time came up where nothing was refused, so that a
/// test can show that it looked at all of them.
pub struct Loadings(Tally<u32>);

impl Loadings {
    pub fn new(of: &'static str) -> Loadings {
        Loadings(Tally::new(of))
    }

    /// Counts a table's loading time if the call's number, 0 or 7, rests on it.
    pub fn saw(&mut self, number: u32, table: &Table) {
        if number == 0 || number == 7 {
            self.0.saw(table.loading);
        }
    }

    /// Fails unless each loading time from 0 to 16 slots came up `least` times.
    pub fn assert_every(&self, least: u64) {
        let all: Vec<u32> = (0..=MOST_LOADING).collect();
        self.0.assert_common(&all, least);
    }
}

/// Counts tables by whether a row promises a part and whether one follows another, where
/// nothing was refused, so that a test can show that it looked at all four kinds.
pub struct Kinds(Tally<(bool, bool)>);

impl Kinds {
    pub fn new(of: &'static str) -> Kinds {
        Kinds(Tally::new(of))
    }

    /// Counts a table if the call's number, 0 or 7, rests on it.
    pub fn saw(&mut self, number: u32, table: &Table) {
        if number == 0 || number == 7 {
            let is_used = |column: &[u32; ROWS]| *column != [0; ROWS];
            self.0
                .saw((is_used(&table.promised), is_used(&table.follows)));
        }
    }

    /// Fails unless tables with promises, with waits, with both and with neither came up
    /// `least` times each.
    pub fn assert_all(&self, least: u64) {
        let promising = [true, false].map(|promises| [(promises, true), (promises, false)]);
        self.0.assert_common(&promising.concat(), least);
    }
}

/// Bytes that neither a sheet nor a report has, each other than its neighbours.
pub fn rubbish(length: usize) -> Vec<u8> {
    (0..length).map(|index| 128 | index as u8).collect()
}

/// Tables that `for_each_small_table` calls `with` on.
pub const SMALL_TABLES: u64 = 2 * 239_940;

/// Calls `with` on every table of one to three rows whose figures come from a
/// small grid, some with an order and some with none: each without loading, promises and
/// waits, and then with one of the other loading times, which take turns, and with random
/// promises and waits or none.
pub fn for_each_small_table(mut with: impl FnMut(&Table)) {
    let grid = grid_rows();
    let mut random = Random::seeded(99);
    let mut loading = 0;
    let mut with_and_without = |table: Table| {
        with(&table);
        loading = 1 + loading % MOST_LOADING;
        let loads = with_time_to_load(&table, loading);
        let promising = with_promises(&mut random, &loads);
        with(&with_waits(&mut random, &promising));
    };
    for [normal, degraded] in [[1, 1], [2, 1], [2, 2], [3, 1], [3, 2]] {
        for &first in &grid {
            with_and_without(Table::of(normal, degraded, 0, &[first]));
            for &second in &grid {
                with_and_without(Table::of(normal, degraded, 0, &[first, second]));
                for &third in &grid {
                    with_and_without(Table::of(normal, degraded, 0, &[first, second, third]));
                }
            }
        }
    }
}

/// The table with this loading time, in slots; row i has time for i rows to load.
fn with_time_to_load(table: &Table, loading: u32) -> Table {
    let mut loads = table.with_loading(loading);
    let rows = (1..).zip(&mut loads.deadline).take(table.n as usize);
    for (row, deadline) in rows {
        *deadline += row * loading;
    }
    loads
}

fn grid_rows() -> Vec<Row> {
    let mut rows = Vec::new();
    for release in [0, 2] {
        for work in [1, 3, 4] {
            for window in [2, 4, 7] {
                for level in [0, 1] {
                    rows.push(row([release, work, release + window, level]));
                }
            }
        }
    }
    rows
}

/// Calls `with` on the figures of a row that follows none, at both levels, where release,
/// work and deadline are every one of 0, 1, 9, 10, 99, 100 and so on up to 1,000,000. The
/// promised part is 0, and then each of these in turn.
pub fn for_each_length_of_figures(mut with: impl FnMut([u32; 5])) {
    let powers = (0..=6).map(|digits| 10u32.pow(digits));
    let figures: Vec<u32> = powers.flat_map(|power| [power - 1, power]).collect();
    let mut promises = figures.iter().cycle();
    for &release in &figures {
        for &work in &figures {
            for &deadline in &figures {
                for level in [0, 1] {
                    with([release, work, deadline, level, 0]);
                    let promised = *promises.next().expect("there are always more");
                    with([release, work, deadline, level, promised]);
                }
            }
        }
    }
}

/// Calls `with` on this table with each of its words, those after the last row
/// too, changed to figures at and past the limits.
pub fn for_each_word_changed(table: &Table, mut with: impl FnMut(&Table)) {
    let figures = [
        0,
        1,
        2,
        4,
        16,
        17,
        64,
        65,
        1_000,
        1_001,
        1_000_000,
        1_000_001,
        u32::MAX,
    ];
    let words = raw::table_words(table);
    for index in 0..words.len() {
        for figure in figures {
            let mut changed = words;
            changed[index] = figure;
            with(&raw::table_of(&changed));
        }
    }
}

/// Figures for tables that the model plans quickly.
pub const SMALL: Ranges = Ranges {
    rows: 6,
    speed: 4,
    release: 8,
    need: 3,
    window: 14,
};

/// Figures for large tables with busy and idle times; `tight` sets deadlines.
pub const LARGE: Ranges = Ranges {
    rows: 64,
    speed: 1_000,
    release: 150,
    need: 6,
    window: 1,
};

/// Figures of tables of up to 64 rows that the model can still work.
pub const MODEL_LARGE: Ranges = Ranges {
    rows: 64,
    speed: 5,
    release: 60,
    need: 2,
    window: 1,
};

/// Figures near the limits, as far as a random order's finishes allow.
pub const WIDE: Ranges = Ranges {
    rows: 64,
    speed: 1_000,
    release: 600_000,
    need: 900,
    window: 1,
};

/// A small accepted table with random deadlines.
pub fn small_table(random: &mut Random) -> Table {
    table_in(random, SMALL)
}

/// A large accepted table with 0 and 7 both likely.
pub fn large_table(random: &mut Random) -> Table {
    let n = random.between(1, ROWS as u32);
    let ranges = random.one_of(&[LARGE, LARGE, WIDE]);
    loop {
        // At a low degraded speed a finish may lie past 1,000,000 slots.
        let table = tight(random, n, ranges);
        if model::table::check_table(&table) == 0 {
            return table;
        }
    }
}

/// Sixty-four numbers that are no order of this accepted table. Where rows follow rows,
/// many hold each row once and break a wait.
pub fn no_order_of(random: &mut Random, table: &Table) -> Order {
    let n = table.n;
    loop {
        let mut order = random_order(random, table);
        let place = random.between(0, n - 1) as usize;
        match random.between(0, 8) {
            0 => order[place] = 0,
            1 => order[place] = random.word() as u8,
            2 => order[place] = order[random.between(0, n - 1) as usize],
            3 => order[random.between(0, 63) as usize] = random.between(1, 65) as u8,
            4 => order = std::array::from_fn(|_| random.word() as u8),
            5 => order = NO_ORDER,
            6 => order.swap(place, random.between(0, n - 1) as usize),
            _ => order = random_order(random, &table.without_waits()),
        }
        if check_order(table, &order) == 6 {
            return order;
        }
    }
}

/// An order of this accepted table, or once in `out_of` times sixty-four other numbers.
pub fn any_order(random: &mut Random, table: &Table, out_of: u32) -> Order {
    if random.once_in(out_of) {
        no_order_of(random, table)
    } else {
        random_order(random, table)
    }
}

/// The numbers of the checks on tables, in their order (rule 11.3).
pub const TABLE_CHECKS: [u32; 8] = [3, 4, 11, 5, 12, 13, 14, 15];

/// The table changed so that a check on tables refuses it with this number, or
/// with one before it.
pub fn spoil_table(random: &mut Random, table: &mut Table, number: u32) {
    let index = random.between(0, table.n - 1) as usize;
    match number {
        3 => table.n = random.one_of(&[0, 65, 66, 1 << 31, u32::MAX]),
        4 => match random.between(0, 3) {
            0 => table.normal = random.one_of(&[0, 1_001, u32::MAX]),
            1 => table.degraded = 0,
            2 => table.degraded = table.normal + 1,
            _ => table.degraded = u32::MAX,
        },
        11 => {
            let any = random.word() as u32 | 32;
            table.loading = random.one_of(&[17, 17, 18, 64, u32::MAX, any]);
        }
        12 => spoil_promise(random, table),
        13..=15 => spoil_wait(random, table, number),
        _ => match random.between(0, 5) {
            0 => table.work[index] = random.one_of(&[0, 1_000_001, u32::MAX]),
            1 => table.deadline[index] = random.one_of(&[1_000_001, u32::MAX]),
            2 => table.release[index] = table.deadline[index],
            3 => table.level[index] = random.one_of(&[2, u32::MAX]),
            4 => table.deadline[index] = 0,
            _ => spoil_tail(random, table),
        },
    }
}

/// The table changed so that one of the checks on tables refuses it, or several of
/// them would, three at most.
pub fn spoil_by_several(random: &mut Random, table: &mut Table) {
    let wanted = [(); 3].map(|()| random.one_of(&TABLE_CHECKS));
    let count = random.between(1, 3) as usize;
    for number in TABLE_CHECKS.into_iter().rev() {
        if wanted[..count].contains(&number) {
            spoil_table(random, table, number);
        }
    }
}

/// Figures after the last row, small ones and a whole accepted row too; in a
/// table of 64 rows a level.
fn spoil_tail(random: &mut Random, table: &mut Table) {
    if table.n == ROWS as u32 {
        table.level[0] = 2;
        return;
    }
    let index = random.between(table.n, 63) as usize;
    let figure = random.one_of(&[1, 2, 1 << 31, u32::MAX]);
    match random.between(0, 6) {
        0 => table.release[index] = figure,
        1 => table.work[index] = figure,
        2 => table.deadline[index] = figure,
        3 => table.level[index] = figure,
        4 => table.promised[index] = figure,
        5 => table.follows[index] = figure,
        _ => (table.work[index], table.deadline[index]) = (1, 1),
    }
}

/// Supplies of every kind, in work units per slot: none, about the two speeds,
/// the largest there is.
pub fn supplies(random: &mut Random, count: u32) -> Vec<u32> {
    (0..count).map(|_| supply(random)).collect()
}

/// A supply of any kind, in work units per slot.
pub fn supply(random: &mut Random) -> u32 {
    match random.between(0, 9) {
        0..=1 => 0,
        2 => u32::MAX,
        3 => random.word() as u32,
        _ => random.between(0, 5),
    }
}

/// The sheet of this table changed so that a check on tables refuses it.
pub fn refused_sheet(random: &mut Random, table: &Table) -> Vec<u8> {
    let mut spoiled = *table;
    let number = random.one_of(&TABLE_CHECKS);
    spoil_table(random, &mut spoiled, number);
    let field = |figure: u32| figure.min(99_999_999);
    let count = field(spoiled.n);
    spoiled.n = table.n;
    let rows = spoiled.rows().into_iter();
    let rows: Vec<Row> = rows.map(|row| Row::of(row.figures().map(field))).collect();
    let figures = [spoiled.normal, spoiled.degraded, spoiled.loading];
    let [normal, degraded, loading] = figures.map(field);
    write_sheet(count, normal, degraded, loading, &rows)
}
