//! A small generator with fixed seeds, so that every test run is the same. Proposals and days
//! are in `commits`, answers and damaged sentences in `sentences`.

pub mod commits;
pub mod sentences;

use crate::calls::Call;
use crate::order::{order_of, Order};
use crate::plan::slack;
use crate::table::{check_wait, Row, Table, HI, LO, MOST_LOADING};

/// The splitmix64 generator.
pub struct Random {
    state: u64,
}

impl Random {
    /// The generator that starts from this seed.
    pub fn seeded(seed: u64) -> Random {
        Random { state: seed }
    }

    /// The next 64-bit word.
    pub fn word(&mut self) -> u64 {
        self.state = self.state.wrapping_add(0x9E37_79B9_7F4A_7C15);
        let mut z = self.state;
        z = (z ^ (z >> 30)).wrapping_mul(0xBF58_476D_1CE4_E5B9);
        z = (z ^ (z >> 27)).wrapping_mul(0x94D0_49BB_1331_11EB);
        z ^ (z >> 31)
    }

    /// A number from `least` to `most`, both included.
    pub fn between(&mut self, least: u32, most: u32) -> u32 {
        let span = u64::from(most) - u64::from(least) + 1;
        (u64::from(least) + self.word() % span) as u32
    }

    /// True once in `out_of` times.
    pub fn once_in(&mut self, out_of: u32) -> bool {
        self.between(1, out_of) == 1
    }

    /// One of these.
    pub fn one_of<T: Copy>(&mut self, of: &[T]) -> T {
        of[self.between(0, of.len() as u32 - 1) as usize]
    }

    /// These in a random sequence.
    pub fn shuffled<T: Copy>(&mut self, of: &[T]) -> Vec<T> {
        let mut rest = of.to_vec();
        let mut sequence = Vec::new();
        while !rest.is_empty() {
            let index = self.between(0, rest.len() as u32 - 1) as usize;
            sequence.push(rest.remove(index));
        }
        sequence
    }
}

/// The ranges from which an accepted table is drawn.
#[derive(Clone, Copy, Debug)]
pub struct Ranges {
    /// Most rows.
    pub rows: u32,
    /// Largest normal speed, in work units per slot.
    pub speed: u32,
    /// Latest release, in slots.
    pub release: u32,
    /// Most slots that a row's work takes at N.
    pub need: u32,
    /// Longest time from release to deadline without loading, in slots.
    pub window: u32,
}

/// An accepted table: 1 to `rows` rows, every figure from its range, a loading
/// time from 0 to 16 slots; some such tables have promises, some waits, some both.
pub fn table_in(random: &mut Random, ranges: Ranges) -> Table {
    let n = random.between(1, ranges.rows);
    table_of_rows_in(random, n, ranges)
}

/// An accepted table of exactly n rows, every other figure from its range.
pub fn table_of_rows_in(random: &mut Random, n: u32, ranges: Ranges) -> Table {
    let loading = loading(random);
    loading_table_in(random, n, loading, ranges)
}

/// A loading time from 0 to 16 slots: 0 as often as all others together.
pub fn loading(random: &mut Random) -> u32 {
    if random.once_in(2) {
        0
    } else {
        random.between(1, MOST_LOADING)
    }
}

/// A promised part, in work units, for a row of so much work at this level: none,
/// all of the work, or some of it.
pub fn promise(random: &mut Random, work: u32, level: u32) -> u32 {
    if level == HI {
        return 0;
    }
    let part = random.between(1, work);
    random.one_of(&[0, work, part])
}

/// The accepted table with other promises, none or random ones.
pub fn with_promises(random: &mut Random, table: &Table) -> Table {
    let mut promising = table.without_promises();
    if random.once_in(2) {
        for index in 0..table.n as usize {
            promising.promised[index] = promise(random, table.work[index], table.level[index]);
        }
    }
    promising
}

/// Changes an accepted table so that check 12 refuses it: a row promises more than its
/// work, or is HI and promises a part.
pub fn spoil_promise(random: &mut Random, table: &mut Table) {
    let index = random.between(0, table.n - 1) as usize;
    let work = table.work[index];
    if random.once_in(2) {
        table.promised[index] = random.one_of(&[work + 1, 1_000_001, u32::MAX]);
    } else {
        (table.level[index], table.promised[index]) = (HI, random.between(1, work));
    }
}

/// A row that this one may follow as the table has it, if there is one and once in two
/// times, or 0.
pub fn wait(random: &mut Random, table: &Table, row: u8) -> u32 {
    let mut following = *table;
    let mut may_follow = |other: &u32| {
        following.follows[row as usize - 1] = *other;
        check_wait(&following, row) == 0
    };
    let others: Vec<u32> = (1..u32::from(row)).filter(&mut may_follow).collect();
    if others.is_empty() || random.once_in(2) {
        0
    } else {
        random.one_of(&others)
    }
}

/// The accepted table with other waits, none or random ones.
pub fn with_waits(random: &mut Random, table: &Table) -> Table {
    let mut waiting = table.without_waits();
    if random.once_in(2) {
        for row in 2..=table.n as u8 {
            waiting.follows[row as usize - 1] = wait(random, table, row);
        }
    }
    waiting
}

/// Changes an accepted table so that check 13, 14 or 15 refuses it, whichever is asked
/// for; one of a single row has no other row to follow, and is refused by 13.
pub fn spoil_wait(random: &mut Random, table: &mut Table, number: u32) {
    let row = random.between(1, table.n);
    if number == 13 || table.n == 1 {
        let any = random.between(row, 70);
        table.follows[row as usize - 1] = random.one_of(&[row, row + 1, 64, 65, u32::MAX, any]);
        return;
    }
    let row = row.max(2);
    let followed = random.between(1, row - 1);
    let (index, above) = (row as usize - 1, followed as usize - 1);
    table.follows[index] = followed;
    if number == 14 {
        let later = table.release[above].max(1);
        table.release[above] = later;
        table.deadline[above] = table.deadline[above].max(later + 1);
        table.release[index] = table.release[index].min(later - 1);
    } else {
        table.release[index] = table.release[index].max(table.release[above]);
        table.deadline[index] = table.deadline[index].max(table.release[index] + 1);
        (table.level[index], table.promised[index]) = (HI, 0);
        table.level[above] = LO;
    }
}

/// A random order of an accepted table: each row in turn gets any place among those before
/// it that is below the row it follows, which is one of them.
pub fn random_order(random: &mut Random, table: &Table) -> Order {
    let mut places: Vec<u8> = Vec::new();
    for row in 1..=table.n as u8 {
        let follows = table.row(row).follows;
        let followed = places.iter().position(|&held| u32::from(held) == follows);
        let highest = followed.map_or(0, |place| place + 1);
        let place = random.between(highest as u32, places.len() as u32);
        places.insert(place as usize, row);
    }
    order_of(&places)
}

/// The accepted table with deadlines that leave no slot to spare under this order of it,
/// each moved by one of these numbers of slots. Every row keeps a slot before its deadline.
pub fn tight_under(random: &mut Random, table: &Table, order: &Order, moves: &[i64]) -> Table {
    let mut tight = *table;
    for row in 1..=table.n as u8 {
        let index = row as usize - 1;
        let without_slack = i64::from(table.deadline[index]) - slack(table, order, row);
        let moved = without_slack + random.one_of(moves);
        tight.deadline[index] = (moved as u32).max(table.release[index] + 1);
    }
    tight
}

/// An accepted table of exactly n rows with this loading time, in slots. A row has
/// time for one to n rows to load, or seldom for none, so that about as many rows
/// are late as without loading.
pub fn loading_table_in(random: &mut Random, n: u32, loading: u32, ranges: Ranges) -> Table {
    let normal = random.between(1, ranges.speed);
    let degraded = random.between(1, normal);
    let row = |random: &mut Random| {
        let release = random.between(0, ranges.release);
        let loads = if random.once_in(8) {
            0
        } else {
            random.between(1, n)
        };
        let window = random.between(1, ranges.window) + loads * loading;
        Row {
            release,
            work: random.between(1, ranges.need * normal),
            deadline: release + window,
            level: random.one_of(&[LO, HI]),
            promised: 0,
            follows: 0,
        }
    };
    let rows: Vec<Row> = (0..n).map(|_| row(random)).collect();
    let promising = with_promises(random, &Table::of(normal, degraded, loading, &rows));
    with_waits(random, &promising)
}

/// Supplies of every kind, in work units per slot: none, about the two speeds,
/// the largest there is.
pub fn supplies(random: &mut Random, slots: u32) -> Vec<u32> {
    (0..slots)
        .map(|_| match random.between(0, 9) {
            0..=1 => 0,
            2 => u32::MAX,
            3 => random.word() as u32,
            _ => random.between(0, 5),
        })
        .collect()
}

/// These supplies cut into calls, some of them forward over an empty list.
pub fn calls_for(random: &mut Random, supplies: &[u32]) -> Vec<Call> {
    let mut calls = Vec::new();
    let mut rest = supplies;
    while !rest.is_empty() {
        if random.once_in(2) {
            calls.push(Call::OneSlot(rest[0]));
            rest = &rest[1..];
        } else {
            let count = random.between(0, rest.len().min(7) as u32) as usize;
            calls.push(Call::Forward(rest[..count].to_vec()));
            rest = &rest[count..];
        }
    }
    calls
}
