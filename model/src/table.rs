//! Rows, tables, need and allowance, and the checks on tables (3, 4, 11, 5, 12 and 13 to
//! 15; sections 1 and 5 of the rules).

/// Entries in every column of a table: the most rows it can hold (rule 5.1).
pub const ROWS: usize = 64;

/// Largest normal speed N, in work units per slot (rule 5.2).
pub const MOST_SPEED: u32 = 1_000;

/// Longest loading time K, in slots (rule 5.8).
pub const MOST_LOADING: u32 = 16;

/// Largest work c, in work units (rule 5.3).
pub const MOST_WORK: u32 = 1_000_000;

/// Latest deadline d, in slots (rule 5.3).
pub const LATEST_DEADLINE: u32 = 1_000_000;

/// Level of a LO job (rule 1.2).
pub const LO: u32 = 0;

/// Level of a HI job (rule 1.2).
pub const HI: u32 = 1;

/// A job (rule 1.1).
#[derive(Clone, Copy, Debug, PartialEq, Eq)]
pub struct Row {
    /// Release a: the first slot in which the job may run (rule 1.5).
    pub release: u32,
    /// Work c, in work units.
    pub work: u32,
    /// Deadline d: the latest clock, in slots, at which it is in time (rule 1.6).
    pub deadline: u32,
    /// Level: 0 is LO, 1 is HI.
    pub level: u32,
    /// Promised part r, in work units: what a LO job gets by its deadline even at
    /// G; 0 promises nothing (rule 1.11).
    pub promised: u32,
    /// The row w that the job follows, 0 for none (rule 1.12).
    pub follows: u32,
}

/// How many figures a row has.
pub const FIGURES: usize = 6;

impl Row {
    /// The row with these figures: a (slots), c (work units), d (slots), level, r (work
    /// units) and w (a row number).
    pub fn of(figures: [u32; FIGURES]) -> Row {
        let [release, work, deadline, level, promised, follows] = figures;
        Row {
            release,
            work,
            deadline,
            level,
            promised,
            follows,
        }
    }

    /// These figures of the row.
    pub fn figures(&self) -> [u32; FIGURES] {
        let Row {
            release,
            work,
            deadline,
            level,
            promised,
            follows,
        } = *self;
        [release, work, deadline, level, promised, follows]
    }
}

/// A table of n rows with its two speeds and its loading time. The column entry
/// of row i stands at index i - 1. Any values may be held; the checks say which
/// are accepted.
#[derive(Clone, Copy, Debug, PartialEq, Eq)]
pub struct Table {
    /// Row count n.
    pub n: u32,
    /// Normal speed N, in work units per slot.
    pub normal: u32,
    /// Degraded speed G, in work units per slot.
    pub degraded: u32,
    /// Loading time K, in slots: in so many of its own slots a job gets its code
    /// and no work (rule 1.10).
    pub loading: u32,
    /// Release of each row, in slots.
    pub release: [u32; ROWS],
    /// Work of each row, in work units.
    pub work: [u32; ROWS],
    /// Deadline of each row, in slots.
    pub deadline: [u32; ROWS],
    /// Level of each row, 0 for LO and 1 for HI.
    pub level: [u32; ROWS],
    /// Promised part of each row, in work units.
    pub promised: [u32; ROWS],
    /// The row that each row follows, 0 for none.
    pub follows: [u32; ROWS],
}

impl Table {
    /// The table of zeros that comes with every refusal of a sheet (rule 6.8).
    pub const ZERO: Table = Table {
        n: 0,
        normal: 0,
        degraded: 0,
        loading: 0,
        release: [0; ROWS],
        work: [0; ROWS],
        deadline: [0; ROWS],
        level: [0; ROWS],
        promised: [0; ROWS],
        follows: [0; ROWS],
    };

    /// The table with these speeds, this loading time and at most 64 rows, zeros
    /// after the last.
    pub fn of(normal: u32, degraded: u32, loading: u32, rows: &[Row]) -> Table {
        assert!(rows.len() <= ROWS, "a table holds at most 64 rows");
        let mut table = Table {
            n: rows.len() as u32,
            normal,
            degraded,
            loading,
            ..Table::ZERO
        };
        for (index, row) in rows.iter().enumerate() {
            table.release[index] = row.release;
            table.work[index] = row.work;
            table.deadline[index] = row.deadline;
            table.level[index] = row.level;
            table.promised[index] = row.promised;
            table.follows[index] = row.follows;
        }
        table
    }

    /// The same table with a loading time of K slots.
    pub fn with_loading(self, loading: u32) -> Table {
        Table { loading, ..self }
    }

    /// The same table with every release and every deadline so many slots later.
    pub fn later(self, slots: u32) -> Table {
        let mut later = self;
        for index in 0..self.n as usize {
            later.release[index] += slots;
            later.deadline[index] += slots;
        }
        later
    }

    /// The same table without a promise.
    pub fn without_promises(self) -> Table {
        Table {
            promised: [0; ROWS],
            ..self
        }
    }

    /// The same table in which no row follows another.
    pub fn without_waits(self) -> Table {
        Table {
            follows: [0; ROWS],
            ..self
        }
    }

    /// Row number `row`, from 1 on (rule 1.3).
    pub fn row(&self, row: u8) -> Row {
        self.row_at(row as usize - 1)
    }

    /// The first n rows as the list that the judge is lent (rule 7.1).
    pub fn rows(&self) -> Vec<Row> {
        (0..self.n as usize).map(|i| self.row_at(i)).collect()
    }

    fn row_at(&self, index: usize) -> Row {
        Row {
            release: self.release[index],
            work: self.work[index],
            deadline: self.deadline[index],
            level: self.level[index],
            promised: self.promised[index],
            follows: self.follows[index],
        }
    }
}

/// The earliest release of all rows of an accepted table, in slots: the window of each row
/// begins with it (rule 9.14).
pub fn earliest_release(table: &Table) -> u32 {
    let releases = &table.release[..table.n as usize];
    *releases.iter().min().expect("an accepted table has a row")
}

/// The need of so much work (work units) at a speed, in slots: those in which a row
/// loads, and those that the work takes, rounded up (rule 1.8). The speed is at
/// least 1 work unit per slot.
pub fn need_of(table: &Table, work: u32, speed: u32) -> u32 {
    table.loading + work.div_ceil(speed)
}

/// The need of a row's work at a speed, in slots (rule 1.8).
pub fn need(table: &Table, row: u8, speed: u32) -> u32 {
    need_of(table, table.row(row).work, speed)
}

/// The need of a row's promised part at G, in slots (rule 1.11).
pub fn promised_need(table: &Table, row: u8) -> u32 {
    need_of(table, table.row(row).promised, table.degraded)
}

/// The allowance of a LO row in slots: its need at N, or that of its promised part
/// at G if it is larger (rule 1.9).
pub fn allowance(table: &Table, row: u8) -> u32 {
    need(table, row, table.normal).max(promised_need(table, row))
}

/// Check 3 refuses any other count (rule 5.1).
pub fn count_is_within_limit(n: u32) -> bool {
    (1..=ROWS as u32).contains(&n)
}

/// In work units per slot; check 4 refuses all other speeds (rule 5.2).
pub fn speeds_are_within_limits(normal: u32, degraded: u32) -> bool {
    (1..=MOST_SPEED).contains(&normal) && (1..=normal).contains(&degraded)
}

/// In slots; check 11 refuses any longer loading time (rule 5.8).
pub fn loading_is_within_limit(loading: u32) -> bool {
    loading <= MOST_LOADING
}

/// Check 5 refuses any other row (rule 5.3).
pub fn row_is_within_limits(row: &Row) -> bool {
    (1..=MOST_WORK).contains(&row.work)
        && row.deadline <= LATEST_DEADLINE
        && row.release < row.deadline
        && (row.level == LO || row.level == HI)
}

/// A row all zero, as every row after row n has to be (rule 5.4).
pub fn row_is_zero(row: &Row) -> bool {
    let times = row.release == 0 && row.deadline == 0;
    let others = row.work == 0 && row.level == 0 && row.promised == 0;
    times && others && row.follows == 0
}

/// In work units; check 12 refuses any other promise: one of more than the work, and
/// one of a HI row (rule 5.9).
pub fn promise_is_within_limit(row: &Row) -> bool {
    row.promised <= row.work && (row.level == LO || row.promised == 0)
}

/// Checks 13, 14 and 15 of one row: 0 if it follows none, or one with a lower number that
/// is released no later, and that is HI if the row itself is; else the number of the first
/// refusal (rule 5.10).
pub fn check_wait(table: &Table, row: u8) -> u32 {
    let job = table.row(row);
    if job.follows == 0 {
        return 0;
    }
    if job.follows >= u32::from(row) {
        return 13;
    }
    let followed = table.row(job.follows as u8);
    if followed.release > job.release {
        return 14;
    }
    if job.level == HI && followed.level == LO {
        return 15;
    }
    0
}

/// Checks 3, 4, 11, 5, 12 and 13 to 15 in this order on a table with any values: 0 if it
/// is accepted (rule 5.5), else the number of the first refusal (rule 11.3). All rows and
/// those after row n have passed 5 before any is asked for its promise, and all have
/// passed 12 before any is asked for the row that it follows; then the first row that is
/// refused counts.
pub fn check_table(table: &Table) -> u32 {
    if !count_is_within_limit(table.n) {
        return 3;
    }
    if !speeds_are_within_limits(table.normal, table.degraded) {
        return 4;
    }
    if !loading_is_within_limit(table.loading) {
        return 11;
    }
    for index in 0..ROWS {
        let row = table.row_at(index);
        let fine = if index < table.n as usize {
            row_is_within_limits(&row)
        } else {
            row_is_zero(&row)
        };
        if !fine {
            return 5;
        }
    }
    for index in 0..table.n as usize {
        if !promise_is_within_limit(&table.row_at(index)) {
            return 12;
        }
    }
    let waits = (1..=table.n as u8).map(|row| check_wait(table, row));
    waits.into_iter().find(|&refusal| refusal != 0).unwrap_or(0)
}
