//! The rows that have no place yet, as sweeps read them.

use crate::table::{need, promised_need, Table, LO, ROWS};

/// A row left. All of its figures but the turn are in slots.
#[derive(Clone, Copy)]
pub struct Job {
    pub release: u32,
    /// The slots that it takes at most, where every slot supplies `NORMAL` and
    /// where every slot supplies `DEGRADED`.
    pub caps: [u32; 2],
    /// Where the row stands in a sequence of all rows, from 0 on.
    pub turn: u32,
}

/// The speeds that a sweep can be at, N and G, as places in `Job::caps`.
pub const NORMAL: usize = 0;
pub const DEGRADED: usize = 1;
pub const SPEEDS: [usize; 2] = [NORMAL, DEGRADED];

/// The speed of the worst run of a row at this level (rule 3.5).
pub fn sweep_speed(level: u32) -> usize {
    if level == LO {
        NORMAL
    } else {
        DEGRADED
    }
}

const NO_JOB: Job = Job {
    release: 0,
    caps: [0; 2],
    turn: 0,
};

/// The rows left by rising release, and where the row of each turn stands among
/// them. They stand close together, so that a sweep reads them one after another.
pub struct Left {
    jobs: [Job; ROWS],
    count: usize,
    at: [u8; ROWS],
}

impl Left {
    /// All rows of an accepted table. `turns` has the turn of each.
    pub fn of(table: &Table, turns: &[u8]) -> Left {
        let mut left = Left {
            jobs: [NO_JOB; ROWS],
            count: turns.len(),
            at: [0; ROWS],
        };
        let by_release = Sorted::by(turns.len(), |index| table.release[index]);
        for (at, index) in by_release.indices().enumerate() {
            let turn = turns[index];
            left.jobs[at] = Job {
                release: table.release[index],
                caps: caps(table, index),
                turn: u32::from(turn),
            };
            left.at[turn as usize] = at as u8;
        }
        left
    }

    pub fn jobs(&self) -> &[Job] {
        &self.jobs[..self.count]
    }

    /// Takes the row of this turn out and gives where it stood.
    pub fn take(&mut self, turn: usize) -> usize {
        let gone = self.at[turn];
        let jobs = &mut self.jobs[..self.count];
        jobs.copy_within(gone as usize + 1.., gone as usize);
        self.count -= 1;
        for at in &mut self.at {
            *at -= u8::from(*at > gone);
        }
        gone as usize
    }

    /// The worst finish, in slots, of the row of this turn below all other rows left,
    /// at this speed; or a clock after `due` if the finish is after it.
    pub fn finish(&self, turn: usize, speed: usize, due: u32) -> u32 {
        let own = self.jobs[self.place_of(turn)].caps[speed];
        self.end_of(turn, speed, own, 0, due)
    }

    /// The clock at which that row has got its promised part at G, of which it has this
    /// need, in slots (rule 20.4); or a clock after `due` if it is after it. A busy
    /// period starts with the row left at `from`.
    pub fn promised_moment(&self, turn: usize, need: u32, from: usize, due: u32) -> u32 {
        self.end_of(turn, DEGRADED, need, from, due)
    }

    /// Where the row of this turn stands.
    pub fn place_of(&self, turn: usize) -> usize {
        self.at[turn] as usize
    }

    /// The clock, in slots, at which that row has had so many slots of its own. One
    /// sweep, which ends early with a clock after `due`.
    fn end_of(&self, turn: usize, speed: usize, own: u32, from: usize, due: u32) -> u32 {
        let at = self.place_of(turn);
        let (before, after) = (&self.jobs()[from..at], &self.jobs()[at + 1..]);
        let mut end = 0;
        for job in before {
            end = job.release.max(end) + job.caps[speed];
        }
        end = self.jobs[at].release.max(end) + own;
        for job in after {
            if is_over(end, job.release) || end > due {
                break;
            }
            end += job.caps[speed];
        }
        end
    }
}

/// A busy period that goes on until this end is over when the next row is released.
pub fn is_over(end: u32, release: u32) -> bool {
    end <= release
}

/// What the row can take, in slots: a LO row is dropped when it has used its
/// allowance, which is all that it takes at G (rule 1.9).
fn caps(table: &Table, index: usize) -> [u32; 2] {
    let row = index as u8 + 1;
    let at_normal = need(table, row, table.normal);
    if table.level[index] == LO {
        let allowance = match table.promised[index] {
            0 => at_normal,
            _ => at_normal.max(promised_need(table, row)),
        };
        [at_normal, allowance]
    } else {
        [at_normal, need(table, row, table.degraded)]
    }
}

/// Row indices by a rising key, equal ones by lower row first.
pub struct Sorted {
    /// Key and index in one number, which is faster to sort than the indices are.
    packed: [u32; ROWS],
    count: usize,
}

impl Sorted {
    /// The first `count` rows. Keys are below 2 to the power 26.
    pub fn by(count: usize, key: impl Fn(usize) -> u32) -> Sorted {
        let mut packed = [0; ROWS];
        for (index, number) in packed[..count].iter_mut().enumerate() {
            *number = key(index) << 6 | index as u32;
        }
        packed[..count].sort_unstable();
        Sorted { packed, count }
    }

    pub fn indices(&self) -> impl Iterator<Item = usize> + '_ {
        let packed = &self.packed[..self.count];
        packed.iter().map(|&number| number as usize % ROWS)
    }
}
