//! Which rows of a word may stand lowest in it (rule 25.7), by one sweep over the word for each
//! speed, and one more for each promised part that is asked for.
//!
//! The turn of a row is here its number less 1, so that a word of turns is a word of rows (rule
//! 4.8). Clocks, needs and deadlines are in slots.

use super::left::{is_over, sweep_speed, Left, DEGRADED, SPEEDS};
use super::turns_in;
use crate::choices::{check_counting, sum_by_lowest, Choices};
use crate::table::{promised_need, Table, ROWS};

/// The choices of a table, and in the scratch those of each word (rules 25.4 to 25.6).
pub fn count_choices(table: &Table, scratch: &mut [u32]) -> Choices {
    match check_counting(table, scratch.len()) {
        0 => {
            let words = Words::of(table);
            sum_by_lowest(table, scratch, |word| words.lowest_of(word))
        }
        refusal => Choices::refused(refusal),
    }
}

/// A table as its words are swept.
struct Words {
    /// All rows by rising release.
    rows: Left,
    /// The rows whose worst runs are at each speed.
    at_speed: [u64; 2],
    /// The rows that follow each row.
    followers: [u64; ROWS],
    /// The deadline of each row.
    deadlines: [u32; ROWS],
    /// The rows that promise a part.
    promising: u64,
    /// The need of each promised part at G.
    parts: [u32; ROWS],
}

impl Words {
    /// Of an accepted table.
    fn of(table: &Table) -> Words {
        let turns: Vec<u8> = (0..table.n as u8).collect();
        let mut words = Words {
            rows: Left::of(table, &turns),
            at_speed: [0; 2],
            followers: [0; ROWS],
            deadlines: table.deadline,
            promising: 0,
            parts: [0; ROWS],
        };
        for index in 0..table.n as usize {
            words.at_speed[sweep_speed(table.level[index])] |= 1 << index;
            if table.follows[index] != 0 {
                words.followers[table.follows[index] as usize - 1] |= 1 << index;
            }
            if table.promised[index] > 0 {
                words.promising |= 1 << index;
                words.parts[index] = promised_need(table, index as u8 + 1);
            }
        }
        words
    }

    /// The rows that may stand lowest in this word.
    fn lowest_of(&self, word: u64) -> u64 {
        let mut lowest = 0;
        for speed in SPEEDS {
            lowest |= self.in_time(word, speed);
        }
        for turn in turns_in(lowest) {
            let followed = self.followers[turn] & word != 0;
            if followed || !self.keeps_promise(word, turn) {
                lowest &= !(1 << turn);
            }
        }
        lowest
    }

    /// The rows of a word with their worst runs at this speed that are in time below all others
    /// of it: each finishes with the busy period in which it is released.
    fn in_time(&self, word: u64, speed: usize) -> u64 {
        let asked = word & self.at_speed[speed];
        let (mut end, mut period, mut in_time) = (0, 0, 0);
        for job in self.rows.jobs() {
            if word >> job.turn & 1 == 0 {
                continue;
            }
            if is_over(end, job.release) {
                in_time |= self.due_by(period & asked, end);
                (end, period) = (job.release, 0);
            }
            end += job.caps[speed];
            period |= 1 << job.turn;
        }
        in_time | self.due_by(period & asked, end)
    }

    /// Those of these rows whose deadlines are not before this clock.
    fn due_by(&self, rows: u64, clock: u32) -> u64 {
        let in_time = turns_in(rows).filter(|&turn| clock <= self.deadlines[turn]);
        in_time.map(|turn| 1 << turn).sum()
    }

    /// The row promises nothing, or has got its part by its deadline at G, below all others of
    /// the word. Its part ends with a busy period in which it takes the need of that part.
    fn keeps_promise(&self, word: u64, turn: usize) -> bool {
        if self.promising >> turn & 1 == 0 {
            return true;
        }
        let (mut end, mut is_reached) = (0, false);
        for job in self.rows.jobs() {
            if word >> job.turn & 1 == 0 {
                continue;
            }
            if is_over(end, job.release) {
                if is_reached {
                    break;
                }
                end = job.release;
            }
            let is_own = job.turn as usize == turn;
            is_reached |= is_own;
            end += if is_own {
                self.parts[turn]
            } else {
                job.caps[DEGRADED]
            };
        }
        end <= self.deadlines[turn]
    }
}
