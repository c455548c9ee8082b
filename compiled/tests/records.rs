//! Fresh records, the coming slot and one slot of the library against the
//! model's run records, at every clock and about deadlines. Every loading time from 0
//! to 16 slots comes up, and tables with promises and waits and without.

mod common;

use common::records::{
    any_record, fresh_record, is_out_of_reach, reached_record, sound_record, sound_record_at,
    unsound_record, with_sound_figures, CLAUSES,
};
use common::{
    any_order, large_table, small_table, spoil_table, supply, Kinds, Loadings, Tally, TABLE_CHECKS,
};
use compiled::library;
use model::calls::LAST_CLOCK;
use model::cases::{row, table};
use model::order::order_of;
use model::plain;
use model::random::Random;
use model::record::{Record, Unsound};
use model::table::{allowance, need, promised_need, Table, HI, LATEST_DEADLINE, LO, MOST_LOADING};

/// Compares the coming slot and one slot with this supply; gives the number.
fn compare(record: &Record, supply: u32) -> u32 {
    let expected = record.one_slot(supply);
    let answer = library::one_slot(record, supply);
    assert_eq!(answer, expected, "supply {supply} on {record:?}");
    let coming = (expected.number, expected.row);
    assert_eq!(library::coming(record), coming, "coming on {record:?}");
    compare_plain(record, supply, &expected);
    expected.number
}

/// The plain record is the measure of speed, so it answers the same.
fn compare_plain(record: &Record, supply: u32, expected: &model::record::OneSlot) {
    let mut stepped = *record;
    let answer = plain::one_slot(&mut stepped, supply);
    assert_eq!(answer, (expected.number, expected.row));
    assert_eq!(plain::coming(record), answer);
    assert_eq!(stepped, expected.record);
}

#[test]
fn sound_records() {
    let mut random = Random::seeded(401);
    let mut tally = Tally::new("one slot, sound records");
    let mut reach = Tally::new("one slot, is out of reach of any run");
    let mut ran = Tally::new("one slot, a row ran, and it closed");
    let mut loaded = Tally::new("one slot, a row loaded and had work before, by K");
    let mut worked = Loadings::new("one slot, a row ran that had loaded, by K");
    for _ in 0..100_000 {
        let record = sound_record(&mut random);
        let supply = supply(&mut random);
        let number = compare(&record, supply);
        tally.saw(number);
        reach.saw(is_out_of_reach(&record));
        let after = library::one_slot(&record, supply);
        let closed = after.record.closing != record.closing;
        ran.saw((after.row != 0, closed));
        if after.row != 0 {
            let index = after.row as usize - 1;
            if record.used[index] >= record.table.loading {
                worked.saw(number, &record.table);
            } else {
                assert_eq!(after.record.got, record.got, "it loads: {record:?}");
                loaded.saw((record.table.loading, record.got[index] > 0));
            }
        }
    }
    tally.assert_common(&[0, 8], 10_000);
    reach.assert_common(&[false, true], 20_000);
    ran.assert_common(&[(false, false), (true, false), (true, true)], 3_000);
    worked.assert_every(100);
    for loading in 1..=MOST_LOADING {
        loaded.assert_common(&[(loading, false), (loading, true)], 20);
    }
}

#[test]
fn records_that_runs_reach() {
    let mut random = Random::seeded(402);
    let mut tally = Tally::new("one slot, reached records");
    let mut loadings = Loadings::new("one slot, reached records, by K");
    let mut kinds = Kinds::new("one slot, reached records, by promises and waits");
    for _ in 0..50_000 {
        let record = reached_record(&mut random);
        let number = compare(&record, supply(&mut random));
        tally.saw(number);
        loadings.saw(number, &record.table);
        kinds.saw(number, &record.table);
    }
    tally.assert_common(&[0], 50_000);
    loadings.assert_every(1_000);
    kinds.assert_all(5_000);
}

#[test]
fn every_clause_of_check_9_alone() {
    let mut random = Random::seeded(403);
    let mut tally = Tally::new("one slot, clauses of check 9");
    let mut by_loading = Tally::new("one slot, clauses of check 9 on open and closed, by K");
    for clause in CLAUSES {
        for _ in 0..3_000 {
            let record = unsound_record(&mut random, clause);
            assert_eq!(compare(&record, supply(&mut random)), 9);
            tally.saw(format!("{clause:?}"));
            by_loading.saw((format!("{clause:?}"), record.table.loading));
        }
    }
    let all = CLAUSES.map(|clause| format!("{clause:?}"));
    tally.assert_common(&all, 3_000);
    let of_rows = [
        Unsound::OpenThoughFinished,
        Unsound::OpenThoughLate,
        Unsound::ClosedWithoutReason,
    ];
    for clause in of_rows {
        for loading in 0..=MOST_LOADING {
            by_loading.assert_common(&[(format!("{clause:?}"), loading)], 40);
        }
    }
}

/// One LO row with about its allowance used, and with the least and the most that
/// can be used, open and closed, at speeds, works and promises up to their limits: check
/// 9 and the step ask the same question with every loading time (rules 1.9, 8.7). It is
/// open one slot before the latest deadline, and closed at another clock than that.
#[test]
fn allowances_used_up_and_not() {
    let mut random = Random::seeded(409);
    let mut tally = Tally::new("one slot, about the allowance");
    let mut loadings = Loadings::new("one slot, about the allowance, by K");
    let mut longer = Tally::new("one slot, the allowance is by the promise");
    for normal in [1u32, 2, 3, 7, 999, 1_000] {
        for work in [1u32, 2, normal, normal + 1, 999_999, 1_000_000] {
            for loading in 0..=MOST_LOADING {
                let deadline = LATEST_DEADLINE;
                let promised = random.one_of(&[0, 1, work / 2, work.div_ceil(normal) + 1, work]);
                let figures = [0, work, deadline, LO, promised.min(work)];
                let degraded = random.one_of(&[1, normal.div_ceil(2), normal]);
                let one = table(normal, degraded, &[figures]).with_loading(loading);
                longer.saw(promised_need(&one, 1) > need(&one, 1, normal));
                let (_, fresh) = Record::fresh(&one, &order_of(&[1]));
                let allowed = allowance(&one, 1);
                for (clock, closing) in [(deadline - 1, 0), (LAST_CLOCK - 1, LAST_CLOCK - 1)] {
                    let used = [
                        0,
                        loading,
                        loading + 1,
                        allowed - 1,
                        allowed,
                        allowed + 1,
                        clock,
                    ];
                    for used in used.into_iter().filter(|&used| used <= clock) {
                        let mut record = Record { clock, ..fresh };
                        (record.used[0], record.closing[0]) = (used, closing);
                        record.got[0] = random.between(0, work - 1);
                        let supply = random.one_of(&[0, 1, normal, u32::MAX]);
                        let number = compare(&record, supply);
                        let used_up = used >= allowed;
                        assert_eq!(number == 0, used_up == (closing != 0), "{record:?}");
                        tally.saw(number);
                        loadings.saw(number, &one);
                    }
                }
            }
        }
    }
    tally.assert_common(&[0, 9], 4_000);
    loadings.assert_every(200);
    longer.assert_common(&[false, true], 100);
}

/// Tables of one row, LO and HI, of all work and deadlines that are asked about here:
/// the least deadline, the latest, and one by which the row can have loaded. A LO row
/// promises nothing, or all of its work.
fn tables_about_deadlines() -> Vec<Table> {
    let mut tables = Vec::new();
    for level in [LO, HI] {
        for deadline in [1, 2, 30, LATEST_DEADLINE - 1, LATEST_DEADLINE] {
            for work in [1, 2, 5] {
                let promises = if level == LO { &[0, work][..] } else { &[0] };
                for &promised in promises {
                    let one = table(2, 1, &[[0, work, deadline, level, promised]]);
                    tables.extend([0, 1, 16].map(|loading| one.with_loading(loading)));
                }
            }
        }
    }
    tables
}

/// Records of such a table: every clock, closing slot, work got and slots used that
/// makes a difference to check 9 or to what the clock drops, and their neighbours.
fn records_about_the_deadline(table: &Table) -> Vec<Record> {
    let (work, deadline) = (table.work[0], table.deadline[0]);
    let allowed = allowance(table, 1);
    let (_, fresh) = Record::fresh(table, &order_of(&[1]));
    let mut records = Vec::new();
    for clock in deadline - 1..=deadline + 1 {
        for closing in [0, deadline - 1, deadline, deadline + 1] {
            for got in [0, work - 1, work] {
                for used in [0, table.loading, allowed - 1, allowed, allowed + 1] {
                    let mut record = Record { clock, ..fresh };
                    (record.got[0], record.used[0]) = (got, used);
                    record.closing[0] = closing;
                    records.push(record);
                }
            }
        }
    }
    records
}

/// One row about its deadline, open and closed, by the clock and the closing slot
/// counted from the deadline (rules 8.7, 19.2 to 19.4).
#[test]
fn rows_about_their_deadlines() {
    let mut tally = Tally::new("one slot, about a deadline, by level, clock and closing");
    let mut after = Tally::new("one slot, an open row after its last slot, by level");
    for table in tables_about_deadlines() {
        let (level, deadline) = (table.level[0], i64::from(table.deadline[0]));
        for record in records_about_the_deadline(&table) {
            let clock = i64::from(record.clock) - deadline;
            let is_closed = record.closing[0] != 0;
            let closing = is_closed.then_some(i64::from(record.closing[0]) - deadline);
            for supply in [0, 1, u32::MAX] {
                let number = compare(&record, supply);
                tally.saw((level, clock, closing, number));
                if number == 0 && clock == -1 && !is_closed {
                    after.saw((level, how_it_ended(&record, supply)));
                }
            }
        }
    }
    let both = |level, clock, closing| [(level, clock, closing, 0), (level, clock, closing, 9)];
    let refused = |level, clock, closing| [(level, clock, closing, 9)];
    // Open: a LO row before its deadline alone, a HI row at every clock.
    tally.assert_common(&both(LO, -1, None), 100);
    tally.assert_common(&refused(LO, 0, None), 100);
    tally.assert_common(&refused(LO, 1, None), 100);
    for clock in -1..=1 {
        tally.assert_common(&both(HI, clock, None), 100);
    }
    // Closed, at the deadline and beside it.
    for (clock, closing) in [(0, -1), (0, 0), (1, -1), (1, 0), (1, 1)] {
        for level in [LO, HI] {
            tally.assert_common(&both(level, clock, Some(closing)), 100);
        }
    }
    after.assert_common(&[(LO, "done"), (LO, "used up"), (LO, "late")], 20);
    after.assert_common(&[(HI, "done"), (HI, "open")], 20);
}

/// What became of the only row, which was open.
fn how_it_ended(record: &Record, supply: u32) -> &'static str {
    let after = library::one_slot(record, supply).record;
    if after.closing[0] == 0 {
        "open"
    } else if after.got[0] == after.table.work[0] {
        "done"
    } else if after.used[0] >= allowance(&after.table, 1) {
        "used up"
    } else {
        "late"
    }
}

/// The last three clocks, which are far behind every deadline.
#[test]
fn rows_far_behind_their_deadlines() {
    let mut random = Random::seeded(411);
    let mut tally = Tally::new("one slot, far behind all deadlines, by clock");
    let mut open = Tally::new("one slot, far behind all deadlines, a LO row made open");
    for _ in 0..4_000 {
        for clock in LAST_CLOCK - 2..=LAST_CLOCK {
            let mut record = sound_record_at(&mut random, clock);
            let number = compare(&record, supply(&mut random));
            tally.saw((clock, number));
            let index = random.between(0, record.table.n - 1) as usize;
            if record.table.level[index] == LO {
                record.closing[index] = 0;
                open.saw(compare(&record, supply(&mut random)));
            }
        }
    }
    let before = [(LAST_CLOCK - 2, 0), (LAST_CLOCK - 1, 0)];
    tally.assert_common(&before, 4_000);
    tally.assert_common(&[(LAST_CLOCK, 8)], 4_000);
    open.assert_common(&[9], 4_000);
}

/// Two to 64 rows of one deadline, one slot before it: the slot closes all that are LO
/// and open.
#[test]
fn rows_of_one_deadline() {
    let mut random = Random::seeded(412);
    let mut tally = Tally::new("one slot, rows dropped by the same step");
    let mut counts = Tally::new("one slot, rows of one deadline");
    for round in 0..20_000 {
        let mut fresh = fresh_record(&mut random);
        let n = fresh.table.n;
        let latest = fresh.table.deadline[..n as usize].iter().max().copied();
        let deadline = latest.expect("a table has a row");
        fresh.table.deadline[..n as usize].fill(deadline);
        if round % 3 == 0 {
            fresh.table.level[..n as usize].fill(LO);
        }
        let record = match round % 2 {
            0 => with_sound_figures(&mut random, fresh, deadline - 1),
            _ => Record {
                clock: deadline - 1,
                ..fresh
            },
        };
        let supply = supply(&mut random);
        assert_eq!(compare(&record, supply), 0);
        let after = library::one_slot(&record, supply);
        let is_dropped = |index: &usize| {
            record.closing[*index] == 0
                && after.record.closing[*index] == deadline
                && after.row as usize != index + 1
        };
        let dropped = (0..n as usize).filter(is_dropped).count();
        tally.saw(dropped.min(10));
        counts.saw(n == 64);
    }
    let all: Vec<usize> = (0..=10).collect();
    tally.assert_common(&all, 100);
    counts.assert_common(&[true], 20);
}

/// Sixty-four previews of one deadline: one slot drops them all, or all but the one that
/// it makes done.
#[test]
fn sixty_four_rows_dropped_at_once() {
    let full = Table::of(2, 1, 0, &[row([0, 3, 9, LO]); 64]);
    let rows: Vec<u8> = (1..=64).rev().collect();
    let (_, fresh) = Record::fresh(&full, &order_of(&rows));
    let record = Record { clock: 8, ..fresh };
    for (supply, got) in [(0, 0), (2, 2), (3, 3), (u32::MAX, 3)] {
        assert_eq!(compare(&record, supply), 0);
        let after = library::one_slot(&record, supply);
        assert_eq!((after.row, after.record.got[63]), (64, got));
        assert_eq!(after.record.closing, [9; 64]);
        assert_eq!(library::coming(&after.record), (0, 0));
    }
}

/// One figure of a sound record changed by one or to anything: most records
/// next to the line between sound and unsound.
#[test]
fn records_next_to_sound_ones() {
    let mut random = Random::seeded(404);
    let mut tally = Tally::new("one slot, one figure changed");
    for _ in 0..100_000 {
        let mut record = sound_record(&mut random);
        let most = (record.table.n + 1).min(64);
        let index = random.between(0, most - 1) as usize;
        let figure = match random.between(0, 13) {
            0 => &mut record.got[index],
            1 => &mut record.used[index],
            2 => &mut record.closing[index],
            3 => &mut record.clock,
            4 => &mut record.table.work[index],
            5 => &mut record.table.level[index],
            6 => &mut record.table.normal,
            7 => &mut record.table.release[index],
            8 => &mut record.table.loading,
            9 => &mut record.table.deadline[index],
            10 => &mut record.table.promised[index],
            11 => &mut record.table.degraded,
            12 => &mut record.table.follows[index],
            _ => &mut record.table.n,
        };
        *figure = match random.between(0, 3) {
            0 => figure.wrapping_add(1),
            1 => figure.wrapping_sub(1),
            2 => random.between(0, 4),
            _ => random.word() as u32,
        };
        tally.saw(compare(&record, supply(&mut random)));
    }
    tally.assert_common(&[0, 8, 9], 4_000);
}

#[test]
fn records_of_any_words() {
    let mut random = Random::seeded(405);
    let mut tally = Tally::new("one slot, any words");
    for _ in 0..20_000 {
        let record = any_record(&mut random);
        tally.saw(compare(&record, random.word() as u32));
    }
    tally.assert_common(&[9], 20_000);
}

#[test]
fn clocks_and_supplies_at_their_limits() {
    let mut random = Random::seeded(406);
    let mut tally = Tally::new("one slot, clocks and supplies at their limits");
    for _ in 0..2_000 {
        for clock in [0, LAST_CLOCK - 1, LAST_CLOCK, LAST_CLOCK + 1] {
            let mut record = sound_record_at(&mut random, clock.min(LAST_CLOCK));
            record.clock = clock;
            for supply in [0, 1, u32::MAX - 1, u32::MAX] {
                let number = compare(&record, supply);
                tally.saw(number);
                let expected = match clock {
                    LAST_CLOCK => 8,
                    above if above > LAST_CLOCK => 9,
                    _ => 0,
                };
                assert_eq!(number, expected);
            }
        }
    }
    tally.assert_common(&[0, 8, 9], 8_000);
}

/// The coming slot's answer holds for every supply.
#[test]
fn coming_does_not_depend_on_the_supply() {
    let mut random = Random::seeded(407);
    let mut tally = Tally::new("coming and three supplies");
    for _ in 0..20_000 {
        let record = sound_record(&mut random);
        let coming = library::coming(&record);
        for supply in [0, supply(&mut random), u32::MAX] {
            let after = library::one_slot(&record, supply);
            assert_eq!((after.number, after.row), coming);
        }
        tally.saw(coming.0);
    }
    tally.assert_common(&[0, 8], 2_000);
}

#[test]
fn fresh_records() {
    let mut random = Random::seeded(408);
    let mut tally = Tally::new("fresh records");
    let mut loadings = Loadings::new("fresh records, by K");
    for round in 0..60_000 {
        let mut table = if random.once_in(3) {
            large_table(&mut random)
        } else {
            small_table(&mut random)
        };
        let order = any_order(&mut random, &table, 3);
        if let Some(&number) = TABLE_CHECKS.get(round % 10) {
            spoil_table(&mut random, &mut table, number);
        }
        let expected = Record::fresh(&table, &order);
        assert_eq!(library::fresh(&table, &order), expected, "{table:?}");
        assert!(expected.0 == 0 || expected.1 == Record::ZERO);
        tally.saw(expected.0);
        loadings.saw(expected.0, &table);
    }
    tally.assert_common(&TABLE_CHECKS, 4_000);
    tally.assert_common(&[0, 6], 3_000);
    loadings.assert_every(200);
}
