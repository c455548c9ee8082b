//! Check 9: sound records stay sound, and each clause violated alone is refused,
//! with every loading time from 0 to 16 slots.

mod common;

use common::{all_rows, fresh, slots_with_loading, table_and_order, Kinds, TOO_LONG};
use model::calls::LAST_CLOCK;
use model::cases::table;
use model::order::order_of;
use model::random::{supplies, Random};
use model::record::{Record, Unsound};
use model::run::running_step;
use model::table::{allowance, LO, MOST_LOADING};

#[test]
fn every_step_from_a_fresh_record_keeps_it_sound() {
    let mut random = Random::seeded(45);
    let (mut done, mut used_up, mut late) = (0, 0, 0);
    let mut kinds = Kinds::default();
    for _ in 0..2_000 {
        let (table, order) = table_and_order(&mut random);
        kinds.saw(&table);
        let mut record = fresh(&table, &order);
        assert!(record.is_sound());
        let slots = slots_with_loading(&table, 40);
        for supply in supplies(&mut random, slots) {
            let slot = record.one_slot(supply);
            assert_eq!(slot.number, 0);
            assert_eq!((slot.record.table, slot.record.order), (table, order));
            assert_eq!(slot.record.reasons(), []);
            record = slot.record;
        }
        for row in all_rows(&table) {
            let index = row as usize - 1;
            if record.closing[index] != 0 {
                let all = record.got[index] == table.work[index];
                assert!(all || table.level[index] == LO);
                let has_allowance = record.used[index] < allowance(&table, row);
                *(match (all, has_allowance) {
                    (true, _) => &mut done,
                    (false, false) => &mut used_up,
                    (false, true) => &mut late,
                }) += 1;
            }
        }
    }
    assert!(
        done > 1_000 && used_up > 400 && late > 400,
        "{done} done, dropped {used_up} for their allowance and {late} for their deadline"
    );
    kinds.assert_all(20);
}

/// A sound record that need not be reachable by running: any figures that check
/// 9 lets through (rule 8.7). Its rows are done at first, so that each can be
/// changed by itself; at clock 0 they are open.
fn sound_record(random: &mut Random) -> Record {
    let (table, order) = table_and_order(random);
    let deadline = random.one_of(&table.deadline[..table.n as usize]);
    let clocks = [0, 1, 2, 5, 20, 1_999_998, 1_999_999, 2_000_000];
    let clock = match random.between(0, 1) {
        0 => random.one_of(&[deadline - 1, deadline - 1, deadline, deadline + 1]),
        _ => random.one_of(&clocks),
    };
    let mut record = Record {
        clock,
        ..fresh(&table, &order)
    };
    if clock > 0 {
        for index in 0..table.n as usize {
            (record.got[index], record.closing[index]) = (table.work[index], clock);
        }
    }
    assert_eq!(record.reasons(), []);
    for row in all_rows(&table) {
        let mut attempts = 0;
        loop {
            attempts += 1;
            assert!(attempts < 10_000, "no sound figures for {record:?}");
            let index = row as usize - 1;
            let closings = [0, 0, clock / 2, clock, table.deadline[index]];
            record.got[index] = random.between(0, table.work[index]);
            record.used[index] = random.between(0, clock.min(6 + table.loading));
            record.closing[index] = random.one_of(&closings);
            if record.is_sound() {
                break;
            }
        }
    }
    record
}

#[test]
fn sound_records_that_no_run_reaches_step_by_the_same_rule() {
    let mut random = Random::seeded(46);
    let (mut unreached, mut refused, mut early, mut dropped) = (0, 0, 0, 0);
    let mut kinds = Kinds::default();
    for _ in 0..10_000 {
        let record = sound_record(&mut random);
        kinds.saw(&record.table);
        let supply = random.between(0, 5);
        let slot = record.one_slot(supply);
        let used: u32 = record.used.iter().sum();
        unreached += u32::from(used > record.clock);
        early += u32::from(has_work_before_loading_ends(&record));
        assert!(slot.record.is_sound());
        if record.clock == LAST_CLOCK {
            assert_eq!((slot.number, slot.row, slot.record), (8, 0, record));
            refused += 1;
            continue;
        }
        let mut state = record.state();
        let row = running_step(&record.table, &record.order, &mut state, supply);
        assert_eq!((slot.number, slot.row), (0, row));
        assert_eq!(slot.record.state(), state);
        let closed = |index: usize| state.closing[index] != record.closing[index];
        let waited = |index: usize| index + 1 != usize::from(row);
        dropped += u32::from((0..64).any(|index| waited(index) && closed(index)));
    }
    assert!(
        unreached > 400 && refused > 400 && early > 400 && dropped > 100,
        "{unreached} {refused} {early} {dropped}"
    );
    kinds.assert_all(100);
}

/// A row has got work in slots that should have loaded it, as none does in a run.
fn has_work_before_loading_ends(record: &Record) -> bool {
    let mut entries = record.got.iter().zip(record.used);
    entries.any(|(&got, used)| got > 0 && used < record.table.loading)
}

/// Such a row is sound, and goes on loading by the same rule (rule 2.14).
#[test]
fn work_got_before_loading_ends_is_sound() {
    let table = table(2, 1, &[[0, 9, 20, 1]]).with_loading(3);
    let mut record = Record {
        clock: 5,
        ..fresh(&table, &order_of(&[1]))
    };
    (record.got[0], record.used[0]) = (4, 1);
    assert_eq!(record.reasons(), []);
    let entries = |record: &Record| (record.got[0], record.used[0], record.closing[0]);
    let after = |supplies: &[u32]| entries(&record.forward(supplies).record);
    assert_eq!(after(&[7]), (4, 2, 0), "still loading");
    assert_eq!(after(&[7, 7]), (4, 3, 0), "still loading");
    assert_eq!(after(&[7, 7, 2]), (6, 4, 0), "at work");
    assert_eq!(after(&[7, 7, 2, 7]), (9, 5, 9), "done");
}

/// A record of three rows at clock 30: row 1 LO and dropped for its allowance, at a
/// clock after its deadline, which no run does; row 2 HI and open though late;
/// row 3 LO and open, with 10 slots left. N is 2 and G is 1. The allowances of rows
/// 1 and 3 are K + 2 and K + 3 slots.
fn sound_example(loading: u32) -> Record {
    let rows = [[0, 4, 5, 0], [0, 9, 20, 1], [3, 6, 40, 0]];
    let table = table(2, 1, &rows).with_loading(loading);
    let mut record = Record {
        clock: 30,
        ..fresh(&table, &order_of(&[1, 3, 2]))
    };
    (record.got[0], record.used[0], record.closing[0]) = (3, loading + 2, 20);
    (record.got[1], record.used[1], record.closing[1]) = (5, loading + 6, 0);
    (record.got[2], record.used[2], record.closing[2]) = (2, loading + 2, 0);
    record
}

/// The example with one change, refused for this reason and no other, with every
/// loading time.
fn refused_for(reason: Unsound, change: impl Fn(&mut Record)) {
    for loading in 0..=MOST_LOADING {
        let mut record = sound_example(loading);
        assert_eq!(record.reasons(), []);
        assert_eq!(record.one_slot(1).number, 0);
        change(&mut record);
        assert_eq!(record.reasons(), [reason], "K {loading}");
        let slot = record.one_slot(1);
        assert_eq!((slot.number, slot.row, slot.record), (9, 0, record));
        for supplies in [&[][..], &[1, 1][..]] {
            let forward = record.forward(supplies);
            assert_eq!(
                (forward.number, forward.worked, forward.record),
                (9, 0, record)
            );
        }
    }
}

#[test]
fn check_9_refuses_each_clause_alone() {
    refused_for(Unsound::TableOrOrder(3), |r| r.table.n = 65);
    refused_for(Unsound::TableOrOrder(3), |r| r.table.n = 0);
    refused_for(Unsound::TableOrOrder(4), |r| r.table.degraded = 3);
    for loading in TOO_LONG {
        refused_for(Unsound::TableOrOrder(11), |r| r.table.loading = loading);
    }
    refused_for(Unsound::TableOrOrder(5), |r| r.table.level[1] = 2);
    refused_for(Unsound::TableOrOrder(5), |r| r.table.release[3] = 1);
    refused_for(Unsound::TableOrOrder(5), |r| r.table.promised[3] = 1);
    refused_for(Unsound::TableOrOrder(12), |r| r.table.promised[0] = 5);
    refused_for(Unsound::TableOrOrder(12), |r| r.table.promised[1] = 1);
    // Row 2 is HI and row 1 LO; row 3 stands above row 2.
    refused_for(Unsound::TableOrOrder(5), |r| r.table.follows[3] = 1);
    for follows in [2, 3, 64, 65, u32::MAX] {
        refused_for(Unsound::TableOrOrder(13), |r| r.table.follows[1] = follows);
    }
    refused_for(Unsound::TableOrOrder(14), |r| {
        (r.table.release[0], r.table.follows[1]) = (1, 1);
    });
    refused_for(Unsound::TableOrOrder(15), |r| r.table.follows[1] = 1);
    refused_for(Unsound::TableOrOrder(6), |r| r.table.follows[2] = 2);
    refused_for(Unsound::TableOrOrder(6), |r| r.order[0] = 2);
    refused_for(Unsound::TableOrOrder(6), |r| r.order[3] = 1);
    // Row 3 was dropped at its deadline, so that only the clock is wrong.
    refused_for(Unsound::Clock, |r| dropped_before(r, 2_000_001));
    refused_for(Unsound::Clock, |r| dropped_before(r, u32::MAX));
    // Row 1 is closed by its allowance, so that only the work got is wrong.
    refused_for(Unsound::GotOverWork, |r| r.got[0] = 5);
    refused_for(Unsound::GotOverWork, |r| r.got[1] = u32::MAX);
    refused_for(Unsound::UsedOverClock, |r| r.used[1] = 31);
    refused_for(Unsound::UsedOverClock, |r| r.used[0] = u32::MAX);
    refused_for(Unsound::ClosingOverClock, |r| r.closing[0] = 31);
    refused_for(Unsound::ClosingOverClock, |r| r.closing[0] = u32::MAX);
    // Open though the work is got, HI and LO.
    refused_for(Unsound::OpenThoughFinished, |r| r.got[1] = 9);
    refused_for(Unsound::OpenThoughFinished, |r| r.got[2] = 6);
    // Open though the allowance of K + 2 or K + 3 slots is used up, or more than
    // that.
    refused_for(Unsound::OpenThoughFinished, |r| {
        (r.table.deadline[0], r.closing[0]) = (31, 0);
    });
    refused_for(Unsound::OpenThoughFinished, |r| r.used[2] += 1);
    refused_for(Unsound::OpenThoughFinished, |r| r.used[2] += 2);
    // With a promise of 4 work units at G of 1 row 3 may use K + 4 slots.
    refused_for(Unsound::OpenThoughFinished, |r| {
        r.table.promised[2] = 4;
        r.used[2] = r.table.loading + 4;
    });
    // Open, LO, and the clock has reached the deadline.
    refused_for(Unsound::OpenThoughLate, |r| r.clock = 40);
    refused_for(Unsound::OpenThoughLate, |r| r.clock = 41);
    refused_for(Unsound::OpenThoughLate, |r| r.clock = 2_000_000);
    for deadline in [4, 29, 30] {
        refused_for(Unsound::OpenThoughLate, |r| r.table.deadline[2] = deadline);
    }
    // Closed for no reason, HI (which has no allowance) and LO.
    refused_for(Unsound::ClosedWithoutReason, |r| r.closing[1] = 9);
    refused_for(Unsound::ClosedWithoutReason, |r| r.closing[2] = 9);
    refused_for(Unsound::ClosedWithoutReason, |r| r.used[0] -= 1);
    refused_for(Unsound::ClosedWithoutReason, |r| r.used[0] = 1);
    refused_for(Unsound::ClosedWithoutReason, |r| r.table.promised[0] = 3);
    // Closed before or after the deadline with work missing and allowance left, and
    // a HI row closed at its deadline.
    for closing in [1, 39, 41, 50] {
        refused_for(Unsound::ClosedWithoutReason, |r| {
            (r.clock, r.closing[2]) = (50, closing);
        });
    }
    refused_for(Unsound::ClosedWithoutReason, |r| r.closing[1] = 20);
    for index in [3, 63] {
        refused_for(Unsound::EntryAfterLastRow, |r| r.got[index] = 1);
        refused_for(Unsound::EntryAfterLastRow, |r| r.used[index] = 1);
        refused_for(Unsound::EntryAfterLastRow, |r| r.closing[index] = 1);
    }
}

/// The example with row 3 dropped at its deadline, at this clock, in slots.
fn dropped_before(record: &mut Record, clock: u32) {
    (record.clock, record.closing[2]) = (clock, 40);
}

#[test]
fn check_9_lets_the_limits_themselves_through() {
    let accepted = |change: fn(&mut Record)| {
        for loading in 0..=MOST_LOADING {
            let mut record = sound_example(loading);
            change(&mut record);
            assert_eq!(record.reasons(), [], "K {loading}");
            let slot = record.one_slot(1);
            assert_eq!(slot.number, if record.clock == LAST_CLOCK { 8 } else { 0 });
        }
    };
    accepted(|r| dropped_before(r, 2_000_000));
    accepted(|r| r.used[1] = 30);
    accepted(|r| r.used[2] = 0);
    accepted(|r| r.closing[0] = 30);
    accepted(|r| r.table.promised[0] = 2);
    accepted(|r| r.table.follows[2] = 1);
    accepted(|r| {
        r.table.promised[2] = 4;
        r.used[2] = r.table.loading + 3;
    });
    accepted(|r| r.got[0] = 4);
    accepted(|r| r.used[0] = 30);
    accepted(|r| (r.got[1], r.closing[1]) = (9, 30));
    accepted(|r| (r.got[1], r.used[1], r.closing[1]) = (9, 0, 1));
    accepted(|r| (r.got[2], r.used[2], r.closing[2]) = (0, r.table.loading + 3, 1));
    // One slot before the deadline row 3 is open, and from the deadline on it may
    // have been dropped there, whatever it had got and used.
    accepted(|r| r.clock = 39);
    accepted(|r| r.table.deadline[2] = 31);
    accepted(|r| dropped_before(r, 40));
    accepted(|r| dropped_before(r, 41));
    accepted(|r| {
        dropped_before(r, 40);
        (r.got[2], r.used[2]) = (0, 0);
    });
    accepted(|r| {
        dropped_before(r, 41);
        (r.got[2], r.used[2]) = (5, r.table.loading + 3);
    });
    // Done after the deadline, LO: no run reaches it.
    accepted(|r| (r.clock, r.got[2], r.closing[2]) = (50, 6, 50));
}

#[test]
fn check_9_comes_before_8() {
    let mut record = sound_example(5);
    dropped_before(&mut record, LAST_CLOCK);
    assert_eq!(record.one_slot(5).number, 8);
    assert_eq!(record.forward(&[5]).number, 8);
    record.closing[1] = 9;
    assert_eq!(record.one_slot(5).number, 9);
    assert_eq!(record.forward(&[5]).number, 9);
}
