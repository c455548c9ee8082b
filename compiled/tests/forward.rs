//! Forward of the library against the model's, in one call and in parts, over deadlines
//! too. Every loading time from 0 to 16 slots comes up, and tables with promises and waits
//! and without.

mod common;

use common::records::{
    any_record, fresh_record, reached_record, sound_record, sound_record_at, unsound_record,
    with_sound_figures, CLAUSES,
};
use common::{large_table, small_table, supplies, Kinds, Loadings, Tally};
use compiled::library;
use compiled::sheets::{easy, easy_loading, grouped, hard};
use model::calls::{play_on_paper, Answer, Call, LAST_CLOCK};
use model::cases::row;
use model::order::order_of;
use model::plain;
use model::random::{random_order, Random};
use model::record::{Forward, Record};
use model::run::{is_finished, is_waiting};
use model::table::{Table, HI, LATEST_DEADLINE, LO};

/// Compares forward over these supplies; gives the answer.
fn compare(record: &Record, supplies: &[u32]) -> Forward {
    let expected = record.forward(supplies);
    let answer = library::forward(record, supplies);
    assert_eq!(
        answer,
        expected,
        "{} supplies on {record:?}",
        supplies.len()
    );
    let mut worked = *record;
    let numbers = plain::forward(&mut worked, supplies);
    assert_eq!(numbers, (expected.number, expected.worked));
    assert_eq!(worked, expected.record);
    answer
}

#[test]
fn short_lists_on_sound_records() {
    let mut random = Random::seeded(501);
    let mut tally = Tally::new("forward, short lists");
    let mut lengths = Tally::new("forward, lengths of the lists");
    let mut loadings = Loadings::new("forward, short lists, by K");
    for _ in 0..60_000 {
        let record = if random.once_in(2) {
            sound_record(&mut random)
        } else {
            reached_record(&mut random)
        };
        let count = random.between(0, 12);
        let answer = compare(&record, &supplies(&mut random, count));
        tally.saw(answer.number);
        lengths.saw(count);
        loadings.saw(answer.number, &record.table);
    }
    tally.assert_common(&[0, 8], 5_000);
    let all: Vec<u32> = (0..=12).collect();
    lengths.assert_common(&all, 2_000);
    loadings.assert_every(1_000);
}

/// From a fresh record until all rows are closed, or nearly.
#[test]
fn whole_runs() {
    let mut random = Random::seeded(507);
    let mut closed = Tally::new("forward, whole runs, all rows closed");
    let mut loadings = Loadings::new("forward, whole runs, by K");
    let mut kinds = Kinds::new("forward, whole runs, by promises and waits");
    for _ in 0..20_000 {
        let record = fresh_record(&mut random);
        let (n, loading) = (record.table.n, record.table.loading);
        let count = 40 + n * (3 + loading);
        let answer = compare(&record, &supplies(&mut random, count));
        loadings.saw(answer.number, &record.table);
        kinds.saw(answer.number, &record.table);
        let closing = &answer.record.closing[..n as usize];
        closed.saw(closing.iter().all(|&slot| slot != 0));
    }
    closed.assert_common(&[true], 8_000);
    loadings.assert_every(400);
    kinds.assert_all(2_000);
}

/// A course in which every slot before this clock supplies at least G, often just that,
/// and later ones anything.
fn at_least_degraded(random: &mut Random, table: &Table, until: u32, slots: u32) -> Vec<u32> {
    let later = supplies(random, slots - until);
    let above = [0, 0, 0, 1, 5];
    let before = (0..until).map(|_| table.degraded + random.one_of(&above));
    before.chain(later).collect()
}

/// Demand 3's clause over runs of the library: under the order that it plans a LO row has
/// got its promised part from its deadline on, if every slot up to there supplies at
/// least G, whatever comes later (rule 9.18).
#[test]
fn planned_rows_keep_their_promises() {
    let mut random = Random::seeded(511);
    let mut tally = Tally::new("forward, promises, just at the deadline or before");
    let mut loadings = Loadings::new("forward, promises, by K");
    for round in 0..40_000 {
        let table = if round % 16 == 0 {
            large_table(&mut random)
        } else {
            small_table(&mut random)
        };
        let promising = (0..table.n as usize).filter(|&index| table.promised[index] > 0);
        let promising: Vec<usize> = promising.collect();
        let planned = library::plan(&table);
        if planned.number != 0 || promising.is_empty() {
            continue;
        }
        let index = random.one_of(&promising);
        let (deadline, promised) = (table.deadline[index], table.promised[index]);
        if deadline > 5_000 {
            continue;
        }
        let slots = deadline + random.between(0, 5);
        let course = at_least_degraded(&mut random, &table, deadline, slots);
        let (_, fresh) = library::fresh(&table, &planned.order);
        let got_after = |slots: u32| {
            let worked = library::forward(&fresh, &course[..slots as usize]);
            worked.record.got[index]
        };
        assert!(
            got_after(deadline) >= promised,
            "row {} {table:?}",
            index + 1
        );
        assert!(got_after(slots) >= promised, "row {} {table:?}", index + 1);
        tally.saw(got_after(deadline - 1) >= promised);
        loadings.saw(0, &table);
    }
    tally.assert_common(&[false, true], 200);
    loadings.assert_every(40);
}

/// How a closed row of a record has ended: done, dropped for its slots, or by the clock.
fn how_it_ended(record: &Record, row: u8) -> &'static str {
    let index = row as usize - 1;
    let (got, used) = (record.got[index], record.used[index]);
    match got == record.table.work[index] {
        true => "done",
        false if is_finished(&record.table, row, got, used) => "used up",
        false => "late",
    }
}

/// No slot runs a row while the row that it follows is open, from fresh records, reached
/// ones and ones that no run reaches, whatever is supplied. Once that is closed the row may
/// run; what a HI row follows is done then (rule 9.19).
#[test]
fn followers_wait() {
    let mut random = Random::seeded(512);
    let mut tally = Tally::new("forward, slots of followers, by how the followed row ended");
    let mut waited = Tally::new("forward, slots in which a released row waits");
    for round in 0..20_000 {
        let mut record = match round % 3 {
            0 => fresh_record(&mut random),
            1 => reached_record(&mut random),
            _ => {
                let clock = random.between(0, 60);
                sound_record_at(&mut random, clock)
            }
        };
        let table = record.table;
        for supply in supplies(&mut random, 30) {
            let after = library::one_slot(&record, supply);
            let waits = |row: u8| {
                let (released, state) = (table.row(row).release <= record.clock, record.state());
                released && record.closing[row as usize - 1] == 0 && is_waiting(&table, &state, row)
            };
            waited.saw((1..=table.n as u8).any(waits));
            if after.row != 0 && table.row(after.row).follows != 0 {
                let followed = table.row(after.row).follows as u8;
                assert!(record.closing[followed as usize - 1] != 0, "{record:?}");
                let ended = how_it_ended(&record, followed);
                let is_high = table.row(after.row).level == HI;
                assert!(ended == "done" || !is_high, "{record:?}");
                tally.saw((is_high, ended));
            }
            record = after.record;
        }
    }
    tally.assert_common(&[(false, "done"), (true, "done")], 2_000);
    tally.assert_common(&[(false, "used up"), (false, "late")], 500);
    waited.assert_common(&[false, true], 20_000);
}

#[test]
fn near_the_last_clock() {
    let mut random = Random::seeded(502);
    let mut tally = Tally::new("forward, near the last clock");
    for _ in 0..300 {
        for clock in LAST_CLOCK - 10..=LAST_CLOCK {
            let record = sound_record_at(&mut random, clock);
            for count in [0, 1, LAST_CLOCK - clock, LAST_CLOCK - clock + 1, 12] {
                let answer = compare(&record, &supplies(&mut random, count));
                let room = LAST_CLOCK - clock;
                assert_eq!(answer.worked, count.min(room));
                assert_eq!(answer.number, if count > room { 8 } else { 0 });
                tally.saw(answer.number);
            }
        }
    }
    tally.assert_common(&[0, 8], 5_000);
}

#[test]
fn unsound_records_with_empty_and_full_lists() {
    let mut random = Random::seeded(503);
    let mut tally = Tally::new("forward, unsound records, by list length");
    for clause in CLAUSES {
        for _ in 0..1_000 {
            let record = unsound_record(&mut random, clause);
            for count in [0, 1, 9] {
                let answer = compare(&record, &supplies(&mut random, count));
                assert_eq!((answer.number, answer.worked), (9, 0));
                assert_eq!(answer.record, record);
                tally.saw(count);
            }
        }
    }
    for _ in 0..5_000 {
        let record = any_record(&mut random);
        for count in [0, 3] {
            assert_eq!(compare(&record, &supplies(&mut random, count)).number, 9);
            tally.saw(count);
        }
    }
    tally.assert_common(&[0, 1, 3, 9], 5_000);
}

/// A list in one call, and the same list cut anywhere into two or more.
#[test]
fn splitting() {
    let mut random = Random::seeded(504);
    let mut tally = Tally::new("forward, lists cut into parts");
    for _ in 0..20_000 {
        let record = sound_record(&mut random);
        let count = random.between(0, 40);
        let list = supplies(&mut random, count);
        let whole = compare(&record, &list);
        let (mut parts, mut worked, mut number) = (record, 0, 0);
        let mut rest = list.as_slice();
        while number == 0 && !rest.is_empty() {
            let (part, after) = rest.split_at(random.between(0, rest.len() as u32) as usize);
            let answer = compare(&parts, part);
            (parts, number, rest) = (answer.record, answer.number, after);
            worked += answer.worked;
        }
        assert_eq!((number, worked), (whole.number, whole.worked));
        assert_eq!(parts, whole.record);
        tally.saw(number);
    }
    tally.assert_common(&[0, 8], 2_000);
}

/// The same list in one call, cut at every deadline that it comes to, and slot by slot.
fn compare_in_parts(record: &Record, list: &[u32]) -> Forward {
    let whole = compare(record, list);
    let (n, from) = (record.table.n as usize, record.clock);
    let mut cuts: Vec<u32> = record.table.deadline[..n].to_vec();
    cuts.sort_unstable();
    cuts.retain(|&deadline| deadline > from && deadline - from < list.len() as u32);
    let (mut parts, mut worked, mut start) = (*record, 0, 0);
    for end in cuts.into_iter().map(|deadline| (deadline - from) as usize) {
        let answer = compare(&parts, &list[start..end]);
        (parts, start) = (answer.record, end);
        worked += answer.worked;
    }
    let last = compare(&parts, &list[start..]);
    assert_eq!(
        (last.number, worked + last.worked),
        (whole.number, whole.worked)
    );
    assert_eq!(last.record, whole.record);
    let mut slots = *record;
    for &supply in &list[..whole.worked as usize] {
        let answer = library::one_slot(&slots, supply);
        assert_eq!(answer.number, 0, "{slots:?}");
        slots = answer.record;
    }
    assert_eq!(slots, whole.record);
    whole
}

/// How many LO rows were closed on the way at their deadlines with work missing and
/// allowance left.
fn dropped_for_deadlines(before: &Record, after: &Record) -> usize {
    let is_dropped = |&row: &u8| {
        let index = row as usize - 1;
        let (got, used) = (after.got[index], after.used[index]);
        before.closing[index] == 0
            && after.closing[index] != 0
            && !is_finished(&after.table, row, got, used)
    };
    (1..=after.table.n as u8).filter(is_dropped).count()
}

/// Fresh records, reached ones and ones that no run reaches, worked over some deadlines
/// or all.
#[test]
fn splitting_at_deadlines() {
    let mut random = Random::seeded(508);
    let mut tally = Tally::new("forward, cut at deadlines, rows dropped for theirs");
    let mut loadings = Loadings::new("forward, cut at deadlines, by K");
    for round in 0..6_000 {
        let record = match round % 3 {
            0 => fresh_record(&mut random),
            1 => reached_record(&mut random),
            _ => {
                let clock = random.between(0, 60);
                sound_record_at(&mut random, clock)
            }
        };
        let count = random.between(1, 120);
        let list = match random.between(0, 1) {
            0 => supplies(&mut random, count),
            _ => vec![random.between(0, 1); count as usize],
        };
        let answer = compare_in_parts(&record, &list);
        tally.saw(dropped_for_deadlines(&record, &answer.record).min(5));
        loadings.saw(answer.number, &record.table);
    }
    tally.assert_common(&[0, 1, 2, 3, 4, 5], 30);
    loadings.assert_every(100);
}

/// A HI row of the most work and 63 previews below it, with these deadlines in slots. All
/// but the first follow another row, the HI row or a preview.
fn previews_below(deadlines: impl Fn(u32) -> u32) -> Record {
    let high = row([0, 1_000_000, 1_000_000, HI]);
    let preview = |index| row([0, 2, deadlines(index), LO, index % 3, index / 2]);
    let mut rows = vec![high];
    rows.extend((1..64).map(preview));
    let places: Vec<u8> = (1..=64).collect();
    Record::fresh(&Table::of(1, 1, 0, &rows), &order_of(&places)).1
}

/// One row of 64 is dropped by each slot, or some by every few, or all by one. The HI row
/// runs on, so that no other has a slot, unless a supply is large enough to end it.
#[test]
fn sixty_four_rows() {
    let mut random = Random::seeded(509);
    for every in [1, 2, 7, 63] {
        let fresh = previews_below(|index| 1 + (index - 1) / every * every);
        for count in [0, 1, 2, 8, 62, 63, 64, 70] {
            let after = compare_in_parts(&fresh, &vec![5; count as usize]).record;
            let is_reached = |deadline: &&u32| **deadline <= count;
            let reached = fresh.table.deadline[1..].iter().filter(is_reached);
            let dropped = dropped_for_deadlines(&fresh, &after);
            assert_eq!(dropped, reached.count(), "every {every}, {count} slots");
            compare_in_parts(&fresh, &supplies(&mut random, count));
        }
        let after = compare_in_parts(&fresh, &[0; 70]).record;
        assert_eq!(after.closing[1..], fresh.table.deadline[1..]);
    }
}

/// The latest deadline there is and its neighbours, reached from a fresh record and from
/// a clock near them.
#[test]
fn the_latest_deadline() {
    let mut random = Random::seeded(510);
    let latest = LATEST_DEADLINE;
    let fresh = previews_below(|index| latest - index % 3);
    let nothing = vec![0; latest as usize + 2];
    for count in [latest - 3, latest - 2, latest - 1, latest, latest + 2] {
        let after = compare(&fresh, &nothing[..count as usize]).record;
        let is_reached = |deadline: &&u32| **deadline <= count;
        let reached = fresh.table.deadline[1..].iter().filter(is_reached);
        let dropped = dropped_for_deadlines(&fresh, &after);
        assert_eq!(dropped, reached.count(), "{count} slots");
    }
    let mut tally = Tally::new("forward, over the latest deadline, rows dropped for theirs");
    for _ in 0..3_000 {
        let mut near = fresh_record(&mut random);
        for deadline in &mut near.table.deadline[..near.table.n as usize] {
            *deadline = latest - random.between(0, 3);
        }
        let clock = random.between(latest - 6, latest + 1);
        let record = with_sound_figures(&mut random, near, clock);
        let count = random.between(0, 8);
        let answer = compare_in_parts(&record, &supplies(&mut random, count));
        tally.saw(dropped_for_deadlines(&record, &answer.record).min(3));
    }
    tally.assert_common(&[0, 1, 2, 3], 50);
}

/// A whole list of calls of both kinds against the run on paper, which is fed
/// nothing from the record.
#[test]
fn lists_of_calls_against_the_run_on_paper() {
    let mut random = Random::seeded(505);
    let mut tally = Tally::new("calls of both kinds");
    let mut loadings = Loadings::new("calls of both kinds, by K");
    for _ in 0..10_000 {
        let mut record = fresh_record(&mut random);
        let (table, order) = (record.table, record.order);
        loadings.saw(0, &table);
        let mut calls = Vec::new();
        let mut answers = Vec::new();
        for _ in 0..random.between(1, 12) {
            if random.once_in(2) {
                let supply = supplies(&mut random, 1)[0];
                let after = library::one_slot(&record, supply);
                let (number, row) = (after.number, after.row);
                answers.push(Answer::OneSlot { number, row });
                calls.push(Call::OneSlot(supply));
                record = after.record;
                tally.saw("one slot");
            } else {
                let count = random.between(0, 20);
                let list = supplies(&mut random, count);
                let after = library::forward(&record, &list);
                let (number, worked) = (after.number, after.worked);
                answers.push(Answer::Forward { number, worked });
                calls.push(Call::Forward(list));
                record = after.record;
                tally.saw("forward");
            }
        }
        let (on_paper, state) = play_on_paper(&table, &order, &calls);
        assert_eq!(answers, on_paper);
        assert_eq!(record, Record::holding(&table, &order, &state));
    }
    tally.assert_common(&["one slot", "forward"], 20_000);
    loadings.assert_every(200);
}

/// From a fresh record to the last clock and over it.
#[test]
fn long_lists() {
    let mut random = Random::seeded(506);
    let mut tally = Tally::new("forward, long lists");
    let mut slow = hard(64);
    slow.work = [1_000_000; 64];
    let runs = [
        (easy(64), 2_000_005),
        (easy_loading(64, 16), 10_000),
        (hard(64), 100_000),
        (grouped(64, 3), 100_000),
        (slow, 1_999_999),
        (slow.with_loading(16), 2_000_000),
        (slow.with_loading(7), 2_000_005),
    ];
    for (table, count) in runs {
        let order = random_order(&mut random, &table);
        let (_, record) = Record::fresh(&table, &order);
        let answer = compare(&record, &supplies(&mut random, count));
        assert_eq!(answer.worked, count.min(LAST_CLOCK));
        tally.saw(answer.number);
    }
    tally.assert_common(&[0, 8], 2);
}
