//! Asking and committing (section 22 of the rules): the cases worked out by hand, the order of
//! the checks, what a refused commit leaves, and days of run calls and commits on a record and
//! on paper. What the rows of a committed sheet keep is in `committed`.

mod common;

use common::correct::{correct_by_every_course, TINY};
use common::{Kinds, SMALL};
use model::calls::Answer;
use model::cases::commits::{
    ask_cases, commit_cases, commit_faults, drawing, good_commit, hand_days, next, CommitCase,
};
use model::cases::{p1, p2, p3};
use model::order::{order_of, orders, NO_ORDER};
use model::plain;
use model::plan::plan;
use model::proposal::{ask, check_proposal, Act, Asked, Committed, InHand, Proposal, Told};
use model::random::commits::{any_proposal, any_record, damage, day, proposal, spoil, SPOILED};
use model::random::{random_order, table_in, Random};
use model::record::Record;
use model::run::step;
use model::sheet::{read_sheet, sheet_of};
use model::table::{Table, ROWS};
use std::collections::BTreeMap;

/// How often each number was answered.
type Counts = BTreeMap<u32, u32>;

/// Fails unless these numbers and no others were answered, each `least` times.
fn assert_counts(counts: &Counts, numbers: &[u32], least: u32) {
    println!("numbers and how often: {counts:?}");
    let mut sorted = numbers.to_vec();
    sorted.sort_unstable();
    assert!(counts.keys().eq(&sorted), "{counts:?}");
    assert!(counts.values().all(|&times| times >= least), "{counts:?}");
}

/// The numbers of a commit on a sound record (rule 11.10).
fn numbers_on_paper() -> Vec<u32> {
    [&[0, 17], &SPOILED[..]].concat()
}

#[test]
fn sheets_asked_about() {
    for case in ask_cases() {
        assert_eq!(ask(&case.sheet), case.asked, "{}", case.what);
        assert_eq!(plain::ask(&case.sheet), case.asked, "{}", case.what);
    }
}

/// Asking is the reader and then the planner (rule 22.2).
#[test]
fn asking_reads_and_plans() {
    let mut random = Random::seeded(121);
    let mut counts = Counts::new();
    for _ in 0..4_000 {
        let table = table_in(&mut random, SMALL);
        let mut sheet = sheet_of(&table);
        if random.once_in(4) {
            let at = random.between(0, sheet.len() as u32 - 1) as usize;
            sheet[at] = random.one_of(b" 0123456789\n");
        }
        let asked = ask(&sheet);
        assert_eq!(plain::ask(&sheet), asked);
        let (number, read) = read_sheet(&sheet);
        let planned = plan(&read);
        *counts.entry(asked.number).or_default() += 1;
        if number != 0 {
            assert_eq!((asked.number, asked.left), (number, 0));
        } else {
            assert_eq!((asked.number, asked.left), (planned.number, planned.left));
        }
        let handed = (asked.table, asked.order);
        if asked.number == 0 {
            assert_eq!(handed, (read, planned.order));
        } else {
            assert_eq!(handed, (Table::ZERO, NO_ORDER));
        }
    }
    println!("{counts:?}");
    assert!([0, 1, 2, 5, 7, 12].iter().all(|number| counts[number] > 5));
}

/// A commit by the model, which the plain one answers alike.
fn commit(record: Record, of: &Proposal) -> Committed {
    let done = record.commit(&of.table, &of.order);
    let mut by_plain = record;
    let number = plain::commit(&mut by_plain, &of.table, &of.order);
    assert_eq!((number, by_plain), (done.number, done.record), "{of:?}");
    done
}

/// Each case on a record and, if the record is sound, on paper. With 0 all that the old sheet
/// had is gone but its clock (rule 22.4), with any other number nothing is (rule 22.5).
#[test]
fn commits_worked_out_by_hand() {
    let mut counts = Counts::new();
    for case in commit_cases() {
        let CommitCase {
            what,
            record,
            proposal,
            number,
        } = case;
        let done = commit(record, &proposal);
        assert_eq!(done.number, number, "{what}");
        assert_eq!(done.record, case.after(), "{what}");
        assert_eq!(done.record.clock, record.clock, "{what}");
        *counts.entry(number).or_default() += 1;
        assert_eq!(record.is_sound(), number != 9, "{what}");
        if number != 9 {
            assert!(done.record.is_sound(), "{what}");
            let mut hand = InHand {
                table: record.table,
                order: record.order,
                state: record.state(),
            };
            let told = hand.act(&Act::Commit(Box::new(proposal)));
            assert_eq!(told, Told::Commit(number), "{what}");
            assert_eq!(hand.record(), done.record, "{what}");
        }
    }
    assert_counts(&counts, &[&[9], &numbers_on_paper()[..]].concat(), 2);
}

/// Any faults together, one for each number: the first of them in the order of the checks gives
/// the number, and the record stays as it is (rules 11.10 and 22.5).
#[test]
fn the_first_of_any_faults_gives_the_number() {
    let faults = commit_faults();
    let numbers = faults.map(|(number, ..)| number);
    assert_eq!(numbers, [9, 3, 4, 11, 5, 12, 13, 14, 15, 6, 16, 17, 18]);
    for set in 0..1u32 << faults.len() {
        let (mut record, mut of) = good_commit();
        let mut first = 0;
        for index in (0..faults.len())
            .rev()
            .filter(|index| set >> index & 1 == 1)
        {
            let (number, _, put_in) = faults[index];
            put_in(&mut record, &mut of);
            first = number;
        }
        let done = commit(record, &of);
        assert_eq!(done.number, first, "{set:013b}");
        assert_eq!(done.record == record, first != 0, "{set:013b}");
    }
}

/// 16 is answered exactly if the order is one of the table and not correct over all courses of
/// speed (rules 3.4 and 10.16).
#[test]
fn number_16_over_every_course_of_speed() {
    let mut random = Random::seeded(122);
    let mut counts = Counts::new();
    for _ in 0..1_500 {
        let table = table_in(&mut random, TINY);
        for order in orders(&table) {
            let is_correct = correct_by_every_course(step, &table, &order);
            let number = check_proposal(&Proposal { table, order });
            assert_eq!(number, if is_correct { 0 } else { 16 }, "{table:?}");
            *counts.entry(number).or_default() += 1;
        }
    }
    assert_counts(&counts, &[0, 16], 500);
}

/// A row is open at clock 0, or the record is not sound, so that no commit is accepted there:
/// a good proposal is answered 17 or 9.
#[test]
fn no_commit_at_clock_0() {
    let mut random = Random::seeded(123);
    let mut counts = Counts::new();
    for _ in 0..4_000 {
        let mut record = Record {
            clock: 0,
            ..any_record(&mut random, SMALL)
        };
        if random.once_in(2) {
            record = Record::starting(&record.table, &record.order, 0);
        }
        let of = proposal(&mut random, SMALL, 0);
        let done = commit(record, &of);
        assert_eq!(done.record, record);
        *counts.entry(done.number).or_default() += 1;
    }
    assert_counts(&counts, &[9, 17], 500);
    // At clock 1 a row of one slot is closed.
    let short = Proposal {
        table: model::cases::table(1, 1, &[[0, 1, 1, 0]]),
        order: order_of(&[1]),
    };
    let committed = short.worked(&[1]).commit(&next(1).table, &next(1).order);
    assert_eq!((committed.number, committed.record.clock), (0, 1));
}

/// Asked and answered 0, a commit answers 0, 9, 17 or 18 on any record, damaged or not (rule
/// 22.6).
#[test]
fn what_asking_gives_is_never_refused_for_itself() {
    let mut random = Random::seeded(124);
    let mut counts = Counts::new();
    let mut kinds = Kinds::default();
    for _ in 0..8_000 {
        let record = any_record(&mut random, SMALL);
        let earliest = record.clock.min(999_000) + random.between(0, 4);
        let table = table_in(&mut random, SMALL).later(earliest.saturating_sub(2));
        let Asked {
            number,
            table,
            order,
            ..
        } = ask(&sheet_of(&table));
        if number != 0 {
            assert_eq!(number, 7);
            continue;
        }
        kinds.saw(&table);
        let done = commit(record, &Proposal { table, order });
        *counts.entry(done.number).or_default() += 1;
        assert_eq!(done.number == 9, !record.is_sound());
        assert_eq!(done.number != 0, done.record == record);
    }
    assert_counts(&counts, &[0, 9, 17, 18], 200);
    kinds.assert_all(20);
    // What a refused asking hands over is refused with 3, and with 9 on a damaged record.
    let refused = ask(&sheet_of(&p3()));
    for (record, number) in [(drawing().worked(&[2, 2]), 3), (Record::ZERO, 9)] {
        let done = record.commit(&refused.table, &refused.order);
        assert_eq!((done.number, done.record), (number, record));
    }
}

/// A spoiled proposal is refused by the number asked for, or by 13 where there is one row.
#[test]
fn spoiled_proposals() {
    let mut random = Random::seeded(125);
    let mut counts = Counts::new();
    for round in 0..4_400 {
        let clock = random.between(1, 40);
        let hand = over_at(clock);
        let mut of = proposal(&mut random, SMALL, clock);
        assert_eq!(commit(hand, &of).number, 0);
        let asked = SPOILED[round % SPOILED.len()];
        spoil(&mut random, &mut of, asked, clock);
        let number = commit(hand, &of).number;
        let alone = of.table.n == 1 && [14, 15].contains(&asked);
        assert_eq!(number, if alone { 13 } else { asked }, "{of:?}");
        *counts.entry(number).or_default() += 1;
    }
    assert_counts(&counts, &SPOILED, 200);
}

/// A sound record with one closed row at this clock, from 1 on.
fn over_at(clock: u32) -> Record {
    let table = model::cases::table(1, 1, &[[0, 1, 1, 0]]);
    let order = order_of(&[1]);
    Proposal { table, order }.worked(&vec![1; clock as usize])
}

#[test]
fn days_worked_out_by_hand() {
    for day in hand_days() {
        let (told, hand) = day.start.day(&day.acts);
        assert_eq!(told, day.told, "{} on paper", day.what);
        assert_eq!(hand, day.end, "{} on paper", day.what);
        let (told, record) = day.start.record().day(&day.acts);
        assert_eq!(told, day.told, "{}", day.what);
        assert_eq!(record, day.end.record(), "{}", day.what);
    }
}

/// Long days: every answer is the one on paper, none is 9, and after each act the record holds
/// the sheet in hand, field by field (rule 22.9). A day may be broken off anywhere and taken up
/// again on the record as it is.
#[test]
fn days_on_a_record_answer_as_on_paper() {
    let mut random = Random::seeded(126);
    let (mut counts, mut most_sheets) = (Counts::new(), 0);
    let mut kinds = Kinds::default();
    for _ in 0..250 {
        let table = table_in(&mut random, SMALL);
        let order = random_order(&mut random, &table);
        let clock = random.between(0, model::table::earliest_release(&table));
        let start = InHand::starting(&table, &order, clock);
        let acts = day(&mut random, SMALL, &start, 200);
        let (mut hand, mut record) = (start, start.record());
        let mut sheets = 0;
        for act in &acts {
            let before = record;
            let on_paper = hand.act(act);
            let (told, after) = record.act(act);
            assert_eq!(told, on_paper);
            assert_eq!(after, hand.record());
            assert_eq!(after.reasons(), []);
            if let Told::Commit(number) = told {
                *counts.entry(number).or_default() += 1;
                sheets += u32::from(number == 0);
                assert_eq!(after.clock, before.clock);
                assert!(number == 0 || after == before);
            } else {
                let sheet = (before.table, before.order);
                assert_eq!((after.table, after.order), sheet);
                assert!(!matches!(
                    told,
                    Told::Call(Answer::OneSlot { number: 1.., .. })
                ));
            }
            kinds.saw(&after.table);
            record = after;
        }
        most_sheets = most_sheets.max(sheets);
        let cut = random.between(0, acts.len() as u32) as usize;
        let (first, between) = start.record().day(&acts[..cut]);
        let (second, end) = between.day(&acts[cut..]);
        assert_eq!(end, record);
        assert_eq!([first, second].concat(), start.day(&acts).0);
    }
    println!("up to {most_sheets} sheets in a day");
    assert_counts(&counts, &numbers_on_paper(), 60);
    assert!(counts[&0] > 1_000 && most_sheets > 8);
    kinds.assert_all(100);
}

/// A day on a record that is damaged: every act answers 9 and nothing changes, as long as it is
/// not mended.
#[test]
fn a_damaged_record_stays_as_it_is_all_day() {
    let mut random = Random::seeded(127);
    let mut damaged = 0;
    for _ in 0..1_500 {
        let of = proposal(&mut random, SMALL, 0);
        let start = InHand::starting(&of.table, &of.order, 0);
        let acts = day(&mut random, SMALL, &start, 6);
        let mut record = start.record();
        damage(&mut random, &mut record);
        if record.is_sound() {
            continue;
        }
        damaged += 1;
        for act in &acts {
            let (told, after) = record.act(act);
            let number = match told {
                Told::Commit(number) => number,
                Told::Call(Answer::OneSlot { number, row }) => number + u32::from(row),
                Told::Call(Answer::Forward { number, worked }) => number + worked,
            };
            assert_eq!((number, after), (9, record));
        }
    }
    assert!(damaged > 500, "{damaged}");
}

/// The number depends on the record by whether it is sound, by its open rows and by its clock
/// alone: with the same clock and all rows closed every record answers alike, and what it
/// hands back after 0 is the same (rule 22.4).
#[test]
fn records_with_the_same_clock_are_committed_alike() {
    let mut random = Random::seeded(128);
    let mut accepted = 0;
    for _ in 0..1_500 {
        let clock = random.between(1, 30);
        let record = model::random::commits::closed_record(&mut random, SMALL, clock);
        let of = any_proposal(&mut random, SMALL, record.clock);
        let done = commit(record, &of);
        let other = commit(over_at(record.clock), &of);
        assert_eq!(done.number, other.number);
        if done.number == 0 {
            assert_eq!(done.record, other.record);
            let entries = [other.record.got, other.record.used, other.record.closing];
            assert_eq!(entries, [[0; ROWS]; 3]);
            accepted += 1;
        }
    }
    assert!(accepted > 500, "{accepted}");
}

/// P1 after P2 and so on, each asked about and committed with its releases moved to the clock.
#[test]
fn starred_cases_asked_and_committed_in_turn() {
    let mut record = drawing().worked(&[2; 2]);
    for table in [p1(), p2(), p1(), p2()] {
        let asked = ask(&sheet_of(&table.later(record.clock)));
        let done = record.commit(&asked.table, &asked.order);
        assert_eq!((asked.number, done.number), (0, 0));
        record = done.record.forward(&[table.normal; 20]).record;
    }
    assert_eq!(record.clock, 82);
    let first = record.table.later(0);
    assert_eq!(first, p2().later(62));
    for row in 1..=4 {
        assert!(model::run::kept_deadline(&first, &record.state(), row));
    }
}
