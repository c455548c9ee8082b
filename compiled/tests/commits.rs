//! Committing of the library against the model's (section 22 of the rules): number and every
//! field of the record, on records that runs reach and on others, sound and damaged; and days
//! of run calls and commits. A refused commit leaves every byte of the record (rule 22.5).

mod common;

use common::proposals::{any_large_proposal, closed_record_at, large_proposal, spoil_large};
use common::records::{any_record, sound_record, unsound_record, CLAUSES};
use common::{
    for_each_word_changed, large_table, small_table, supplies, supply, Kinds, Loadings, Tally,
    SMALL,
};
use compiled::sheets::{
    chain, easy_loading, grouped, hard_loading, late_promises, one_period, staggered,
};
use compiled::{library, raw};
use model::calls::{Answer, Call, LAST_CLOCK};
use model::cases::commits::{
    commit_cases, commit_faults, drawing, drawn, good_commit, hand_days, next, CommitCase,
};
use model::cases::{p1, p3, table};
use model::order::order_of;
use model::plain;
use model::proposal::{Act, Committed, InHand, Proposal, Told};
use model::random::commits::{any_proposal, damage, day, moved, proposal, SPOILED};
use model::random::{random_order, Random};
use model::record::{Forward, OneSlot, Record};
use model::run::kept_deadline;
use model::sheet::sheet_of;
use model::table::{earliest_release, Table, LATEST_DEADLINE, MOST_LOADING, ROWS};

/// The numbers of a commit but 9, in the order of the checks (rule 11.10), 0 last.
const NUMBERS: [u32; 13] = [3, 4, 11, 5, 12, 13, 14, 15, 6, 16, 17, 18, 0];

/// The same by size: in a day no act answers 9 (rule 22.9).
fn sorted_numbers() -> [u32; 13] {
    let mut sorted = NUMBERS;
    sorted.sort_unstable();
    sorted
}

/// Compares a commit with the plain one; gives the answer.
fn compare_with_plain(record: &Record, of: &Proposal) -> Committed {
    let answer = library::commit(record, &of.table, &of.order);
    let mut expected = *record;
    let number = plain::commit(&mut expected, &of.table, &of.order);
    assert_eq!(answer.number, number, "{of:?} on {record:?}");
    assert_eq!(answer.record, expected, "{of:?} on {record:?}");
    let after = match number {
        0 => Record::starting(&of.table, &of.order, record.clock),
        _ => *record,
    };
    assert_eq!(answer.record, after, "{of:?} on {record:?}");
    answer
}

/// Compares it with the model's too; gives its number.
fn compare(record: &Record, of: &Proposal) -> u32 {
    let answer = compare_with_plain(record, of);
    let expected = record.commit(&of.table, &of.order);
    assert_eq!(answer, expected, "{of:?} on {record:?}");
    answer.number
}

/// What the library answers to an act of a day, and the record afterwards.
fn act(record: &Record, act: &Act) -> (Told, Record) {
    match act {
        Act::Call(Call::OneSlot(supply)) => {
            let OneSlot {
                number,
                row,
                record,
            } = library::one_slot(record, *supply);
            (Told::Call(Answer::OneSlot { number, row }), record)
        }
        Act::Call(Call::Forward(supplies)) => {
            let Forward {
                number,
                worked,
                record,
            } = library::forward(record, supplies);
            (Told::Call(Answer::Forward { number, worked }), record)
        }
        Act::Commit(of) => {
            let Committed { number, record } = library::commit(record, &of.table, &of.order);
            (Told::Commit(number), record)
        }
    }
}

/// The plain answer to it.
fn plain_act(record: &mut Record, act: &Act) -> Told {
    match act {
        Act::Call(Call::OneSlot(supply)) => {
            let (number, row) = plain::one_slot(record, *supply);
            Told::Call(Answer::OneSlot { number, row })
        }
        Act::Call(Call::Forward(supplies)) => {
            let (number, worked) = plain::forward(record, supplies);
            Told::Call(Answer::Forward { number, worked })
        }
        Act::Commit(of) => Told::Commit(plain::commit(record, &of.table, &of.order)),
    }
}

fn is_over(record: &Record) -> bool {
    !record.closing[..record.table.n as usize].contains(&0)
}

#[test]
fn commits_worked_out_by_hand() {
    let mut tally = Tally::new("commits, by hand");
    for case in commit_cases() {
        let CommitCase {
            what,
            record,
            proposal,
            number,
        } = case;
        assert_eq!(compare(&record, &proposal), number, "{what}");
        let done = library::commit(&record, &proposal.table, &proposal.order);
        assert_eq!(done.record, case.after(), "{what}");
        tally.saw(number);
    }
    tally.assert_common(&NUMBERS, 2);
    tally.assert_common(&[9], 2);
}

#[test]
fn days_worked_out_by_hand() {
    for day in hand_days() {
        let mut record = day.start.record();
        for (act_of_day, told) in day.acts.iter().zip(&day.told) {
            let (answer, after) = act(&record, act_of_day);
            assert_eq!(answer, *told, "{}", day.what);
            record = after;
        }
        assert_eq!(record, day.end.record(), "{}", day.what);
    }
}

/// One fault for each number, in every combination: the first in the order of the checks gives
/// the number (rule 11.10).
#[test]
fn the_first_of_any_faults_gives_the_number() {
    let faults = commit_faults();
    for set in 0..1u32 << faults.len() {
        let (mut record, mut of) = good_commit();
        let mut first = 0;
        for (index, (number, _, put_in)) in faults.iter().enumerate().rev() {
            if set >> index & 1 == 1 {
                put_in(&mut record, &mut of);
                first = *number;
            }
        }
        assert_eq!(compare(&record, &of), first, "{set:013b}");
    }
}

/// Long days of small sheets: each answer and each record are those on paper, which is fed
/// nothing from a record (rule 22.9). Now and then an act is tried on a damaged copy of the
/// record as well.
#[test]
fn days_of_small_sheets_against_the_model() {
    let mut random = Random::seeded(911);
    let mut tally = Tally::new("days of small sheets, commits");
    let mut damaged = Tally::new("days of small sheets, acts on damaged records");
    let mut loadings = Loadings::new("days of small sheets, sheets committed, by K");
    let mut kinds = Kinds::new("days of small sheets, sheets committed, by promises and waits");
    for _ in 0..600 {
        let table = small_table(&mut random);
        let order = random_order(&mut random, &table);
        let clock = random.between(0, earliest_release(&table));
        let mut hand = InHand::starting(&table, &order, clock);
        let mut record = hand.record();
        for act_of_day in day(&mut random, SMALL, &hand, 250) {
            if random.once_in(8) {
                let told = act_on_damage(&mut random, &record, &act_of_day);
                damaged.saw(told);
            }
            assert_eq!(library::coming(&record), plain::coming(&record));
            let (told, after) = act(&record, &act_of_day);
            assert_eq!(told, hand.act(&act_of_day), "{act_of_day:?} {record:?}");
            assert_eq!(after, hand.record(), "{act_of_day:?} {record:?}");
            if let Told::Commit(number) = told {
                tally.saw(number);
                if number == 0 {
                    loadings.saw(0, &after.table);
                    kinds.saw(0, &after.table);
                }
            }
            record = after;
        }
    }
    tally.assert_only(&sorted_numbers());
    tally.assert_common(&NUMBERS, 500);
    tally.assert_common(&[0], 8_000);
    let all = [
        "a commit, 9",
        "a commit, another",
        "a call, 9",
        "a call, another",
    ];
    damaged.assert_common(&all, 500);
    loadings.assert_every(100);
    kinds.assert_all(300);
}

/// Makes an act on a copy of the record with one figure changed, which may leave it sound;
/// gives what it was and what it answered.
fn act_on_damage(random: &mut Random, record: &Record, of_day: &Act) -> &'static str {
    let mut damaged = *record;
    damage(random, &mut damaged);
    let (told, after) = act(&damaged, of_day);
    assert_eq!((told, after), damaged.act(of_day), "{of_day:?} {damaged:?}");
    match told {
        Told::Commit(9) => "a commit, 9",
        Told::Commit(_) => "a commit, another",
        Told::Call(Answer::OneSlot { number: 9, .. } | Answer::Forward { number: 9, .. }) => {
            "a call, 9"
        }
        Told::Call(_) => "a call, another",
    }
}

/// One act on a record of a large sheet.
fn large_act(random: &mut Random, record: &Record) -> Act {
    if random.once_in(if is_over(record) { 2 } else { 12 }) {
        let any = random_count(random);
        let n = random.one_of(&[any, ROWS as u32]);
        let of = any_large_proposal(random, n, record.clock);
        return Act::Commit(Box::new(of));
    }
    let slots = random.one_of(&[0, 1, 7, 60, 400]);
    let call = match random.between(0, 3) {
        0 => Call::OneSlot(supply(random)),
        _ => Call::Forward(supplies(random, slots)),
    };
    Act::Call(call)
}

fn random_count(random: &mut Random) -> u32 {
    random.between(1, ROWS as u32)
}

/// Long days of sheets of up to 64 rows, half of them of just these, by sweeps.
#[test]
fn days_of_large_sheets() {
    let mut random = Random::seeded(912);
    let mut tally = Tally::new("days of large sheets, commits");
    let mut counts = Tally::new("days of large sheets, sheets committed of 64 rows");
    let mut loadings = Loadings::new("days of large sheets, sheets committed, by K");
    let mut kinds = Kinds::new("days of large sheets, sheets committed, by promises and waits");
    for _ in 0..200 {
        let first = large_proposal(&mut random, ROWS as u32, 0);
        let (_, mut record) = library::fresh(&first.table, &first.order);
        for _ in 0..200 {
            let act_of_day = large_act(&mut random, &record);
            assert_eq!(library::coming(&record), plain::coming(&record));
            let (told, after) = act(&record, &act_of_day);
            let mut expected = record;
            let by_plain = plain_act(&mut expected, &act_of_day);
            assert_eq!((told, after), (by_plain, expected), "{act_of_day:?}");
            if let Told::Commit(number) = told {
                tally.saw(number);
                assert!(number == 0 || after == record);
                if number == 0 {
                    counts.saw(after.table.n == ROWS as u32);
                    loadings.saw(0, &after.table);
                    kinds.saw(0, &after.table);
                }
            }
            record = after;
        }
    }
    tally.assert_only(&sorted_numbers());
    tally.assert_common(&NUMBERS, 150);
    counts.assert_common(&[false, true], 1_000);
    loadings.assert_every(40);
    kinds.assert_all(500);
}

/// Sixty-four rows asked for, committed, and run at N up to their last deadline, one sheet
/// after another, with idle slots between them that supply nothing: each row keeps its
/// deadline (rules 22.8 and 22.9).
#[test]
fn sheets_of_64_rows_in_turn() {
    let mut record = drawing().worked(&[2, 2]);
    let kinds = [
        easy_loading,
        hard_loading,
        one_period,
        staggered,
        late_promises,
        chain,
        grouped,
    ];
    for loading in [0, 1, MOST_LOADING] {
        for make in kinds {
            let wanted = moved(&make(64, loading), record.clock + 5);
            let asked = library::ask(&sheet_of(&wanted));
            assert_eq!((asked.number, asked.table), (0, wanted));
            let (table, order) = (asked.table, asked.order);
            let of = Proposal { table, order };
            let done = compare_with_plain(&record, &of);
            assert_eq!(done.number, 0);
            assert_eq!(compare_with_plain(&done.record, &of).number, 17);
            record = run_to_the_end(&done.record);
            assert!(is_over(&record));
            for row in 1..=64 {
                assert!(kept_deadline(&table, &record.state(), row), "row {row}");
            }
        }
    }
}

/// Nothing up to the earliest release, and N in every slot from there to the last deadline.
fn run_to_the_end(record: &Record) -> Record {
    let table = &record.table;
    let last = table.deadline.iter().max().expect("a row");
    let idle = earliest_release(table) - record.clock;
    let mut course = vec![0; idle as usize];
    course.resize((last - record.clock) as usize, table.normal);
    let after = library::forward(record, &course);
    let mut expected = *record;
    assert_eq!(plain::forward(&mut expected, &course), (0, after.worked));
    assert_eq!(after.record, expected);
    after.record
}

/// A proposal at which nothing is wrong at this clock, or one spoiled by each number in turn,
/// and a large one now and then; none has a release after the latest there is.
fn of_any_kind(random: &mut Random, round: usize, clock: u32) -> Proposal {
    let clock = clock.min(LATEST_DEADLINE - 4_000);
    let number = SPOILED.get(round % (SPOILED.len() + 6));
    let mut made = if random.once_in(6) {
        let n = random_count(random);
        large_proposal(random, n, clock)
    } else {
        proposal(random, SMALL, clock)
    };
    if let Some(&number) = number {
        spoil_large(random, &mut made, number, clock);
    }
    made
}

/// The model's answer where it has few slots to work, and else by sweeps; gives the number.
fn compare_any(record: &Record, of: &Proposal) -> u32 {
    if of.table.n <= SMALL.rows && record.clock < 1_000 {
        compare(record, of)
    } else {
        compare_with_plain(record, of).number
    }
}

/// Sound records at clocks of any size, most of them such that no run reaches them, and every
/// other one with all rows closed.
#[test]
fn made_up_records() {
    let mut random = Random::seeded(913);
    let mut tally = Tally::new("commits, made-up records");
    for round in 0..40_000 {
        let mut record = sound_record(&mut random);
        if round % 2 == 0 {
            let most = random.one_of(&[50, 50, LATEST_DEADLINE - 4_000]);
            let clock = random.between(1, most);
            record = closed_record_at(&mut random, clock);
        }
        let of = of_any_kind(&mut random, round, record.clock);
        tally.saw(compare_any(&record, &of));
    }
    tally.assert_only(&sorted_numbers());
    tally.assert_common(&NUMBERS, 1_000);
    tally.assert_common(&[0, 17], 6_000);
}

/// Each clause of check 9 alone, and records of any words, with good proposals and others.
#[test]
fn damaged_records() {
    let mut random = Random::seeded(914);
    let mut tally = Tally::new("commits, damaged records, by the number without damage");
    for clause in CLAUSES {
        for round in 0..1_500 {
            let record = unsound_record(&mut random, clause);
            let of = of_any_kind(&mut random, round, record.clock);
            assert_eq!(compare_any(&record, &of), 9);
            let over = drawn(record.clock.clamp(2, LATEST_DEADLINE - 4_000));
            tally.saw(compare_any(&over, &of));
        }
    }
    tally.assert_common(&SPOILED, 1_000);
    tally.assert_common(&[0], 6_000);
    for round in 0..2_000 {
        let record = any_record(&mut random);
        let of = of_any_kind(&mut random, round, record.clock);
        assert_eq!(compare_any(&record, &of), 9);
    }
}

/// A row of a closed record made open with work missing, or one figure changed by one or to
/// anything, with a good proposal.
#[test]
fn records_next_to_closed_ones() {
    let mut random = Random::seeded(915);
    let mut tally = Tally::new("commits, one figure of the record changed");
    for _ in 0..20_000 {
        let clock = random.between(1, 60);
        let mut record = closed_record_at(&mut random, clock);
        let of = proposal(&mut random, SMALL, clock);
        let index = random.between(0, (record.table.n + 1).min(64) - 1) as usize;
        if random.once_in(4) && index < record.table.n as usize {
            (record.got[index], record.used[index], record.closing[index]) = (0, 0, 0);
        }
        let figure = match random.between(0, 5) {
            0 => &mut record.got[index],
            1 => &mut record.used[index],
            2 | 3 => &mut record.closing[index],
            4 => &mut record.clock,
            _ => &mut record.table.deadline[index],
        };
        *figure = match random.between(0, 3) {
            0 => figure.wrapping_add(1),
            1 => figure.wrapping_sub(1),
            2 => random.between(0, 4),
            _ => random.word() as u32,
        };
        tally.saw(compare(&record, &of));
    }
    tally.assert_only(&[0, 9, 17, 18]);
    tally.assert_common(&[0, 9], 3_000);
    tally.assert_common(&[17, 18], 100);
}

/// Each word of a proposal's table, each place of its order and each word of the record
/// changed to figures at and past the limits.
#[test]
fn every_word_changed() {
    let mut tally = Tally::new("commits, every word changed");
    let (record, of) = good_commit();
    let order = of.order;
    for_each_word_changed(&of.table, |&table| {
        let changed = Proposal { table, order };
        tally.saw(compare_with_plain(&record, &changed).number);
    });
    for place in 0..ROWS {
        for row in [0, 1, 2, 3, 4, 5, 64, 65, 255] {
            let (mut changed, mut held) = (of, record);
            (changed.order[place], held.order[place]) = (row, row);
            tally.saw(compare(&record, &changed));
            tally.saw(compare(&held, &of));
        }
    }
    for_each_word_changed(&record.table, |table| {
        let changed = Record::holding(table, &record.order, &record.state());
        tally.saw(compare(&changed, &of));
    });
    let state = raw::state_words(&record);
    for index in 0..state.len() {
        for figure in [0, 1, 2, 3, LAST_CLOCK, LAST_CLOCK + 1, u32::MAX] {
            let mut changed = state;
            changed[index] = figure;
            let table = raw::table_words(&record.table);
            let record = raw::record_of(&table, &record.order, &changed);
            tally.saw(compare(&record, &of));
        }
    }
    tally.assert_common(&[0, 3, 4, 5, 6, 9, 11, 12, 13, 16, 18], 5);
}

/// Proposals of words of any kind at once, on a record at which nothing is wrong.
#[test]
fn proposals_of_any_words() {
    let mut random = Random::seeded(916);
    let mut tally = Tally::new("commits, proposals of any words");
    for _ in 0..6_000 {
        let mut of = any_proposal(&mut random, SMALL, 7);
        let mut words = raw::table_words(&of.table);
        for _ in 0..random.one_of(&[1, 2, 3, 300]) {
            let place = random.one_of(&[0, 1, 2, 3, 4, 68, 132, 196, 260, 324, 387]);
            words[place] = random.word() as u32 >> random.between(0, 31);
        }
        of.table = raw::table_of(&words);
        tally.saw(compare_with_plain(&drawn(7), &of).number);
    }
    tally.assert_common(&[3, 4, 11, 5, 12, 13], 100);
}

/// Run slot by slot until some slots after the last closing: at every clock a commit with its
/// earliest release a slot before it, at it and a slot after it is answered 17 as long as a
/// row is open, and then 18, 0 and 0 (rules 10.17 and 10.18).
#[test]
fn every_clock_about_the_last_closing() {
    let mut random = Random::seeded(917);
    let mut tally = Tally::new("commits, by clocks from the last closing and to the release");
    for _ in 0..600 {
        let table = small_table(&mut random);
        let order = random_order(&mut random, &table);
        let of = proposal(&mut random, SMALL, 0);
        let (_, mut record) = library::fresh(&table, &order);
        let mut over = 0;
        while over < 4 {
            let clock = record.clock;
            over += u32::from(is_over(&record));
            for release in clock.saturating_sub(1)..=clock + 1 {
                let table = moved(&of.table, release);
                let number = compare(&record, &Proposal { table, ..of });
                let expected = match over {
                    0 => 17,
                    _ if release < clock => 18,
                    _ => 0,
                };
                assert_eq!(number, expected, "{record:?}");
                tally.saw((over, i64::from(release) - i64::from(clock)));
            }
            record = library::one_slot(&record, random.between(0, 5)).record;
        }
    }
    for over in 0..=4 {
        tally.assert_common(&[(over, -1), (over, 0), (over, 1)], 600);
    }
}

/// Clocks about the latest release there is and about the last clock, on records that a run
/// reaches and on others.
#[test]
fn clocks_at_their_limits() {
    let mut random = Random::seeded(918);
    let mut tally = Tally::new("commits, clocks at their limits");
    let latest = LATEST_DEADLINE - 1;
    let clocks = [latest - 3..=latest + 4, LAST_CLOCK - 3..=LAST_CLOCK + 3];
    for clock in clocks.into_iter().flatten() {
        for release in latest - 5..=latest {
            let one = table(1, 1, &[[release, 1, LATEST_DEADLINE, 0]]);
            let of = Proposal {
                table: one,
                order: order_of(&[1]),
            };
            let expected = match clock {
                unsound if unsound > LAST_CLOCK => 9,
                later if later > release => 18,
                _ => 0,
            };
            let made_up = closed_record_at(&mut random, clock.min(LAST_CLOCK));
            for record in [drawn(clock), Record { clock, ..made_up }] {
                assert_eq!(compare(&record, &of), expected, "{clock} {release}");
                tally.saw(expected);
            }
        }
    }
    tally.assert_common(&[0, 9, 18], 10);
    // The last release is worked in the last slot before its deadline, and then no further
    // sheet comes in time.
    let one = table(1, 1, &[[latest, 1, LATEST_DEADLINE, 0]]);
    let committed = library::commit(&drawn(latest), &one, &order_of(&[1])).record;
    let done = library::one_slot(&committed, 1);
    assert_eq!(
        (done.number, done.row, done.record.closing[0]),
        (0, 1, LATEST_DEADLINE)
    );
    let again = library::commit(&done.record, &one, &order_of(&[1]));
    assert_eq!((again.number, again.record), (18, done.record));
}

/// The committed record at clock T is that of the run from clock 0 after T slots, whatever
/// these supply, as long as T is not after the earliest release; a slot later a commit is
/// refused with 18 (rules 22.4 and 22.7).
#[test]
fn a_committed_record_is_that_of_an_idle_start() {
    let mut random = Random::seeded(919);
    let mut loadings = Loadings::new("commits, idle starts, by K");
    let mut kinds = Kinds::new("commits, idle starts, by promises and waits");
    for round in 0..4_000 {
        let earliest = random.between(1, 30);
        let of = match round % 8 {
            0 => large_proposal(&mut random, 1 + round % 64, earliest),
            _ => proposal(&mut random, SMALL, earliest),
        };
        loadings.saw(0, &of.table);
        kinds.saw(0, &of.table);
        let earliest = earliest_release(&of.table);
        for clock in [1, random.between(1, earliest), earliest] {
            assert_idle_start(&mut random, &of, clock);
        }
        let late = closed_record_at(&mut random, earliest + 1);
        assert_eq!(compare_with_plain(&late, &of).number, 18);
    }
    loadings.assert_every(40);
    kinds.assert_all(200);
    let last = moved(&p1(), LATEST_DEADLINE - 20);
    let of = Proposal {
        table: last,
        order: order_of(&[1, 2, 3, 4]),
    };
    assert_idle_start(&mut random, &of, LATEST_DEADLINE - 20);
}

fn assert_idle_start(random: &mut Random, of: &Proposal, clock: u32) {
    let before = closed_record_at(random, clock);
    let committed = compare_with_plain(&before, of);
    let (_, fresh) = library::fresh(&of.table, &of.order);
    let idled = library::forward(&fresh, &supplies(random, clock));
    assert_eq!((committed.number, idled.number), (0, 0));
    assert_eq!(committed.record, idled.record);
}

/// What asking answered with 0 is never refused for itself: a commit of it answers 0, 9, 17 or
/// 18 on any record (rule 22.6). What it answered with another number is refused with 3.
#[test]
fn what_was_asked_for_is_committed() {
    let mut random = Random::seeded(920);
    let mut tally = Tally::new("commits, of what was asked for");
    let mut loadings = Loadings::new("commits, of what was asked for, by K");
    let mut kinds = Kinds::new("commits, of what was asked for, by promises and waits");
    for round in 0..24_000 {
        let record = record_of_any_kind(&mut random, round);
        let clock = record.clock.min(LATEST_DEADLINE - 4_000);
        let earliest = (clock + random.between(0, 4)).saturating_sub(2);
        let table = match round % 8 {
            7 => large_table(&mut random),
            _ => small_table(&mut random),
        };
        let asked = library::ask(&sheet_of(&moved(&table, earliest)));
        let (number, table, order) = (asked.number, asked.table, asked.order);
        let answer = compare_with_plain(&record, &Proposal { table, order }).number;
        match number {
            0 => tally.saw(answer),
            _ => assert_eq!(answer, if answer == 9 { 9 } else { 3 }),
        }
        if number == 0 {
            loadings.saw(number, &table);
            kinds.saw(number, &table);
        }
    }
    tally.assert_only(&[0, 9, 17, 18]);
    tally.assert_common(&[0, 9, 17, 18], 2_000);
    loadings.assert_every(200);
    kinds.assert_all(1_000);
    let refused = library::ask(&sheet_of(&p3()));
    let done = library::commit(&drawn(7), &refused.table, &refused.order);
    assert_eq!((refused.number, done.number, done.record), (7, 3, drawn(7)));
}

/// Closed, sound, damaged, or of any words.
fn record_of_any_kind(random: &mut Random, round: usize) -> Record {
    let clock = random.between(1, 5_000);
    match round % 4 {
        0 | 1 => closed_record_at(random, clock),
        2 => sound_record(random),
        _ => {
            let mut record = closed_record_at(random, clock);
            damage(random, &mut record);
            record
        }
    }
}

/// A proposal is committed alike on all records of one clock whose rows are all closed, and
/// the record afterwards has nothing of the sheet before (rule 22.4).
#[test]
fn nothing_stays_of_the_sheet_before() {
    let mut random = Random::seeded(921);
    for _ in 0..2_000 {
        let clock = random.between(2, 3_000);
        let of = any_proposal(&mut random, SMALL, clock);
        let alike = library::commit(&drawn(clock), &of.table, &of.order);
        let other = closed_record_at(&mut random, clock);
        let done = library::commit(&other, &of.table, &of.order);
        assert_eq!(done.number, alike.number);
        if done.number == 0 {
            assert_eq!(done.record, alike.record);
            let rest = &done.record.table.work[of.table.n as usize..];
            assert!(rest.iter().all(|&work| work == 0));
        }
    }
    let full = moved(&hard_loading(64, 3), 9);
    let asked = library::ask(&sheet_of(&full));
    let held = library::commit(&drawn(9), &asked.table, &asked.order).record;
    let over = run_to_the_end(&held);
    let after = library::commit(&over, &next(over.clock).table, &next(0).order);
    let expected = Record::starting(&next(over.clock).table, &next(0).order, over.clock);
    assert_eq!((after.number, after.record), (0, expected));
    assert_eq!(after.record.table.work[2..], Table::ZERO.work[2..]);
}
