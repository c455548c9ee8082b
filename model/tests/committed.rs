//! What a run from a committed record keeps (rules 9.20, 22.7 and 22.8), over every course of
//! speed on small tables, and over long days: deadlines and promised parts rest on the supplies
//! from the new sheet's own earliest release on.

mod common;

use common::correct::{every_state_from, in_its_window_from, largest_work, TINY};
use common::{all_rows, slots_with_loading, Kinds, RULES, SMALL};
use model::calls::{play_on_paper_from, Answer, Call, LAST_CLOCK};
use model::cases::commits::{hand_days, lost_preview, next};
use model::judge::judge_table;
use model::order::Order;
use model::plan::worst_speed;
use model::proposal::{some_row_is_open, Act, InHand, Proposal, Told};
use model::random::commits::proposal;
use model::random::{calls_for, random_order, supplies, table_in, Random};
use model::record::Record;
use model::run::{has_promised, kept_deadline, run_by, running_step, window, State};
use model::table::{earliest_release, Table, HI, LO};
use std::cell::RefCell;
use std::collections::HashSet;

/// The state at clock T with zeros is that of the run from clock 0 after T slots, whatever
/// these supply, exactly if T is not after the earliest release; so is all that comes later, by
/// either rule of a slot (rule 22.7).
#[test]
fn a_later_start_is_a_run_of_idle_slots() {
    let mut random = Random::seeded(131);
    let mut kinds = Kinds::default();
    let (mut idle, mut parted) = (0, 0);
    for round in 0..4_000 {
        let rule = RULES[round % 2];
        let ahead = random.between(0, 6);
        let table = table_in(&mut random, SMALL).later(ahead);
        let order = random_order(&mut random, &table);
        kinds.saw(&table);
        let earliest = earliest_release(&table);
        for clock in 0..=earliest + 2 {
            let before = supplies(&mut random, clock);
            let reached = run_by(rule, &table, &order, &before);
            assert_eq!(reached == State::at(clock), clock <= earliest, "{table:?}");
            parted += u32::from(clock > earliest);
        }
        let clock = random.between(0, earliest);
        let slots = slots_with_loading(&table, 30);
        let course = supplies(&mut random, slots + clock);
        let mut state = State::at(clock);
        for &supply in &course[clock as usize..] {
            rule(&table, &order, &mut state, supply);
        }
        assert_eq!(state, run_by(rule, &table, &order, &course));
        idle += clock;
    }
    println!("{idle} slots left out, {parted} starts too late");
    assert!(idle > 5_000);
    kinds.assert_all(50);
}

/// Lists of calls on a record at clock T with zeros answer as on paper from that clock; the
/// record is sound, and so no call answers 9 (rules 9.10, 9.11 and 22.8).
#[test]
fn calls_from_a_later_start_answer_as_on_paper() {
    let mut random = Random::seeded(132);
    let mut kinds = Kinds::default();
    for _ in 0..3_000 {
        let ahead = random.one_of(&[0, 3, 50, 400]);
        let table = table_in(&mut random, SMALL).later(ahead);
        let order = random_order(&mut random, &table);
        kinds.saw(&table);
        let clock = random.between(0, earliest_release(&table));
        let slots = ahead + slots_with_loading(&table, 20);
        let course = supplies(&mut random, slots);
        let calls = calls_for(&mut random, &course);
        let start = Record::starting(&table, &order, clock);
        assert!(start.is_sound());
        let (answers, record) = start.play(&calls);
        let (on_paper, state) = play_on_paper_from(&table, &order, clock, &calls);
        assert_eq!(answers, on_paper);
        assert_eq!(record, Record::holding(&table, &order, &state));
        assert_eq!(state.clock, clock + slots);
    }
    kinds.assert_all(40);
}

/// The last clock is the same wherever a run starts: after that 8 is answered (rule 8.13).
#[test]
fn the_last_clock_from_a_later_start() {
    let of = next(999_990);
    let start = Record::starting(&of.table, &of.order, 999_980);
    let slots = LAST_CLOCK - start.clock;
    let calls = [
        Call::Forward(vec![1; slots as usize + 5]),
        Call::OneSlot(1),
        Call::Forward(vec![]),
    ];
    let (answers, record) = start.play(&calls);
    let expected = [
        Answer::Forward {
            number: 8,
            worked: slots,
        },
        Answer::OneSlot { number: 8, row: 0 },
        Answer::Forward {
            number: 0,
            worked: 0,
        },
    ];
    assert_eq!(answers, expected);
    assert_eq!(record.closing[..2], [999_991, 999_995]);
    let (on_paper, state) = play_on_paper_from(&of.table, &of.order, start.clock, &calls);
    assert_eq!((on_paper, state), (answers, record.state()));
}

/// Every state in which all rows are closed, over every course of speed, supplies of 0 among
/// them, up to a few slots after the latest deadline.
fn all_over(table: &Table, order: &Order) -> HashSet<State> {
    let over = RefCell::new(HashSet::new());
    let latest = table.deadline.iter().copied().max().unwrap();
    let supplies = |_| 0..=largest_work(table);
    let collect = |state: &State| {
        if !some_row_is_open(table, state) {
            over.borrow_mut().insert(*state);
        }
        true
    };
    every_state_from(
        0,
        running_step,
        table,
        order,
        latest + 3,
        &supplies,
        &collect,
    );
    over.into_inner()
}

/// Whatever came before: from every state that every course of speed leads to with all rows
/// closed, a commit at that clock makes the same record, and from there on each row of the new
/// sheet keeps its deadline and its promise over every course of speed that supplies enough
/// in its own window, at every clock from its deadline on, and before that once it is closed
/// (rules 9.12, 9.18, 9.20 and 22.8).
#[test]
fn rows_keep_their_deadlines_after_a_commit_over_every_course() {
    let mut random = Random::seeded(133);
    let (mut states, mut rows, mut gaps) = (0, [0; 2], 0);
    for _ in 0..150 {
        let old = table_in(&mut random, TINY).with_loading(random.between(0, 1));
        let order = random_order(&mut random, &old);
        let over = all_over(&old, &order);
        states += over.len();
        let mut clocks: Vec<u32> = over.iter().map(|state| state.clock).collect();
        clocks.sort_unstable();
        clocks.dedup();
        for clock in clocks.into_iter().take(2) {
            let new = proposal(&mut random, TINY, clock);
            let committed = Record::starting(&new.table, &new.order, clock);
            for state in over.iter().filter(|state| state.clock == clock) {
                let record = Record::holding(&old, &order, state);
                let done = record.commit(&new.table, &new.order);
                assert_eq!((done.number, done.record), (0, committed));
            }
            gaps += u32::from(earliest_release(&new.table) > clock);
            for row in all_rows(&new.table) {
                assert_owed(clock, &new, row);
                rows[new.table.row(row).level as usize] += 1;
            }
        }
    }
    println!("{states} states with all rows closed; LO and HI rows {rows:?}, {gaps} after a gap");
    assert!(states > 50_000 && rows.iter().all(|&rows| rows > 150) && gaps > 100);
}

/// The row has kept its deadline and got its promised part, once it is closed and from its
/// deadline on, over every course from this clock on that supplies enough in its window.
fn assert_owed(clock: u32, of: &Proposal, row: u8) {
    let Proposal { table, order } = of;
    let due = |state: &State| is_due(table, state, row);
    let kept = |state: &State| !due(state) || kept_deadline(table, state, row);
    let promised = |state: &State| !due(state) || has_promised(table, state, row);
    for (least, is_so) in [
        (worst_speed(table, row), &kept as &dyn Fn(&State) -> bool),
        (table.degraded, &promised),
    ] {
        let owed = table.row(row).level == LO || least == worst_speed(table, row);
        assert!(
            !owed || in_its_window_from(clock, running_step, table, order, row, least, is_so),
            "row {row} from {clock}: {of:?}"
        );
    }
}

/// The row is closed, or the clock has reached its deadline.
fn is_due(table: &Table, state: &State, row: u8) -> bool {
    let index = row as usize - 1;
    state.closing[index] != 0 || state.clock >= table.deadline[index]
}

/// A row that is closed before its deadline, over every course of speed that supplied enough in
/// the slots of its window up to then (rule 9.20), under correct orders and under others: as
/// long as it is before the deadline, all that counts is why a row was closed. With less
/// supplied, LO rows are closed without their work.
#[test]
fn rows_closed_before_their_deadlines_have_kept_them() {
    let mut random = Random::seeded(134);
    let (early, lost) = (RefCell::new([[0; 2]; 2]), RefCell::new(0));
    for round in 0..1_000 {
        let start = random.between(0, 2);
        let mut of = proposal(&mut random, TINY, start);
        if round % 2 == 0 {
            of.table = table_in(&mut random, TINY).later(start);
            of.order = random_order(&mut random, &of.table);
        }
        let Proposal { table, order } = &of;
        let correct = usize::from(judge_table(table, order).yes);
        let clock = random.between(0, earliest_release(table));
        for row in all_rows(table) {
            let job = table.row(row);
            let is_early =
                |state: &State| state.closing[row as usize - 1] != 0 && state.clock < job.deadline;
            let kept = |state: &State| {
                let is_early = is_early(state);
                early.borrow_mut()[correct][job.level as usize] += u32::from(is_early);
                !is_early || kept_deadline(table, state, row)
            };
            let promised = |state: &State| {
                let is_early = is_early(state);
                *lost.borrow_mut() += u32::from(is_early && !kept_deadline(table, state, row));
                !is_early || has_promised(table, state, row)
            };
            let by = |least, is_so: &dyn Fn(&State) -> bool| {
                in_its_window_from(clock, running_step, table, order, row, least, is_so)
            };
            assert!(by(worst_speed(table, row), &kept), "row {row} {of:?}");
            assert!(by(table.degraded, &promised), "row {row} {of:?}");
        }
    }
    let (early, lost) = (early.take(), lost.take());
    println!("LO and HI rows closed early, under other orders and correct ones: {early:?} states");
    println!("{lost} states without all of the work where G is supplied");
    assert!(early.iter().flatten().all(|&states| states > 500) && lost > 200);
}

/// A day of one slot after the other, with what each slot supplied (rule 9.15).
struct Day {
    hand: InHand,
    /// The earliest release of the first sheet and of each one since, in slots.
    earliest: Vec<u32>,
    /// What each slot supplied, in work units, from slot 0 on.
    supplied: Vec<u32>,
}

impl Day {
    fn of(first: &Proposal) -> Day {
        Day {
            hand: InHand::starting(&first.table, &first.order, 0),
            earliest: vec![earliest_release(&first.table)],
            supplied: Vec::new(),
        }
    }

    fn slot(&mut self, supply: u32) {
        self.supplied.push(supply);
        running_step(
            &self.hand.table,
            &self.hand.order,
            &mut self.hand.state,
            supply,
        );
    }

    fn commit(&mut self, of: Proposal) {
        let told = self.hand.act(&Act::Commit(Box::new(of)));
        assert_eq!(told, Told::Commit(0));
        self.earliest.push(earliest_release(&of.table));
    }

    /// Did each of these slots supply at least this many work units?
    fn supplied_in(&self, slots: std::ops::Range<u32>, least: u32) -> bool {
        let slots = slots.start as usize..slots.end.max(slots.start) as usize;
        self.supplied[slots].iter().all(|&supply| supply >= least)
    }

    /// Looks at each row of the sheet in hand that is closed or has its deadline reached: if
    /// its window supplied enough, it has kept what it was promised (rules 9.12, 9.18 and
    /// 9.20). Counts rows that were owed that, those of them closed early, and those whose
    /// window would have failed with the earliest release of the sheet before.
    fn assert_owed(&self, counts: &mut [[u32; 3]; 2]) {
        let InHand { table, state, .. } = &self.hand;
        for row in all_rows(table) {
            if !is_due(table, state, row) {
                continue;
            }
            let own = window(table, row, state.clock);
            let least = worst_speed(table, row);
            if self.supplied_in(own.clone(), least) {
                assert!(
                    kept_deadline(table, state, row),
                    "row {row} {:?}",
                    self.hand
                );
                let counts = &mut counts[table.row(row).level as usize];
                counts[0] += 1;
                counts[1] += u32::from(state.clock < table.row(row).deadline);
                if let [.., before, _] = self.earliest[..] {
                    counts[2] += u32::from(!self.supplied_in(before..own.end, least));
                }
            }
            if table.row(row).level == LO && self.supplied_in(own, table.degraded) {
                assert!(has_promised(table, state, row), "row {row} {:?}", self.hand);
            }
        }
    }
}

/// Days of several sheets, each with its own least supply from its earliest release on, and
/// with anything before: what each sheet in hand is owed by its own windows it has, at every
/// clock, also at the commit that puts it away (rule 22.9).
#[test]
fn every_sheet_of_a_day_keeps_what_its_windows_earn() {
    let mut random = Random::seeded(135);
    let mut counts = [[0; 3]; 2];
    let mut sheets = 0;
    for _ in 0..400 {
        let first = proposal(&mut random, SMALL, 0);
        let mut day = Day::of(&first);
        for _ in 0..5 {
            let table = day.hand.table;
            let least = random.one_of(&[0, table.degraded, table.normal, table.normal]);
            let mut slots = 0;
            while !day.hand.is_over() || random.once_in(2) {
                slots += 1;
                let before = day.hand.state.clock < earliest_release(&table);
                let in_time = least + random.one_of(&[0, 0, 0, 1, 5]);
                let catching_up = if slots > 200 { 9 } else { 0 };
                let any = random.one_of(&[0, 0, 1, 9]);
                day.slot(if before {
                    any
                } else {
                    in_time.max(catching_up)
                });
                day.assert_owed(&mut counts);
            }
            let clock = day.hand.state.clock;
            day.commit(proposal(&mut random, SMALL, clock));
            sheets += 1;
        }
    }
    println!("{sheets} sheets; owed, closed early, owed by the own window only: {counts:?}");
    assert!(counts.iter().flatten().all(|&rows| rows > 1_000));
}

/// No slot from the old sheet's earliest release up to the new one's supplied anything, and
/// every row of the new sheet keeps its deadline (rule 14.44). Where a slot of the new sheet's
/// own window supplies nothing, the row of that slot may lose it.
#[test]
fn nothing_supplied_before_the_new_sheet_is_released() {
    let days = hand_days();
    let named = "no supply before the earliest release of the new sheet";
    assert!(days.iter().any(|day| day.what == named));
    let run = |release: u32, course: &[u32]| {
        let mut day = Day::of(&lost_preview());
        day.slot(0);
        day.commit(next(release));
        for _ in 1..release {
            day.slot(0);
        }
        course.iter().for_each(|&supply| day.slot(supply));
        let InHand { table, state, .. } = day.hand;
        [1, 2].map(|row| kept_deadline(&table, &state, row))
    };
    for release in 1..=20 {
        assert_eq!(run(release, &[2, 1, 1, 1, 1]), [true, true], "{release}");
        assert_eq!(run(release, &[0, 1, 1, 1, 1]), [false, true], "{release}");
        assert_eq!(run(release, &[2, 0, 0, 0, 0, 0, 1, 1, 1]), [true, false]);
    }
}

/// Followers of a committed sheet wait as those of a fresh one do: a follower that has used a
/// slot has the row that it follows closed, with room for its slots after that (rules 9.19 and
/// 22.8), and a HI follower has it done.
#[test]
fn followers_of_a_committed_sheet_wait() {
    let mut random = Random::seeded(136);
    let mut followers = [0; 2];
    for _ in 0..4_000 {
        let ahead = random.between(0, 9);
        let table = table_in(&mut random, SMALL).later(ahead);
        let order = random_order(&mut random, &table);
        let clock = random.between(0, earliest_release(&table));
        let mut state = State::at(clock);
        let slots = ahead + slots_with_loading(&table, 12);
        for supply in supplies(&mut random, slots) {
            running_step(&table, &order, &mut state, supply);
        }
        for row in all_rows(&table) {
            let job = table.row(row);
            let used = state.used[row as usize - 1];
            if job.follows == 0 || used == 0 {
                continue;
            }
            let followed = job.follows as usize - 1;
            let closing = state.closing[followed];
            assert!(closing > clock && closing + used <= state.clock);
            let done = state.got[followed] == table.work[followed];
            assert!(done || job.level != HI);
            followers[job.level as usize] += 1;
        }
    }
    println!("LO and HI followers that ran: {followers:?}");
    assert!(followers.iter().all(|&rows| rows > 300));
}
