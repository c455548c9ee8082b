//! Faults in how rows that follow rows are treated (rules 14.30 to 14.37): rules of a slot,
//! planners and checks with one fault each, the smallest tables on which they go wrong, and
//! the cases and random tables that tell them.

use crate::late::{parting, smallest as smallest_run, tells, Faulty};
use crate::planners::Planner;
use crate::search::{
    assert_told, every_waiting_table, expect_by, first_waiting_of, smallest_waiting, told_by_cases,
    witness, Kind, KINDS, TRIED_WAITING,
};
use crate::{answers, leaves};
use model::cases::waits::{
    checked_wait_orders, checked_waits, late_wait_runs, runs_that_break_waits, wait_plans,
    wait_runs,
};
use model::cases::{table as table_of, HandRun};
use model::order::{check_order, every_arrangement, is_arrangement, keeps_waits, Order};
use model::plan::{passes_lowest, plan, trial_sequence, tried, Plan};
use model::random::{random_order, spoil_wait, table_in, Random, Ranges};
use model::run::{is_waiting, running_step, State};
use model::table::{check_table, check_wait, Table, HI};

/// A follower gets its slots as if it followed none.
const NO_WAITING: Faulty = Faulty {
    name: "a follower of an open row runs (rule 14.30)",
    rule: |table, order, state, supply| running_step(&table.without_waits(), order, state, supply),
};

/// A follower waits until the row that it follows is done, and so for ever if that is
/// dropped.
const UNTIL_DONE: Faulty = Faulty {
    name: "a follower of a dropped row waits for ever (rule 14.31)",
    rule: |table, order, state, supply| {
        let mut held = *table;
        for row in 1..=table.n as u8 {
            if follows_dropped_row(table, state, row) {
                held.release[row as usize - 1] = u32::MAX;
            }
        }
        running_step(&held, order, state, supply)
    },
};

fn follows_dropped_row(table: &Table, state: &State, row: u8) -> bool {
    let followed = table.row(row).follows;
    followed != 0 && !is_waiting(table, state, row) && {
        let index = followed as usize - 1;
        state.got[index] < table.work[index]
    }
}

#[test]
fn smallest_runs() {
    // Row 2 stands above row 1, which it follows, and takes its slot.
    assert_eq!(
        smallest_run(first_waiting_of, &NO_WAITING),
        parting(
            two(1, 1),
            &[2, 1],
            &[0],
            &[[0, 1, 1], [0, 0, 1]],
            &[[0, 0, 1], [0, 1, 1]],
        )
    );
    // Row 1 is dropped by its only slot, and the next one is row 2's.
    assert_eq!(
        smallest_run(first_waiting_of, &UNTIL_DONE),
        parting(
            two(1, 2),
            &[1, 2],
            &[0, 0],
            &[[0, 1, 1], [0, 1, 2]],
            &[[0, 1, 1], [0, 0, 2]],
        )
    );
}

const RANGES: Ranges = Ranges {
    rows: 4,
    speed: 3,
    release: 4,
    need: 3,
    window: 12,
};

/// The first run worked out by hand that tells each rule; random runs tell it as well. A
/// rule that does not wait is told by arrangements that break a wait and by no order (rule
/// 21.2).
#[test]
fn runs_that_tell_a_rule() {
    let mut random = Random::seeded(77);
    let late = late_wait_runs().into_iter().map(|case| case.run);
    let under_orders: Vec<HandRun> = wait_runs().into_iter().chain(late).collect();
    let expected = [
        (
            &NO_WAITING,
            [
                None,
                Some("it waits though it stands above the row that it follows"),
            ],
        ),
        (
            &UNTIL_DONE,
            [
                Some("it runs once the row that it follows is dropped for its slots"),
                Some("it takes its place once that row is dropped for its slots"),
            ],
        ),
    ];
    for (fault, first) in expected {
        let told = |runs: &[HandRun]| -> Option<&str> {
            let mut told = runs.iter();
            let run = told.find(|run| tells(fault, &run.table, &run.order, &run.supplies))?;
            Some(run.what)
        };
        let by_cases = [told(&under_orders), told(&runs_that_break_waits())];
        assert_eq!(by_cases, first, "{}", fault.name);
        let mut count = [0; 2];
        for _ in 0..4_000 {
            let table = table_in(&mut random, RANGES);
            let order = random.one_of(&every_arrangement(table.n));
            let supplies: Vec<u32> = (0..60).map(|_| random.between(0, 2)).collect();
            let is_told = tells(fault, &table, &order, &supplies);
            count[usize::from(!keeps_waits(&table, &order))] += u32::from(is_told);
        }
        println!("{}: {count:?} runs under orders and others", fault.name);
        assert_eq!(count[0] > 20, first[0].is_some(), "{}", fault.name);
        assert!(count[1] > 20, "{}", fault.name);
        assert!(first[0].is_some() || count[0] == 0, "{}", fault.name);
    }
}

/// A row is tried though a row left follows it.
const NO_SKIP: Planner = Planner {
    name: "no row is skipped (rule 14.32)",
    sequence: trial_sequence,
    trial: passes_lowest,
};

/// The same, and its trials are runs in which no row waits.
const WAITS_IGNORED: Planner = Planner {
    name: "no row is skipped, and none waits (rules 14.30 and 14.32)",
    sequence: trial_sequence,
    trial: |table, left, placed, row| passes_lowest(&table.without_waits(), left, placed, row),
};

/// A row is skipped if any row follows it, placed or left.
const SKIP_BY_ANY_ROW: Planner = Planner {
    name: "a row is skipped for a row that has its place (rule 14.33)",
    sequence: |table, left| {
        let is_followed = |row: &u8| table.follows.contains(&u32::from(*row));
        let mut tried = trial_sequence(table, left);
        tried.retain(|row| !is_followed(row));
        tried
    },
    trial: passes_lowest,
};

/// A follower is skipped until the row that it follows has its place, which is the wrong
/// way round.
const FOLLOWERS_SKIPPED: Planner = Planner {
    name: "followers are skipped, and not the rows that they follow",
    sequence: |table, left| {
        let follows_left = |row: &u8| {
            let follows = table.row(*row).follows;
            left.iter().any(|&other| u32::from(other) == follows)
        };
        let mut tried = trial_sequence(table, left);
        tried.retain(|row| !follows_left(row));
        tried
    },
    trial: passes_lowest,
};

/// The place is not filled if the row that would get it is followed by a row left.
const ENDED_BY_A_SKIP: Planner = Planner {
    name: "a row that is skipped ends the search for a place",
    sequence: |table, left| {
        let tried = tried(table, left);
        let sequence = trial_sequence(table, left).into_iter();
        sequence.take_while(|row| tried.contains(row)).collect()
    },
    trial: passes_lowest,
};

/// The smallest witness of these kinds is this table with these two answers.
fn expect(planner: &Planner, kinds: &[Kind], table: Table, truth: Plan, faulty: Plan) {
    expect_by(smallest_waiting, planner, kinds, table, truth, faulty);
}

/// Two LO rows of one slot with these deadlines, and the second follows the first.
fn two(first: u32, second: u32) -> Table {
    table_of(1, 1, &[[0, 1, first, 0, 0, 0], [0, 1, second, 0, 0, 1]])
}

#[test]
fn waits_without_a_fault_are_the_true_planner() {
    let mut tried = 0;
    for (n, most) in TRIED_WAITING {
        for sum in 0..=most {
            every_waiting_table(n, sum, &mut |table| {
                let answer = plan(table);
                assert!(answer.number != 0 || keeps_waits(table, &answer.order));
                assert!(witness(&crate::TRUE_PLANNER, table).is_none(), "{table:?}");
                tried += u32::from(table.follows != [0; 64]);
            });
        }
    }
    println!("{tried} tables with waits");
    assert!(tried > 10_000);
}

#[test]
fn no_row_skipped() {
    // Row 2 cannot wait for row 1, wherever that stands.
    expect(&NO_SKIP, &KINDS, two(1, 1), leaves(&[1, 2]), leaves(&[2]));
    // Row 1 passes below row 2, which follows it.
    expect(
        &NO_SKIP,
        &[Kind::OtherIncorrectOrder],
        two(2, 2),
        answers(&[1, 2]),
        answers(&[2, 1]),
    );
    // If its trials do not wait either, row 2 is first and in time.
    expect(
        &WAITS_IGNORED,
        &[Kind::AnswersWronglyAnOrder],
        two(2, 1),
        leaves(&[1, 2]),
        answers(&[2, 1]),
    );
    assert!(smallest_waiting(&WAITS_IGNORED, &[Kind::RefusesWrongly]).is_none());
}

#[test]
fn rows_skipped_for_rows_that_have_their_places() {
    // Row 2 is placed, and row 1 is never tried.
    expect(
        &SKIP_BY_ANY_ROW,
        &KINDS,
        two(1, 2),
        answers(&[1, 2]),
        leaves(&[1]),
    );
    assert!(smallest_waiting(&SKIP_BY_ANY_ROW, &[Kind::AnswersWronglyAnOrder]).is_none());
}

#[test]
fn other_faults_in_skips() {
    expect(
        &FOLLOWERS_SKIPPED,
        &[Kind::OtherIncorrectOrder],
        two(1, 2),
        answers(&[1, 2]),
        answers(&[2, 1]),
    );
    expect(
        &ENDED_BY_A_SKIP,
        &[Kind::RefusesWrongly],
        two(2, 2),
        answers(&[1, 2]),
        leaves(&[1, 2]),
    );
}

/// The first case worked out by hand whose planner's answer tells each fault; random
/// tables tell it as well.
#[test]
fn cases_and_random_tables_that_tell_a_fault() {
    let expected = [
        (&NO_SKIP, "a chain of three"),
        (&WAITS_IGNORED, "a chain of three"),
        (&SKIP_BY_ANY_ROW, "a chain of three"),
        (&FOLLOWERS_SKIPPED, "a chain of three"),
        (&ENDED_BY_A_SKIP, "a chain of three"),
    ];
    let mut random = Random::seeded(78);
    let tables: Vec<Table> = (0..2_000).map(|_| table_in(&mut random, RANGES)).collect();
    assert_told(&expected, &wait_plans(), &tables, 20);
}

/// Check 6 with a fault: how the waits are kept is not looked at (rule 14.34).
fn without_waits(table: &Table, order: &Order) -> u32 {
    if is_arrangement(table.n, order) {
        0
    } else {
        6
    }
}

#[test]
fn orders_that_tell_a_check() {
    let cases = checked_wait_orders().into_iter();
    let told = cases.filter(|(_, table, order, number)| {
        assert_eq!(check_order(table, order), *number);
        without_waits(table, order) != *number
    });
    let told: Vec<&str> = told.map(|(what, ..)| what).collect();
    let broken = [
        "its first wait broken",
        "its second wait broken",
        "both waits broken",
        "two followers, one above",
        "two followers, both above",
        "a row in between, turned round",
    ];
    assert_eq!(told, broken);
    // The smallest table is two rows alike, the second to follow the first.
    let found = first_waiting_of(&|table: &Table| {
        let is_wrong = |order: &&Order| without_waits(table, order) != check_order(table, order);
        let order = every_arrangement(table.n).iter().find(is_wrong).copied()?;
        Some((*table, order))
    });
    let (table, order) = found.expect("a wait is broken");
    assert_eq!((table, &order[..2]), (two(1, 1), &[2, 1][..]));
    let mut random = Random::seeded(79);
    let mut count = 0;
    for _ in 0..1_000 {
        let table = table_in(&mut random, RANGES);
        let any = random_order(&mut random, &table.without_waits());
        count += u32::from(without_waits(&table, &any) != check_order(&table, &any));
    }
    assert!(count > 100, "{count} random orders break a wait");
}

/// The checks on a table, with `check_wait` in the place of 13 to 15.
fn check_with(table: &Table, check_wait: fn(&Table, u8) -> u32) -> u32 {
    let mut free = *table;
    free.follows[..table.n.min(64) as usize].fill(0);
    match check_table(&free) {
        0 => {
            let mut waits = (1..=table.n as u8).map(|row| check_wait(table, row));
            waits.find(|&number| number != 0).unwrap_or(0)
        }
        number => number,
    }
}

/// 14 is said at equal releases too (rule 14.35).
fn released_with_it(table: &Table, row: u8) -> u32 {
    let job = table.row(row);
    match check_wait(table, row) {
        13 => 13,
        _ if job.follows != 0 && table.release[job.follows as usize - 1] == job.release => 14,
        number => number,
    }
}

/// 15 is said to LO followers too (rule 14.36).
fn low_followers_too(table: &Table, row: u8) -> u32 {
    let mut high = *table;
    high.level[row as usize - 1] = HI;
    check_wait(&high, row)
}

/// A row may follow itself (rule 14.37).
fn itself_too(table: &Table, row: u8) -> u32 {
    match check_wait(table, row) {
        13 if table.row(row).follows == u32::from(row) => 0,
        number => number,
    }
}

/// Any row of the table may be followed.
fn any_row(table: &Table, row: u8) -> u32 {
    match check_wait(table, row) {
        13 if table.row(row).follows <= table.n => 0,
        number => number,
    }
}

/// The last byte of w alone is looked at.
fn last_byte(table: &Table, row: u8) -> u32 {
    let mut cut = *table;
    cut.follows[row as usize - 1] &= 255;
    check_wait(&cut, row)
}

/// A HI row may follow a LO row.
fn low_rows_followed(table: &Table, row: u8) -> u32 {
    match check_wait(table, row) {
        15 => 0,
        number => number,
    }
}

/// The cases that tell a check with a fault (against rule 5.10); spoiled and random tables
/// tell those of rules 14.35 to 14.37 as well.
#[test]
fn cases_and_random_tables_that_tell_a_check() {
    let told = |check_wait: fn(&Table, u8) -> u32| {
        told_by_cases(checked_waits(), |table| check_with(table, check_wait))
    };
    assert_eq!(told(check_wait), Vec::<&str>::new());
    let equal = told(released_with_it);
    assert!(equal.contains(&"released with it") && !equal.contains(&"released before it"));
    let low = told(low_followers_too);
    assert!(low.contains(&"LO follows LO") && !low.contains(&"LO follows HI"));
    let itself = ["itself", "itself, in row 2", "row 64 follows itself"];
    assert_eq!(told(itself_too), itself);
    assert!(told(any_row).contains(&"a row with a higher number"));
    assert_eq!(told(last_byte), ["w of 257, whose last byte is 1"]);
    let low = [
        "HI follows LO",
        "15 before 13 in a later row",
        "15 before 14 in a later row",
    ];
    assert_eq!(told(low_rows_followed), low);
    let mut random = Random::seeded(80);
    let mut count = [0; 3];
    for round in 0..3_000 {
        let mut table = table_in(&mut random, RANGES);
        if round % 2 == 0 {
            spoil_wait(&mut random, &mut table, 13 + round / 2 % 3);
        }
        let faults = [released_with_it, low_followers_too, itself_too];
        for (fault, count) in faults.into_iter().zip(&mut count) {
            *count += u32::from(check_with(&table, fault) != check_table(&table));
        }
    }
    println!("14 at equal releases, 15 to LO rows, itself: {count:?} tables tell it");
    assert!(count.iter().all(|&tables| tables > 50), "{count:?}");
}
