//! Faults of a commit (rules 14.38 to 14.44) and some more of its checks, and the cases and
//! random days that tell them.

use model::cases::commits::{commit_cases, hand_days};
use model::judge::judge_table;
use model::order::{check_order, check_table_and_order};
use model::plan::worst_speed;
use model::proposal::{
    check_proposal, some_release_is_before, some_row_is_open, Act, Committed, InHand, Proposal,
    Told,
};
use model::random::commits::{any_proposal, any_record, closed_record, day, proposal, spoil};
use model::random::{random_order, table_in, Random, Ranges};
use model::record::Record;
use model::run::{kept_deadline, window};
use model::table::{earliest_release, Table, HI, ROWS};
use std::ops::Range;

/// A commit with a fault.
struct Faulty {
    name: &'static str,
    commit: fn(Record, &Proposal) -> Committed,
    /// The first case worked out by hand that tells it.
    told_by: &'static str,
}

fn truth(record: Record, of: &Proposal) -> Committed {
    record.commit(&of.table, &of.order)
}

/// The true commit, with another record after a success.
fn with(record: Record, of: &Proposal, change: impl Fn(&mut Record)) -> Committed {
    let mut done = truth(record, of);
    if done.number == 0 {
        change(&mut done.record);
    }
    done
}

/// The true commit, with another record after a refusal.
fn refused_with(record: Record, of: &Proposal, change: impl Fn(&mut Record)) -> Committed {
    let mut done = truth(record, of);
    if done.number != 0 {
        change(&mut done.record);
    }
    done
}

/// The commit that answers this number, and changes the record if it is 0.
fn answering(number: u32, record: Record, of: &Proposal) -> Committed {
    let record = match number {
        0 => Record::starting(&of.table, &of.order, record.clock),
        _ => record,
    };
    Committed { number, record }
}

/// What is left of the checks after those of the proposal: 17 and 18.
fn last_checks(record: &Record, of: &Proposal) -> u32 {
    if some_row_is_open(&record.table, &record.state()) {
        17
    } else {
        last_check(record, of)
    }
}

/// The last check alone: 18.
fn last_check(record: &Record, of: &Proposal) -> u32 {
    if some_release_is_before(&of.table, record.clock) {
        18
    } else {
        0
    }
}

/// The commit whose check of correct orders is this one.
fn judging(record: Record, of: &Proposal, is_correct: fn(&Proposal) -> bool) -> Committed {
    let checked = check_table_and_order(&of.table, &of.order);
    let number = match truth(record, of).number {
        9 => 9,
        _ if checked != 0 => checked,
        _ if !is_correct(of) => 16,
        _ => last_checks(&record, of),
    };
    answering(number, record, of)
}

fn is_judged_correct(table: &Table, of: &Proposal) -> bool {
    judge_table(table, &of.order).yes
}

const FAULTS: &[Faulty] = &[
    Faulty {
        name: "the clock is set to 0 (rule 14.38)",
        commit: |record, of| with(record, of, |after| after.clock = 0),
        told_by: "clock 1, the earliest there is",
    },
    Faulty {
        name: "work got is kept (rule 14.39)",
        commit: |record, of| with(record, of, |after| after.got = record.got),
        told_by: "clock 1, the earliest there is",
    },
    Faulty {
        name: "slots used are kept (rule 14.39)",
        commit: |record, of| with(record, of, |after| after.used = record.used),
        told_by: "clock 1, the earliest there is",
    },
    Faulty {
        name: "closing slots are kept (rule 14.39)",
        commit: |record, of| with(record, of, |after| after.closing = record.closing),
        told_by: "clock 1, the earliest there is",
    },
    Faulty {
        name: "closing slots of rows that the new sheet has not are kept (rule 14.39)",
        commit: |record, of| {
            with(record, of, |after| {
                let n = after.table.n as usize;
                after.closing[n..].copy_from_slice(&record.closing[n..]);
            })
        },
        told_by: "the latest release there is",
    },
    Faulty {
        name: "17 before 16 (rule 14.40)",
        commit: |record, of| {
            let number = match truth(record, of).number {
                16 if some_row_is_open(&record.table, &record.state()) => 17,
                number => number,
            };
            answering(number, record, of)
        },
        told_by: "row 4 lowest",
    },
    Faulty {
        name: "17 before all checks of the proposal (rule 14.40)",
        commit: |record, of| {
            let number = match truth(record, of).number {
                9 => 9,
                _ if some_row_is_open(&record.table, &record.state()) => 17,
                number => number,
            };
            answering(number, record, of)
        },
        told_by: "65 rows",
    },
    Faulty {
        name: "18 at the clock too (rule 14.41)",
        commit: |record, of| {
            let number = match truth(record, of).number {
                0 if earliest_release(&of.table) == record.clock => 18,
                number => number,
            };
            answering(number, record, of)
        },
        told_by: "clock 1, the earliest there is",
    },
    Faulty {
        name: "every order that passes 6 is taken (rule 14.42)",
        commit: |record, of| judging(record, of, |_| true),
        told_by: "P1 and the order of P2",
    },
    Faulty {
        name: "a refused commit leaves the new table (rule 14.43)",
        commit: |record, of| refused_with(record, of, |after| after.table = of.table),
        told_by: "at clock 0 every row is open",
    },
    Faulty {
        name: "a refused commit leaves the new order (rule 14.43)",
        commit: |record, of| refused_with(record, of, |after| after.order = of.order),
        told_by: "no release is as late as this clock",
    },
    Faulty {
        name: "a refused commit leaves empty rows (rule 14.43)",
        commit: |record, of| {
            refused_with(record, of, |after| {
                *after = Record::starting(&record.table, &record.order, record.clock);
            })
        },
        told_by: "a row is open",
    },
    Faulty {
        name: "promises are not judged (rule 14.42)",
        commit: |record, of| {
            judging(record, of, |of| {
                is_judged_correct(&of.table.without_promises(), of)
            })
        },
        told_by: "a promise a slot late",
    },
    Faulty {
        name: "loading is not judged (rule 14.42)",
        commit: |record, of| {
            judging(record, of, |of| {
                is_judged_correct(&of.table.with_loading(0), of)
            })
        },
        told_by: "K 1 and the order of K 0",
    },
    Faulty {
        name: "18 before 17",
        commit: |record, of| {
            let number = match truth(record, of).number {
                17 if some_release_is_before(&of.table, record.clock) => 18,
                number => number,
            };
            answering(number, record, of)
        },
        told_by: "row 2 of the record is open",
    },
    Faulty {
        name: "18 looks at the first row alone",
        commit: |record, of| {
            let number = match truth(record, of).number {
                18 if of.table.release[0] >= record.clock => 0,
                number => number,
            };
            answering(number, record, of)
        },
        told_by: "the release of the second row",
    },
    Faulty {
        name: "17 looks at HI rows alone",
        commit: |record, of| {
            let number = match truth(record, of).number {
                17 if !some_high_row_is_open(&record) => last_check(&record, of),
                number => number,
            };
            answering(number, record, of)
        },
        told_by: "the last of 64 rows is open",
    },
    Faulty {
        name: "17 asks all entries, those after the last row too",
        commit: |record, of| {
            let number = match truth(record, of).number {
                0 | 18 if record.table.n < ROWS as u32 => 17,
                number => number,
            };
            answering(number, record, of)
        },
        told_by: "clock 1, the earliest there is",
    },
    Faulty {
        name: "9 after the checks of the proposal",
        commit: |record, of| {
            let number = match truth(record, of).number {
                9 => match check_proposal(of) {
                    0 => 9,
                    refusal => refusal,
                },
                number => number,
            };
            answering(number, record, of)
        },
        told_by: "closed at clock 0",
    },
    Faulty {
        name: "9 is not checked",
        commit: |record, of| {
            let number = match check_proposal(of) {
                0 if record.table.n <= ROWS as u32 => last_checks(&record, of),
                number => number,
            };
            answering(number, record, of)
        },
        told_by: "after the last clock",
    },
    Faulty {
        name: "6 by the waits in the record",
        commit: |record, of| {
            let mut followed = *of;
            followed.table.follows = record.table.follows;
            let number = match truth(record, of).number {
                0 if followed.table.n == record.table.n => check_order(&followed.table, &of.order),
                number => number,
            };
            answering(number, record, of)
        },
        told_by: "waits of the record broken",
    },
];

fn some_high_row_is_open(record: &Record) -> bool {
    let is_open = |index: usize| record.table.level[index] == HI && record.closing[index] == 0;
    (0..record.table.n as usize).any(is_open)
}

fn tells(fault: &Faulty, record: Record, of: &Proposal) -> bool {
    (fault.commit)(record, of) != truth(record, of)
}

const RANGES: Ranges = Ranges {
    rows: 4,
    speed: 3,
    release: 4,
    need: 3,
    window: 12,
};

/// The commits of random days, each with the record on which it is made, commits on records of
/// any kind, and commits of which nothing but the order is wrong.
fn random_commits(random: &mut Random) -> Vec<(Record, Proposal)> {
    let mut commits = Vec::new();
    for _ in 0..60 {
        let table = table_in(random, RANGES);
        let order = random_order(random, &table);
        let mut hand = InHand::starting(&table, &order, 0);
        for act in day(random, RANGES, &hand, 120) {
            if let Act::Commit(of) = &act {
                commits.push((hand.record(), **of));
            }
            hand.act(&act);
        }
    }
    for _ in 0..1_000 {
        let record = any_record(random, RANGES);
        let clock = record.clock.min(500_000);
        commits.push((record, any_proposal(random, RANGES, clock)));
    }
    for _ in 0..1_000 {
        let record = closed_record(random, RANGES, 1);
        let mut of = proposal(random, RANGES, record.clock);
        spoil(random, &mut of, 16, record.clock);
        commits.push((record, of));
    }
    commits
}

/// The first case worked out by hand that tells each fault; random commits tell it as well.
#[test]
fn cases_and_random_commits_that_tell_a_fault() {
    let mut random = Random::seeded(81);
    let (cases, commits) = (commit_cases(), random_commits(&mut random));
    for fault in FAULTS {
        let mut told = cases.iter();
        let first = told.find(|case| tells(fault, case.record, &case.proposal));
        let first = first.map(|case| case.what);
        assert_eq!(first, Some(fault.told_by), "{}", fault.name);
        let told = commits
            .iter()
            .filter(|(record, of)| tells(fault, *record, of));
        let count = told.count();
        println!(
            "{}: told by {count} of {} commits",
            fault.name,
            commits.len()
        );
        assert!(count > 4, "{}", fault.name);
    }
}

/// Nothing is told where there is no fault.
#[test]
fn commits_without_a_fault() {
    for case in commit_cases() {
        let done = truth(case.record, &case.proposal);
        assert_eq!((done.number, done.record), (case.number, case.after()));
        let judged = judging(case.record, &case.proposal, |of| {
            is_judged_correct(&of.table, of)
        });
        assert_eq!(judged, done, "{}", case.what);
    }
}

/// Does the row's deadline rest on enough: did each of these slots supply this much, in work
/// units?
fn is_owed(slots: Range<u32>, supplied: &[u32], least: u32) -> bool {
    supplied[slots.start as usize..slots.end as usize]
        .iter()
        .all(|&supply| supply >= least)
}

/// What each slot of a day that starts at clock 0 supplied, in work units (rule 9.15).
fn supplied(acts: &[Act]) -> Vec<u32> {
    let mut supplied = Vec::new();
    for act in acts {
        match act {
            Act::Call(model::calls::Call::OneSlot(supply)) => supplied.push(*supply),
            Act::Call(model::calls::Call::Forward(supplies)) => supplied.extend(supplies),
            Act::Commit(_) => {}
        }
    }
    supplied
}

/// Windows that begin with the earliest release of the sheet before (rule 14.44) say less than
/// is true: the named day tells it, in which the rows of the new sheet are owed their
/// deadlines by its own windows, and have kept them, while the old window saw no supply.
#[test]
fn a_window_from_the_sheet_before() {
    let told: Vec<&str> = hand_days()
        .iter()
        .filter(|day| day.start.state.clock == 0)
        .filter(|day| day.told.contains(&Told::Commit(0)))
        .filter(|day| {
            let (table, state) = (&day.end.table, &day.end.state);
            let supplied = supplied(&day.acts);
            let before = earliest_release(&day.start.table);
            (1..=table.n as u8).any(|row| {
                let own = window(table, row, state.clock);
                let is_closed = state.closing[row as usize - 1] != 0;
                let least = worst_speed(table, row);
                if !is_closed || !is_owed(own.clone(), &supplied, least) {
                    return false;
                }
                assert!(kept_deadline(table, state, row), "{}", day.what);
                !is_owed(before..own.end, &supplied, least)
            })
        })
        .map(|day| day.what)
        .collect();
    let expected = [
        "idle slots between two drawings",
        "no supply before the earliest release of the new sheet",
    ];
    assert!(expected.iter().all(|what| told.contains(what)), "{told:?}");
}
