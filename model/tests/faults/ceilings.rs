//! Faults of a planner at a ceiling (rules 14.45 to 14.49) and some more, the smallest tables
//! on which they go wrong, and the cases and random tables that tell them.

use crate::search::{figures, first_of, first_waiting_of, FirstOf};
use crate::{answers, leaves};
use model::cases::ceilings::{ceilings, counted, over};
use model::cases::table as table_of;
use model::order::order_of;
use model::plan::{
    is_skipped, passes_lowest, plan, plan_within, trial_sequence, word_of, Counted, Plan,
};
use model::random::{spoil_promise, table_in, Random, Ranges};
use model::table::Table;

/// A planner at a ceiling with a fault.
struct Faulty {
    name: &'static str,
    plan_within: fn(&Table, u32) -> Counted,
    /// The first case worked out by hand that tells it.
    told_by: &'static str,
}

/// A place that the planner comes to.
struct Place {
    /// The rows left.
    left: Vec<u8>,
    /// The rows that have their places already, highest first.
    placed: Vec<u8>,
    /// The rows that are tried, up to the one that gets the place.
    tried: Vec<u8>,
    /// The rows that are skipped, up to the one that gets the place.
    skipped: Vec<u8>,
}

/// All places that the planner comes to without a ceiling, from the lowest up. The table is
/// accepted.
fn places(table: &Table) -> Vec<Place> {
    let mut left: Vec<u8> = (1..=table.n as u8).collect();
    let mut placed = Vec::new();
    let mut places = Vec::new();
    while !left.is_empty() {
        let passes =
            |row: u8| !is_skipped(table, &left, row) && passes_lowest(table, &left, &placed, row);
        let sequence = trial_sequence(table, &left);
        let taken = sequence.iter().position(|&row| passes(row));
        let up_to = taken.map_or(sequence.len(), |at| at + 1);
        let looked_at = sequence[..up_to].iter().copied();
        let (skipped, tried) = looked_at.partition(|&row| is_skipped(table, &left, row));
        places.push(Place {
            left: left.clone(),
            placed: placed.clone(),
            tried,
            skipped,
        });
        let Some(at) = taken else {
            break;
        };
        left.retain(|&row| row != sequence[at]);
        placed.insert(0, sequence[at]);
    }
    places
}

/// The last place that the planner comes to if it makes so many trials, and how many of them
/// it makes there. The table is accepted.
fn last_place(table: &Table, trials: u32) -> (Place, u32) {
    let mut places = places(table);
    let last = places.pop().expect("a table has a row");
    let mut rest = trials;
    for place in places {
        let at_place = place.tried.len() as u32;
        if rest < at_place {
            return (place, rest);
        }
        rest -= at_place;
    }
    (last, rest)
}

fn is_accepted(answer: &Counted) -> bool {
    [0, 7, 19].contains(&answer.plan.number)
}

/// The planner that counts this for each place (against rules 23.1 and 23.2).
fn counting(table: &Table, ceiling: u32, of_place: impl Fn(&Place) -> usize) -> Counted {
    let truth = plan_within(table, ceiling);
    if !is_accepted(&truth) {
        return truth;
    }
    let count = places(table).iter().map(of_place).sum::<usize>() as u32;
    if count > ceiling {
        over(ceiling)
    } else {
        counted(plan(table), count)
    }
}

/// The true answer, with another one in the place of 19.
fn for_19(table: &Table, ceiling: u32, other: impl Fn(Counted) -> Counted) -> Counted {
    match plan_within(table, ceiling) {
        truth if truth.plan.number == 19 => other(truth),
        truth => truth,
    }
}

const LAST_PLACE_ONLY: Faulty = Faulty {
    name: "the trials of the last place (rule 14.45)",
    plan_within: |table, ceiling| {
        let truth = plan_within(table, ceiling);
        if !is_accepted(&truth) {
            return truth;
        }
        let (_, trials) = last_place(table, truth.trials);
        Counted { trials, ..truth }
    },
    told_by: "P1 at its count",
};

const SKIPPED_COUNTED: Faulty = Faulty {
    name: "skipped rows count (rule 14.46)",
    plan_within: |table, ceiling| {
        counting(table, ceiling, |place| {
            place.tried.len() + place.skipped.len()
        })
    },
    told_by: "the first row is skipped",
};

const REFUSED_AT_THE_CEILING: Faulty = Faulty {
    name: "19 where the count is the ceiling (rule 14.47)",
    plan_within: |table, ceiling| match plan_within(table, ceiling) {
        truth if is_accepted(&truth) && truth.trials == ceiling => over(ceiling),
        truth => truth,
    },
    told_by: "P1 at its count",
};

const COUNT_TOLD: Faulty = Faulty {
    name: "the count of the table with 19 (rule 14.48)",
    plan_within: |table, ceiling| {
        for_19(table, ceiling, |truth| {
            let trials = plan_within(table, u32::MAX).trials;
            Counted { trials, ..truth }
        })
    },
    told_by: "P1, a trial too few",
};

const ROWS_LEFT_TOLD: Faulty = Faulty {
    name: "the rows left with 19 (rule 14.49)",
    plan_within: |table, ceiling| {
        for_19(table, ceiling, |truth| {
            let (place, _) = last_place(table, ceiling);
            counted(Plan::refused(19, word_of(&place.left)), truth.trials)
        })
    },
    told_by: "P1, a trial too few",
};

/// Faults that no rule names.
const MORE: &[Faulty] = &[
    Faulty {
        name: "the ceiling is for each place by itself",
        plan_within: |table, ceiling| {
            let truth = plan_within(table, u32::MAX);
            let is_above = |place: &Place| place.tried.len() as u32 > ceiling;
            if is_accepted(&truth) && places(table).iter().any(is_above) {
                over(ceiling)
            } else {
                truth
            }
        },
        told_by: "P1, a trial too few",
    },
    Faulty {
        name: "the trial that fills a place does not count",
        plan_within: |table, ceiling| {
            let is_filled = |place: &Place| {
                let lowest = place.tried.last().copied();
                lowest.is_some_and(|row| passes_lowest(table, &place.left, &place.placed, row))
            };
            counting(table, ceiling, |place| {
                place.tried.len() - usize::from(is_filled(place))
            })
        },
        told_by: "P1 at its count",
    },
    Faulty {
        name: "the place at which it is stuck counts none",
        plan_within: |table, ceiling| {
            let stuck = plan(table).left;
            counting(table, ceiling, |place| {
                if word_of(&place.left) == stuck {
                    0
                } else {
                    place.tried.len()
                }
            })
        },
        told_by: "stuck, and a row is skipped",
    },
    Faulty {
        name: "at the place at which it is stuck all rows left count",
        plan_within: |table, ceiling| {
            let stuck = plan(table).left;
            counting(table, ceiling, |place| {
                if word_of(&place.left) == stuck {
                    place.left.len()
                } else {
                    place.tried.len()
                }
            })
        },
        told_by: "stuck, and a row is skipped",
    },
    Faulty {
        name: "each place counts all of its rows",
        plan_within: |table, ceiling| counting(table, ceiling, |place| place.left.len()),
        told_by: "P1 at its count",
    },
    Faulty {
        name: "a trial above the ceiling is made",
        plan_within: |table, ceiling| {
            for_19(table, ceiling, |truth| {
                match plan_within(table, ceiling + 1) {
                    made if made.plan.number != 19 => made,
                    _ => truth,
                }
            })
        },
        told_by: "P1, a trial too few",
    },
    Faulty {
        name: "a trial more is told with 19",
        plan_within: |table, ceiling| for_19(table, ceiling, |_| over(ceiling + 1)),
        told_by: "P1, a trial too few",
    },
    Faulty {
        name: "no trials are told with 19",
        plan_within: |table, ceiling| for_19(table, ceiling, |_| over(0)),
        told_by: "P1, a trial too few",
    },
    Faulty {
        name: "7 for 19",
        plan_within: |table, ceiling| {
            for_19(table, ceiling, |truth| {
                let (place, _) = last_place(table, ceiling);
                counted(leaves(&place.left), truth.trials)
            })
        },
        told_by: "P1, a trial too few",
    },
    Faulty {
        name: "the places filled so far with 19",
        plan_within: |table, ceiling| {
            for_19(table, ceiling, |mut truth| {
                let (place, _) = last_place(table, ceiling);
                truth.plan.order = order_of(&place.placed);
                truth
            })
        },
        told_by: "P1, a trial too few",
    },
    Faulty {
        name: "19 where no order is correct",
        plan_within: |table, ceiling| match plan_within(table, ceiling) {
            truth if truth.plan.number == 7 => counted(Plan::refused(19, 0), truth.trials),
            truth => truth,
        },
        told_by: "stuck, and a row is skipped",
    },
    Faulty {
        name: "19 without a trial before any check of the table",
        plan_within: |table, ceiling| match ceiling {
            0 => over(0),
            _ => plan_within(table, ceiling),
        },
        told_by: "no rows, no trial",
    },
    Faulty {
        name: "the ceiling as trials of a refused table",
        plan_within: |table, ceiling| match plan_within(table, ceiling) {
            truth if is_accepted(&truth) => truth,
            truth => counted(truth.plan, ceiling),
        },
        told_by: "no rows, 6 trials",
    },
    Faulty {
        name: "a ceiling of 0 is none",
        plan_within: |table, ceiling| match ceiling {
            0 => plan_within(table, u32::MAX),
            _ => plan_within(table, ceiling),
        },
        told_by: "P1, no trial",
    },
    Faulty {
        name: "the ceiling is a signed number",
        plan_within: |table, ceiling| match plan_within(table, ceiling) {
            truth if is_accepted(&truth) && ceiling >= 1 << 31 => {
                counted(Plan::refused(19, 0), truth.trials)
            }
            truth => truth,
        },
        told_by: "P1 at the highest ceiling",
    },
    Faulty {
        name: "the last sixteen bits of the ceiling alone",
        plan_within: |table, ceiling| plan_within(table, ceiling & 0xffff),
        told_by: "P1 at a ceiling of high bits",
    },
    Faulty {
        name: "the last byte of the ceiling alone",
        plan_within: |table, ceiling| plan_within(table, ceiling & 0xff),
        told_by: "P1 at a ceiling of high bits",
    },
];

/// The faults of rules 14.45 to 14.49, each with a search for the smallest table that tells it.
const OF_THE_RULES: [(&Faulty, FirstOf<Told>); 5] = [
    (&LAST_PLACE_ONLY, first_of),
    (&SKIPPED_COUNTED, first_waiting_of),
    (&REFUSED_AT_THE_CEILING, first_of),
    (&COUNT_TOLD, first_of),
    (&ROWS_LEFT_TOLD, first_of),
];

/// A table and a ceiling at which a faulty answer differs from the true one, and both.
#[derive(Clone, Copy, Debug, PartialEq, Eq)]
struct Told {
    table: Table,
    ceiling: u32,
    truth: Counted,
    faulty: Counted,
}

fn tells(fault: &Faulty, table: &Table, ceiling: u32) -> bool {
    (fault.plan_within)(table, ceiling) != plan_within(table, ceiling)
}

/// The lowest ceiling up to a trial above the count at which this table tells the fault.
fn told_at(fault: &Faulty, table: &Table) -> Option<Told> {
    let count = plan_within(table, u32::MAX).trials;
    let ceiling = (0..=count + 1).find(|&ceiling| tells(fault, table, ceiling))?;
    Some(Told {
        table: *table,
        ceiling,
        truth: plan_within(table, ceiling),
        faulty: (fault.plan_within)(table, ceiling),
    })
}

fn smallest(fault: &Faulty, first_of: FirstOf<Told>) -> Told {
    let found = first_of(&|table: &Table| told_at(fault, table)).expect(fault.name);
    let Told { table, ceiling, .. } = &found;
    println!("{}\n  {}, ceiling {ceiling}", fault.name, figures(table));
    for (name, answer) in [("true", &found.truth), ("faulty", &found.faulty)] {
        let Counted { plan, trials } = answer;
        let order = &plan.order[..table.n as usize];
        let (number, left) = (plan.number, plan.left);
        println!("  {name}: {number}, order {order:?}, rows left {left:#b}, {trials} trials");
    }
    found
}

#[test]
fn smallest_tables() {
    let one = table_of(1, 1, &[[0, 1, 1, 0]]);
    // Row 2 takes the lowest place with one trial, and none is left for row 1.
    let two = table_of(1, 1, &[[0, 1, 1, 0], [0, 1, 2, 0]]);
    // Row 1 is skipped and row 2 fails.
    let waiting = table_of(1, 1, &[[0, 1, 1, 0, 0, 0], [0, 1, 1, 0, 0, 1]]);
    let (in_time, stuck) = (counted(answers(&[1]), 1), counted(leaves(&[1, 2]), 1));
    let row_left = counted(Plan::refused(19, word_of(&[1])), 0);
    let expected = [
        (two, 1, over(1), over(0)),
        (waiting, 1, stuck, over(1)),
        (one, 1, in_time, over(1)),
        (one, 0, over(0), over(1)),
        (one, 0, over(0), row_left),
    ];
    for ((fault, first_of), (table, ceiling, truth, faulty)) in OF_THE_RULES.iter().zip(expected) {
        let told = Told {
            table,
            ceiling,
            truth,
            faulty,
        };
        assert_eq!(smallest(fault, *first_of), told, "{}", fault.name);
    }
    // So it is with an order.
    let planned = |trials| counted(answers(&[1, 2]), trials);
    assert_eq!(plan_within(&two, 2), planned(2));
    assert_eq!((LAST_PLACE_ONLY.plan_within)(&two, 2), planned(1));
}

const RANGES: Ranges = Ranges {
    rows: 5,
    speed: 3,
    release: 5,
    need: 3,
    window: 12,
};

/// Random tables, some of them refused, each with a ceiling: about the count, or any other.
fn random_plannings(random: &mut Random) -> Vec<(Table, u32)> {
    let mut plannings = Vec::new();
    for _ in 0..3_000 {
        let mut table = table_in(random, RANGES);
        let count = plan_within(&table, u32::MAX).trials;
        if random.once_in(8) {
            spoil_promise(random, &mut table);
        }
        let below = random.between(0, count - 1);
        let any = random.one_of(&[0, 1 << 8, 1 << 16, 1 << 31, u32::MAX]);
        let ceiling = random.one_of(&[below, count - 1, count, count, count + 1, any]);
        plannings.push((table, ceiling));
    }
    plannings
}

/// The first case worked out by hand that tells each fault; random tables tell it as well.
#[test]
fn cases_and_random_tables_that_tell_a_fault() {
    let mut random = Random::seeded(82);
    let (cases, plannings) = (ceilings(), random_plannings(&mut random));
    let of_the_rules = OF_THE_RULES.iter().map(|(fault, _)| *fault);
    for fault in of_the_rules.chain(MORE) {
        let told: Vec<&str> = cases
            .iter()
            .filter(|case| tells(fault, &case.table, case.ceiling))
            .map(|case| case.what)
            .collect();
        let by_random = plannings.iter();
        let count = by_random
            .filter(|(table, ceiling)| tells(fault, table, *ceiling))
            .count();
        println!("{}: {} cases, {count} tables", fault.name, told.len());
        assert_eq!(told.first(), Some(&fault.told_by), "{}", fault.name);
        assert!(count > 30, "{}: {count} tables", fault.name);
    }
}

/// Nothing is told where there is no fault.
#[test]
fn ceilings_without_a_fault() {
    for case in ceilings() {
        let (what, table, ceiling) = (case.what, &case.table, case.ceiling);
        assert_eq!(plan_within(table, ceiling), case.answer, "{what}");
        let by_places = counting(table, ceiling, |place| place.tried.len());
        assert_eq!(by_places, case.answer, "{what}");
        assert_eq!(
            for_19(table, ceiling, |_| over(ceiling)),
            case.answer,
            "{what}"
        );
    }
}
