//! Faults in the search for the least workable speed, each built into a search of
//! its own, and the smallest tables on which that search and the true one differ.

use crate::search::{figures, first_of};
use model::cases::{least_of, least_speeds, table as table_of};
use model::plan::plan;
use model::random::{table_in, Random, Ranges};
use model::speeds::{least, Least, Sought, BOTH};
use model::table::{check_table, Table};

/// A search with a fault. The table is accepted.
pub struct Search {
    pub name: &'static str,
    pub least: fn(&Table, Sought) -> Least,
}

/// The first of these speeds that has an order, or 7.
fn first_planned(table: &Table, sought: Sought, mut speeds: impl Iterator<Item = u32>) -> Least {
    speeds
        .find_map(|speed| planned(table, sought, speed))
        .unwrap_or(Least::refused(7))
}

/// The answer with this speed, if it has an order.
fn planned(table: &Table, sought: Sought, speed: u32) -> Option<Least> {
    let made = plan(&sought.put(table, speed));
    (made.number == 0).then_some(Least {
        number: 0,
        speed,
        order: made.order,
    })
}

/// The largest speed of the range is never tried.
const STOPPING_EARLY: Search = Search {
    name: "the search stops one early",
    least: |table, sought| {
        let (from, most) = sought.range(table).into_inner();
        first_planned(table, sought, from..most)
    },
};

/// The least speed of the range is never tried.
const STARTING_LATE: Search = Search {
    name: "the search starts one late",
    least: |table, sought| first_planned(table, sought, sought.range(table).skip(1)),
};

/// The least N is sought up to the table's own.
const UP_TO_OWN: Search = Search {
    name: "the search for N stops at the table's own",
    least: |table, sought| {
        let from = *sought.range(table).start();
        first_planned(table, sought, from..=table.normal)
    },
};

/// A table that has no order with its own speeds is answered 7.
const OWN_FIGURE_COUNTS: Search = Search {
    name: "7 because the table has no order with its own speeds",
    least: |table, sought| match plan(table).number {
        0 => least(table, sought),
        number => Least::refused(number),
    },
};

/// The order is the one that the planner makes at the largest speed.
const OTHER_ORDER: Search = Search {
    name: "the order of another speed",
    least: |table, sought| {
        let found = least(table, sought);
        match planned(table, sought, *sought.range(table).end()) {
            Some(largest) => Least {
                order: largest.order,
                ..found
            },
            None => found,
        }
    },
};

/// One less than the least speed that has an order.
const ONE_BELOW: Search = Search {
    name: "the last speed without an order",
    least: |table, sought| {
        let found = least(table, sought);
        let speed = found.speed.saturating_sub(1);
        Least { speed, ..found }
    },
};

/// The largest speed, though a smaller one would do.
const LARGEST: Search = Search {
    name: "any speed that does",
    least: |table, sought| {
        let largest = *sought.range(table).end();
        first_planned(table, sought, std::iter::once(largest))
    },
};

const SEARCHES: [Search; 7] = [
    STOPPING_EARLY,
    STARTING_LATE,
    UP_TO_OWN,
    OWN_FIGURE_COUNTS,
    OTHER_ORDER,
    ONE_BELOW,
    LARGEST,
];

/// The true answer and the search's, if they differ.
fn differs(search: &Search, table: &Table, sought: Sought) -> Option<(Least, Least)> {
    let (truth, faulty) = (least(table, sought), (search.least)(table, sought));
    (truth != faulty).then_some((truth, faulty))
}

/// The smallest table on which this search for G is wrong, with the true answer and
/// the faulty one.
fn smallest(search: &Search) -> Option<(Table, Least, Least)> {
    let sought = Sought::Degraded;
    let (table, (truth, faulty)) =
        first_of(&|table: &Table| Some((*table, differs(search, table, sought)?)))?;
    println!("{}\n  {}", search.name, figures(&table));
    for (name, answer) in [("true", &truth), ("faulty", &faulty)] {
        let order = &answer.order[..table.n as usize];
        let (number, speed) = (answer.number, answer.speed);
        println!("  {name}: {number}, G {speed}, order {order:?}");
    }
    Some((table, truth, faulty))
}

#[test]
fn smallest_tables() {
    let one = |normal, work, level| table_of(normal, 1, &[[0, work, 1, level]]);
    let (none, at) = (Least::refused(7), |speed| least_of(speed, &[1]));
    let below = Least { speed: 0, ..at(1) };
    let expected = [
        (&STOPPING_EARLY, one(1, 1, 0), at(1), none),
        (&STARTING_LATE, one(1, 1, 0), at(1), none),
        (&OWN_FIGURE_COUNTS, one(2, 2, 1), at(2), none),
        (&ONE_BELOW, one(1, 1, 0), at(1), below),
        (&LARGEST, one(2, 1, 0), at(1), at(2)),
    ];
    for (search, table, truth, faulty) in expected {
        let found = smallest(search).expect(search.name);
        assert_eq!(found, (table, truth, faulty), "{}", search.name);
    }
    // The one goes wrong with N alone. As for the other, the planner makes the same
    // order at each G that has one, in all tables tried.
    for search in [&UP_TO_OWN, &OTHER_ORDER] {
        assert!(smallest(search).is_none(), "{}", search.name);
    }
}

/// An accepted table, a speed that is sought in it, and the true answer.
pub type Answered = (Table, Sought, Least);

/// The cases worked out by hand whose tables are accepted.
pub fn accepted_cases() -> Vec<Answered> {
    let cases = least_speeds().into_iter();
    let accepted = cases.filter(|case| check_table(&case.table) == 0);
    accepted
        .map(|case| (case.table, case.sought, case.answer))
        .collect()
}

/// Both speeds sought in 300 random tables.
pub fn random_searches() -> Vec<Answered> {
    let mut random = Random::seeded(71);
    let tables: Vec<Table> = (0..300).map(|_| table_in(&mut random, RANGES)).collect();
    let answered = |table: &Table| BOTH.map(|sought| (*table, sought, least(table, sought)));
    tables.iter().flat_map(answered).collect()
}

/// For each speed sought, how many of these a search answers wrongly.
pub fn told_by(search: &Search, searches: &[Answered]) -> [usize; 2] {
    BOTH.map(|wanted| {
        let is_wrong = |(table, sought, answer): &&Answered| {
            *sought == wanted && (search.least)(table, *sought) != *answer
        };
        searches.iter().filter(is_wrong).count()
    })
}

const RANGES: Ranges = Ranges {
    rows: 4,
    speed: 6,
    release: 6,
    need: 3,
    window: 10,
};

/// Each search is told by a case, for each speed that it can go wrong with, and by
/// random tables. But no small table needs N of 1,000, which takes a case, and the
/// order of another G is nearly always the same.
#[test]
fn cases_and_random_tables_that_tell_a_fault() {
    let (cases, searches) = (accepted_cases(), random_searches());
    for search in &SEARCHES {
        let [by_case, by_table] = [&cases, &searches].map(|of| told_by(search, of));
        println!("{}: cases {by_case:?}, tables {by_table:?}", search.name);
        let [degraded, normal] = [0, 1].map(|sought| [by_case[sought], by_table[sought]]);
        let normal_alone = [UP_TO_OWN, OTHER_ORDER].map(|search| search.name);
        let needs_degraded = !normal_alone.contains(&search.name);
        assert_eq!(degraded[0] > 0, needs_degraded, "{}", search.name);
        assert_eq!(degraded[1] > 5, needs_degraded, "{}", search.name);
        assert!(normal[0] > 0, "{}", search.name);
        let needs_case = search.name == STOPPING_EARLY.name;
        assert_eq!(normal[1] > 5, !needs_case, "{}", search.name);
    }
}
