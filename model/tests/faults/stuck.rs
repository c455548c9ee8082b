//! Faults in what is said of the rows left, of stuck sets and of ways of choosing (section 26 of
//! the rules), and the cases and random tables that tell them.

use model::cases::stuck::{stuck, StuckCase};
use model::choices::{correct_orders, every_row, lowest_rows, slack_alone, words};
use model::plan::{is_skipped, plan, rows_in_word, word_of};
use model::random::{loading_table_in, Random, Ranges};
use model::stuck::{
    cut, is_stuck, planners_way, slack_in_set, stuck_sets, way_of_first, ways, ways_by, Way,
};
use model::table::{Table, LO};

/// What is said of a table.
#[derive(Clone, Debug, PartialEq, Eq)]
struct Told {
    /// The rows left, as a word (rule 26.4).
    left: u64,
    /// The words of the stuck sets, in rising sequence (rule 26.2).
    stuck: Vec<u64>,
    /// The ways of choosing (rule 26.3).
    ways: Vec<Way>,
    /// The slack of each row left in the set of rows left, in slots (rule 26.9).
    slacks: Vec<i64>,
}

/// What is true.
fn truth(table: &Table) -> Told {
    let left = plan(table).left;
    Told {
        left,
        stuck: stuck_sets(table),
        ways: ways(table),
        slacks: slacks_by(left, |row| slack_in_set(table, left, row)),
    }
}

/// The slack of each row of a word.
fn slacks_by(word: u64, slack: impl Fn(u8) -> i64) -> Vec<i64> {
    rows_in_word(word).into_iter().map(slack).collect()
}

/// What would be true if these rows of each word were those that may stand lowest in it.
fn with_lowest(table: &Table, lowest: &dyn Fn(u64) -> Vec<u8>) -> Told {
    let left = way_of_first(table, lowest).left;
    let has_none = |word: &u64| lowest(*word).is_empty();
    Told {
        left,
        stuck: words(table).filter(has_none).collect(),
        ways: ways_by(every_row(table), lowest),
        slacks: slacks_by(left, |row| slack_in_set(table, left, row)),
    }
}

/// The same if the rows of each word are those of which this is said.
fn with_rows(table: &Table, may_stand_lowest: impl Fn(u64, u8) -> bool) -> Told {
    with_lowest(table, &|word| {
        let mut rows = rows_in_word(word);
        rows.retain(|&row| may_stand_lowest(word, row));
        rows
    })
}

/// The same if another table is looked at for the rows that may stand lowest.
fn as_if(table: &Table, other: Table) -> Told {
    with_lowest(table, &|word| lowest_rows(&other, word))
}

/// No row of the word follows this one, and it has at least this slack in the word, in slots.
fn has_slack(table: &Table, word: u64, row: u8, least: i64) -> bool {
    let is_followed = is_skipped(table, &rows_in_word(word), row);
    !is_followed && slack_in_set(table, word, row) >= least
}

/// The row follows one outside the word.
fn follows_outside(table: &Table, word: u64, row: u8) -> bool {
    let follows = table.row(row).follows;
    follows != 0 && word & word_of(&[follows as u8]) == 0
}

/// The proper beginnings of a way, each with the rows that are then not yet taken.
fn beginnings(way: &Way) -> Vec<Way> {
    let begun = |count: usize| Way {
        taken: way.taken[..count].to_vec(),
        left: way.left | word_of(&way.taken[count..]),
    };
    (0..way.taken.len()).map(begun).collect()
}

/// A way of saying it with a fault.
struct Faulty {
    name: &'static str,
    tell: fn(&Table) -> Told,
    /// The first case that tells it.
    told_by: &'static str,
}

const OF_THE_RULES: &[Faulty] = &[
    Faulty {
        name: "any stuck set is told for the rows left (rule 14.63, against rule 26.4)",
        tell: |table| {
            let told = truth(table);
            let some_set = told.stuck.get(1).copied().unwrap_or(0);
            Told {
                left: some_set,
                slacks: slacks_by(some_set, |row| slack_in_set(table, some_set, row)),
                ..told
            }
        },
        told_by: "a stuck set inside the rows left",
    },
    Faulty {
        name: "waits are ignored in who may stand lowest (rule 14.64, against rule 26.1)",
        tell: |table| as_if(table, table.without_waits()),
        told_by: "stuck because of a wait",
    },
    Faulty {
        name: "a way may take a row that cannot stand lowest (rule 14.65, against rule 26.3)",
        tell: |table| {
            let not_followed = |word, row| !is_skipped(table, &rows_in_word(word), row);
            let faulty = with_rows(table, not_followed);
            Told {
                stuck: stuck_sets(table),
                ..faulty
            }
        },
        told_by: "two rows want one slot",
    },
    Faulty {
        name: "a way may end while a row may stand lowest (rule 14.66, against rule 26.3)",
        tell: |table| {
            let mut told = truth(table);
            let early = told.ways.iter().flat_map(beginnings).collect::<Vec<Way>>();
            told.ways.extend(early);
            told
        },
        told_by: "two rows want one slot",
    },
];

const MORE: &[Faulty] = &[
    Faulty {
        name: "a row that is late by one slot may stand lowest",
        tell: |table| with_rows(table, |word, row| has_slack(table, word, row, -1)),
        told_by: "two rows want one slot",
    },
    Faulty {
        name: "a row without a slot to spare may not stand lowest",
        tell: |table| with_rows(table, |word, row| has_slack(table, word, row, 1)),
        told_by: "two rows want one slot",
    },
    Faulty {
        name: "the rows outside a set are above its rows too",
        tell: |table| {
            let in_all = lowest_rows(table, every_row(table));
            with_rows(table, |_, row| in_all.contains(&row))
        },
        told_by: "two rows want one slot",
    },
    Faulty {
        name: "the set of no rows is not stuck",
        tell: |table| {
            let mut told = truth(table);
            told.stuck.remove(0);
            told
        },
        told_by: "two rows want one slot",
    },
    Faulty {
        name: "the planner's way is the only one",
        tell: |table| Told {
            ways: vec![planners_way(table)],
            ..truth(table)
        },
        told_by: "either of two rows may be taken first",
    },
    Faulty {
        name: "the slack in a set is that below all rows of the table",
        tell: |table| {
            let told = truth(table);
            let below_all = |row| slack_in_set(table, every_row(table), row);
            let slacks = slacks_by(told.left, below_all);
            Told { slacks, ..told }
        },
        told_by: "two rows want one slot",
    },
    Faulty {
        name: "a row waits for one outside the set, and is never done",
        tell: |table| {
            with_rows(table, |word, row| {
                has_slack(table, word, row, 0) && !follows_outside(table, word, row)
            })
        },
        told_by: "stuck because of a wait",
    },
    Faulty {
        name: "rows wait in the slack in a set",
        tell: |table| {
            let told = truth(table);
            let slacks = slacks_by(told.left, |row| slack_alone(table, told.left, row));
            Told { slacks, ..told }
        },
        told_by: "stuck because of a wait",
    },
    Faulty {
        name: "promised parts are not asked for",
        tell: |table| as_if(table, table.without_promises()),
        told_by: "a promised part is late below the row that it follows",
    },
    Faulty {
        name: "no row loads",
        tell: |table| as_if(table, table.with_loading(0)),
        told_by: "a promised part is late below the row that it follows",
    },
    Faulty {
        name: "all rows are LO in who may stand lowest",
        tell: |table| {
            let level = [LO; 64];
            as_if(table, Table { level, ..*table })
        },
        told_by: "a promised part is late below the row that it follows",
    },
];

const RANGES: Ranges = Ranges {
    rows: 4,
    speed: 3,
    release: 5,
    need: 2,
    window: 9,
};

/// Random tables of two to four rows.
fn random_tables(random: &mut Random) -> Vec<Table> {
    (0..600)
        .map(|_| {
            let (rows, loading) = (random.between(2, 4), random.between(0, 2));
            loading_table_in(random, rows, loading, RANGES)
        })
        .collect()
}

/// The first case that tells each fault; random tables tell it as well.
#[test]
fn cases_and_random_tables_that_tell_a_fault() {
    let mut random = Random::seeded(85);
    let (cases, tables) = (stuck(), random_tables(&mut random));
    for fault in OF_THE_RULES.iter().chain(MORE) {
        let tells = |table: &Table| (fault.tell)(table) != truth(table);
        let told = |case: &&StuckCase| tells(&case.table);
        let first = cases.iter().find(told).map(|case| case.what);
        assert_eq!(first, Some(fault.told_by), "{}", fault.name);
        let count = tables.iter().filter(|table| tells(table)).count();
        println!("{}: {count} tables", fault.name);
        assert!(count > 15, "{}: {count} tables", fault.name);
    }
}

/// Without a fault it is the truth, and what the cases say.
#[test]
fn told_without_a_fault() {
    let mut random = Random::seeded(86);
    for table in random_tables(&mut random) {
        let told = with_lowest(&table, &|word| lowest_rows(&table, word));
        assert_eq!(told, truth(&table));
        let by_slack = with_rows(&table, |word, row| has_slack(&table, word, row, 0));
        assert_eq!(by_slack, told);
    }
    for case in stuck() {
        let told = truth(&case.table);
        let said = (case.left, case.stuck, case.slacks, case.ways);
        assert_eq!((told.left, told.stuck, told.slacks, told.ways.len()), said);
    }
}

/// The case of this name.
fn named(what: &str) -> Table {
    let mut cases = stuck().into_iter();
    cases
        .find(|case| case.what == what)
        .expect("it is a case")
        .table
}

/// The table has an order when these rows are cut away.
fn has_order_without(table: &Table, rows: u64) -> bool {
    let hand = cut(table, &[every_row(table) & !rows]);
    !correct_orders(&hand.table).is_empty()
}

/// What an author is told wrongly by the faults of the rules. With any stuck set for the rows
/// left he cuts it away and has no order still. Without waits, and with a way that takes rows
/// that cannot stand lowest, no row is left of tables that have no order. With a way that ends
/// early, rows are left that stand in no stuck set.
#[test]
fn what_the_faults_say() {
    let apart = named("two stuck sets apart");
    let some_set = (OF_THE_RULES[0].tell)(&apart).left;
    assert_eq!((some_set, plan(&apart).left), (0b00011, 0b01111));
    assert!(!has_order_without(&apart, some_set));
    assert!(has_order_without(&apart, plan(&apart).left));

    let by_wait = named("stuck because of a wait");
    let without_waits = (OF_THE_RULES[1].tell)(&by_wait);
    assert_eq!((without_waits.left, without_waits.stuck), (0, vec![0]));
    assert!(correct_orders(&by_wait).is_empty() && is_stuck(&by_wait, 0b011));

    let one_slot = named("two rows want one slot");
    let taking_any = (OF_THE_RULES[2].tell)(&one_slot);
    assert_eq!((taking_any.left, taking_any.ways.len()), (0, 6));
    assert!(correct_orders(&one_slot).is_empty());
    let early = (OF_THE_RULES[3].tell)(&one_slot);
    assert_eq!((early.ways.len(), early.ways[1].left), (2, 0b111));
    assert!(!is_stuck(&one_slot, 0b111));
}
