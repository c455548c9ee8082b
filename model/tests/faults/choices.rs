//! Faults of counting choices (rules 14.57 to 14.62) and some more, and the cases and random
//! tables that tell them.

use model::cases::choices::{choices, roomy, ChoicesCase, LENT};
use model::cases::p1;
use model::choices::{
    check_counting, correct_orders, count_by_lowest, may_stand_lowest, sum_by_lowest, words,
    Choices, SCRATCH,
};
use model::plan::rows_in_word;
use model::random::{loading_table_in, Random, Ranges};
use model::table::{check_table, Table, HI, LO};

/// A way of counting with a fault.
struct Faulty {
    name: &'static str,
    count: fn(&Table, &mut [u32]) -> Choices,
    /// The first case that tells it.
    told_by: &'static str,
}

/// The true answer to another table that stands for this one, if nothing is refused.
fn as_if(table: &Table, scratch: &mut [u32], other: Table) -> Choices {
    match check_counting(table, scratch.len()) {
        0 => count_by_lowest(&other, scratch),
        refusal => Choices::refused(refusal),
    }
}

/// The true answer, and then the scratch changed if nothing is refused.
fn then(table: &Table, scratch: &mut [u32], change: impl Fn(&mut [u32])) -> Choices {
    let answer = count_by_lowest(table, scratch);
    if answer.number == 0 {
        change(scratch);
    }
    answer
}

/// Counted by the lowest row, of the rows that may stand lowest and that this is said of.
fn counting(table: &Table, scratch: &mut [u32], is_asked: impl Fn(u64, u8) -> bool) -> Choices {
    match check_counting(table, scratch.len()) {
        0 => sum_by_lowest(table, scratch, |word| {
            let rows = rows_in_word(word).into_iter();
            rows.filter(|&row| is_asked(word, row) && may_stand_lowest(table, word, row))
                .map(|row| 1 << (row - 1))
                .sum()
        }),
        refusal => Choices::refused(refusal),
    }
}

/// Some row of this word follows a row outside it.
fn has_absent(table: &Table, word: u64) -> bool {
    rows_in_word(word).iter().any(|&row| {
        let follows = table.row(row).follows;
        follows != 0 && word >> (follows - 1) & 1 == 0
    })
}

/// The row has the latest deadline of its level in the word, the lower row first among equals.
fn is_latest(table: &Table, word: u64, row: u8) -> bool {
    let level = table.row(row).level;
    let rows = rows_in_word(word).into_iter();
    let alike = rows.filter(|&other| table.row(other).level == level);
    let latest = alike.max_by_key(|&other| (table.row(other).deadline, 64 - other));
    latest == Some(row)
}

const OF_THE_RULES: &[Faulty] = &[
    Faulty {
        name: "orders that break a wait are counted (rule 14.57)",
        count: |table, scratch| as_if(table, scratch, table.without_waits()),
        told_by: "row 2 follows row 1",
    },
    Faulty {
        name: "a row waits for one outside the word, and is never done (rule 14.58)",
        count: |table, scratch| {
            then(table, scratch, |scratch| {
                for word in words(table).filter(|&word| has_absent(table, word)) {
                    scratch[word as usize] = 0;
                }
            })
        },
        told_by: "row 2 follows row 1",
    },
    Faulty {
        name: "entry 0 is 0 (rule 14.59)",
        count: |table, scratch| then(table, scratch, |scratch| scratch[0] = 0),
        told_by: "P1",
    },
    Faulty {
        name: "later entries are cleared (rule 14.60)",
        count: |table, scratch| then(table, scratch, |scratch| scratch[1 << table.n..].fill(0)),
        told_by: "P1",
    },
    Faulty {
        name: "10 before 20 (rule 14.61)",
        count: |table, scratch| {
            if check_table(table) == 0 && scratch.len() < SCRATCH {
                return Choices::refused(10);
            }
            count_by_lowest(table, scratch)
        },
        told_by: "13 rows, nothing lent",
    },
    Faulty {
        name: "only the latest LO and the latest HI row as lowest (rule 14.62)",
        count: |table, scratch| counting(table, scratch, |word, row| is_latest(table, word, row)),
        told_by: "P1",
    },
];

const MORE: &[Faulty] = &[
    Faulty {
        name: "promised parts are not asked for",
        count: |table, scratch| as_if(table, scratch, table.without_promises()),
        told_by: "a promised part is late below",
    },
    Faulty {
        name: "no row loads",
        count: |table, scratch| as_if(table, scratch, table.with_loading(0)),
        told_by: "K 1",
    },
    Faulty {
        name: "all rows are LO in what is counted",
        count: |table, scratch| {
            as_if(
                table,
                scratch,
                Table {
                    level: [LO; 64],
                    ..*table
                },
            )
        },
        told_by: "P1",
    },
    Faulty {
        name: "HI rows alone are asked at the lowest place",
        count: |table, scratch| counting(table, scratch, |_, row| table.row(row).level == HI),
        told_by: "P1",
    },
    Faulty {
        name: "rows are counted as highest",
        count: |table, scratch| {
            let mut answer = count_by_lowest(table, scratch);
            if answer.number == 0 && table.n <= 4 {
                answer.lowest = [0; 64];
                for order in correct_orders(table) {
                    answer.lowest[order[0] as usize - 1] += 1;
                }
            }
            answer
        },
        told_by: "P1",
    },
    Faulty {
        name: "2 to the n numbers of scratch are enough",
        count: |table, scratch| {
            let is_short = (1 << table.n.min(13)..SCRATCH).contains(&scratch.len());
            if check_counting(table, scratch.len()) != 10 || !is_short {
                return count_by_lowest(table, scratch);
            }
            let mut enough = scratch.to_vec();
            enough.resize(SCRATCH, 0);
            let answer = count_by_lowest(table, &mut enough);
            scratch.copy_from_slice(&enough[..scratch.len()]);
            answer
        },
        told_by: "P3, 4,095 lent",
    },
    Faulty {
        name: "20 with twelve rows",
        count: |table, scratch| match check_table(table) {
            0 if table.n == 12 => Choices::refused(20),
            _ => count_by_lowest(table, scratch),
        },
        told_by: "twelve rows, all orders",
    },
    Faulty {
        name: "20 before the checks on the table",
        count: |table, scratch| {
            if table.n > 12 {
                return Choices::refused(20);
            }
            count_by_lowest(table, scratch)
        },
        told_by: "13 rows of which one is refused",
    },
    Faulty {
        name: "10 before the checks on the table",
        count: |table, scratch| {
            if scratch.len() < SCRATCH && table.n <= 12 {
                return Choices::refused(10);
            }
            count_by_lowest(table, scratch)
        },
        told_by: "no rows, nothing lent",
    },
    Faulty {
        name: "the scratch is cleared with a refusal",
        count: |table, scratch| {
            let answer = count_by_lowest(table, scratch);
            if answer.number != 0 {
                scratch.fill(0);
            }
            answer
        },
        told_by: "13 rows, 4,096 lent",
    },
];

/// The answer and the scratch afterwards are other than the true ones.
fn tells(fault: &Faulty, table: &Table, lent: usize) -> bool {
    let (mut truth, mut faulty) = (vec![LENT; lent], vec![LENT; lent]);
    count_by_lowest(table, &mut truth) != (fault.count)(table, &mut faulty) || truth != faulty
}

const RANGES: Ranges = Ranges {
    rows: 4,
    speed: 3,
    release: 5,
    need: 2,
    window: 9,
};

/// Random tables that are counted, and some of 13 rows, each with numbers lent.
fn random_countings(random: &mut Random) -> Vec<(Table, usize)> {
    (0..400)
        .map(|_| {
            let rows = random.one_of(&[2, 3, 4, 13]);
            let loading = random.between(0, 3);
            let lent = random.one_of(&[SCRATCH - 1, SCRATCH, SCRATCH + 4, SCRATCH + 4]);
            (loading_table_in(random, rows, loading, RANGES), lent)
        })
        .collect()
}

/// The first case that tells each fault; random tables tell those of the
/// rules as well.
#[test]
fn cases_and_random_tables_that_tell_a_fault() {
    let mut random = Random::seeded(84);
    let (cases, countings) = (choices(), random_countings(&mut random));
    for (index, fault) in OF_THE_RULES.iter().chain(MORE).enumerate() {
        let told = |case: &&ChoicesCase| tells(fault, &case.table, case.lent);
        let first = cases.iter().find(told).map(|case| case.what);
        assert_eq!(first, Some(fault.told_by), "{}", fault.name);
        if index < OF_THE_RULES.len() {
            let count = countings
                .iter()
                .filter(|(table, lent)| tells(fault, table, *lent))
                .count();
            println!("{}: {count} tables", fault.name);
            assert!(count > 15, "{}: {count} tables", fault.name);
        }
    }
}

/// What the fault of rule 14.62 counts of two tables: none of P1, and one order of six.
#[test]
fn two_latest_counted() {
    let fault = &OF_THE_RULES[5];
    for (table, truth, faulty) in [(p1(), 1, 0), (roomy(), 6, 1)] {
        let mut scratch = vec![LENT; SCRATCH];
        assert_eq!(count_by_lowest(&table, &mut scratch).count, truth);
        assert_eq!((fault.count)(&table, &mut scratch).count, faulty);
    }
}
