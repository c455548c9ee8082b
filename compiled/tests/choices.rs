//! Counting the choices of a table by the library (section 25 of the rules) against the model,
//! which lists and works every arrangement of up to seven rows, and against plain Rust, which
//! sweeps, up to twelve: number, count, rows as lowest, and every number of the scratch. Each
//! answer is held against the rules and against the library's planner as well.

mod common;

use common::{
    for_each_small_table, large_table, small_table, spoil_by_several, Kinds, Loadings, Tally,
    TABLE_CHECKS, WIDE,
};
use compiled::library;
use compiled::sheets::{
    chain, easy_loading, grouped, hard_loading, late_promises, one_period, promising, staggered,
    tight, tightened,
};
use model::cases::choices::{choices, rising, wherever, ALL_OF_11, ALL_OF_12, LENT};
use model::choices::{
    check_counting, count_by_listing, count_by_lowest, every_row, table_alone, Choices,
    MOST_COUNTED, SCRATCH,
};
use model::order::{every_arrangement, Order};
use model::plain;
use model::random::{table_of_rows_in, Random, Ranges};
use model::table::{check_table, Table, HI, MOST_LOADING, ROWS};

/// The numbers that counting answers (rule 11.13).
const NUMBERS: [u32; 11] = [0, 3, 4, 5, 10, 11, 12, 13, 14, 15, 20];

/// Numbers lent: none, fewer than are asked for, as many, and more.
const LENGTHS: [usize; 6] = [0, 1, SCRATCH - 1, SCRATCH, SCRATCH + 4, 10_000];

/// Figures for tables of which some orders are correct and some are not.
const SHORT: Ranges = Ranges {
    rows: MOST_COUNTED,
    speed: 4,
    release: 12,
    need: 3,
    window: 40,
};

/// The counting of a call.
type Counting = fn(&Table, &mut [u32]) -> Choices;

/// What a call made of the numbers that it was lent: its answer, and these numbers afterwards.
type Made = (Choices, Vec<u32>);

fn made_by(call: Counting, table: &Table, before: &[u32]) -> Made {
    let mut lent = before.to_vec();
    (call(table, &mut lent), lent)
}

/// Numbers of any value.
fn junk(random: &mut Random, count: usize) -> Vec<u32> {
    (0..count).map(|_| random.word() as u32).collect()
}

/// The library's answer over these numbers is the one of this call, number by number.
fn compare(call: Counting, table: &Table, before: &[u32], tally: &mut Tally<u32>) -> Choices {
    let (answer, ours) = made_by(library::count_choices, table, before);
    let (expected, paper) = made_by(call, table, before);
    let lent = before.len();
    assert_eq!(answer, expected, "{lent} numbers: {table:?}");
    assert!(ours == paper, "{lent} numbers: {table:?}");
    if answer.number == 0 {
        assert_sums(table, &answer, &ours);
        assert_eq!(ours[1 << table.n..], before[1 << table.n..], "{table:?}");
    } else {
        assert_eq!(answer, Choices::refused(answer.number), "{table:?}");
        assert!(ours == before, "{table:?}");
    }
    tally.saw(answer.number);
    answer
}

/// 1 × 2 × ... × k.
fn factorial(k: u32) -> u32 {
    (1..=k).product()
}

/// What rules 25.3 and 25.8 to 25.10 say of the entries, and that the planner's order is one of
/// those that are counted.
fn assert_sums(table: &Table, answer: &Choices, entries: &[u32]) {
    let (n, all) = (table.n as usize, every_row(table) as usize);
    assert_eq!(answer.lowest.iter().sum::<u32>(), answer.count, "{table:?}");
    assert_eq!(answer.lowest[n..], [0; ROWS][n..], "{table:?}");
    assert_eq!((entries[0], entries[all]), (1, answer.count), "{table:?}");
    for (word, &choices) in (0u32..).zip(&entries[..=all]) {
        assert!(choices <= factorial(word.count_ones()), "{word}: {table:?}");
    }
    let planned = library::plan(table);
    let expected = if answer.count == 0 { 7 } else { 0 };
    assert_eq!(planned.number, expected, "{table:?}");
    if planned.number == 0 {
        let lowest = planned.order[n - 1] as usize;
        assert!(answer.lowest[lowest - 1] > 0, "{table:?}");
    }
    for (index, &lowest) in answer.lowest[..n].iter().enumerate() {
        let of_others = entries[all & !(1 << index)];
        assert!(lowest == 0 || lowest == of_others, "{table:?}");
    }
}

/// How much of all arrangements is correct: none, one of several, all of several, or some.
#[derive(Clone, Copy, Debug, PartialEq, Eq, PartialOrd, Ord)]
enum Share {
    None,
    One,
    Some,
    All,
}

impl Share {
    fn of(table: &Table, count: u32) -> Share {
        match count {
            0 => Share::None,
            all if all == factorial(table.n) => Share::All,
            1 => Share::One,
            _ => Share::Some,
        }
    }
}

/// A table of n rows: with random deadlines, with ones that leave few slots to spare under one
/// order, or with ones that leave some more.
fn any_table(random: &mut Random, n: u32) -> Table {
    let mut table = table_of_rows_in(random, n, SHORT);
    let kind = random.between(0, 3);
    if kind > 0 {
        table = tightened(random, &table);
    }
    if kind > 1 {
        let most = [2, 4 * n][kind as usize - 2];
        for deadline in &mut table.deadline[..n as usize] {
            *deadline += random.between(0, most);
        }
    }
    table
}

#[test]
fn tables_worked_out_by_hand() {
    let mut random = Random::seeded(1301);
    let mut tally = Tally::new("choices, by hand");
    let cases = choices();
    assert!(cases.len() >= 40, "{} cases", cases.len());
    for case in cases {
        let (table, what) = (&case.table, case.what);
        let before = vec![LENT; case.lent];
        let (answer, left) = made_by(library::count_choices, table, &before);
        let (entries, after) = left.split_at(case.entries.len());
        assert_eq!(answer, case.answer, "{what}");
        assert_eq!(entries, case.entries, "{what}");
        assert!(after.iter().all(|&entry| entry == LENT), "{what}");
        compare(plain::count_choices, table, &before, &mut tally);
        for length in LENGTHS {
            let before = junk(&mut random, length);
            compare(plain::count_choices, table, &before, &mut tally);
        }
    }
    tally.assert_only(&NUMBERS);
}

/// All arrangements of random tables, each worked slot by slot, and those of every word of their
/// rows.
#[test]
fn random_tables_whose_orders_are_listed() {
    let mut random = Random::seeded(1302);
    let mut tally = Tally::new("choices, up to 6 rows, listed");
    let mut shares = Tally::new("choices, up to 6 rows, by how much is correct");
    let mut loadings = Loadings::new("choices, up to 6 rows, by K");
    let mut kinds = Kinds::new("choices, up to 6 rows, by promises and waits");
    let before = junk(&mut random, SCRATCH);
    for round in 0..4_000 {
        let n = 1 + round % 6;
        let table = match round % 5 {
            0 => small_table(&mut random),
            _ => any_table(&mut random, n),
        };
        let answer = compare(count_by_listing, &table, &before, &mut tally);
        shares.saw(Share::of(&table, answer.count));
        loadings.saw(answer.number, &table);
        kinds.saw(answer.number, &table);
    }
    tally.assert_only(&[0]);
    shares.assert_common(&[Share::None, Share::One, Share::Some, Share::All], 200);
    loadings.assert_every(50);
    kinds.assert_all(200);
}

#[test]
fn tables_of_7_rows_whose_orders_are_listed() {
    let mut random = Random::seeded(1303);
    let mut tally = Tally::new("choices, 7 rows, listed");
    let mut shares = Tally::new("choices, 7 rows, by how much is correct");
    let before = junk(&mut random, SCRATCH + 4);
    for _ in 0..150 {
        let table = any_table(&mut random, 7);
        let answer = compare(count_by_listing, &table, &before, &mut tally);
        shares.saw(Share::of(&table, answer.count));
    }
    shares.assert_common(&[Share::None, Share::Some], 20);
}

/// Every seventh table of the grid, listed.
#[test]
fn tables_of_the_grid() {
    let mut tally = Tally::new("choices, tables of the grid");
    let mut shares = Tally::new("choices, tables of the grid, by how much is correct");
    let before = vec![LENT; SCRATCH];
    let mut index = 0;
    for_each_small_table(|table| {
        index += 1;
        if index % 7 == 0 {
            let answer = compare(count_by_listing, table, &before, &mut tally);
            shares.saw(Share::of(table, answer.count));
        }
    });
    tally.assert_only(&[0]);
    shares.assert_common(&[Share::None, Share::One, Share::Some, Share::All], 1_000);
}

/// Up to twelve rows against sweeps, and now and then against the model slot by slot.
#[test]
fn random_tables_up_to_12_rows() {
    let mut random = Random::seeded(1304);
    let mut tally = Tally::new("choices, up to 12 rows");
    let mut shares = Tally::new("choices, up to 12 rows, by how much is correct");
    let mut loadings = Loadings::new("choices, up to 12 rows, by K");
    let mut kinds = Kinds::new("choices, up to 12 rows, by promises and waits");
    for round in 0..3_000 {
        let n = 1 + round % MOST_COUNTED;
        let table = match round % 7 {
            0 => tight(&mut random, n, WIDE),
            _ => any_table(&mut random, n),
        };
        let length = random.one_of(&[SCRATCH, SCRATCH + 4, 10_000]);
        let before = junk(&mut random, length);
        let answer = compare(plain::count_choices, &table, &before, &mut tally);
        if n <= 9 && round % 31 == 0 && round % 7 != 0 {
            compare(count_by_lowest, &table, &before, &mut tally);
        }
        if answer.number == 0 {
            shares.saw(Share::of(&table, answer.count));
        }
        loadings.saw(answer.number, &table);
        kinds.saw(answer.number, &table);
    }
    tally.assert_common(&[0], 2_500);
    shares.assert_common(&[Share::None, Share::One, Share::Some, Share::All], 50);
    loadings.assert_every(50);
    kinds.assert_all(200);
}

/// Rows that take part in one busy period or many, chains, hard ones and ones that promise, and the
/// largest figures there can be.
#[test]
fn tables_of_12_rows() {
    let mut tally = Tally::new("choices, tables of 12 rows");
    let before = vec![LENT; SCRATCH];
    for loading in [0, 1, MOST_LOADING] {
        let n = MOST_COUNTED;
        let hard = hard_loading(n, loading);
        let mut tables = vec![
            hard,
            promising(&hard),
            easy_loading(n, loading),
            promising(&easy_loading(n, loading)),
            one_period(n, loading),
            staggered(n, loading),
            late_promises(n, loading),
            chain(n, loading),
            grouped(n, loading),
        ];
        for release in [0, 999_999] {
            let row = model::cases::row([release, 1_000_000, 1_000_000, HI]);
            tables.push(Table::of(1, 1, loading, &[row; 12]));
            let short = model::cases::row([release, 1, 1_000_000, HI]);
            tables.push(Table::of(1_000, 1, loading, &[short; 12]));
        }
        for table in tables {
            compare(plain::count_choices, &table, &before, &mut tally);
        }
    }
    tally.assert_only(&[0]);
}

/// All orders and one order, for every number of rows; 12! orders do not fit into fewer bits than
/// they have (rule 25.9).
#[test]
fn all_orders_and_one_order() {
    let mut tally = Tally::new("choices, all orders and one order");
    let before = vec![u32::MAX; SCRATCH];
    for n in 1..=MOST_COUNTED {
        let all = compare(plain::count_choices, &wherever(n), &before, &mut tally);
        assert_eq!(all.count, factorial(n), "{n} rows");
        let as_lowest = [factorial(n - 1); ROWS];
        assert_eq!(all.lowest[..n as usize], as_lowest[..n as usize]);
        let one = compare(plain::count_choices, &rising(n), &before, &mut tally);
        assert_eq!((one.count, one.lowest[n as usize - 1]), (1, 1), "{n} rows");
    }
    let all = made_by(library::count_choices, &wherever(12), &before).0;
    assert_eq!((all.count, all.lowest[0]), (ALL_OF_12, ALL_OF_11));
}

/// Each arrangement is judged by the library, as a whole table and as the rows of a word.
#[test]
fn what_the_judge_says_of_each_arrangement() {
    let mut random = Random::seeded(1305);
    let mut shares = Tally::new("choices, arrangements judged, by how much is correct");
    for round in 0..1_500 {
        let table = any_table(&mut random, 1 + round % 5);
        let (answer, entries) = made_by(library::count_choices, &table, &[0; SCRATCH]);
        let mut lowest = [0; ROWS];
        for order in every_arrangement(table.n) {
            if library::judge(&table, &order).yes {
                lowest[order[table.n as usize - 1] as usize - 1] += 1;
            }
        }
        assert_eq!(answer.lowest, lowest, "{table:?}");
        shares.saw(Share::of(&table, answer.count));
        let word = random.between(1, every_row(&table) as u32);
        let alone = table_alone(&table, u64::from(word));
        let orders = every_arrangement(alone.n);
        let is_correct = |order: &&Order| library::judge(&alone, order).yes;
        let correct = orders.iter().filter(is_correct);
        assert_eq!(entries[word as usize] as usize, correct.count());
    }
    shares.assert_common(&[Share::None, Share::One, Share::Some, Share::All], 50);
}

/// The entry of a word is the count of the table of its rows alone, and so are the entries of all
/// words within it (rule 25.3).
#[test]
fn words_as_tables_of_their_own() {
    let mut random = Random::seeded(1306);
    let mut sizes = Tally::new("choices, rows of words alone");
    let mut lost_waits = 0;
    for round in 0..1_500 {
        let table = any_table(&mut random, 2 + round % 11);
        let (_, entries) = made_by(library::count_choices, &table, &[0; SCRATCH]);
        for _ in 0..4 {
            let word = u64::from(random.between(1, every_row(&table) as u32));
            let alone = table_alone(&table, word);
            let waits = |table: &Table| table.follows.iter().filter(|&&row| row != 0).count();
            let within = (1..=table.n).filter(|row| word >> (row - 1) & 1 == 1);
            let kept = within.filter(|&row| table.follows[row as usize - 1] != 0);
            lost_waits += u32::from(kept.count() > waits(&alone));
            let (answer, of_alone) = made_by(library::count_choices, &alone, &[0; SCRATCH]);
            assert_eq!(answer.count, entries[word as usize], "{word}: {table:?}");
            let part = random.between(0, every_row(&alone) as u32);
            let whole = deposited(part, word);
            assert_eq!(of_alone[part as usize], entries[whole as usize]);
            sizes.saw(alone.n);
        }
    }
    sizes.assert_common(&[1, 2, 3, 4, 5, 6, 7, 8], 50);
    assert!(lost_waits > 100, "{lost_waits} words lose a wait");
}

/// The word of a table that a word of the rows of `word` alone stands for.
fn deposited(part: u32, word: u64) -> u64 {
    let rows = (0..64).filter(|row| word >> row & 1 == 1);
    let of_part = rows.enumerate().filter(|(new, _)| part >> new & 1 == 1);
    of_part.map(|(_, row)| 1 << row).sum()
}

/// Every number of rows with every length of scratch: 20 whatever is lent, and then 10 (rules
/// 11.13 and 25.4).
#[test]
fn rows_and_numbers_lent() {
    let mut random = Random::seeded(1307);
    let mut tally = Tally::new("choices, rows and numbers lent");
    for n in 1..=ROWS as u32 {
        for length in LENGTHS {
            let table = table_of_rows_in(&mut random, n, SHORT);
            let before = junk(&mut random, length);
            let answer = compare(plain::count_choices, &table, &before, &mut tally);
            let expected = match (n, length) {
                (13.., _) => 20,
                (_, ..=4_095) => 10,
                _ => 0,
            };
            assert_eq!(answer.number, expected, "{n} rows, {length} numbers");
        }
    }
    tally.assert_only(&[0, 10, 20]);
}

/// A table that a check refuses has that check's number, however many rows it has and however
/// few numbers are lent (rules 11.13 and 25.6).
#[test]
fn refused_tables() {
    let mut random = Random::seeded(1308);
    let mut tally = Tally::new("choices, refused tables");
    let mut sizes = Tally::new("choices, refused tables, by whether they have more than 12 rows");
    for _ in 0..20_000 {
        let mut table = if random.once_in(2) {
            small_table(&mut random)
        } else {
            large_table(&mut random)
        };
        let many = table.n > MOST_COUNTED;
        spoil_by_several(&mut random, &mut table);
        let length = random.one_of(&LENGTHS[..5]);
        let before = vec![random.word() as u32; length];
        let number = check_table(&table);
        if number == 0 {
            continue;
        }
        assert_eq!(check_counting(&table, length), number, "{table:?}");
        compare(plain::count_choices, &table, &before, &mut tally);
        sizes.saw(many);
    }
    tally.assert_only(&[3, 4, 5, 11, 12, 13, 14, 15]);
    tally.assert_common(&TABLE_CHECKS, 1_000);
    sizes.assert_common(&[true, false], 4_000);
}
