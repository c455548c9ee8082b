//! The least workable speeds of the library, of tables and of sheets, against the
//! model's scan over every speed; on tables for which that takes too long against
//! the plain scan, or the plain search by halves, which are compared with it here
//! as well. Every loading time from 0 to 16 slots comes up, and tables with promises
//! and waits and without.

mod common;

use common::sheets::{
    for_each_length, for_each_of_several_changes, sheets_at_limits, small_sheets, text,
};
use common::{
    for_each_small_table, for_each_word_changed, large_table, small_table, spoil_by_several,
    spoil_table, Kinds, Loadings, Tally, LARGE, TABLE_CHECKS,
};
use compiled::sheets::{easy_at, hard_at, promising, tightened};
use compiled::{library, raw};
use model::cases::{cooler, least_speeds, p1, promising_cooler};
use model::order::NO_ORDER;
use model::plain::{least_by_halves, least_by_scan};
use model::random::{table_of_rows_in, Random};
use model::sheet::sheet_of;
use model::speeds::{least, of_sheet, read_least, Least, Sought, BOTH};
use model::table::{check_table, Table, HI, LO, MOST_SPEED, ROWS};

/// What was answered, for the tallies: where in its range the least speed is, or
/// the number.
#[derive(Clone, Copy, Debug, PartialEq, Eq, PartialOrd, Ord)]
enum At {
    First,
    Between,
    Last,
    Only,
    Refused(u32),
}

type Answers = Tally<(Sought, At)>;

fn at(table: &Table, sought: Sought, answer: &Least) -> At {
    if answer.number != 0 {
        return At::Refused(answer.number);
    }
    let (first, last) = sought.range(table).into_inner();
    match answer.speed {
        speed if first == last => {
            assert_eq!(speed, first);
            At::Only
        }
        speed if speed == first => At::First,
        speed if speed == last => At::Last,
        _ => At::Between,
    }
}

fn for_both(kinds: &[At]) -> Vec<(Sought, At)> {
    let of_sought = |sought| kinds.iter().map(move |&kind| (sought, kind));
    BOTH.into_iter().flat_map(of_sought).collect()
}

/// The library's answer to a table is this one.
fn compare(table: &Table, sought: Sought, expected: &Least, tally: &mut Answers) {
    let answer = library::least(table, sought);
    assert_eq!(answer, *expected, "{sought:?} {table:?}");
    assert!(answer.number == 0 || (answer.speed, answer.order) == (0, NO_ORDER));
    tally.saw((sought, at(table, sought, &answer)));
}

/// And so is that to its sheet.
fn compare_with_sheet(table: &Table, sought: Sought, expected: &Least, tally: &mut Answers) {
    compare(table, sought, expected, tally);
    let of_sheet = library::read_least(&sheet_of(table), sought);
    assert_eq!(of_sheet, *expected, "{sought:?} {table:?}");
}

/// The model's scan, which the plain ones have to agree with.
fn scanned(table: &Table, sought: Sought) -> Least {
    let of_model = least(table, sought);
    let by_plain = [least_by_scan, least_by_halves].map(|by| by(table, sought));
    assert_eq!(by_plain, [of_model; 2], "plain: {sought:?} {table:?}");
    of_model
}

/// The plain search, and every so often the plain scan.
fn by_plain(table: &Table, sought: Sought, scan: bool) -> Least {
    let by_halves = least_by_halves(table, sought);
    if scan {
        let by_scan = least_by_scan(table, sought);
        assert_eq!(by_scan, by_halves, "plain: {sought:?} {table:?}");
    }
    by_halves
}

#[test]
fn cases_worked_out_by_hand() {
    let mut tally = Tally::new("least speeds, cases by hand");
    for case in least_speeds() {
        compare_with_sheet(&case.table, case.sought, &case.answer, &mut tally);
    }
    tally.assert_common(&for_both(&[At::First, At::Last, At::Between]), 1);
    tally.assert_common(&for_both(&[3, 4, 11, 5, 12, 13, 7].map(At::Refused)), 1);
}

/// G has up to three speeds to be tried in these tables, N up to 1,000: there the
/// model scans but few of them, and another few are left out.
#[test]
fn all_small_tables() {
    let mut tally = Tally::new("least speeds, all tables of the grid");
    let mut loadings = Loadings::new("least speeds, all tables of the grid, by K");
    let mut index = 0;
    for_each_small_table(|table| {
        index += 1;
        let of_degraded = scanned(table, Sought::Degraded);
        compare(table, Sought::Degraded, &of_degraded, &mut tally);
        loadings.saw(of_degraded.number, table);
        if index % 7 == 0 {
            let of_normal = by_plain(table, Sought::Normal, index % 343 == 0);
            compare(table, Sought::Normal, &of_normal, &mut tally);
        }
        if index % 2_801 == 0 {
            for sought in BOTH {
                compare_with_sheet(table, sought, &scanned(table, sought), &mut tally);
            }
        }
    });
    tally.assert_common(&for_both(&[At::First, At::Between, At::Refused(7)]), 2_000);
    tally.assert_common(&[(Sought::Degraded, At::Last)], 2_000);
    loadings.assert_every(14_000);
}

#[test]
fn random_small_tables() {
    let mut random = Random::seeded(501);
    let mut tally = Tally::new("least speeds, random small tables");
    let mut by_answer = [
        Loadings::new("least speeds, random small tables with one, by K"),
        Loadings::new("least speeds, random small tables without, by K"),
    ];
    for round in 0..6_000 {
        let table = small_table(&mut random);
        // None of 1,000 speeds may do, and each of them is planned slot by slot.
        let few = if round % 12 == 0 {
            &BOTH[..]
        } else {
            &BOTH[..1]
        };
        for &sought in few {
            let expected = scanned(&table, sought);
            compare_with_sheet(&table, sought, &expected, &mut tally);
            by_answer[usize::from(expected.number == 7)].saw(expected.number, &table);
        }
    }
    tally.assert_common(&for_both(&[At::First, At::Between, At::Refused(7)]), 40);
    tally.assert_common(&[(Sought::Degraded, At::Last)], 300);
    for loadings in &by_answer {
        loadings.assert_every(40);
    }
}

/// A table of n rows with the longest range for the speed sought: N is 1,000, or G
/// is 1. Every row takes whole slots at this speed, and just fits or just does not; LO
/// rows promise nothing or one slot's work at G. The table's own figure for the speed
/// sought is any.
fn fitting_at(random: &mut Random, n: u32, sought: Sought, speed: u32) -> Table {
    let mut table = table_of_rows_in(random, n, LARGE);
    (table.normal, table.degraded) = (MOST_SPEED, 1);
    table = sought.put(&table, speed);
    for work in &mut table.work[..n as usize] {
        *work = random.between(1, 6) * speed;
    }
    table = match random.between(0, 1) {
        0 => table.without_promises(),
        _ => promising(&table),
    };
    let fitting = tightened(random, &table);
    assert_eq!(check_table(&fitting), 0, "{fitting:?}");
    let own = random.between(1, MOST_SPEED);
    sought.put(&fitting, own)
}

/// The speed sought at which the next table is to fit: at the ends of the range, or
/// anywhere.
fn any_speed(random: &mut Random) -> u32 {
    let anywhere = random.between(1, MOST_SPEED);
    random.one_of(&[1, 2, 499, 500, 501, 999, 1_000, 1_000, anywhere, anywhere])
}

#[test]
fn long_ranges_of_up_to_64_rows() {
    let mut random = Random::seeded(502);
    let mut tally = Tally::new("least speeds, long ranges");
    let mut loadings = Loadings::new("least speeds, long ranges, by K");
    for round in 0..2_400 {
        let (n, sought) = (1 + round % ROWS as u32, random.one_of(&BOTH));
        let speed = any_speed(&mut random);
        let table = fitting_at(&mut random, n, sought, speed);
        let expected = by_plain(&table, sought, round % 40 == 0);
        compare(&table, sought, &expected, &mut tally);
        loadings.saw(expected.number, &table);
        if round % 8 == 0 {
            compare_with_sheet(&table, sought, &expected, &mut tally);
        }
    }
    let every = [At::First, At::Between, At::Last, At::Refused(7)];
    tally.assert_common(&for_both(&every), 50);
    loadings.assert_every(40);
}

/// The hard and easy tables of the measurements have the least speed that they are
/// made for.
#[test]
fn hard_and_easy_tables() {
    let mut tally = Tally::new("least speeds, hard and easy tables");
    for n in [4, 8, 16, 32, 64] {
        for speed in [1, 2, 3, 499, 500, 501, 998, 999, 1_000] {
            let tables = [
                (Sought::Degraded, hard_at(n, 1_000, speed)),
                (Sought::Degraded, easy_at(n, HI, speed)),
                (Sought::Normal, hard_at(n, speed, 1)),
                (Sought::Normal, easy_at(n, LO, speed)),
            ];
            for (sought, table) in tables {
                let expected = by_plain(&table, sought, n == 4);
                assert_eq!((expected.number, expected.speed), (0, speed));
                compare(&table, sought, &expected, &mut tally);
            }
        }
    }
    tally.assert_common(&for_both(&[At::First, At::Between, At::Last]), 10);
}

#[test]
fn random_large_tables() {
    let mut random = Random::seeded(503);
    let mut tally = Tally::new("least speeds, random tables of up to 64 rows");
    let mut loadings = Loadings::new("least speeds, random large tables, by K");
    let mut kinds = Kinds::new("least speeds, random large tables, by promises and waits");
    for round in 0..1_500 {
        let table = large_table(&mut random);
        for sought in BOTH {
            let expected = by_plain(&table, sought, round % 50 == 0);
            compare(&table, sought, &expected, &mut tally);
            loadings.saw(expected.number, &table);
            kinds.saw(expected.number, &table);
        }
    }
    tally.assert_common(&for_both(&[At::Between, At::Refused(7)]), 100);
    loadings.assert_every(40);
    kinds.assert_all(250);
}

/// At the least speed the planner makes the order answered, and the judge says yes
/// to it; below it the planner says 7; at every larger speed of the range the same
/// order is still judged yes.
#[test]
fn every_speed_below_and_above_the_least() {
    let mut random = Random::seeded(504);
    let mut speeds = Tally::new("speeds below the least, at it and above it");
    for round in 0..60 {
        let (n, sought) = (1 + round * 11 % ROWS as u32, BOTH[round as usize % 2]);
        let speed = any_speed(&mut random);
        let table = fitting_at(&mut random, n, sought, speed);
        let answer = library::least(&table, sought);
        for speed in sought.range(&table) {
            let at = sought.put(&table, speed);
            let planned = library::plan(&at);
            if answer.number == 7 || speed < answer.speed {
                assert_eq!(planned.number, 7, "{sought:?} {speed}: {table:?}");
            } else {
                assert_eq!(planned.number, 0, "{sought:?} {speed}: {table:?}");
                let verdict = library::judge(&at, &answer.order);
                assert!(verdict.yes, "{sought:?} {speed}: {table:?}");
            }
            if speed == answer.speed {
                assert_eq!(planned.order, answer.order, "{sought:?} {table:?}");
            }
            speeds.saw((sought, speed.cmp(&answer.speed)));
        }
    }
    use std::cmp::Ordering::{Equal, Greater, Less};
    for sought in BOTH {
        speeds.assert_common(&[(sought, Less), (sought, Greater)], 2_000);
        speeds.assert_common(&[(sought, Equal)], 15);
    }
}

/// The answer is the same with each figure that the table could have for the speed
/// sought, and 4 with one outside its limits.
#[test]
fn the_stated_figure_does_not_matter() {
    let mut random = Random::seeded(505);
    let mut tally = Tally::new("least speeds, every own figure");
    let promising = [promising_cooler(18, 108), promising_cooler(19, 171)];
    let mut tables = vec![cooler(18), cooler(19), p1(), p1().with_loading(1)];
    tables.extend(promising);
    tables.extend((0..40).map(|_| small_table(&mut random)));
    for table in tables {
        for sought in BOTH {
            let expected = least_by_halves(&table, sought);
            let (first, last) = sought.range(&table).into_inner();
            for own in (first..=last).filter(|own| own % 23 == 0 || own - first < 30) {
                compare(&sought.put(&table, own), sought, &expected, &mut tally);
            }
            for own in [0, first - 1, last + 1, u32::MAX] {
                let refused = sought.put(&table, own);
                compare(&refused, sought, &Least::refused(4), &mut tally);
            }
        }
    }
    tally.assert_common(&for_both(&[At::Refused(4)]), 160);
}

#[test]
fn refused_tables() {
    let mut random = Random::seeded(506);
    let mut tally = Tally::new("least speeds, refused tables");
    for round in 0..20_000 {
        let mut table = small_table(&mut random);
        if round % 2 == 0 {
            spoil_by_several(&mut random, &mut table);
        } else {
            spoil_table(&mut random, &mut table, TABLE_CHECKS[round / 2 % 8]);
        }
        let number = check_table(&table);
        if number != 0 {
            for sought in BOTH {
                assert_eq!(least(&table, sought), Least::refused(number));
                compare(&table, sought, &Least::refused(number), &mut tally);
            }
        }
    }
    tally.assert_common(&for_both(&TABLE_CHECKS.map(At::Refused)), 1_000);
}

/// Each word of a table changed to figures at and past the limits, and words of any
/// kind at once.
#[test]
fn any_words() {
    let mut random = Random::seeded(507);
    let mut tally = Tally::new("least speeds, any words");
    for table in [p1(), promising_cooler(19, 9).with_loading(1)] {
        for_each_word_changed(&table, |changed| {
            for sought in BOTH {
                let expected = least_by_halves(changed, sought);
                compare(changed, sought, &expected, &mut tally);
            }
        });
    }
    for _ in 0..4_000 {
        let mut words = raw::table_words(&small_table(&mut random));
        for _ in 0..random.between(1, 300) {
            let place = random.between(0, words.len() as u32 - 1) as usize;
            words[place] = random.word() as u32 >> random.between(0, 31);
        }
        let table = raw::table_of(&words);
        for sought in BOTH {
            let expected = least_by_halves(&table, sought);
            compare(&table, sought, &expected, &mut tally);
        }
    }
    let numbers = [3, 4, 11, 5, 12, 13, 7].map(At::Refused);
    tally.assert_common(&for_both(&numbers), 10);
    tally.assert_common(&for_both(&[At::First, At::Between]), 10);
}

/// The library's answers to a sheet are these.
fn compare_sheet(sheet: &[u8], expected: impl Fn(Sought) -> Least, tally: &mut Answers) {
    for sought in BOTH {
        let answer = library::read_least(sheet, sought);
        let of_sheet = text(sheet);
        assert_eq!(answer, expected(sought), "{sought:?} {of_sheet:?}");
        assert!(answer.number == 0 || (answer.speed, answer.order) == (0, NO_ORDER));
        let kind = match answer.number {
            0 => At::Between,
            number => At::Refused(number),
        };
        tally.saw((sought, kind));
    }
}

/// The same by the plain search.
fn compare_with_plain(sheet: &[u8], tally: &mut Answers) {
    let by_plain = |sought| of_sheet(sheet, |table| least_by_halves(table, sought));
    compare_sheet(sheet, by_plain, tally);
}

#[test]
fn sheets_of_every_length_and_at_limits() {
    let mut tally = Tally::new("least speeds, sheets of every length and at limits");
    for_each_length(|sheet| compare_with_plain(sheet, &mut tally));
    for (sheet, number) in &sheets_at_limits() {
        compare_with_plain(sheet, &mut tally);
        if *number != 0 {
            let refused = |_| Least::refused(*number);
            compare_sheet(sheet, refused, &mut tally);
        }
    }
    tally.assert_common(&for_both(&[At::Between]), 5);
    let numbers = [1, 2, 3, 4, 11, 5, 12, 13, 7].map(At::Refused);
    tally.assert_common(&for_both(&numbers), 4);
    tally.assert_common(&for_both(&[14, 15].map(At::Refused)), 2);
}

#[test]
fn damaged_sheets() {
    let mut random = Random::seeded(508);
    let mut tally = Tally::new("least speeds, damaged sheets");
    let mut index = 0;
    for_each_of_several_changes(|sheet| {
        index += 1;
        if index % 19 == 0 {
            compare_with_plain(sheet, &mut tally);
        }
    });
    for round in 0..2_000 {
        for sheet in small_sheets(&mut random) {
            if round % 20 == 0 {
                compare_sheet(&sheet, |sought| read_least(&sheet, sought), &mut tally);
            } else {
                compare_with_plain(&sheet, &mut tally);
            }
        }
    }
    let numbers = [1, 2, 3, 4, 11, 5, 12, 13, 7].map(At::Refused);
    tally.assert_common(&for_both(&numbers), 200);
    tally.assert_common(&for_both(&[14, 15].map(At::Refused)), 100);
    tally.assert_common(&for_both(&[At::Between]), 500);
}
