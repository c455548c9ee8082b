//! The report of the library against the model's, number, length and every lent
//! byte, and on tables for which the model takes too long against the plain one.
//! Each report is also read column by column and held against the rules and
//! against the library's worst finishes and judge (section 16 of the rules).
//! Every loading time from 0 to 16 slots comes up, and tables with promises and
//! waits and without.

mod common;

use common::records::any_record;
use common::sheets::text;
use common::{
    any_order, for_each_length_of_figures, for_each_small_table, for_each_word_changed,
    large_table, no_order_of, rubbish, small_table, spoil_by_several, Kinds, Loadings, Tally,
    MODEL_LARGE, TABLE_CHECKS,
};
use compiled::library;
use compiled::sheets::{
    chain, easy, easy_loading, grouped, hard, hard_loading, largest, late_promises,
    longest_windows, tight, without_slack,
};
use model::cases::{p1, p2, p3, p4, reports, row, table};
use model::order::{order_of, Order, NO_ORDER};
use model::plain;
use model::random::{random_order, table_in, Random, Ranges};
use model::report::{report, LONGEST_REPORT};
use model::table::{Row, Table, HI, LO, MOST_LOADING, ROWS};

/// Bytes of the most room that is tried one by one.
const LONGEST: usize = 3_300;

/// Bytes in the report of a table of n rows (rule 16.9).
fn length_of(n: u32) -> usize {
    51 * n as usize + 21
}

/// The rows from 1 to n, highest place first.
fn rising(n: u32) -> Order {
    let rows: Vec<u8> = (1..=n as u8).collect();
    order_of(&rows)
}

/// What a call made of the bytes that it was lent: number and length, and these
/// bytes afterwards.
type Made = ((u32, u32), Vec<u8>);

fn made_by(
    call: fn(&Table, &Order, &mut [u8]) -> (u32, u32),
    table: &Table,
    order: &Order,
    before: &[u8],
) -> Made {
    let mut lent = before.to_vec();
    (call(table, order, &mut lent), lent)
}

/// How a table and an order are tried over the bytes that are lent; gives the
/// number.
type Compare = fn(&Table, &Order, &[u8], &mut Tally<u32>) -> u32;

fn compare_with_model(table: &Table, order: &Order, before: &[u8], tally: &mut Tally<u32>) -> u32 {
    let paper = made_by(report, table, order, before);
    let of_plain = made_by(plain::report, table, order, before);
    assert!(of_plain == paper, "the plain report: {table:?} {order:?}");
    compare(table, order, before, paper, tally)
}

fn compare_with_plain(table: &Table, order: &Order, before: &[u8], tally: &mut Tally<u32>) -> u32 {
    let of_plain = made_by(plain::report, table, order, before);
    compare(table, order, before, of_plain, tally)
}

fn compare(
    table: &Table,
    order: &Order,
    before: &[u8],
    expected: Made,
    tally: &mut Tally<u32>,
) -> u32 {
    let room = before.len();
    let (answer, ours) = made_by(library::report, table, order, before);
    assert_eq!(answer, expected.0, "{table:?} {order:?}, {room} bytes");
    assert_eq!(text(&ours), text(&expected.1), "{table:?} {order:?}");
    assert!(ours == expected.1);
    let (number, length) = answer;
    if number == 0 {
        assert_eq!(length as usize, length_of(table.n));
        let lines = Lines::read(&ours[..length as usize]);
        assert_rows(table, order, &lines);
        assert_totals(table, &lines);
        assert_judged(table, order, &lines);
    } else {
        assert!(length == 0 && ours == before);
    }
    tally.saw(number);
    number
}

/// A report as its reader takes it: columns of ten bytes, line by line.
struct Lines {
    /// Of each place: its number and its row, then in slots the need at N, the
    /// worst finish and the slack.
    places: Vec<[i64; 5]>,
    /// All needs in slots, and how many rows are late.
    totals: [i64; 2],
}

impl Lines {
    fn read(report: &[u8]) -> Lines {
        let lines: Vec<&[u8]> = report.split_inclusive(|&byte| byte == 10).collect();
        let (last, places) = lines.split_last().expect("a last line");
        Lines {
            places: places.iter().map(|line| numbers_in(line)).collect(),
            totals: numbers_in(last),
        }
    }

    fn late(&self) -> i64 {
        self.totals[1]
    }
}

/// The numbers of a line of so many columns, which byte 10 ends.
fn numbers_in<const COLUMNS: usize>(line: &[u8]) -> [i64; COLUMNS] {
    let (columns, end) = line.split_at(10 * COLUMNS);
    assert_eq!(end, [10], "{:?}", text(line));
    std::array::from_fn(|column| number_in(&columns[10 * column..][..10]))
}

/// The number in ten columns: spaces, one at least, and then the number as it is
/// written by itself (rules 16.1 and 16.11).
fn number_in(columns: &[u8]) -> i64 {
    let columns = text(columns);
    let number = columns.trim_start_matches(' ');
    let value: i64 = number.parse().expect("a whole number");
    assert_eq!(value.to_string(), number, "{columns:?}");
    assert!(columns.starts_with(' '), "{columns:?}");
    value
}

/// Each line has its place, the row that stands there, a need at N that is just
/// enough for the row's work after it has loaded, and the finish that the library
/// tells elsewhere (rules 16.2 and 16.10). The slack is what the finish leaves, or less
/// if the row promises a part.
fn assert_rows(table: &Table, order: &Order, lines: &Lines) {
    let (_, finishes) = library::finishes(table, order);
    let (_, slacks) = plain::slacks(table, order);
    assert_eq!(lines.places.len(), table.n as usize);
    for (index, &[place, row, need, finish, slack]) in lines.places.iter().enumerate() {
        assert_eq!(place, index as i64 + 1);
        assert_eq!(row, i64::from(order[index]));
        let job = table.row(order[index]);
        let (work, normal) = (i64::from(job.work), i64::from(table.normal));
        let at_work = need - i64::from(table.loading);
        assert!(work <= at_work * normal, "row {row} of {table:?}");
        assert!(work > (at_work - 1) * normal, "row {row} of {table:?}");
        assert_eq!(finish, i64::from(finishes[row as usize - 1]));
        let of_finish = i64::from(job.deadline) - finish;
        assert_eq!(slack, slacks[row as usize - 1], "row {row} of {table:?}");
        assert!(slack == of_finish || slack < of_finish && job.promised > 0);
    }
}

/// The last line is what the lines come to, and its needs are what the table's
/// rows come to (rule 16.3).
fn assert_totals(table: &Table, lines: &Lines) {
    let of_lines = lines.places.iter().map(|line| line[2]).sum();
    let late = lines.places.iter().filter(|line| line[4] < 0).count();
    assert_eq!(lines.totals, [of_lines, late as i64], "{table:?}");
    let of_row = |job: Row| i64::from(table.loading + job.work.div_ceil(table.normal));
    let of_rows: i64 = table.rows().into_iter().map(of_row).sum();
    assert_eq!(lines.totals[0], of_rows, "{table:?}");
}

/// The judge names the lowest row of those with the least slack in the lines,
/// and says yes exactly if no row is late (rule 16.10).
fn assert_judged(table: &Table, order: &Order, lines: &Lines) {
    let verdict = library::judge(table, order);
    let least = lines.places.iter().map(|line| (line[4], line[1])).min();
    let named = (verdict.slack, i64::from(verdict.row));
    assert_eq!(least, Some(named), "{table:?} {order:?}");
    assert_eq!(lines.late() == 0, verdict.yes, "{table:?} {order:?}");
}

/// What the library writes for an accepted table and an order of it.
fn written(table: &Table, order: &Order) -> Vec<u8> {
    let mut lent = rubbish(length_of(table.n));
    let answer = library::report(table, order, &mut lent);
    assert_eq!(answer, (0, lent.len() as u32), "{table:?} {order:?}");
    lent
}

/// None, a byte too few, just enough, one more and many more.
fn around_the_length(compare: Compare, table: &Table, order: &Order, tally: &mut Tally<u32>) {
    let length = length_of(table.n);
    for (room, number) in [
        (0, 10),
        (length - 1, 10),
        (length, 0),
        (length + 1, 0),
        (length + 5_000, 0),
    ] {
        let given = compare(table, order, &rubbish(room), tally);
        assert_eq!(given, number, "{room} bytes");
    }
}

#[test]
fn reports_by_hand() {
    let mut tally = Tally::new("report, by hand");
    for (table, order, expected) in reports() {
        assert_eq!(text(&written(&table, &order)), expected, "{table:?}");
        around_the_length(compare_with_model, &table, &order, &mut tally);
    }
    tally.assert_common(&[0], 30);
}

#[test]
fn all_small_tables() {
    let mut random = Random::seeded(801);
    let mut tally = Tally::new("report, all tables of the grid");
    let mut loadings = Loadings::new("report, all tables of the grid, by K");
    for_each_small_table(|table| {
        let order = any_order(&mut random, table, 8);
        let before = rubbish(length_of(table.n));
        let number = compare_with_model(table, &order, &before, &mut tally);
        loadings.saw(number, table);
    });
    tally.assert_common(&[0], 400_000);
    tally.assert_common(&[6], 40_000);
    loadings.assert_every(12_000);
}

#[test]
fn random_tables_and_rooms_around_their_length() {
    let mut random = Random::seeded(802);
    let mut tally = Tally::new("report, random tables, room around the length");
    let mut loadings = Loadings::new("report, random tables, by K");
    for _ in 0..6_000 {
        let small = small_table(&mut random);
        let order = random_order(&mut random, &small);
        around_the_length(compare_with_model, &small, &order, &mut tally);
        loadings.saw(0, &small);
        let large = large_table(&mut random);
        let order = random_order(&mut random, &large);
        around_the_length(compare_with_plain, &large, &order, &mut tally);
    }
    loadings.assert_every(120);
    for table in [p1(), p2(), p3(), p4()] {
        let order = random_order(&mut random, &table);
        around_the_length(compare_with_model, &table, &order, &mut tally);
    }
    tally.assert_common(&[0], 36_000);
    tally.assert_common(&[10], 24_000);
}

/// Every number of rows, each with some orders, slot by slot.
#[test]
fn tables_of_up_to_64_rows_that_the_model_works() {
    let mut random = Random::seeded(803);
    let mut tally = Tally::new("report, up to 64 rows against the model");
    let mut loadings = Loadings::new("report, up to 64 rows against the model, by K");
    let before = rubbish(LONGEST);
    for n in (1..=64).chain(1..=64) {
        let table = tight(&mut random, n, MODEL_LARGE).with_loading(n % (MOST_LOADING + 1));
        loadings.saw(0, &table);
        for order in [rising(n), any_order(&mut random, &table, 6)] {
            compare_with_model(&table, &order, &before, &mut tally);
        }
    }
    for n in [4, 16, 64] {
        let loading = [easy_loading(n, 16), hard_loading(n, 2)];
        let others = [easy(n), hard(n), late_promises(n, 1)];
        let waiting = [chain(n, 2), grouped(n, 0)];
        for table in others.iter().chain(&loading).chain(&waiting) {
            let order = random_order(&mut random, table);
            compare_with_model(table, &order, &before, &mut tally);
        }
    }
    tally.assert_common(&[0], 230);
    tally.assert_common(&[6], 10);
    loadings.assert_every(6);
}

#[test]
fn random_large_tables() {
    let mut random = Random::seeded(804);
    let mut tally = Tally::new("report, random tables of up to 64 rows");
    let mut late = Tally::new("report, random tables of up to 64 rows, by rows late");
    let mut loadings = Loadings::new("report, random tables of up to 64 rows, by K");
    let mut kinds = Kinds::new("report, random tables of up to 64 rows, by promises and waits");
    for _ in 0..20_000 {
        let table = large_table(&mut random);
        let order = any_order(&mut random, &table, 8);
        let before = rubbish(length_of(table.n) + 64);
        let number = compare_with_plain(&table, &order, &before, &mut tally);
        loadings.saw(number, &table);
        kinds.saw(number, &table);
        if number == 0 {
            late.saw(Lines::read(&written(&table, &order)).late());
        }
    }
    loadings.assert_every(400);
    kinds.assert_all(2_500);
    let table = longest_windows();
    for _ in 0..100 {
        let order = random_order(&mut random, &table);
        compare_with_plain(&table, &order, &rubbish(LONGEST_REPORT), &mut tally);
    }
    tally.assert_common(&[0], 15_000);
    tally.assert_common(&[6], 2_000);
    late.assert_common(&[0, 1, 2, 10, 20, 30], 100);
}

/// Works up to the limit, a low G, and deadlines that have nothing to do with
/// them, so that figures of many widths stand beside each other.
#[test]
fn deadlines_far_before_the_finishes() {
    let mut random = Random::seeded(812);
    let mut tally = Tally::new("report, works up to the limit");
    let mut widths = Tally::new("report, works up to the limit, columns of a slack");
    let ranges = Ranges {
        rows: 64,
        speed: 1_000,
        release: 900_000,
        need: 1_000,
        window: 100_000,
    };
    for _ in 0..10_000 {
        let mut table = table_in(&mut random, ranges);
        table.degraded = random.between(1, 9).min(table.degraded);
        let order = random_order(&mut random, &table);
        let before = rubbish(length_of(table.n));
        compare_with_plain(&table, &order, &before, &mut tally);
        for [.., slack] in Lines::read(&written(&table, &order)).places {
            widths.saw(slack.to_string().len());
        }
    }
    tally.assert_common(&[0], 10_000);
    widths.assert_common(&[4, 5, 6, 7, 8], 10_000);
    widths.assert_common(&[2, 3, 9], 100);
}

/// The order that the planner makes has a last line with 0 rows late, and where
/// it makes none every order has at least 1 (rule 16.10).
#[test]
fn planned_orders_have_no_late_row() {
    let mut random = Random::seeded(805);
    let mut planned = Tally::new("report, planned or not, by the planner's number");
    let mut tally = Tally::new("report, planned orders");
    for round in 0..30_000 {
        let table = if round % 2 == 0 {
            small_table(&mut random)
        } else {
            large_table(&mut random)
        };
        let answer = library::plan(&table);
        planned.saw(answer.number);
        let none = answer.number == 7;
        let order = if none {
            random_order(&mut random, &table)
        } else {
            answer.order
        };
        let before = rubbish(length_of(table.n));
        compare_with_plain(&table, &order, &before, &mut tally);
        let late = Lines::read(&written(&table, &order)).late();
        assert_eq!(late > 0, none, "{table:?} {order:?}");
    }
    planned.assert_common(&[0, 7], 9_000);
    tally.assert_common(&[0], 30_000);
}

/// From no byte to more than the longest report has, one by one.
#[test]
fn every_room() {
    let mut random = Random::seeded(806);
    let mut tally = Tally::new("report, every room");
    let one = table(1_000, 999, &[[999_999, 1_000_000, 1_000_000, HI]]);
    let tables = [
        table(1, 1, &[[0, 1, 1, LO]]),
        one,
        p3().with_loading(5),
        tight(&mut random, 17, MODEL_LARGE),
        hard(64),
        largest(999_999).with_loading(16),
    ];
    for table in &tables {
        let order = random_order(&mut random, table);
        for room in 0..=LONGEST {
            let number = compare_with_plain(table, &order, &rubbish(room), &mut tally);
            let fits = room >= length_of(table.n);
            assert_eq!(number, if fits { 0 } else { 10 }, "{room} bytes");
        }
    }
    tally.assert_common(&[0, 10], 7_000);
    assert_eq!(length_of(64), LONGEST_REPORT);
}

/// Sixty-four HI rows of the largest work, worked at 1 work unit per slot: the
/// row at place k finishes k times 1,000,000 slots, and k times K, after the
/// release.
#[test]
fn largest_works() {
    let mut random = Random::seeded(807);
    let mut tally = Tally::new("report, largest works");
    let figures = [
        (0, 0),
        (0, 1),
        (1, 0),
        (500_000, 5),
        (999_999, 0),
        (999_999, 16),
    ];
    for (release, loading) in figures {
        for normal in [1, 7, 1_000] {
            let table = Table {
                normal,
                loading,
                ..largest(release)
            };
            let order = random_order(&mut random, &table);
            around_the_length(compare_with_plain, &table, &order, &mut tally);
            let lines = Lines::read(&written(&table, &order));
            let each = i64::from(loading) + 1_000_000;
            for (index, line) in lines.places.iter().enumerate() {
                let finish = i64::from(release) + (index as i64 + 1) * each;
                assert_eq!(line[3..], [finish, 1_000_000 - finish]);
            }
            let first_is_in_time = release == 0 && loading == 0;
            assert_eq!(lines.late(), if first_is_in_time { 63 } else { 64 });
        }
    }
    tally.assert_common(&[0], 54);
    tally.assert_common(&[10], 36);
}

/// The lines of the places 1 and 64 and the last line, of a report of 64 rows.
fn first_and_last_lines(report: &[u8]) -> String {
    let (first, rest) = report.split_at(51);
    let lowest = &rest[62 * 51..];
    text(first) + &text(lowest)
}

/// The least slack and the largest sum of needs that come up, and 64 rows late.
#[test]
fn widest_figures_by_hand() {
    let latest = written(&largest(999_999), &rising(64));
    let expected = concat!(
        "         1         1   1000000   1999999   -999999\n",
        "        64        64   1000000  64999999 -63999999\n",
        "  64000000        64\n",
    );
    assert_eq!(first_and_last_lines(&latest), expected);
    let loads = written(&largest(999_999).with_loading(16), &rising(64));
    let expected = concat!(
        "         1         1   1000016   2000015  -1000015\n",
        "        64        64   1000016  65001023 -64001023\n",
        "  64001024        64\n",
    );
    assert_eq!(first_and_last_lines(&loads), expected);

    // LO rows finish as late at N of 1, and at N of 1,000 a thousandth of that.
    let mut low = largest(0);
    low.level = [LO; ROWS];
    let falling: Vec<u8> = (1..=64).rev().collect();
    let expected = concat!(
        "         1        64   1000000   1000000         0\n",
        "        64         1   1000000  64000000 -63000000\n",
        "  64000000        63\n",
    );
    let written_low = written(&low, &order_of(&falling));
    assert_eq!(first_and_last_lines(&written_low), expected);
    low.normal = 1_000;
    let expected = concat!(
        "         1        64      1000      1000    999000\n",
        "        64         1      1000     64000    936000\n",
        "     64000         0\n",
    );
    let written_fast = written(&low, &order_of(&falling));
    assert_eq!(first_and_last_lines(&written_fast), expected);

    // Two slots each, and a deadline after one.
    let short = Table::of(1, 1, 0, &[row([0, 2, 1, HI]); ROWS]);
    let expected = concat!(
        "         1         1         2         2        -1\n",
        "        64        64         2       128      -127\n",
        "       128        64\n",
    );
    let written_short = written(&short, &rising(64));
    assert_eq!(first_and_last_lines(&written_short), expected);
}

/// Needs, finishes and slacks of every length, in time and late: one row at a
/// speed of 1 work unit per slot finishes its work after its release and its
/// loading time.
#[test]
fn figures_of_every_length() {
    let mut tally = Tally::new("report, figures of every length");
    let mut lengths = Tally::new("report, columns that a slack takes");
    let mut compare_one = |figures: [u32; 5], loading| {
        let one = table(1, 1, &[figures]).with_loading(loading);
        let before = rubbish(length_of(1));
        if compare_with_plain(&one, &rising(1), &before, &mut tally) == 0 {
            let [release, work, deadline, ..] = figures.map(i64::from);
            let lines = Lines::read(&written(&one, &rising(1)));
            let need = i64::from(loading) + work;
            let finish = release + need;
            assert_eq!(lines.places, [[1, 1, need, finish, deadline - finish]]);
            lengths.saw(lines.places[0][4].to_string().len());
        }
    };
    // Without loading, and with the other loading times in turn.
    let mut loading = 0;
    for_each_length_of_figures(|figures| {
        loading = 1 + loading % MOST_LOADING;
        compare_one(figures, 0);
        compare_one(figures, loading);
    });
    tally.assert_common(&[0], 4_000);
    tally.assert_common(&[5], 4_000);
    lengths.assert_common(&[1, 2, 3, 4, 5, 6, 7], 20);
}

/// A slack of 0 is not late and one of -1 is, at every place and level, for the finish
/// and for a promise: no deadline leaves a slot to spare, or one row's is a slot before.
#[test]
fn late_by_one_slot() {
    let mut random = Random::seeded(808);
    let mut tally = Tally::new("report, late by one slot");
    let mut moved = Tally::new("report, late by one slot, by the row's level");
    for round in 0..2_000 {
        let n = 1 + round % 64;
        let table = tight(&mut random, n, MODEL_LARGE);
        let order = random_order(&mut random, &table);
        let mut table = without_slack(&table, &order);
        let before = rubbish(length_of(n));
        compare_with_plain(&table, &order, &before, &mut tally);
        assert_eq!(Lines::read(&written(&table, &order)).late(), 0);
        let index = random.between(0, n - 1) as usize;
        if table.release[index] + 1 < table.deadline[index] {
            table.deadline[index] -= 1;
            compare_with_plain(&table, &order, &before, &mut tally);
            assert_eq!(Lines::read(&written(&table, &order)).late(), 1);
            moved.saw(table.level[index]);
        }
    }
    tally.assert_common(&[0], 3_000);
    moved.assert_common(&[LO, HI], 500);
}

/// What stood in the lent bytes before makes no difference: spaces, digits,
/// minuses, line ends, or the report of another table.
#[test]
fn over_an_older_report() {
    let mut random = Random::seeded(809);
    let mut tally = Tally::new("report, over an older report");
    for _ in 0..10_000 {
        let (table, older) = (small_table(&mut random), small_table(&mut random));
        let order = random_order(&mut random, &table);
        let before = written(&older, &rising(older.n));
        compare_with_model(&table, &order, &before, &mut tally);
        let byte = random.one_of(b" -0159\n\0\xff");
        let room = random.between(0, 400) as usize;
        compare_with_model(&table, &order, &vec![byte; room], &mut tally);
    }
    tally.assert_common(&[0, 10], 5_000);
}

/// One refusal and several at once, in the table, the order and the room: the
/// first in the sequence 3, 4, 11, 5, 12, 13 to 15, 6, 10 is given (rule 11.7).
#[test]
fn damaged_tables_and_orders() {
    let mut random = Random::seeded(810);
    let mut tally = Tally::new("report, damaged tables and orders");
    let mut by_fault = Tally::new("report, by answer, wrong order and short room");
    for round in 0..80_000 {
        let mut table = if round % 8 == 0 {
            large_table(&mut random)
        } else {
            small_table(&mut random)
        };
        let length = length_of(table.n);
        let wrong_order = random.once_in(2);
        let order = if wrong_order {
            no_order_of(&mut random, &table)
        } else {
            random_order(&mut random, &table)
        };
        if random.once_in(2) {
            spoil_by_several(&mut random, &mut table);
        }
        let room = random.one_of(&[0, 20, length - 1, length, length + 1, LONGEST]);
        let compare = if round % 8 == 0 {
            compare_with_plain
        } else {
            compare_with_model
        };
        let number = compare(&table, &order, &rubbish(room), &mut tally);
        by_fault.saw((number, wrong_order, room < length));
    }
    tally.assert_common(&[0, 3, 4, 6, 10], 5_000);
    tally.assert_common(&[5, 11, 12, 13], 2_000);
    tally.assert_common(&[14, 15], 1_500);
    for number in TABLE_CHECKS {
        for wrong_order in [true, false] {
            let both = [(number, wrong_order, true), (number, wrong_order, false)];
            by_fault.assert_common(&both, 200);
        }
    }
    by_fault.assert_common(&[(6, true, true), (6, true, false)], 5_000);
}

#[test]
fn checks_come_in_their_order() {
    let mut tally = Tally::new("report, checks one after another");
    let twice = order_of(&[1, 1]);
    let rows = [[0, 1, 1, LO, 2, 0], [4, 1, 4, LO, 0, 2]];
    let mut wrong = table(0, 1, &rows).with_loading(u32::MAX);
    for room in [0, length_of(2) - 1, length_of(2), LONGEST] {
        let mut number = |table: &Table, order: &Order| {
            compare_with_model(table, order, &rubbish(room), &mut tally)
        };
        for n in [0, 65, u32::MAX] {
            wrong.n = n;
            assert_eq!(number(&wrong, &twice), 3);
        }
        let counted = Table { n: 2, ..wrong };
        assert_eq!(number(&counted, &twice), 4);
        let paced = Table {
            normal: 1,
            ..counted
        };
        assert_eq!(number(&paced, &twice), 11);
        let mut loads = paced.with_loading(16);
        assert_eq!(number(&loads, &twice), 5);
        loads.deadline[1] = 5;
        loads.level[63] = 1;
        assert_eq!(number(&loads, &twice), 5);
        loads.level[63] = 0;
        assert_eq!(number(&loads, &twice), 12);
        loads.promised[0] = 1;
        assert_eq!(number(&loads, &twice), 13);
        loads.follows[1] = 1;
        let others = [&[2][..], &[1, 2, 3], &[2, 1]].map(order_of);
        for order in [twice, NO_ORDER].into_iter().chain(others) {
            assert_eq!(number(&loads, &order), 6);
        }
        let short = room < length_of(2);
        assert_eq!(
            number(&loads, &order_of(&[1, 2])),
            if short { 10 } else { 0 }
        );
    }
}

/// Each word of a table changed, those after the last row too.
#[test]
fn every_word_changed() {
    let mut tally = Tally::new("report, every word changed");
    for table in [p1(), hard(64)] {
        let length = length_of(table.n);
        for_each_word_changed(&table, |changed| {
            for room in [0, length - 1, length, LONGEST] {
                compare_with_plain(changed, &rising(table.n), &rubbish(room), &mut tally);
            }
        });
    }
    tally.assert_common(&[0, 5, 10], 1_000);
    tally.assert_common(&[3, 4], 50);
    tally.assert_common(&[11, 12, 13], 40);
}

/// Each byte of an order changed to each value.
#[test]
fn every_byte_of_an_order_changed() {
    let mut tally = Tally::new("report, every byte of an order changed");
    for table in [p1(), hard(64)] {
        let before = rubbish(length_of(table.n));
        for place in 0..ROWS {
            for value in 0..=255 {
                let mut order = rising(table.n);
                let same = order[place] == value;
                order[place] = value;
                let number = compare_with_plain(&table, &order, &before, &mut tally);
                assert_eq!(number, if same { 0 } else { 6 }, "{order:?}");
            }
        }
    }
    tally.assert_common(&[0], 128);
    tally.assert_common(&[6], 32_000);
}

/// Tables of any words and orders of any sixty-four bytes, together and each
/// beside a good one.
#[test]
fn any_words_and_any_bytes() {
    let mut random = Random::seeded(811);
    let mut tally = Tally::new("report, any words and any bytes");
    for _ in 0..5_000 {
        let any = any_record(&mut random);
        let good = small_table(&mut random);
        let paced = Table {
            normal: good.normal,
            degraded: good.degraded,
            ..any.table
        };
        let loads = paced.with_loading(good.loading);
        let room = random.one_of(&[0, 21, 72, LONGEST_REPORT]);
        let before = rubbish(room);
        for n in [any.table.n, 0, 1, 64, 65, u32::MAX] {
            for table in [any.table, paced, loads] {
                let counted = Table { n, ..table };
                for order in [any.order, rising(n.min(64))] {
                    compare_with_model(&counted, &order, &before, &mut tally);
                }
            }
        }
        compare_with_model(&good, &any.order, &before, &mut tally);
        let none = no_order_of(&mut random, &good);
        compare_with_model(&good, &none, &before, &mut tally);
        compare_with_model(&good, &rising(good.n), &before, &mut tally);
    }
    tally.assert_common(&[0, 10], 1_000);
    tally.assert_common(&[3, 4, 11, 5, 6], 9_000);
}
