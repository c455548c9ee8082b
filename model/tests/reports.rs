//! The report: reports worked out by hand, its figures, its totals, the judge's
//! verdict in it, lent bytes of every length, and refusals (section 16 of the
//! rules). The plain report is compared with it.

mod common;

use common::{rubbish, table_and_order, Kinds, SMALL};
use model::cases::{p1, p3, reports, table};
use model::judge::judge_table;
use model::order::{order_of, orders, Order, NO_ORDER};
use model::plain;
use model::plan::{plan, promised_moment, slack, worst_finish};
use model::random::{loading_table_in, random_order, table_in, table_of_rows_in, Random, Ranges};
use model::report::{figure, report, report_of, LONGEST_REPORT};
use model::table::Table;

/// Right-justified in ten columns, as Rust's own formatting has it; a column is
/// left before every number of up to eight digits (rule 16.11).
#[test]
fn a_figure_is_what_formatting_gives() {
    let near_powers = (0..8).flat_map(|power| {
        let ten = 10i64.pow(power);
        [ten - 1, ten, ten + 1, 9 * ten + 9]
    });
    let spread = (0..100_000_000).step_by(9_973);
    let last = [64_001_023, 65_001_023, 99_999_999];
    for size in (0..200_000).chain(near_powers).chain(spread).chain(last) {
        for value in [size, -size] {
            let written = figure(value);
            assert_eq!(written.as_slice(), format!("{value:>10}").as_bytes());
            assert_eq!(written[0], b' ', "{value}");
        }
    }
}

#[test]
fn reports_by_hand() {
    for (table, order, text) in reports() {
        let written = String::from_utf8(report_of(&table, &order)).expect("a text");
        assert_eq!(written, text, "{table:?}");
        let mut lent = rubbish(text.len());
        let answer = report(&table, &order, &mut lent);
        assert_eq!(answer, (0, text.len() as u32));
        assert_eq!(lent, text.as_bytes());
    }
}

/// The numbers of each line, the last line's apart. Every figure has a space
/// before it, so that they come apart at the spaces.
fn numbers_of(report: &[u8]) -> (Vec<Vec<i64>>, Vec<i64>) {
    let text = std::str::from_utf8(report).expect("a text");
    let number = |word: &str| word.parse().expect("a whole number");
    let numbers = |line: &str| line.split_whitespace().map(number).collect();
    let mut lines: Vec<Vec<i64>> = text.lines().map(numbers).collect();
    let last = lines.pop().expect("a last line");
    (lines, last)
}

/// The slots in which a row loads, and those that its work takes at N (rule 1.8).
fn need_at_normal(table: &Table, row: u8) -> i64 {
    let (work, normal) = (table.row(row).work, table.normal);
    i64::from(table.loading) + i64::from(work.div_ceil(normal))
}

/// The line of a place says what rule 16.2 asks for.
fn assert_places(table: &Table, order: &Order, lines: &[Vec<i64>]) {
    assert_eq!(lines.len(), table.n as usize);
    for (index, line) in lines.iter().enumerate() {
        let row = order[index];
        let finish = worst_finish(table, order, row);
        let at_normal = need_at_normal(table, row);
        let [place, row_of_line, need, finish_of_line, slack_of_line] = line[..] else {
            panic!("{line:?} has not five figures");
        };
        assert_eq!((place, row_of_line), (index as i64 + 1, i64::from(row)));
        assert_eq!((need, finish_of_line), (at_normal, finish.into()));
        let job = table.row(row);
        let last = match job.promised {
            0 => finish,
            _ => finish.max(promised_moment(table, order, row)),
        };
        assert_eq!(slack_of_line, i64::from(job.deadline) - i64::from(last));
    }
}

/// The totals are those of the lines and those of the rows (rule 16.3).
fn assert_totals(table: &Table, order: &Order, lines: &[Vec<i64>], last: &[i64]) {
    let over_lines = [
        lines.iter().map(|line| line[2]).sum(),
        lines.iter().filter(|line| line[4] < 0).count() as i64,
    ];
    let rows = 1..=table.n as u8;
    let over_rows = [
        rows.clone().map(|row| need_at_normal(table, row)).sum(),
        rows.filter(|&row| slack(table, order, row) < 0).count() as i64,
    ];
    assert_eq!(last, over_lines, "{table:?} {order:?}");
    assert_eq!(last, over_rows, "{table:?} {order:?}");
}

/// The least slack in the lines is the judge's, and so is the verdict (rule
/// 16.10).
fn assert_judged(table: &Table, order: &Order, lines: &[Vec<i64>], last: &[i64]) {
    let verdict = judge_table(table, order);
    let least = lines.iter().map(|line| line[4]).min();
    assert_eq!(least, Some(verdict.slack), "{table:?} {order:?}");
    let named = |line: &&Vec<i64>| line[1] == i64::from(verdict.row);
    let line = lines.iter().find(named).expect("the row has a line");
    assert_eq!(line[4], verdict.slack, "{table:?} {order:?}");
    assert_eq!(last[1] == 0, verdict.yes, "{table:?} {order:?}");
}

#[test]
fn lines_and_totals_are_those_of_the_rows_and_of_the_judge() {
    let mut random = Random::seeded(41);
    let mut by_late = [0; 6];
    let mut kinds = Kinds::default();
    for _ in 0..20_000 {
        let (table, order) = table_and_order(&mut random);
        kinds.saw(&table);
        let (lines, last) = numbers_of(&report_of(&table, &order));
        assert_places(&table, &order, &lines);
        assert_totals(&table, &order, &lines, &last);
        assert_judged(&table, &order, &lines, &last);
        by_late[last[1] as usize] += 1;
    }
    println!("tables by rows late: {by_late:?}");
    assert!(by_late.iter().all(|&times| times > 20), "{by_late:?}");
    kinds.assert_all(400);
}

/// A planned order has no row that is late (rule 16.10).
#[test]
fn a_planned_order_has_a_last_line_with_0() {
    let mut random = Random::seeded(42);
    let (mut planned, mut none) = (0, 0);
    for _ in 0..5_000 {
        let table = table_in(&mut random, SMALL);
        let answer = plan(&table);
        if answer.number == 0 {
            let (_, last) = numbers_of(&report_of(&table, &answer.order));
            assert_eq!(last[1], 0, "{table:?}");
            planned += 1;
        } else {
            for order in orders(&table) {
                let (_, last) = numbers_of(&report_of(&table, &order));
                assert!(last[1] > 0, "{table:?} {order:?}");
            }
            none += 1;
        }
    }
    assert!(planned > 1_000 && none > 1_000, "{planned}, {none}");
}

/// The model's report and the plain one over the same bytes; gives number and
/// length. Then again over these bytes with every bit turned over, so that no
/// byte that is written can pass for one that was left.
fn compare_over(table: &Table, order: &Order, before: &[u8]) -> (u32, u32) {
    let turned: Vec<u8> = before.iter().map(|&byte| !byte).collect();
    let answers = [before, &turned].map(|before| {
        let (mut lent, mut of_plain) = (before.to_vec(), before.to_vec());
        let answer = report(table, order, &mut lent);
        assert_eq!(plain::report(table, order, &mut of_plain), answer);
        assert_eq!(of_plain, lent, "{table:?} {order:?}");
        let written = answer.1 as usize;
        assert_eq!(lent[written..], before[written..], "{table:?} {order:?}");
        answer
    });
    assert_eq!(answers[0], answers[1]);
    answers[0]
}

/// Ranges of tables of n rows, each with work for up to two slots.
fn short_rows(n: u32) -> Ranges {
    Ranges {
        rows: n,
        speed: 5,
        release: n,
        need: 2,
        window: n,
    }
}

/// From no byte to more than the longest report has: 10 exactly if they are
/// fewer than 51 for each row and 21 (rules 16.7 and 16.9).
#[test]
fn lent_bytes_of_every_length() {
    let mut random = Random::seeded(43);
    for (n, loading) in [(1, 16), (2, 3), (17, 1), (64, 0)] {
        let table = loading_table_in(&mut random, n, loading, short_rows(n));
        let order = random_order(&mut random, &table);
        let length = 51 * n as usize + 21;
        assert_eq!(report_of(&table, &order).len(), length);
        for room in 0..=LONGEST_REPORT + 15 {
            let answer = compare_over(&table, &order, &rubbish(room));
            let enough = (0, length as u32);
            let expected = if room < length { (10, 0) } else { enough };
            assert_eq!(answer, expected, "{n} rows, {room} bytes");
        }
    }
    assert_eq!(LONGEST_REPORT, 3_285);
}

/// 3, 4, 11, 5, 12 to 15 and 6 come before 10, however few the lent bytes (rule 11.7).
#[test]
fn checks_of_the_report_come_in_their_order() {
    let enough = 2 * 51 + 21;
    for room in [0, 1, enough - 1, enough, 4_000] {
        let number = |table: &Table, order: &Order| compare_over(table, order, &rubbish(room)).0;
        let twice = order_of(&[1, 1]);
        let mut wrong = table(0, 1, &[[0, 1, 1, 0], [4, 1, 4, 0]]).with_loading(17);
        for n in [0, 65, u32::MAX] {
            wrong.n = n;
            assert_eq!(number(&wrong, &twice), 3, "n {n}, {room} bytes");
        }
        let counted = Table { n: 2, ..wrong };
        assert_eq!(number(&counted, &twice), 4, "{room} bytes");
        let paced = Table {
            normal: 1,
            ..counted
        };
        assert_eq!(number(&paced, &twice), 11, "{room} bytes");
        let mut limited = paced.with_loading(16);
        assert_eq!(number(&limited, &twice), 5, "{room} bytes");
        limited.deadline[1] = 5;
        limited.level[63] = 1;
        assert_eq!(number(&limited, &twice), 5, "{room} bytes");
        limited.level[63] = 0;
        limited.promised[0] = 2;
        assert_eq!(number(&limited, &twice), 12, "{room} bytes");
        limited.promised[0] = 1;
        limited.follows[1] = 2;
        assert_eq!(number(&limited, &twice), 13, "{room} bytes");
        limited.follows[1] = 1;
        let broken = order_of(&[2, 1]);
        for order in [
            twice,
            NO_ORDER,
            order_of(&[1]),
            order_of(&[1, 2, 2]),
            broken,
        ] {
            assert_eq!(number(&limited, &order), 6, "{order:?}, {room} bytes");
        }
        let last = if room < enough { 10 } else { 0 };
        assert_eq!(number(&limited, &order_of(&[1, 2])), last, "{room} bytes");
    }
}

/// What stood in the lent bytes before makes no difference.
#[test]
fn over_other_reports_and_other_bytes() {
    let mut random = Random::seeded(44);
    let older = report_of(&p3(), &order_of(&[2, 1]));
    let newer = report_of(&p1(), &order_of(&[4, 3, 2, 1]));
    let (mut written, mut refused) = (0, 0);
    for _ in 0..5_000 {
        let (table, order) = table_and_order(&mut random);
        let byte = random.one_of(b" -0159\n\0\xff");
        let room = random.between(0, 400) as usize;
        for before in [&older, &newer, &vec![byte; room]] {
            match compare_over(&table, &order, before) {
                (0, _) => written += 1,
                answer => {
                    assert_eq!(answer, (10, 0));
                    refused += 1;
                }
            }
        }
    }
    assert!(
        written > 3_000 && refused > 3_000,
        "{written} written, {refused} refused"
    );
}

/// The plain report on up to 64 rows, of which most are late, and on works that
/// run to 2,000,000 slots and load before.
#[test]
fn the_plain_report_on_many_rows_and_on_long_works() {
    let mut random = Random::seeded(45);
    let mut kinds = Kinds::default();
    for round in 0..600 {
        let n = 1 + round % 64;
        let table = table_of_rows_in(&mut random, n, short_rows(n));
        kinds.saw(&table);
        let order = random_order(&mut random, &table);
        let length = 51 * n + 21;
        let answer = compare_over(&table, &order, &rubbish(LONGEST_REPORT));
        assert_eq!(answer, (0, length), "{table:?} {order:?}");
    }
    kinds.assert_all(5);
    for (level, loading) in [(0, 0), (1, 0), (0, 16), (1, 16)] {
        let rows = [[0, 1_000_000, 1, level], [0, 1_000_000, 1, 1]];
        let long = table(1, 1, &rows).with_loading(loading);
        let finish = 2_000_000 + 2 * i64::from(loading);
        for order in orders(&long) {
            let answer = compare_over(&long, &order, &rubbish(123));
            assert_eq!(answer, (0, 123), "{order:?}");
            let (lines, last) = numbers_of(&report_of(&long, &order));
            assert_eq!(lines[1][3..], [finish, 1 - finish]);
            assert_eq!(last, [finish, 2]);
        }
    }
}
