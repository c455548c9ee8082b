//! Every number of section 10 of the rules: its example there, its neighbours,
//! and the order of the checks on a table (rules 11.4, 11.6, 11.11 and 11.13). Number 7 is
//! case P3. The order of the checks of a commit is in `commits`.

mod common;

use common::{p3_at, refused_verdict, rubbish, TOO_LONG};
use model::cases::ceilings::{counted, over, unplanned};
use model::cases::choices::wherever;
use model::cases::commits::drawn;
use model::cases::waits::{checked_wait_orders, checked_waits};
use model::cases::{checked_promises, p1, p2, p3, table};
use model::choices::{check_counting, SCRATCH};
use model::judge::{judge, judge_table};
use model::order::{check_order, order_of, Order, NO_ORDER};
use model::plain;
use model::plan::{plan, plan_within, Plan};
use model::program::planning_program;
use model::proposal::{ask, Asked};
use model::record::{Record, Unsound};
use model::report::{report, LONGEST_REPORT};
use model::run::State;
use model::sheet::{read_sheet, sheet_of, write_back, write_sheet};
use model::speeds::{least, Least, BOTH};
use model::table::{check_table, Row, Table, MOST_LOADING};

#[test]
fn number_1_no_bytes() {
    assert_eq!(read_sheet(b""), (1, Table::ZERO));
    assert_eq!(planning_program(b""), b"       1       0\n");
}

#[test]
fn number_2_leading_zeros_in_the_count() {
    let mut sheet = sheet_of(&p1());
    sheet[..8].copy_from_slice(b"00000004");
    assert_eq!(read_sheet(&sheet), (2, Table::ZERO));
    assert_eq!(planning_program(&sheet), b"       2       0\n");
}

#[test]
fn number_3_count_65() {
    let mut counted = p1();
    counted.n = 65;
    assert_eq!(check_table(&counted), 3);
    assert_eq!(plan(&counted).number, 3);
    counted.n = 0;
    assert_eq!(check_table(&counted), 3);
    assert_eq!(Record::fresh(&counted, &NO_ORDER), (3, Record::ZERO));
}

#[test]
fn number_4_degraded_above_normal() {
    for (normal, degraded) in [(2, 3), (0, 0), (5, 0), (1_001, 1), (u32::MAX, u32::MAX)] {
        let fast = Table {
            normal,
            degraded,
            ..p1()
        };
        assert_eq!(check_table(&fast), 4, "N {normal}, G {degraded}");
        assert_eq!(read_sheet_number(&fast), 4);
    }
    let fastest = Table {
        normal: 1_000,
        degraded: 1_000,
        ..p1()
    };
    assert_eq!(check_table(&fastest), 0);
}

/// The sheet of this table, all figures cut to eight digits.
fn cut_sheet(table: &Table) -> Vec<u8> {
    let cut = |figure: u32| figure.min(99_999_999);
    let figures = [table.normal, table.degraded, table.loading];
    let [normal, degraded, loading] = figures.map(cut);
    let rows = table.rows().into_iter();
    let rows: Vec<Row> = rows.map(|row| Row::of(row.figures().map(cut))).collect();
    write_sheet(table.n, normal, degraded, loading, &rows)
}

/// Ceilings of few trials and of the most, at all of which a check refuses a table alike.
const CEILINGS: [u32; 3] = [0, 1, u32::MAX];

/// Every call that takes a table refuses this one with this number: with zeros, with
/// lent bytes as they were (rules 10.5 and 10.11 to 10.15), at a ceiling without a trial
/// (rule 23.7), and within 9 for a record (rule 8.4).
fn assert_refused(table: &Table, order: &Order, number: u32) {
    let refused = Plan::refused(number, 0);
    assert_eq!(check_table(table), number, "{table:?}");
    assert_eq!((plan(table), plain::plan(table)), (refused, refused));
    for ceiling in CEILINGS {
        assert_eq!(plan_within(table, ceiling), unplanned(number), "{table:?}");
    }
    assert_eq!(judge_table(table, order), refused_verdict(number));
    assert_eq!(plain::judge(table, order), refused_verdict(number));
    assert_eq!(plain::finishes(table, order), (number, [0; 64]));
    assert_eq!(plain::slacks(table, order), (number, [0; 64]));
    assert_eq!(Record::fresh(table, order), (number, Record::ZERO));
    assert_eq!(refused_writing(table, 3_000), (number, 0));
    let mut lent = rubbish(LONGEST_REPORT);
    assert_eq!(report(table, order, &mut lent), (number, 0));
    assert_eq!(lent, rubbish(LONGEST_REPORT));
    for sought in BOTH {
        assert_eq!(least(table, sought), Least::refused(number));
    }
    // A commit of it hands the record back as it was.
    assert_eq!(commit(drawn(7), table, order), number);
    let record = Record::holding(table, order, &State::FRESH);
    assert_eq!(record.reasons(), [Unsound::TableOrOrder(number)]);
    assert_eq!(commit(record, table, order), 9);
    assert_eq!(record.one_slot(1).number, 9);
    assert_eq!(record.forward(&[]).number, 9);
}

/// The reader's number for such a sheet; a refusal comes with a table of zeros, and asking
/// answers it with an order of zeros too.
fn read_sheet_number(table: &Table) -> u32 {
    let (number, read) = read_sheet(&cut_sheet(table));
    assert!(number == 0 || read == Table::ZERO);
    let asked = ask(&cut_sheet(table));
    assert!(number == 0 || asked == Asked::refused(number, 0));
    number
}

/// The number of a commit; a refusal leaves the record as it was, and after 0 it has zeros for
/// all rows and the clock that it had (rules 22.4 and 22.5).
fn commit(record: Record, table: &Table, order: &Order) -> u32 {
    let done = record.commit(table, order);
    let after = match done.number {
        0 => Record::starting(table, order, record.clock),
        _ => record,
    };
    assert_eq!(done.record, after);
    done.number
}

/// It is answered as 5 is (rule 10.11).
#[test]
fn number_11_loading_of_17_slots() {
    let order = order_of(&[1, 2, 3, 4]);
    for loading in TOO_LONG {
        let long = p1().with_loading(loading);
        assert_refused(&long, &order, 11);
        assert_eq!(read_sheet_number(&long), 11);
        assert_eq!(planning_program(&cut_sheet(&long)), b"      11       0\n");
        let listed = judge(5, 2, loading, &long.rows(), &order);
        assert_eq!(listed, refused_verdict(11));
    }
    for loading in 0..=MOST_LOADING {
        let fine = p1().with_loading(loading);
        assert_eq!(check_table(&fine), 0, "K {loading}");
        assert_eq!(read_sheet(&sheet_of(&fine)), (0, fine));
    }
}

/// Tables that the checks refuse, or not, with these numbers: so they do in a table, in a
/// sheet and in a list of rows, whatever the order; and 6 comes after them.
fn assert_checked(cases: Vec<(&'static str, Table, u32)>) {
    for (what, table, number) in cases {
        let rows: Vec<u8> = (1..=table.n as u8).collect();
        for order in [order_of(&rows), NO_ORDER] {
            let refusal = if number == 0 && order == NO_ORDER {
                6
            } else {
                number
            };
            assert_eq!(judge_table(&table, &order).number, refusal, "{what}");
            if number != 0 {
                assert_refused(&table, &order, number);
            }
        }
        let listed = table.rows();
        let (normal, degraded, loading) = (table.normal, table.degraded, table.loading);
        if Table::of(normal, degraded, loading, &listed) == table {
            let verdict = judge(normal, degraded, loading, &listed, &order_of(&rows));
            assert_eq!(verdict.number, number, "{what}");
            assert_eq!(read_sheet_number(&table), number, "{what}");
        }
    }
}

/// A promise of more than the work, and one of a HI row; after 5 in all rows, and
/// before 6 (rules 5.9, 10.12 and 11.3).
#[test]
fn number_12_promises_above_the_work_and_of_hi_rows() {
    assert_checked(checked_promises());
}

/// Waits for a row that has no lower number, that is released later, and of a HI row for a
/// LO row; row by row, after 12 in all rows, and before 6 (rules 5.10, 10.13 to 10.15 and
/// 11.3).
#[test]
fn numbers_13_to_15_waits() {
    assert_checked(checked_waits());
}

#[test]
fn number_5_release_at_the_deadline() {
    let refused: [[u32; 4]; 8] = [
        [4, 1, 4, 0],
        [5, 1, 4, 0],
        [0, 0, 4, 0],
        [0, 1_000_001, 4, 0],
        [0, 1, 1_000_001, 0],
        [0, 1, 0, 0],
        [0, 1, 4, 2],
        [0, 1, 4, u32::MAX],
    ];
    for figures in refused {
        let limits = table(2, 1, &[[0, 1, 1, 0], figures]);
        assert_eq!(check_table(&limits), 5, "{figures:?}");
        assert_eq!(
            Record::fresh(&limits, &order_of(&[1, 2])),
            (5, Record::ZERO)
        );
    }
    assert_eq!(check_table(&table(2, 1, &[[3, 1_000_000, 4, 1]])), 0);
}

#[test]
fn number_5_figures_after_the_last_row() {
    for index in [4, 63] {
        for column in 0..6 {
            let mut behind = p1();
            match column {
                0 => behind.release[index] = 1,
                1 => behind.work[index] = 1,
                2 => behind.deadline[index] = 1,
                3 => behind.level[index] = 1,
                4 => behind.promised[index] = 1,
                _ => behind.follows[index] = 1,
            }
            assert_eq!(check_table(&behind), 5, "column {column}, index {index}");
        }
    }
}

#[test]
fn number_6_row_1_twice() {
    let refused: [&[u8]; 8] = [
        &[1, 1],
        &[1],
        &[2],
        &[0, 1, 2],
        &[1, 0, 2],
        &[1, 3],
        &[1, 2, 1],
        &[1, 255],
    ];
    for rows in refused {
        assert_eq!(check_order(&p3(), &order_of(rows)), 6, "{rows:?}");
        assert_eq!(judge_table(&p3(), &order_of(rows)), refused_verdict(6));
        assert_eq!(Record::fresh(&p3(), &order_of(rows)), (6, Record::ZERO));
    }
    let mut last_place = order_of(&[1, 2]);
    last_place[63] = 1;
    assert_eq!(check_order(&p3(), &last_place), 6);
    assert_eq!(check_order(&p3(), &order_of(&[1, 2])), 0);
    assert_eq!(check_order(&p3(), &order_of(&[2, 1])), 0);
}

/// An order that has a follower above the row it follows is as wrong as one that names a
/// row twice (rule 5.11).
#[test]
fn number_6_a_wait_broken() {
    for (what, table, order, number) in checked_wait_orders() {
        assert_eq!(check_order(&table, &order), number, "{what}");
        assert_eq!(judge_table(&table, &order).number, number, "{what}");
        assert_eq!(plain::judge(&table, &order).number, number, "{what}");
        assert_eq!(Record::fresh(&table, &order).0, number, "{what}");
        let record = Record::holding(&table, &order, &State::FRESH);
        assert_eq!(record.one_slot(1).number, if number == 0 { 0 } else { 9 });
        assert_eq!(record.is_sound(), plain::is_sound(&record), "{what}");
    }
}

#[test]
fn number_8_clock_two_million() {
    let over = p3_at(2_000_000);
    let one = over.one_slot(5);
    assert_eq!((one.number, one.row, one.record), (8, 0, over));
    let forward = over.forward(&[5]);
    assert_eq!(
        (forward.number, forward.worked, forward.record),
        (8, 0, over)
    );
}

#[test]
fn number_9_clock_above_two_million() {
    let broken = p3_at(2_000_001);
    assert_eq!(broken.reasons(), [Unsound::Clock]);
    let one = broken.one_slot(5);
    assert_eq!((one.number, one.row, one.record), (9, 0, broken));
    for supplies in [&[][..], &[5][..]] {
        let forward = broken.forward(supplies);
        assert_eq!(
            (forward.number, forward.worked, forward.record),
            (9, 0, broken)
        );
    }
    assert_eq!(commit(broken, &p1(), &order_of(&[1, 2, 3, 4])), 9);
}

/// The writer's answer for lent bytes that it must leave as they are.
fn refused_writing(table: &Table, room: usize) -> (u32, u32) {
    let mut lent = vec![165; room];
    let answer = write_back(table, &mut lent);
    assert!(lent.iter().all(|&byte| byte == 165), "a byte was written");
    answer
}

#[test]
fn number_10_a_byte_less_than_the_sheet() {
    for room in [0, 1, 33, 197, 228] {
        assert_eq!(refused_writing(&p1(), room), (10, 0), "{room} bytes");
    }
    let mut lent = [165; 230];
    assert_eq!(write_back(&p1(), &mut lent[..229]), (0, 229));
    assert_eq!((&lent[..229], lent[229]), (&sheet_of(&p1())[..], 165));
    assert_eq!(write_back(&p1(), &mut lent), (0, 229));
    assert_eq!((&lent[..229], lent[229]), (&sheet_of(&p1())[..], 165));
}

/// 3, 4, 11, 5, 12 and 13 to 15 come before 10, however few the lent bytes (rule 11.6).
#[test]
fn checks_of_the_writer_come_in_their_order() {
    let mut wrong = Table {
        n: 0,
        normal: 0,
        ..table(1, 1, &[[4, 1, 4, 0, 2, 1]]).with_loading(17)
    };
    for room in [0, 81, 82, 3_000] {
        for n in [0, 65, u32::MAX] {
            wrong.n = n;
            assert_eq!(refused_writing(&wrong, room), (3, 0), "n {n}");
        }
        let counted = Table { n: 1, ..wrong };
        assert_eq!(refused_writing(&counted, room), (4, 0));
        let paced = Table {
            normal: 1,
            ..counted
        };
        assert_eq!(refused_writing(&paced, room), (11, 0));
        let mut loads = paced.with_loading(16);
        assert_eq!(refused_writing(&loads, room), (5, 0));
        loads.deadline[0] = 5;
        let mut behind = loads;
        behind.level[63] = 1;
        assert_eq!(refused_writing(&behind, room), (5, 0));
        assert_eq!(refused_writing(&loads, room), (12, 0));
        loads.promised[0] = 1;
        assert_eq!(refused_writing(&loads, room), (13, 0));
        loads.follows[0] = 0;
        if room < 82 {
            assert_eq!(refused_writing(&loads, room), (10, 0));
        } else {
            assert_eq!(write_back(&loads, &mut vec![165; room]), (0, 82));
        }
    }
}

#[test]
fn checks_on_a_table_come_in_their_order() {
    let wrong = Table {
        n: 65,
        normal: 0,
        ..table(1, 1, &[[4, 1, 4, 0, 2, 1]]).with_loading(u32::MAX)
    };
    let order = order_of(&[1, 1]);
    assert_eq!(judge_table(&wrong, &order).number, 3);
    let counted = Table { n: 1, ..wrong };
    assert_eq!(judge_table(&counted, &order).number, 4);
    let paced = Table {
        normal: 1,
        ..counted
    };
    assert_eq!(judge_table(&paced, &order).number, 11);
    let mut limited = paced.with_loading(16);
    assert_eq!(judge_table(&limited, &order).number, 5);
    limited.deadline[0] = 5;
    assert_eq!(judge_table(&limited, &order).number, 12);
    limited.promised[0] = 1;
    assert_eq!(judge_table(&limited, &order).number, 13);
    limited.follows[0] = 0;
    assert_eq!(judge_table(&limited, &order).number, 6);
    assert_eq!(judge_table(&limited, &order_of(&[1])).number, 0);
}

/// P1 with the order of P2, and with its own (rule 10.16).
#[test]
fn number_16_an_order_of_another_table() {
    let p1 = p1().later(7);
    assert_eq!(commit(drawn(7), &p1, &plan(&p2()).order), 16);
    assert_eq!(commit(drawn(7), &p1, &plan(&p1).order), 0);
}

/// The fresh record of P1, in which all rows are open, and its run until the last is closed
/// (rule 10.17).
#[test]
fn number_17_an_open_row() {
    let order = order_of(&[1, 2, 3, 4]);
    let (_, mut record) = Record::fresh(&p1(), &order);
    let next = p1().later(30);
    for clock in 0..30 {
        assert_eq!(record.clock, clock);
        let open = record.closing[..4].contains(&0);
        let number = if open { 17 } else { 0 };
        assert_eq!(commit(record, &next, &order), number, "clock {clock}");
        record = record.one_slot(2).record;
    }
    // Rows 2 and 4 were dropped at their deadlines.
    assert_eq!(record.closing[..4], [10, 10, 16, 5]);
}

/// A release of 6 at clock 7, and one of 7, which is accepted (rule 10.18).
#[test]
fn number_18_a_release_before_the_clock() {
    let order = order_of(&[1]);
    for (release, number) in [(0, 18), (6, 18), (7, 0), (8, 0), (999_999, 0)] {
        let next = table(1, 1, &[[release, 1, release + 1, 0]]);
        assert_eq!(commit(drawn(7), &next, &order), number, "release {release}");
    }
}

/// P1 at a ceiling of 5, and at 6, which is its count (rule 10.19).
#[test]
fn number_19_more_trials_than_the_ceiling() {
    for ceiling in 0..=5 {
        assert_eq!(plan_within(&p1(), ceiling), over(ceiling));
    }
    for ceiling in 6..=11 {
        assert_eq!(plan_within(&p1(), ceiling), counted(plan(&p1()), 6));
    }
}

/// 3, 4, 11, 5, 12 and 13 to 15 come before 19, and at a higher ceiling before 0 and 7 (rule
/// 11.11).
#[test]
fn checks_at_a_ceiling_come_in_their_order() {
    let wrong = Table {
        n: 0,
        normal: 0,
        ..table(1, 1, &[[4, 1, 4, 0, 2, 1]]).with_loading(17)
    };
    let numbers_of = |table: &Table| CEILINGS.map(|it| plan_within(table, it).plan.number);
    assert_eq!(numbers_of(&wrong), [3; 3]);
    let one_row = Table { n: 1, ..wrong };
    assert_eq!(numbers_of(&one_row), [4; 3]);
    let paced = Table {
        normal: 1,
        ..one_row
    };
    assert_eq!(numbers_of(&paced), [11; 3]);
    let mut limited = paced.with_loading(1);
    assert_eq!(numbers_of(&limited), [5; 3]);
    limited.deadline[0] = 5;
    assert_eq!(numbers_of(&limited), [12; 3]);
    limited.promised[0] = 1;
    assert_eq!(numbers_of(&limited), [13; 3]);
    limited.follows[0] = 0;
    assert_eq!(numbers_of(&limited), [19, 7, 7]);
    limited.deadline[0] = 6;
    assert_eq!(numbers_of(&limited), [19, 0, 0]);
}

/// An accepted table of 13 rows, whatever is lent, and one of 12 (rule 10.20); 4,096 numbers of
/// scratch are asked for, whatever n is (rule 10.10).
#[test]
fn number_20_more_rows_than_can_be_counted() {
    let numbers_of = |table: &Table| LENT_NUMBERS.map(|lent| check_counting(table, lent));
    for rows in [13, 14, 63, 64] {
        assert_eq!(numbers_of(&wherever(rows)), [20; 5], "{rows} rows");
    }
    for rows in [1, 2, 11, 12] {
        assert_eq!(
            numbers_of(&wherever(rows)),
            [10, 10, 10, 0, 0],
            "{rows} rows"
        );
    }
}

/// Numbers of scratch that are lent: too few, just enough, and more.
const LENT_NUMBERS: [usize; 5] = [0, 2, SCRATCH - 1, SCRATCH, SCRATCH + 1];

/// 3, 4, 11, 5, 12 and 13 to 15 come before 20, and 20 before 10 (rule 11.13).
#[test]
fn checks_of_counting_come_in_their_order() {
    let numbers_of = |table: &Table| LENT_NUMBERS.map(|lent| check_counting(table, lent));
    let mut wrong = Table {
        n: 65,
        normal: 0,
        ..wherever(13).with_loading(17)
    };
    (wrong.deadline[12], wrong.promised[12], wrong.follows[12]) = (0, 2, 13);
    assert_eq!(numbers_of(&wrong), [3; 5]);
    wrong.n = 13;
    assert_eq!(numbers_of(&wrong), [4; 5]);
    wrong.normal = 1;
    assert_eq!(numbers_of(&wrong), [11; 5]);
    wrong.loading = 1;
    assert_eq!(numbers_of(&wrong), [5; 5]);
    wrong.deadline[12] = 13;
    assert_eq!(numbers_of(&wrong), [12; 5]);
    wrong.promised[12] = 1;
    assert_eq!(numbers_of(&wrong), [13; 5]);
    wrong.follows[12] = 12;
    wrong.release[11] = 1;
    assert_eq!(numbers_of(&wrong), [14; 5]);
    wrong.release[12] = 1;
    (wrong.level[12], wrong.promised[12]) = (1, 0);
    assert_eq!(numbers_of(&wrong), [15; 5]);
    wrong.level[11] = 1;
    assert_eq!(numbers_of(&wrong), [20; 5]);
    let fewer = Table::of(1, 1, 1, &wrong.rows()[..12]);
    assert_eq!(numbers_of(&fewer), [10, 10, 10, 0, 0]);
}
