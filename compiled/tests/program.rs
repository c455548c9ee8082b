//! What the planning program writes, byte for byte, for sheets of every loading
//! time, with promises and waits and without.

mod common;

use common::sheets::{damaged, long, small_sheets};
use common::{large_table, small_table, Kinds, Loadings, Tally};
use compiled::library;
use compiled::sheets::{easy, easy_loading, hard, hard_loading};
use model::before::{Before, TIMES};
use model::cases::waits::{chain, wait_plans};
use model::cases::{either_place, p1, P1_TEXT};
use model::plain;
use model::program::{planning_program, KEPT};
use model::random::Random;
use model::sheet::{read_field, sheet_of, write_line};
use model::table::MOST_LOADING;
use std::io::Write;
use std::process::{Command, Stdio};
use std::thread::sleep;
use std::time::Duration;

/// The number in the first field of a text.
fn number_of(text: &[u8]) -> u32 {
    let field: &[u8; 8] = text[..8].try_into().expect("a field");
    read_field(field).expect("a number")
}

fn compare_with_model(input: &[u8], tally: &mut Tally<u32>) -> u32 {
    assert_eq!(plain::program(input), planning_program(input));
    compare(input, tally)
}

fn compare(input: &[u8], tally: &mut Tally<u32>) -> u32 {
    let text = library::program(input);
    assert_eq!(text, plain::program(input), "{input:?}");
    let number = number_of(&text);
    tally.saw(number);
    number
}

#[test]
fn small_sheets_against_the_model() {
    let mut random = Random::seeded(601);
    let mut tally = Tally::new("program, small sheets");
    compare_with_model(b"", &mut tally);
    for _ in 0..4_000 {
        for input in small_sheets(&mut random) {
            compare_with_model(&input, &mut tally);
        }
    }
    tally.assert_common(&[0, 1, 2, 3, 4, 5, 7, 11, 12, 13, 14, 15], 250);
}

/// Sheets as they are, without the field of K, which is answered 2, and without those of
/// r or of w, which is answered 1.
#[test]
fn every_loading_time() {
    let mut random = Random::seeded(604);
    let mut tally = Tally::new("program, small sheets that are whole");
    let mut loadings = Loadings::new("program, small sheets that are whole, by K");
    let mut kinds = Kinds::new("program, small sheets that are whole, by promises and waits");
    for _ in 0..8_000 {
        let table = small_table(&mut random);
        let sheet = sheet_of(&table);
        let number = compare_with_model(&sheet, &mut tally);
        loadings.saw(number, &table);
        kinds.saw(number, &table);
        for before in TIMES {
            let old = before.old_sheet(&sheet);
            let number = if before == Before::Loading { 2 } else { 1 };
            assert_eq!(compare_with_model(&old, &mut tally), number);
        }
    }
    tally.assert_common(&[0, 7], 1_500);
    loadings.assert_every(150);
    kinds.assert_all(500);
}

/// What the planning program itself writes for this standard input.
fn plan(input: &[u8]) -> Vec<u8> {
    plan_pieces(&[input])
}

/// What it writes where its input comes piece by piece, with a pause between.
fn plan_pieces(pieces: &[&[u8]]) -> Vec<u8> {
    let program = concat!(env!("CARGO_MANIFEST_DIR"), "/../target/bin/plan");
    let mut child = Command::new(program)
        .stdin(Stdio::piped())
        .stdout(Stdio::piped())
        .spawn()
        .expect("the planning program is built");
    let mut pipe = child.stdin.take().expect("a pipe");
    for (index, piece) in pieces.iter().enumerate() {
        if index > 0 {
            sleep(Duration::from_millis(20));
        }
        // It may end before a long input is written whole: what it keeps is enough.
        let _ = pipe.write_all(piece);
    }
    drop(pipe);
    child.wait_with_output().expect("its output").stdout
}

#[test]
fn the_program_itself_against_the_model() {
    let mut random = Random::seeded(603);
    let mut tally = Tally::new("the planning program itself");
    assert_eq!(plan(b""), planning_program(b""));
    for _ in 0..2_500 {
        for input in small_sheets(&mut random) {
            let text = plan(&input);
            assert_eq!(text, planning_program(&input), "{input:?}");
            tally.saw(number_of(&text));
        }
    }
    for n in (4..=64).step_by(4) {
        let loading = n / 4;
        let loads = [easy_loading(n, loading), hard_loading(n, loading)];
        for table in [easy(n), hard(n)].iter().chain(&loads) {
            let sheet = sheet_of(table);
            assert_eq!(plan(&sheet), plain::program(&sheet));
        }
    }
    tally.assert_common(&[0, 1, 2, 3, 4, 5, 7, 11, 12, 13, 14, 15], 100);
}

/// A pipe hands over what is there, so that one read may bring only a part.
#[test]
fn the_program_itself_on_input_in_pieces() {
    for sheet in [sheet_of(&p1()), sheet_of(&hard(64))] {
        let text = planning_program(&sheet);
        for cut in [1, 25, 32, 33, 34, 74, 82, sheet.len() - 1] {
            let (first, rest) = sheet.split_at(cut);
            assert_eq!(plan_pieces(&[first, rest]), text, "cut at {cut}");
            assert_eq!(
                plan_pieces(&[first, &rest[..1], &rest[1..]]),
                text,
                "cut at {cut}"
            );
        }
        let longer = [sheet.as_slice(), b"\n"];
        assert_eq!(plan_pieces(&longer), planning_program(&longer.concat()));
    }
}

#[test]
fn large_sheets() {
    let mut random = Random::seeded(602);
    let mut tally = Tally::new("program, sheets of up to 64 rows");
    for _ in 0..4_000 {
        let sheet = sheet_of(&large_table(&mut random));
        compare(&sheet, &mut tally);
        compare(&damaged(&mut random, sheet.clone()), &mut tally);
        compare(&long(&mut random, sheet), &mut tally);
    }
    for n in (4..=64).step_by(4) {
        for loading in 0..=MOST_LOADING {
            compare(&sheet_of(&easy_loading(n, loading)), &mut tally);
            compare(&sheet_of(&hard_loading(n, loading)), &mut tally);
        }
    }
    tally.assert_common(&[0, 1, 2, 7], 1_000);
}

/// The longest sheet has 3,169 bytes, and the program itself keeps one byte
/// more, whichever that is: by it alone it tells the sheet from a longer input.
#[test]
fn the_program_itself_around_the_bytes_that_are_kept() {
    let mut tally = Tally::new("the planning program itself, around the bytes kept");
    assert_eq!(KEPT, 3_170);
    for sheet in [sheet_of(&easy(64)), sheet_of(&hard(64))] {
        assert_eq!(sheet.len(), KEPT - 1);
        for extra in 0..=3 {
            for byte in [0, b'\n', b' ', b'1', 255] {
                let mut input = sheet.clone();
                input.resize(sheet.len() + extra, byte);
                let text = plan(&input);
                assert_eq!(text, planning_program(&input), "{extra} bytes {byte}");
                tally.saw(number_of(&text));
            }
        }
    }
    tally.assert_common(&[0], 10);
    tally.assert_common(&[1], 30);
}

/// The longest sheet has 3,169 bytes; one byte more is kept, and what follows
/// makes no difference.
#[test]
fn around_the_bytes_that_are_kept() {
    let mut tally = Tally::new("program, around the bytes kept");
    let sheet = sheet_of(&easy(64));
    assert_eq!(sheet.len(), KEPT - 1);
    for extra in 0..=3 {
        for byte in 0..=255 {
            let mut input = sheet.clone();
            input.resize(sheet.len() + extra, byte);
            compare(&input, &mut tally);
        }
    }
    tally.assert_common(&[0], 256);
    tally.assert_common(&[1], 768);
}

#[test]
fn the_text_of_p1() {
    assert_eq!(library::program(&sheet_of(&p1())), P1_TEXT.as_bytes());
    assert_eq!(library::program(b""), b"       1       0\n");
}

/// A wait changes which row has which place, or leaves no order.
#[test]
fn the_text_of_tables_with_waits() {
    let written = |second, third| library::program(&sheet_of(&chain(second, third)));
    let text = |second, third| String::from_utf8(written(second, third)).expect("a text");
    let lines = |rows: [u8; 3]| {
        let [highest, middle, lowest] = rows;
        let places = [[1, highest, 8], [2, middle, 7], [3, lowest, 6]];
        let line = |[place, row, slack]: [u8; 3]| format!("{place:>8}{row:>8}{slack:>8}\n");
        format!("       0       3\n{}", places.map(line).concat())
    };
    assert_eq!(text(0, 0), lines([3, 2, 1]));
    assert_eq!(text(1, 2), lines([1, 2, 3]));
    assert_eq!(text(1, 1), lines([1, 3, 2]));
    assert_eq!(text(2, 0), "      13       0\n");
    for case in wait_plans() {
        let (sheet, left) = (sheet_of(&case.table), case.plan.rows_left());
        if case.plan.number == 7 {
            assert_eq!(
                library::program(&sheet),
                write_line(&[7, left]),
                "{}",
                case.what
            );
        }
    }
}

/// The third column has the slack, of which the promise has its part (rule 12.5).
#[test]
fn the_text_of_tables_with_promises() {
    let text = |promised| library::program(&sheet_of(&either_place(promised)));
    let lines = |slack| {
        let places = ["       1       2       4\n", "       2       1"];
        format!("       0       2\n{}{}{slack:>8}\n", places[0], places[1])
    };
    assert_eq!(text(0), lines(1).as_bytes());
    assert_eq!(text(1), lines(0).as_bytes());
    let above = "       0       2\n       1       1       2\n       2       2       2\n";
    assert_eq!(text(2), above.as_bytes());
    assert_eq!(text(3), b"      12       0\n");
}
