//! The command's figures (`--plain`) against the model, on samples and random
//! sheets, the sentences of plan and judge and what is read back from sentences, and its
//! rows files against a reading of them by their description.
//! The program is the one that JASMINEBRACE_COMMAND names, or
//! tools/jasminebrace. Tables come with promised parts and waits and without.

mod common;

use common::planning::{at_ceiling, by_both};
use common::{
    any_order, large_table, refused_sheet, small_table, spoil_table, supplies, Tally, MODEL_LARGE,
    SMALL, TABLE_CHECKS,
};
use compiled::sheets::{easy, hard, tight};
use model::before::{Before, TIMES};
use model::calls::{one_slot_on_paper, LAST_CLOCK};
use model::cases::sentences::{longest, refused_sentences, sentences};
use model::choices::{table_alone, Choices, MOST_COUNTED, SCRATCH};
use model::judge::Verdict;
use model::order::{check_order, Order};
use model::place::place_of_fault;
use model::plain;
use model::plan::{most_trials, rows_in_word, trial_order, Counted, Plan};
use model::program::planning_program;
use model::random::sentences::{answer as any_answer, damaged as damaged_sentence};
use model::random::{random_order, Random};
use model::report::LONGEST_REPORT;
use model::run::{has_promised, kept_deadline, State};
use model::sentences::{
    read_sentence, Answer, JudgeAnswer, PlannerAnswer, LONGEST_OF_JUDGE, LONGEST_OF_PLANNER,
};
use model::sheet::{
    read_field, read_sheet, sheet_of, write_field, write_line, write_sheet, FIELD, FIRST_LINE,
    ROW_LINE,
};
use model::speeds::{Least, Sought, BOTH};
use model::stuck::slack_in_set;
use model::table::{
    allowance, check_table, Row, Table, FIGURES, HI, LATEST_DEADLINE, MOST_LOADING, MOST_SPEED,
    ROWS,
};
use std::io::Write;
use std::process::{Command, Stdio};

const SHIPPED: &str = concat!(env!("CARGO_MANIFEST_DIR"), "/../tools/jasminebrace");

/// What the command wrote on standard output, and its exit status.
fn command(words: &[&str], input: &[u8]) -> (Vec<u8>, i32) {
    let (output, _, status) = command_with_errors(words, input);
    (output, status)
}

/// What the command wrote on standard output and standard error, and its exit
/// status.
fn command_with_errors(words: &[&str], input: &[u8]) -> (Vec<u8>, String, i32) {
    let program = std::env::var("JASMINEBRACE_COMMAND").unwrap_or_else(|_| SHIPPED.to_string());
    let mut child = Command::new(program)
        .args(words)
        .stdin(Stdio::piped())
        .stdout(Stdio::piped())
        .stderr(Stdio::piped())
        .spawn()
        .expect("the command is built");
    // It may end before a long input is written whole: what it keeps is enough.
    let _ = child.stdin.take().expect("a pipe").write_all(input);
    let output = child.wait_with_output().expect("its output");
    let errors = String::from_utf8(output.stderr).expect("text without broken characters");
    let status = output.status.code().expect("a status");
    (output.stdout, errors, status)
}

fn text(bytes: &[u8]) -> &str {
    std::str::from_utf8(bytes).expect("figures are ASCII")
}

fn status_of(number: u32) -> i32 {
    match number {
        0 => 0,
        7 => 1,
        _ => 2,
    }
}

/// A slack in two fields: slots before the deadline, slots after it.
fn slack_fields(slack: i64) -> [u32; 2] {
    [slack.max(0) as u32, (-slack).max(0) as u32]
}

fn words_of(rows: &[u8]) -> Vec<String> {
    rows.iter().map(|row| row.to_string()).collect()
}

/// The order up to its last number that is not zero, as words.
fn order_words(order: &Order) -> Vec<String> {
    let length = order
        .iter()
        .rposition(|&row| row != 0)
        .map_or(1, |last| last + 1);
    words_of(&order[..length])
}

fn damaged(random: &mut Random, mut sheet: Vec<u8>) -> Vec<u8> {
    let place = random.between(0, sheet.len() as u32 - 1) as usize;
    match random.between(0, 4) {
        0 => sheet.truncate(place),
        1 => sheet.push(random.word() as u8),
        2 => sheet.insert(place, random.one_of(b"\r\n 0\t")),
        3 => sheet[place] = random.one_of(b"\n 0129x\t\r"),
        _ => sheet[place] = random.word() as u8,
    }
    sheet
}

/// Where the field of K stands in a sheet, from 0 on: after those of n, N and G.
const LOADING: std::ops::Range<usize> = 3 * FIELD..4 * FIELD;

/// The sheet with this figure as K, in slots.
fn with_loading(mut sheet: Vec<u8>, loading: u32) -> Vec<u8> {
    sheet[LOADING].copy_from_slice(&write_field(loading));
    sheet
}

/// The sheet without K, as nobody ever wrote one: its rows have fields that came later.
fn without_loading(mut sheet: Vec<u8>) -> Vec<u8> {
    sheet.drain(LOADING);
    sheet
}

/// A loading time past its limit, in slots.
fn long_loading(random: &mut Random) -> u32 {
    random.one_of(&[MOST_LOADING + 1, 18, 100, 99_999_999])
}

/// A sheet that is accepted, and others that are refused: by a check on tables,
/// for something damaged, for K, and for fields that it lacks, of K, or of all that have
/// come since some time.
fn sheets(random: &mut Random) -> [Vec<u8>; 6] {
    let table = small_table(random);
    let sheet = sheet_of(&table);
    let other = damaged(random, sheet.clone());
    let refused = refused_sheet(random, &table);
    let loading = long_loading(random);
    [
        with_loading(sheet.clone(), loading),
        random.one_of(&TIMES).old_sheet(&sheet),
        without_loading(sheet.clone()),
        refused,
        other,
        sheet,
    ]
}

fn sample_sheets() -> Vec<Vec<u8>> {
    let folder = concat!(env!("CARGO_MANIFEST_DIR"), "/../samples");
    let files = std::fs::read_dir(folder).expect("the samples");
    let mut sheets: Vec<_> = files
        .map(|file| file.expect("a sample").path())
        .filter(|path| path.extension().is_some_and(|end| end == "sheet"))
        .map(|path| std::fs::read(path).expect("a sample"))
        .collect();
    assert!(sheets.len() >= 5, "the samples");
    sheets.extend([sheet_of(&easy(64)), sheet_of(&hard(64))]);
    sheets
}

#[test]
fn plan_is_what_the_program_writes() {
    let mut random = Random::seeded(701);
    let mut tally = Tally::new("command plan");
    let mut compare = |sheet: &[u8], expected: Vec<u8>| {
        let number = figure(&expected[..8]);
        let answer = command(&["plan", "--plain", "-"], sheet);
        assert_eq!(answer, (expected, status_of(number)), "{sheet:?}");
        tally.saw(number);
    };
    for sheet in sample_sheets() {
        compare(&sheet, plain::program(&sheet));
    }
    for _ in 0..400 {
        for sheet in sheets(&mut random) {
            compare(&sheet, planning_program(&sheet));
        }
        let sheet = sheet_of(&large_table(&mut random));
        compare(&sheet, plain::program(&sheet));
    }
    tally.assert_common(&[0, 1, 2, 7], 40);
    tally.assert_common(&TABLE_CHECKS, 30);
}

/// What `plan` has to answer at a ceiling, in trials, to a sheet that has this table and this
/// number by the reader.
fn planned_within(number: u32, table: &Table, ceiling: u32) -> Counted {
    match number {
        0 => at_ceiling(by_both(table), ceiling),
        _ => at_ceiling((Plan::refused(number, 0), 0), ceiling),
    }
}

/// The plain form of it: the trials made in the first line, and else what `plan` writes without
/// a ceiling.
fn counted_lines(sheet: &[u8], Counted { plan, trials }: &Counted) -> Vec<u8> {
    if plan.number != 0 {
        return write_line(&[plan.number, plan.rows_left(), *trials]);
    }
    let without = plain::program(sheet);
    let (first, places) = without.split_at(2 * FIELD + 1);
    let rows = figure(&first[FIELD..2 * FIELD]);
    [&write_line(&[0, rows, *trials]), places].concat()
}

fn trials_of(count: u32) -> String {
    let trials = if count == 1 { "trial" } else { "trials" };
    format!("{count} {trials}")
}

/// What is said of 19: the ceiling, that nothing is said of orders, and what is always enough.
fn said_of_19(rows: u32, ceiling: u32) -> String {
    let (most, given) = (trials_of(most_trials(rows)), trials_of(ceiling));
    let rows = format!("{rows} {}", if rows == 1 { "row" } else { "rows" });
    [
        "number 19: planning the table takes more trials than the ceiling".to_string(),
        format!("trials made: {ceiling}, of a ceiling of {given}"),
        "not said: whether a correct order exists; 19 says neither that one does nor that none \
         does"
            .to_string(),
        format!("always enough: a ceiling of {most}, for {rows}"),
        "remedy: plan again with a higher ceiling: n * (n + 1) / 2 trials are always enough for n \
         rows, 2,080 trials for every table\n"
            .to_string(),
    ]
    .join("\n")
}

/// In words, at a ceiling: what `plan` says without one, and of 7 the trials made besides; but of
/// 19 its sentence and what is said of it alone, and nothing of waits, which would take trials of
/// its own.
fn assert_words_within(sheet: &[u8], rows: u32, ceiling: u32, counted: &Counted) {
    let limit = ceiling.to_string();
    let said = command_with_errors(&["plan", "-", "--ceiling", &limit], sheet);
    let (output, mut errors, status) = command_with_errors(&["plan", "-"], sheet);
    let made = counted.trials;
    let line = format!(
        "trials made: {made}, of a ceiling of {}\n",
        trials_of(ceiling)
    );
    let expected = match counted.plan.number {
        7 => {
            let kept = errors.lines().filter(|said| !said.starts_with("waits: "));
            errors = kept.map(|said| format!("{said}\n")).collect::<String>() + &line;
            (output, errors, status)
        }
        19 => {
            let sentence = line_of(&PlannerAnswer::of(counted).sentence());
            (sentence, said_of_19(rows, ceiling), 2)
        }
        _ => (output, errors, status),
    };
    assert_eq!(said, expected, "{ceiling}: {}", text_or_bytes(sheet));
}

/// Planning at ceilings about the count, in words and in figures.
#[test]
fn plans_at_ceilings() {
    let mut random = Random::seeded(713);
    let mut tally = Tally::new("command plan at a ceiling");
    let mut looked = 0;
    let mut compare = |random: &mut Random, sheet: &[u8]| {
        let (number, table) = read_sheet(sheet);
        let count = planned_within(number, &table, u32::MAX).trials;
        let about = [0, 1, count.saturating_sub(1), count, count + 1, u32::MAX];
        let ceiling = random.one_of(&about);
        let counted = planned_within(number, &table, ceiling);
        let option = format!("--ceiling={ceiling}");
        let answer = command(&["plan", &option, "--plain", "-"], sheet);
        let number = counted.plan.number;
        let expected = (counted_lines(sheet, &counted), status_of(number));
        assert_eq!(answer, expected, "{ceiling}: {}", text_or_bytes(sheet));
        looked += 1;
        if looked % 4 == 0 {
            assert_words_within(sheet, table.n, ceiling, &counted);
        }
        tally.saw(number);
    };
    for sheet in sample_sheets() {
        for _ in 0..8 {
            compare(&mut random, &sheet);
        }
    }
    for _ in 0..200 {
        for sheet in sheets(&mut random) {
            compare(&mut random, &sheet);
        }
        let sheet = sheet_of(&a_table(&mut random));
        for _ in 0..4 {
            compare(&mut random, &sheet);
        }
    }
    tally.assert_common(&[0, 1, 2, 7, 19], 40);
    tally.assert_common(&TABLE_CHECKS, 10);
}

/// What is no ceiling, and a ceiling for what is not planned by it: status 3 and the option's
/// name.
#[test]
fn ceilings_that_cannot_be_used() {
    let sheet = sheet_of(&easy(2));
    let refused = |words: &[&str], reason: &str| {
        let (output, errors, status) = command_with_errors(words, &sheet);
        assert_eq!((text(&output), status), ("", 3), "{words:?}");
        let first = errors.lines().next();
        assert_eq!(first, Some(reason), "{words:?}");
    };
    for bad in [
        "",
        "x",
        "-1",
        "+1",
        "1.5",
        "1,000",
        "1x",
        " 1",
        "1 ",
        "0x1",
        "4294967296",
    ] {
        let reason = format!(
            "jasminebrace: --ceiling: not a number of trials from 0 to 4294967295: '{bad}'"
        );
        refused(&["plan", "-", "--ceiling", bad], &reason);
        refused(&["plan", &format!("--ceiling={bad}"), "-"], &reason);
    }
    let missing = "jasminebrace: --ceiling needs a number of trials";
    refused(&["plan", "-", "--ceiling"], missing);
    let commands = [
        &["judge", "-", "1", "2"][..],
        &["left", "-"],
        &["finishes", "-"],
        &["report", "-"],
        &["count", "-"],
        &["speeds", "-"],
        &["run", "-", "5"],
        &["day", "-", "5"],
        &["explain", "-"],
        &["sheet", "-"],
        &["rows", "-"],
        &["read-sentence", "-"],
    ];
    for words in commands {
        let words = [words, &["--ceiling", "5"]].concat();
        refused(&words, "jasminebrace: --ceiling belongs to plan");
    }
}

/// How a row of a set stands in it, all figures in slots but for rows.
struct InSet {
    row: u8,
    /// Worst finish and moment of the promised part, with all other rows of the set above it.
    finish: u32,
    moment: u32,
    slack: i64,
    /// The rows of the set that follow it.
    followers: Vec<u8>,
}

/// How a row of a set stands in it, by the table of the set alone and with no row waiting (rule
/// 26.9).
fn in_set(table: &Table, word: u64, row: u8) -> InSet {
    let rows = rows_in_word(word);
    let index = rows.iter().position(|&other| other == row).expect("a row");
    let alone = table_alone(&table.without_waits(), word);
    let numbers: Vec<u8> = (1..=alone.n as u8).collect();
    let order = trial_order(&numbers, &[], numbers[index]);
    let follows = |other: &u8| table.row(*other).follows == u32::from(row);
    InSet {
        row,
        finish: plain::finishes(&alone, &order).1[index],
        moment: plain::promised_moments(&alone, &order).1[index],
        slack: slack_in_set(table, word, row),
        followers: rows.into_iter().filter(follows).collect(),
    }
}

/// What `left --plain` writes of an accepted table with these rows left: 7 and how many there
/// are, and a line for each; 0 and 0 if there are none.
fn left_lines(table: &Table, left: &[InSet]) -> Vec<u8> {
    let number = if left.is_empty() { 0 } else { 7 };
    let mut lines = write_line(&[number, left.len() as u32]);
    for of in left {
        let deadline = table.row(of.row).deadline;
        let [before, after] = slack_fields(of.slack);
        let follower = of.followers.first().copied().unwrap_or(0);
        lines.extend(write_line(&[
            u32::from(of.row),
            of.finish,
            deadline,
            before,
            after,
            of.moment,
            u32::from(follower),
        ]));
    }
    lines
}

/// What is said of a row left.
fn row_left_words(of: &InSet, alone: bool) -> String {
    let late = of.slack < 0;
    let mut text = format!(
        "row {}: {} {} {}",
        of.row,
        slots_of(of.slack.unsigned_abs() as u32),
        if late { "short" } else { "to spare" },
        match alone {
            true => "by itself",
            false => "with all other rows left above it",
        }
    );
    if late && of.moment > of.finish {
        text += ", for its promised part";
    }
    let followers = words_of(&of.followers);
    if let Some((last, others)) = followers.split_last() {
        text += if late { "; " } else { ", but " };
        text += &match others {
            [] => format!("row {last} follows it"),
            _ => format!("rows {} and {last} follow it", others.join(", ")),
        };
        text += ", so it cannot stand lowest";
    }
    text + "\n"
}

/// What `left` says of an accepted table with these rows left.
fn left_words(table: &Table, left: &[InSet]) -> String {
    let rows = |count: u32| if count == 1 { "row" } else { "rows" };
    if left.is_empty() {
        let n = table.n;
        return format!(
            "no row is left: the sheet has {n} {} and a correct order\n",
            rows(n)
        );
    }
    let one = left.len() == 1;
    let listed: Vec<String> = left.iter().map(|of| of.row.to_string()).collect();
    let mut text = format!("rows left: {}\n", listed.join(" "));
    for of in left {
        text += &row_left_words(of, one);
    }
    let (these, done) = match one {
        true => ("this row", "this row has to go or to change, or N, G or K"),
        false => (
            "all of these rows",
            "at least one of these rows has to go or to change, or N, G or K; it is not said which, \
             nor that one is enough",
        ),
    };
    text += &format!(
        "meaning: as long as {these}, N, G and K stay as they are, no order is correct, whatever is \
         done with other rows\nto be done: {done}\n"
    );
    match table.n - left.len() as u32 {
        0 => text,
        others => format!(
            "{text}the other {} alone: a correct order exists\n",
            rows(others)
        ),
    }
}

/// The rows left with how many slots each is short, in words and in figures. A sheet that is refused is explained as by `finishes`.
#[test]
fn rows_left() {
    let mut random = Random::seeded(716);
    let mut tally = Tally::new("command left");
    let mut seen = Tally::new("command left, by late, promised part that decides, followed, alone");
    let mut compare = |sheet: &[u8]| {
        let (number, table) = read_sheet(sheet);
        let plan = planned_within(number, &table, u32::MAX).plan;
        let (figures, errors, status) = command_with_errors(&["left", "--plain", "-"], sheet);
        let (words, said, ended) = command_with_errors(&["left", "-"], sheet);
        assert_eq!(
            (status, ended),
            (status_of(plan.number), status),
            "{table:?}"
        );
        tally.saw(plan.number);
        if status == 2 {
            let explained = command_with_errors(&["finishes", "-"], sheet).1;
            assert_eq!(
                figures,
                refused(plan.number, 0).0,
                "{}",
                text_or_bytes(sheet)
            );
            assert_eq!((text(&words), &said, &errors), ("", &explained, &explained));
            return;
        }
        let rows = rows_in_word(plan.left).into_iter();
        let left: Vec<InSet> = rows.map(|row| in_set(&table, plan.left, row)).collect();
        assert_eq!(
            text(&figures),
            text(&left_lines(&table, &left)),
            "{table:?}"
        );
        let expected = left_words(&table, &left);
        assert_eq!(
            (text(&words), said.as_str()),
            (&expected[..], ""),
            "{table:?}"
        );
        if status == 1 {
            let of_plan = command_with_errors(&["plan", "-"], sheet).1;
            assert_eq!(errors, of_plan, "{table:?}");
        }
        for of in &left {
            let decides = of.slack < 0 && of.moment > of.finish;
            seen.saw((
                of.slack < 0,
                decides,
                !of.followers.is_empty(),
                left.len() == 1,
            ));
        }
    };
    for sheet in sample_sheets() {
        compare(&sheet);
    }
    for _ in 0..150 {
        for sheet in sheets(&mut random) {
            compare(&sheet);
        }
        for _ in 0..6 {
            compare(&sheet_of(&tight(&mut random, 6, SMALL)));
        }
        let n = random.between(1, ROWS as u32);
        compare(&sheet_of(&tight(&mut random, n, MODEL_LARGE)));
    }
    tally.assert_common(&[0, 1, 2, 7], 40);
    tally.assert_common(&TABLE_CHECKS, 8);
    seen.assert_common(
        &[(true, false, false, false), (true, false, false, true)],
        30,
    );
    seen.assert_common(&[(true, true, false, false)], 30);
    seen.assert_common(&[(true, true, false, true)], 3);
    seen.assert_common(
        &[(true, false, true, false), (false, false, true, false)],
        15,
    );
}

/// What counting has to answer to a sheet that has this table and this number by the reader.
fn counted_of(number: u32, table: &Table) -> Choices {
    match number {
        0 => plain::count_choices(table, &mut [0; SCRATCH]),
        _ => Choices::refused(number),
    }
}

/// All arrangements of so many rows.
fn arrangements_of(rows: u32) -> u32 {
    (1..=rows).product()
}

/// The plain form of it, each figure in ten columns: number, rows, correct orders and arrangements,
/// then in how many of these orders each row stands lowest.
fn count_lines(rows: u32, answer: &Choices) -> Vec<u8> {
    let Choices {
        number,
        count,
        lowest,
    } = answer;
    if *number != 0 {
        return format!("{number:>10}{0:>10}{0:>10}{0:>10}\n", 0).into_bytes();
    }
    let all = arrangements_of(rows);
    let mut text = format!("{number:>10}{rows:>10}{count:>10}{all:>10}\n");
    for (row, lowest) in (1..=rows).zip(lowest) {
        text += &format!("{row:>10}{lowest:>10}\n");
    }
    text.into_bytes()
}

/// The same in words, of a table whose orders are counted.
fn count_words(table: &Table, answer: &Choices) -> String {
    let number_of = |count: u32, of: &str| match count {
        1 => format!("1 {of}"),
        _ => format!("{count} {of}s"),
    };
    let (count, all) = (answer.count, arrangements_of(table.n));
    let are = match count {
        1 => "is a correct order",
        _ => "are correct orders",
    };
    let (all, rows) = (number_of(all, "arrangement"), number_of(table.n, "row"));
    let mut text = format!("{count} of {all} of {rows} {are}\n");
    if count == 0 {
        return text
            + "no order is correct: 'jasminebrace plan SHEET' says which rows are left, and what \
               to do\n";
    }
    for row in 1..=table.n as u8 {
        let lowest = number_of(answer.lowest[row as usize - 1], "correct order");
        text += &format!("{}: lowest in {lowest}\n", row_words(table, row));
    }
    text
}

/// What is said of 20: the row count where it stands in the sheet, and how many rows are counted.
fn said_of_20(rows: u32) -> String {
    format!(
        "number 20: the table has more than 12 rows, too many to count its correct orders\n\
         where: first line, row count n, byte 1 (line 1, byte 1 of it): the figure is {rows}\n\
         allowed: 1 to 12 rows, to be counted; the sheet is accepted otherwise\n\
         remedy: count at most 12 rows, such as a part of the sheet by itself; planning and \
         judging take up to 64 rows\n"
    )
}

/// Correct orders counted, in words and in figures. The status is 1 if there is none. A sheet that
/// is refused is explained as by `finishes`.
#[test]
fn counts() {
    let mut random = Random::seeded(714);
    let mut tally = Tally::new("command count");
    let mut none = 0;
    let mut compare = |sheet: &[u8]| {
        let (number, table) = read_sheet(sheet);
        let answer = counted_of(number, &table);
        let status = match answer {
            Choices {
                number: 0,
                count: 0,
                ..
            } => 1,
            Choices { number, .. } => status_of(number),
        };
        let figures = command(&["count", "--plain", "-"], sheet);
        let expected = (count_lines(table.n, &answer), status);
        assert_eq!(figures, expected, "{}", text_or_bytes(sheet));
        let (output, errors, said) = command_with_errors(&["count", "-"], sheet);
        let (words, explained) = match answer.number {
            0 => (count_words(&table, &answer), String::new()),
            20 => (String::new(), said_of_20(table.n)),
            _ => (
                String::new(),
                command_with_errors(&["finishes", "-"], sheet).1,
            ),
        };
        assert_eq!(text(&output), words, "{}", text_or_bytes(sheet));
        assert_eq!((errors, said), (explained, status));
        none += u32::from(status == 1);
        tally.saw(answer.number);
    };
    for sheet in sample_sheets() {
        compare(&sheet);
    }
    for _ in 0..150 {
        for sheet in sheets(&mut random) {
            compare(&sheet);
        }
        let n = random.between(1, MOST_COUNTED + 2);
        compare(&sheet_of(&tight(&mut random, n, SMALL)));
        compare(&sheet_of(&a_table(&mut random)));
    }
    tally.assert_common(&[0, 1, 2, 20], 30);
    tally.assert_common(&TABLE_CHECKS, 8);
    assert!(none > 30, "{none} sheets without a correct order");
}

/// What a refusal is in plain form, and the status.
fn refused(number: u32, rows_left: u32) -> (Vec<u8>, i32) {
    (write_line(&[number, rows_left]), status_of(number))
}

/// What a command writes for the planned order, and the status.
fn planned(table: &Table, lines: impl Fn(&Table, &Order) -> Vec<u8>) -> (Vec<u8>, i32) {
    let plan = plain::plan(table);
    match plan.number {
        0 => (lines(table, &plan.order), 0),
        number => refused(number, plan.rows_left()),
    }
}

/// What judge and finishes write for an order, refusals included.
fn judged(table: &Table, order: &Order) -> ((Vec<u8>, i32), (Vec<u8>, i32)) {
    let verdict = plain::judge(table, order);
    if verdict.number != 0 {
        let refused = refused(verdict.number, 0);
        return (refused.clone(), refused);
    }
    let [before, after] = slack_fields(verdict.slack);
    let line = write_line(&[
        0,
        u32::from(verdict.yes),
        u32::from(verdict.row),
        before,
        after,
    ]);
    (
        (line, i32::from(!verdict.yes)),
        (finish_lines(table, order), 0),
    )
}

fn finish_lines(table: &Table, order: &Order) -> Vec<u8> {
    let (_, finishes) = plain::finishes(table, order);
    let (_, slacks) = plain::slacks(table, order);
    let (_, moments) = plain::promised_moments(table, order);
    let mut lines = write_line(&[0, table.n]);
    for row in 1..=table.n {
        let index = row as usize - 1;
        let (finish, deadline) = (finishes[index], table.deadline[index]);
        let [before, after] = slack_fields(slacks[index]);
        let moment = moments[index];
        lines.extend(write_line(&[row, finish, deadline, before, after, moment]));
    }
    lines
}

#[test]
fn judge_and_finishes() {
    let mut random = Random::seeded(702);
    let mut tally = Tally::new("command judge and finishes, by status");
    for round in 0..400 {
        let table = if round % 3 == 0 {
            large_table(&mut random)
        } else {
            small_table(&mut random)
        };
        let order = any_order(&mut random, &table, 4);
        let sheet = sheet_of(&table);
        let words = order_words(&order);
        let listed = words.join(",");
        let (judge, finishes) = judged(&table, &order);
        let judging = command(&["judge", "--plain", "-", &listed], &sheet);
        assert_eq!(judging, judge, "{table:?} {order:?}");
        let mut arguments = vec!["finishes", "-", "--plain"];
        arguments.extend(words.iter().map(String::as_str));
        assert_eq!(command(&arguments, &sheet), finishes, "{table:?} {order:?}");
        tally.saw(judge.1);
        // Without an order, the planned one.
        let planned = planned(&table, finish_lines);
        assert_eq!(command(&["finishes", "--plain", "-"], &sheet), planned);
    }
    tally.assert_common(&[0, 1, 2], 40);
}

/// A sentence as the command prints it: in a line of its own.
fn line_of(sentence: &[u8]) -> Vec<u8> {
    [sentence, b"\n"].concat()
}

/// A row as it is named: its level, and the row that it follows if it follows one.
fn row_words(table: &Table, row: u8) -> String {
    let level = if table.row(row).level == HI {
        "HI"
    } else {
        "LO"
    };
    match table.row(row).follows {
        0 => format!("row {row} ({level})"),
        followed => format!("row {row} ({level}, follows row {followed})"),
    }
}

/// What `plan` says of an answer: its sentence, and after an order a line for each place with the
/// slack in slots.
fn plan_words(table: &Table, counted: &Counted) -> String {
    let mut said = line_of(&PlannerAnswer::of(counted).sentence());
    if counted.plan.number == 0 {
        let order = &counted.plan.order;
        let (_, slacks) = plain::slacks(table, order);
        for (place, &row) in (1..=table.n).zip(order) {
            let slack = slacks[row as usize - 1];
            let slots = if slack == 1 { "slot" } else { "slots" };
            let named = row_words(table, row);
            said.extend(format!("place {place}: {named}, slack {slack} {slots}\n").bytes());
        }
    }
    text(&said).to_string()
}

/// What `judge` says of a verdict: its sentence, and unless it is a refusal the level of its row.
fn judge_words(table: &Table, verdict: &Verdict) -> String {
    let mut said = line_of(&JudgeAnswer::of(verdict).sentence());
    if verdict.number == 0 {
        let named = row_words(table, verdict.row);
        said.extend(format!("tightest: {named}\n").bytes());
    }
    text(&said).to_string()
}

/// The judge's refusal by this number.
fn no_verdict(number: u32) -> Verdict {
    Verdict {
        number,
        yes: false,
        row: 0,
        slack: 0,
    }
}

/// `plan` and `judge` say every answer as its sentence first, refusals too, whose explanation is
/// on standard error, where no sentence stands; and the sentence is read back.
#[test]
fn verdicts_as_sentences() {
    let mut random = Random::seeded(715);
    let mut tally = Tally::new("command plan and judge, sentences by number");
    let mut compare = |words: &[&str], sheet: &[u8], expected: String, number, status| {
        let (output, errors, ended) = command_with_errors(words, sheet);
        assert_eq!(text(&output), expected, "{words:?}");
        assert_eq!(ended, status, "{words:?} {}", text_or_bytes(sheet));
        assert_eq!(errors.is_empty(), number == 0, "{words:?} {errors}");
        assert!(!errors.contains("The planner answers"), "{errors}");
        assert!(!errors.contains("The judge says"), "{errors}");
        let first = expected.lines().next().expect("a sentence");
        assert_eq!(read_back(first.as_bytes()).1, 0, "{first}");
        tally.saw((words[0] == "plan", number));
    };
    for round in 0..250 {
        let mut given = sheets(&mut random).to_vec();
        given.push(sheet_of(&a_table(&mut random)));
        for sheet in given {
            let (number, table) = read_sheet(&sheet);
            let counted = planned_within(number, &table, u32::MAX);
            let answered = counted.plan.number;
            let said = plan_words(&table, &counted);
            compare(&["plan", "-"], &sheet, said, answered, status_of(answered));
            let (order, verdict) = match number {
                0 => {
                    let order = any_order(&mut random, &table, 4);
                    (order, plain::judge(&table, &order))
                }
                _ => ([round as u8; ROWS], no_verdict(number)),
            };
            let listed = order_words(&order).join(",");
            let said = judge_words(&table, &verdict);
            let status = match verdict.number {
                0 => i32::from(!verdict.yes),
                refused => status_of(refused),
            };
            let words = ["judge", "-", &listed];
            compare(&words, &sheet, said, verdict.number, status);
        }
    }
    tally.assert_common(&[(true, 7), (false, 6)], 20);
    for number in [0, 1, 2].into_iter().chain(TABLE_CHECKS) {
        tally.assert_common(&[(true, number), (false, number)], 10);
    }
}

/// What `read-sentence` writes for these bytes, and the status.
fn read_back(bytes: &[u8]) -> (String, i32) {
    let (output, status) = command(&["read-sentence", "-"], bytes);
    (text(&output).to_string(), status)
}

fn count_of(figure: u32, noun: &str) -> String {
    format!("{figure} {noun}{}", if figure == 1 { "" } else { "s" })
}

/// Figures with a space before each.
fn spaced(figures: &[u8]) -> String {
    figures.iter().map(|figure| format!(" {figure}")).collect()
}

/// The places that a sentence tells: up to the last number that is not 0 (rule 24.4).
fn places_of(order: &Order) -> &[u8] {
    let last = order.iter().rposition(|&row| row != 0);
    &order[..last.map_or(0, |last| last + 1)]
}

/// What `read-sentence` says of an answer, but for its second line, which has the words of the
/// header.
fn answer_words(answer: &Answer) -> Vec<String> {
    match answer {
        Answer::Planner(answer) => {
            let (places, rows) = (places_of(&answer.order), rows_in_word(answer.left));
            let counted = |count: usize, noun: &str| count_of(count as u32, noun);
            let listed = if places.is_empty() {
                ""
            } else {
                ", highest first:"
            };
            let named = if rows.is_empty() { "" } else { ":" };
            vec![
                "answer of: the planner".to_string(),
                format!("number {}: ", answer.number),
                format!("trials made: {}", count_of(answer.trials, "trial")),
                format!(
                    "order: {}{listed}{}",
                    counted(places.len(), "row"),
                    spaced(places)
                ),
                format!(
                    "rows left: {}{named}{}",
                    counted(rows.len(), "row"),
                    spaced(&rows)
                ),
            ]
        }
        Answer::Judge(answer) => {
            let minus = if answer.slack < 0 { "-" } else { "" };
            let slots = count_of(answer.slack.unsigned_abs(), "slot");
            let said = match answer.yes {
                0 => "no".to_string(),
                1 => "yes".to_string(),
                other => format!("{other}, neither yes (1) nor no (0)"),
            };
            vec![
                "answer of: the judge".to_string(),
                format!("number {}: ", answer.number),
                format!("correct: {said}"),
                format!("tightest row: {}", answer.row),
                format!("slack: {minus}{slots}"),
            ]
        }
    }
}

/// The plain form of it: figures with a space between.
fn answer_figures(answer: &Answer) -> String {
    let (judge, planner) = match *answer {
        Answer::Planner(planner) => (JudgeAnswer::ZERO, planner),
        Answer::Judge(judge) => (judge, PlannerAnswer::ZERO),
    };
    let kind = if matches!(answer, Answer::Planner(_)) {
        1
    } else {
        2
    };
    let (places, rows) = (places_of(&planner.order), rows_in_word(planner.left));
    let number = if kind == 1 {
        planner.number
    } else {
        judge.number
    };
    let (trials, lists) = (planner.trials, [places.len(), rows.len()]);
    let JudgeAnswer {
        yes, row, slack, ..
    } = judge;
    format!(
        "0 {kind} {number} {trials} {yes} {row} {slack} {} {}{}{}\n",
        lists[0],
        lists[1],
        spaced(places),
        spaced(&rows)
    )
}

/// A sentence is read in words and in figures, without a line end and with either one.
fn assert_read_back(answer: &Answer) {
    let sentence = answer.sentence();
    let end = [&b""[..], b"\n", b"\r\n"][sentence.len() % 3];
    let bytes = [&sentence, end].concat();
    let (said, status) = read_back(&bytes);
    assert_eq!(status, 0, "{answer:?}");
    let expected = answer_words(answer);
    let lines: Vec<&str> = said.lines().collect();
    assert_eq!(lines.len(), expected.len(), "{said}");
    for (line, words) in lines.iter().zip(&expected) {
        if words.starts_with("number ") {
            assert!(
                line.starts_with(words) && line.len() > words.len(),
                "{line}"
            );
        } else {
            assert_eq!(line, words);
        }
    }
    let plain = command(&["read-sentence", "--plain", "-"], &bytes);
    assert_eq!(plain, (answer_figures(answer).into_bytes(), 0));
}

/// Bytes that are no sentence: 2 with what would be right on standard error, and zeros in the
/// plain form.
fn assert_not_read(bytes: &[u8]) {
    let (output, errors, status) = command_with_errors(&["read-sentence", "-"], bytes);
    assert_eq!((text(&output), status), ("", 2), "{bytes:?}");
    assert!(errors.starts_with("number 2: "), "{errors}");
    assert_eq!(errors.matches("\nright: ").count(), 2, "{errors}");
    assert!(errors.contains("\nremedy: "), "{errors}");
    let plain = command(&["read-sentence", "--plain", "-"], bytes);
    assert_eq!(plain, (b"2 0 0 0 0 0 0 0 0\n".to_vec(), 2), "{bytes:?}");
}

#[test]
fn sentences_read_back() {
    let mut random = Random::seeded(716);
    for case in sentences() {
        assert_read_back(&case.answer);
    }
    for _ in 0..400 {
        assert_read_back(&any_answer(&mut random));
    }
}

/// The reader's refusals come through; a line end is no part of a sentence, and nothing else is
/// left out after one.
#[test]
fn lines_that_are_no_sentence() {
    let mut random = Random::seeded(717);
    let mut tally = Tally::new("command read-sentence, damaged lines by status");
    for case in refused_sentences() {
        // A line end after a sentence, which the reader refuses, is what the command leaves out.
        if !case.bytes.ends_with(b"\n") {
            assert_not_read(&case.bytes);
        }
    }
    let [plan, verdict] = longest().map(|case| case.sentence.into_bytes());
    assert_eq!(
        [plan.len(), verdict.len()],
        [LONGEST_OF_PLANNER, LONGEST_OF_JUDGE]
    );
    let two = [&plan[..], b"\n", &verdict].concat();
    for bytes in [&two[..], b"", b"\n", b"\r\n", b"\n\n"] {
        assert_not_read(bytes);
    }
    for end in [
        "\n\n", "\r", "\n\r", "\r\r\n", "\0", "\n ", " \n", "\r\n\n", "\n\n\n",
    ] {
        assert_not_read(&[&verdict, end.as_bytes()].concat());
        assert_not_read(&[&plan, end.as_bytes()].concat());
    }
    // Of a long file no beginning is taken for the sentence.
    assert_not_read(&[&plan[..], &[b'\n'; 1_000]].concat());
    assert_not_read(&[&plan[..], b"\r\n", &[b' '; 1_000]].concat());
    for _ in 0..300 {
        let sentence = any_answer(&mut random).sentence();
        let bytes = damaged_sentence(&mut random, &sentence);
        let line = bytes.strip_suffix(b"\n").unwrap_or(&bytes);
        match read_sentence(line).answer() {
            Some(_) => assert_eq!(read_back(&bytes).1, 0, "{bytes:?}"),
            None => assert_not_read(&bytes),
        }
        tally.saw(read_sentence(line).number);
    }
    tally.assert_common(&[0, 2], 20);
}

/// What stands above a report: what its last line has, and the name and the unit
/// of each column.
const REPORT_HEADING: &str = "\
last line: sum of needs at N (slots), count of rows with slack below 0 slots
                                   worst
     place       row need at N    finish     slack
  (from 1)  (from 1)   (slots)   (slots)   (slots)
";

/// The bytes of the report of a table under an order of it.
fn report_bytes(table: &Table, order: &Order) -> Vec<u8> {
    let mut report = vec![0; LONGEST_REPORT];
    let (number, length) = plain::report(table, order, &mut report);
    assert_eq!(number, 0, "{table:?} {order:?}");
    report.truncate(length as usize);
    report
}

/// The report that the command has to write for an order, and its status.
fn reported(table: &Table, order: &Order) -> (Vec<u8>, i32) {
    match check_order(table, order) {
        0 => (report_bytes(table, order), 0),
        number => refused(number, 0),
    }
}

/// The command writes this report with `--plain`, and under the heading without;
/// of a refusal only the plain form has anything on standard output.
fn assert_report(words: &[&str], sheet: &[u8], (report, status): &(Vec<u8>, i32)) {
    let plain = [&["report", "--plain", "-"], words].concat();
    assert_eq!(command(&plain, sheet), (report.clone(), *status));
    let headed = match status {
        0 => [REPORT_HEADING.as_bytes(), report].concat(),
        _ => Vec::new(),
    };
    let headed_words = [&["report", "-"], words].concat();
    assert_eq!(command(&headed_words, sheet), (headed, *status));
}

/// Reports of given orders, correct and not, of the planned order, and of
/// numbers that are no order.
#[test]
fn reports() {
    let mut random = Random::seeded(711);
    let mut tally = Tally::new("command report, by status and late rows");
    let mut compare = |words: &[&str], sheet: &[u8], expected: (Vec<u8>, i32)| {
        assert_report(words, sheet, &expected);
        let late = expected.1 == 0 && !expected.0.ends_with(b"         0\n");
        tally.saw((expected.1, late));
    };
    for sheet in sample_sheets() {
        let (number, table) = read_sheet(&sheet);
        assert_eq!(number, 0, "samples are accepted");
        compare(&[], &sheet, planned(&table, report_bytes));
    }
    for _ in 0..400 {
        let table = a_table(&mut random);
        let order = any_order(&mut random, &table, 4);
        let sheet = sheet_of(&table);
        let words = order_words(&order);
        let words: Vec<&str> = words.iter().map(String::as_str).collect();
        compare(&words, &sheet, reported(&table, &order));
        compare(&[], &sheet, planned(&table, report_bytes));
    }
    tally.assert_common(&[(0, false), (0, true), (1, false), (2, false)], 40);
}

/// A sheet that is refused has no report: its number stands in the plain form,
/// and the explanation is that of the other commands.
#[test]
fn reports_of_refused_sheets() {
    let mut random = Random::seeded(712);
    let mut tally = Tally::new("command report, by the sheet's number");
    for _ in 0..200 {
        for sheet in sheets(&mut random) {
            let (number, table) = read_sheet(&sheet);
            let expected = match number {
                0 => planned(&table, report_bytes),
                _ => refused(number, 0),
            };
            let (report, errors, status) = command_with_errors(&["report", "--plain", "-"], &sheet);
            assert_eq!((report, status), expected, "{}", text_or_bytes(&sheet));
            let explained = match status {
                0 => Vec::new(),
                _ => command(&["explain", "-"], &sheet).0,
            };
            assert_eq!(errors.as_bytes(), explained);
            tally.saw(if status == 1 { 7 } else { number });
        }
    }
    tally.assert_common(&[0, 1, 2, 7], 20);
    tally.assert_common(&TABLE_CHECKS, 15);
}

/// What `speeds --plain` writes for one speed: 0, the speed and the row count,
/// then place, row and slack; or a number and zeros.
fn least_lines(table: &Table, sought: Sought, least: &Least) -> Vec<u8> {
    if least.number != 0 {
        return write_line(&[least.number, 0, 0]);
    }
    let (_, slacks) = plain::slacks(&sought.put(table, least.speed), &least.order);
    let mut lines = write_line(&[0, least.speed, table.n]);
    for (place, &row) in (1..=table.n).zip(&least.order) {
        let slack = slacks[row as usize - 1] as u32;
        lines.extend(write_line(&[place, u32::from(row), slack]));
    }
    lines
}

/// What `speeds --plain` writes of an accepted sheet, its status, and the numbers
/// of its two answers.
fn both_speeds(table: &Table) -> (Vec<u8>, i32, [u32; 2]) {
    let answers = BOTH.map(|sought| (sought, plain::least_by_scan(table, sought)));
    let numbers = answers.map(|(_, least)| least.number);
    let lines = answers.map(|(sought, least)| least_lines(table, sought, &least));
    let status = i32::from(numbers != [0, 0]);
    (lines.concat(), status, numbers)
}

/// What is said beside the plain form: nothing, the explanation of a refused
/// sheet, or of each speed that does not exist, its range.
fn said_of_speeds(sheet: &[u8], table: &Table, [degraded, normal]: [u32; 2]) -> Vec<String> {
    let first_words = [
        (degraded, "G", 1, table.normal),
        (normal, "N", table.degraded, MOST_SPEED),
    ];
    match degraded {
        0 | 7 => first_words
            .iter()
            .filter(|&&(number, ..)| number == 7)
            .map(|(_, letter, least, largest)| {
                let units = if *largest == 1 { "unit" } else { "units" };
                format!("number 7: no {letter} from {least} to {largest} work {units} per slot has a correct order")
            })
            .collect(),
        _ => {
            let explained = command(&["explain", "-"], sheet).0;
            text(&explained).lines().take(1).map(String::from).collect()
        }
    }
}

/// The least speeds of samples and of random sheets, refused ones among them,
/// against the plain scan of the range.
#[test]
fn least_speeds() {
    let mut random = Random::seeded(713);
    let mut tally = Tally::new("command speeds, by the numbers for G and N");
    let mut compare = |sheet: &[u8]| {
        let (number, table) = read_sheet(sheet);
        let (lines, status, numbers) = match number {
            0 => both_speeds(&table),
            _ => {
                let refused = write_line(&[number, 0, 0]);
                (refused.repeat(2), status_of(number), [number; 2])
            }
        };
        let (output, errors, ended) = command_with_errors(&["speeds", "--plain", "-"], sheet);
        assert_eq!(text(&output), text(&lines), "{}", text_or_bytes(sheet));
        assert_eq!(ended, status, "{}", text_or_bytes(sheet));
        let said: Vec<_> = errors
            .lines()
            .filter(|line| line.starts_with("number "))
            .collect();
        assert_eq!(said, said_of_speeds(sheet, &table, numbers));
        tally.saw(numbers);
    };
    for sheet in sample_sheets() {
        compare(&sheet);
    }
    for _ in 0..100 {
        for sheet in sheets(&mut random) {
            compare(&sheet);
        }
        compare(&sheet_of(&small_table(&mut random)));
        compare(&sheet_of(&small_table(&mut random)));
        compare(&sheet_of(&large_table(&mut random)));
    }
    tally.assert_common(&[[0, 0], [0, 7], [7, 0], [7, 7]], 10);
    tally.assert_common(&[[1; 2], [2; 2]], 10);
    tally.assert_common(&TABLE_CHECKS.map(|number| [number; 2]), 5);
}

/// What `speeds --slacks --plain` writes of an accepted sheet under an order: its
/// places, then the verdict at each G.
fn slack_lines(table: &Table, order: &Order) -> Vec<u8> {
    let mut lines = write_line(&[0, table.n]);
    for (place, &row) in (1..=table.n).zip(order) {
        lines.extend(write_line(&[place, u32::from(row)]));
    }
    for speed in 1..=table.normal {
        let verdict = plain::judge(&Sought::Degraded.put(table, speed), order);
        let [before, after] = slack_fields(verdict.slack);
        lines.extend(write_line(&[speed, u32::from(verdict.row), before, after]));
    }
    lines
}

/// One order at each G: the one at the least G, given ones, correct and not, and
/// numbers that are no order.
#[test]
fn slacks_at_each_speed() {
    let mut random = Random::seeded(714);
    let mut tally = Tally::new("command speeds --slacks, by status with and without an order");
    for _ in 0..150 {
        let table = a_table(&mut random);
        let sheet = sheet_of(&table);
        let order = any_order(&mut random, &table, 4);
        let listed = order_words(&order).join(",");
        let of_given = match check_order(&table, &order) {
            0 => (slack_lines(&table, &order), 0),
            number => refused(number, 0),
        };
        let of_least = match plain::least_by_scan(&table, Sought::Degraded) {
            Least {
                number: 0, order, ..
            } => (slack_lines(&table, &order), 0),
            Least { number, .. } => {
                let fastest = plain::plan(&Sought::Degraded.put(&table, table.normal));
                refused(number, fastest.rows_left())
            }
        };
        tally.saw((of_given.1, of_least.1));
        let words = ["speeds", "--slacks", "--plain", "-"];
        assert_eq!(command(&words, &sheet), of_least, "{table:?}");
        let with_order = [&words[..], &[&listed]].concat();
        assert_eq!(
            command(&with_order, &sheet),
            of_given,
            "{table:?} {order:?}"
        );
    }
    tally.assert_common(&[(0, 0), (0, 1), (2, 0), (2, 1)], 3);
}

/// How a row closed, in plain form.
const DROPPED: u32 = 2;
const DROPPED_FOR_DEADLINE: u32 = 4;
/// The same of a row that did not run in the slot: such a line is about no slot.
const DROPPED_NOT_RUN: u32 = 5;

/// A line for each slot of the run on paper: slot, row, got, work, how it closed, 1 if
/// the row loaded in it, and the clock after it if the row got its promised part by it,
/// else 0. After it, one for each other row that the clock dropped when the slot ended.
fn run_on_paper(table: &Table, order: &Order, supplies: &[u32]) -> Vec<[u32; 7]> {
    let mut state = State::FRESH;
    let mut lines = Vec::new();
    for (slot, &supply) in supplies.iter().enumerate() {
        let before = state;
        let (number, row) = one_slot_on_paper(table, order, &mut state, supply);
        assert_eq!(number, 0, "these runs are short");
        let (got, work, loads) = match row {
            0 => (0, 0, false),
            _ => (
                state.got[row as usize - 1],
                table.row(row).work,
                before.used[row as usize - 1] < table.loading,
            ),
        };
        let got_part =
            row != 0 && !has_promised(table, &before, row) && has_promised(table, &state, row);
        lines.push([
            slot as u32,
            u32::from(row),
            got,
            work,
            closing(table, &state, row),
            u32::from(loads),
            if got_part { state.clock } else { 0 },
        ]);
        for other in (1..=table.n as u8).filter(|&other| other != row) {
            let index = other as usize - 1;
            if state.closing[index] == state.clock {
                let (got, work) = (state.got[index], table.row(other).work);
                let closed = DROPPED_NOT_RUN;
                lines.push([slot as u32, u32::from(other), got, work, closed, 0, 0]);
            }
        }
    }
    lines
}

/// 0 not closed, 1 done, 2 dropped with its slots used up, 3 done late, 4 dropped
/// for its deadline (rule 19.9).
fn closing(table: &Table, state: &State, row: u8) -> u32 {
    if row == 0 || state.closing[row as usize - 1] == 0 {
        0
    } else if state.got[row as usize - 1] < table.row(row).work {
        match state.used[row as usize - 1] < allowance(table, row) {
            true => DROPPED_FOR_DEADLINE,
            false => DROPPED,
        }
    } else if kept_deadline(table, state, row) {
        1
    } else {
        3
    }
}

/// Slots put together while the same row, or none, runs and has not closed:
/// first slot, slots, row, how it closed, loading slots, the clock at which the row got
/// its promised part. After them the rows that were dropped meanwhile without running: at
/// their deadlines, with no slots.
fn stretches(slots: &[[u32; 7]]) -> Vec<[u32; 6]> {
    let mut put_together: Vec<[u32; 6]> = Vec::new();
    let mut last = 0; // the stretch in the making; what follows it was dropped meanwhile
    for &[slot, row, _, _, closed, loads, part_at] in slots {
        match put_together.get_mut(last) {
            Some(_) if closed == DROPPED_NOT_RUN => {
                put_together.push([slot + 1, 0, row, closed, 0, 0]);
            }
            Some(stretch) if stretch[2] == row && stretch[3] == 0 => {
                stretch[1] += 1;
                stretch[3] = closed;
                stretch[4] += loads;
                stretch[5] += part_at;
            }
            _ => {
                last = put_together.len();
                put_together.push([slot, 1, row, closed, loads, part_at]);
            }
        }
    }
    put_together
}

fn lines_of<const FIELDS: usize>(n: u32, lines: &[[u32; FIELDS]]) -> Vec<u8> {
    let mut bytes = write_line(&[0, n]);
    for line in lines {
        bytes.extend(write_line(line));
    }
    bytes
}

/// Supplies as words, equal ones that follow each other put together once in
/// two times.
fn supply_words(random: &mut Random, supplies: &[u32]) -> Vec<String> {
    let mut words = Vec::new();
    let mut rest = supplies;
    while let Some(&first) = rest.first() {
        let equal = rest.iter().take_while(|&&supply| supply == first).count();
        let taken = if random.once_in(2) { equal } else { 1 };
        words.push(match taken {
            1 => first.to_string(),
            _ => format!("{taken}x{first}"),
        });
        rest = &rest[taken..];
    }
    words
}

#[test]
fn runs_by_slots_and_by_stretches() {
    let mut random = Random::seeded(703);
    let mut closings = Tally::new("command run, how rows closed");
    let mut lengths = Tally::new("command run, lengths of stretches by powers of two");
    let mut loadings = Tally::new("command run, stretches with no, some and only loading slots");
    let mut parts = Tally::new("command run, stretches in which a row got its promised part");
    for round in 0..400 {
        let table = if round % 3 == 0 {
            large_table(&mut random)
        } else {
            small_table(&mut random)
        };
        let order = random_order(&mut random, &table);
        let slots = random.between(1, 120);
        let mut supplies = supplies(&mut random, slots);
        if round % 2 == 0 {
            supplies.extend(vec![table.degraded; random.between(1, 2_000) as usize]);
        }
        let words = supply_words(&mut random, &supplies);
        let listed = order_words(&order).join(",");
        let mut arguments = vec!["run", "-", "--plain", "--order", &listed];
        arguments.extend(words.iter().map(String::as_str));
        let paper = run_on_paper(&table, &order, &supplies);
        let sheet = sheet_of(&table);
        let by_slots = command(&arguments, &sheet);
        assert_eq!(
            by_slots,
            (lines_of(table.n, &paper), 0),
            "{table:?} {order:?}"
        );
        arguments.push("--stretches");
        let together = stretches(&paper);
        let by_stretches = command(&arguments, &sheet);
        assert_eq!(by_stretches, (lines_of(table.n, &together), 0), "{table:?}");
        for [_, length, _, closed, loading, part_at] in together {
            closings.saw(closed);
            if closed != DROPPED_NOT_RUN {
                parts.saw((part_at != 0, closed));
                lengths.saw(length.ilog2());
                loadings.saw((loading != 0, loading == length));
            }
        }
    }
    closings.assert_common(&[0, 1, 2, 3, 5], 100);
    closings.assert_common(&[DROPPED_FOR_DEADLINE], 50);
    lengths.assert_common(&[0, 1, 2, 3, 4, 5, 6, 7, 8, 9, 10], 10);
    loadings.assert_common(&[(false, false), (true, false), (true, true)], 100);
    parts.assert_common(&[(true, 1), (true, 2), (false, 0), (false, 2)], 20);
}

/// How many of these there are, in words.
fn slots_of(count: u32) -> String {
    format!("{count} slot{}", if count == 1 { "" } else { "s" })
}

/// The promised part of a row, in words.
fn part_of(table: &Table, row: u32) -> String {
    let promised = table.row(row as u8).promised;
    let units = if promised == 1 { "unit" } else { "units" };
    format!(", promised {promised} work {units}")
}

/// Whether a row that was dropped has its promised part, in words; it has got so much.
fn part_of_dropped(table: &Table, row: u32, got: u32) -> String {
    match table.row(row as u8).promised {
        0 => String::new(),
        promised if got < promised => part_of(table, row) + " not got",
        _ => part_of(table, row) + " got",
    }
}

/// How a row closed at a clock, in words, with so much work got; before that the clock at
/// which it got its promised part in these slots, unless that is 0.
fn closing_words(table: &Table, row: u32, [clock, closed, got, part_at]: [u32; 4]) -> String {
    let part = match part_at {
        0 => String::new(),
        _ => format!("{} got at clock {part_at}", part_of(table, row)),
    };
    let dropped = |why: &str| {
        let part = match part_at {
            0 => part_of_dropped(table, row, got),
            _ => String::new(),
        };
        format!(", dropped at clock {clock}, {why}{part}")
    };
    let closing = match closed {
        0 => String::new(),
        DROPPED => dropped("its slots used up"),
        DROPPED_FOR_DEADLINE => dropped("its deadline"),
        1 => format!(", done at clock {clock}"),
        _ => {
            let late = clock - table.row(row as u8).deadline;
            format!(", done at clock {clock}, late by {}", slots_of(late))
        }
    };
    part + &closing
}

/// The words for a row that the clock dropped while another one ran in this slot.
fn dropped_words(table: &Table, &[slot, row, got, work, ..]: &[u32; 7]) -> String {
    let (clock, part) = (slot + 1, part_of_dropped(table, row, got));
    format!(
        "at clock {clock}: row {row}, got {got} of {work} work units, \
         dropped at its deadline{part}"
    )
}

/// The words for each slot of a run on paper.
fn slot_words(table: &Table, slots: &[[u32; 7]], supplies: &[u32]) -> Vec<String> {
    let mut loaded = [0; ROWS];
    let words = |line: &[u32; 7]| {
        let &[slot, row, got, work, closed, loads, part_at] = line;
        let supply = supplies[slot as usize];
        if closed == DROPPED_NOT_RUN {
            return dropped_words(table, line);
        }
        if row == 0 {
            return format!("slot {slot}: idle, supply {supply} work units");
        }
        let so_far = &mut loaded[row as usize - 1];
        *so_far += loads;
        let loading = match loads {
            0 => String::new(),
            _ => format!(", loading slot {so_far} of {}", table.loading),
        };
        let closing = closing_words(table, row, [slot + 1, closed, got, part_at]);
        format!(
            "slot {slot}: row {row}{loading}, supply {supply} work units, \
             got {got} of {work} work units{closing}"
        )
    };
    slots.iter().map(words).collect()
}

/// The words for each stretch of a run on paper, which is made of these slots.
fn stretch_words(table: &Table, paper: &[[u32; 7]], stretches: &[[u32; 6]]) -> Vec<String> {
    let words = |&[first, length, row, closed, loading, part_at]: &[u32; 6]| {
        if closed == DROPPED_NOT_RUN {
            let dropped = |line: &&[u32; 7]| line[1] == row && line[4] == DROPPED_NOT_RUN;
            let line = paper.iter().find(dropped).expect("dropped once");
            return dropped_words(table, line);
        }
        let slots = slots_of(length);
        let loading = match loading {
            0 => String::new(),
            _ => format!(" ({loading} loading)"),
        };
        match row {
            0 => format!("from slot {first}, {slots}: idle"),
            _ => {
                let is_last = |line: &&[u32; 7]| line[0] + 1 == first + length && line[1] == row;
                let got = paper.iter().find(is_last).expect("its last slot")[2];
                let closing = closing_words(table, row, [first + length, closed, got, part_at]);
                format!("from slot {first}, {slots}{loading}: row {row}{closing}")
            }
        }
    };
    stretches.iter().map(words).collect()
}

/// Runs in words name the loading slots, and no others, and say of each dropped row
/// why.
#[test]
fn runs_in_words() {
    let mut random = Random::seeded(713);
    let mut tally = Tally::new("command run in words, loading slots and others");
    let mut closings = Tally::new("command run in words, how rows closed");
    for _ in 0..200 {
        let table = a_table(&mut random);
        let order = random_order(&mut random, &table);
        let slots = random.between(1, 150);
        let supplies = supplies(&mut random, slots);
        let words = supply_words(&mut random, &supplies);
        let listed = order_words(&order).join(",");
        let mut arguments = vec!["run", "-", "--order", &listed];
        arguments.extend(words.iter().map(String::as_str));
        let paper = run_on_paper(&table, &order, &supplies);
        let sheet = sheet_of(&table);
        let said_between = |arguments: &[&str]| -> Vec<String> {
            let (said, status) = command(arguments, &sheet);
            assert_eq!(status, 0, "{table:?} {order:?}");
            let lines: Vec<String> = text(&said).lines().map(str::to_string).collect();
            // Before come the order, after the rows still open.
            lines[1..lines.len() - 1].to_vec()
        };
        assert_eq!(
            said_between(&arguments),
            slot_words(&table, &paper, &supplies)
        );
        arguments.push("--stretches");
        let together = stretches(&paper);
        let expected = stretch_words(&table, &paper, &together);
        assert_eq!(said_between(&arguments), expected);
        for [_, row, _, _, closed, loads, _] in paper {
            closings.saw(closed);
            if closed != DROPPED_NOT_RUN {
                tally.saw((row != 0, loads));
            }
        }
    }
    tally.assert_common(&[(false, 0), (true, 0), (true, 1)], 1_000);
    closings.assert_common(&[0, 1, 2, 3, 4, 5], 20);
}

/// A run to the last clock by stretches is the model's, and one supply more is
/// refused with 8 after all these slots.
#[test]
fn the_last_clock() {
    let order = model::order::order_of(&[1, 2, 3]);
    let supplies = vec![0; LAST_CLOCK as usize];
    let words = ["run", "-", "--plain", "--stretches", "--order", "1,2,3"];
    for loading in [0, MOST_LOADING] {
        let mut table = easy(3).with_loading(loading);
        table.level[2] = HI;
        let together = stretches(&run_on_paper(&table, &order, &supplies));
        assert_eq!(together[2][4], loading, "row 3 runs to the end");
        let expected = lines_of(3, &together);
        for (supply, status) in [("2000000x0", 0), ("2000001x0", 2), ("4294967295x0", 2)] {
            let mut arguments = words.to_vec();
            arguments.push(supply);
            let answer = command(&arguments, &sheet_of(&table));
            assert_eq!(answer, (expected.clone(), status), "{supply}");
        }
    }
}

fn figure(bytes: &[u8]) -> u32 {
    let bytes: &[u8; 8] = bytes.try_into().expect("a field");
    read_field(bytes).expect("a well-formed field")
}

#[test]
fn explanations() {
    let mut random = Random::seeded(704);
    let mut tally = Tally::new("command explain");
    for _ in 0..700 {
        for sheet in sheets(&mut random) {
            let (mut number, table) = read_sheet(&sheet);
            let mut left = 0;
            if number == 0 {
                let plan = plain::plan(&table);
                (number, left) = (plan.number, plan.left);
            }
            let (said, status) = command(&["explain", "--plain", "-"], &sheet);
            assert_eq!(status, status_of(number), "{sheet:?}");
            let said: Vec<Vec<u32>> = text(&said)
                .lines()
                .map(|line| line.as_bytes().chunks(8).map(figure).collect())
                .collect();
            assert_eq!((said[0].len(), said[0][0]), (5, number), "{sheet:?}");
            let rows_left: Vec<u32> = (1..=64).filter(|row| left >> (row - 1) & 1 == 1).collect();
            assert_eq!(said[1..].concat(), rows_left);
            let [row, field, byte] = [said[0][1], said[0][2], said[0][3]];
            if let Some(place) = place_of_fault(&sheet) {
                assert_eq!(
                    [row, field, byte],
                    [place.row, place.field, place.byte],
                    "{}",
                    text_or_bytes(&sheet)
                );
            }
            if matches!(number, 0 | 7) {
                assert_eq!([row, field, byte, said[0][4]], [0; 4]);
            } else {
                assert!(byte >= 1 && byte as usize <= sheet.len() + 1);
                let before = &sheet[..byte as usize - 1];
                let lines = before.iter().filter(|&&byte| byte == b'\n').count() as u32;
                assert_eq!(said[0][4], lines + 1, "the line of the byte");
            }
            tally.saw(number);
        }
    }
    tally.assert_common(&[0, 1, 2, 7], 50);
    tally.assert_common(&TABLE_CHECKS, 40);
}

/// What is said of a sheet that lacks fields, and what brings it up: by whether its first
/// line lacks that of K, and by how many fields the line of a row lacks.
const LACKING: [[&str; 3]; 2] = [
    [
        "",
        "hint: the field of the followed row (a row number) is missing; a sheet from before \
         rows could follow rows is brought up by a field '       0' before the line end of each \
         row: sed '2,$s/$/       0/' SHEET",
        "hint: the fields of the promised part (in work units) and of the followed row (a row \
         number) are missing; a sheet from before both is brought up by two fields '       0' \
         before the line end of each row: sed '2,$s/$/       0       0/' SHEET",
    ],
    [
        "hint: the field of K (loading, in slots) is missing; a sheet from before K is brought \
         up by a field '       0' before its first line end: sed '1s/$/       0/' SHEET",
        "hint: the fields of K (loading, in slots) and of the followed row (a row number) are \
         missing; they are brought in by a field '       0' before each line end: sed 's/$/       \
         0/' SHEET",
        "hint: the fields of K (loading, in slots), of the promised part (in work units) and of \
         the followed row (a row number) are missing; a sheet from before all three is brought \
         up by a field '       0' before each line end, and another one before that of each row: \
         sed 's/$/       0/; 2,$s/$/       0/' SHEET",
    ],
];

/// The sheet with so many fields of 0 before the end of its first line, and before that of
/// each row's.
fn brought_up(sheet: &[u8], in_first: usize, in_rows: usize) -> Vec<u8> {
    let is_end = |&byte: &u8| byte == b'\n';
    let mut changed = Vec::new();
    for (index, line) in sheet.split_inclusive(is_end).enumerate() {
        let (before, end) = line.split_at(line.len() - 1);
        let fields = if index == 0 { in_first } else { in_rows };
        changed.extend([before, &b"       0".repeat(fields), end].concat());
    }
    changed
}

/// A sheet that lacks the field of K is refused with 2, one that lacks fields of its rows
/// alone with 1, and with the fields that are named it is that of the table without loading,
/// promises or waits.
#[test]
fn sheets_from_before() {
    let mut random = Random::seeded(714);
    for _ in 0..100 {
        let table = a_table(&mut random);
        let whole = |before: Before| sheet_of(&before.old_table(&table));
        let unloaded = sheet_of(&table.with_loading(0));
        let waitless = sheet_of(&table.with_loading(0).without_waits());
        let in_rows = |before: Before| before.old_sheet(&whole(before));
        let at_loading = [2, 0, 4, 25, 1];
        for (before, sheet, place, [in_first, in_rows]) in [
            (
                in_rows(Before::Loading),
                whole(Before::Loading),
                at_loading,
                [1, 2],
            ),
            (
                in_rows(Before::Promises),
                whole(Before::Promises),
                [1, 1, 5, 66, 2],
                [0, 2],
            ),
            (
                in_rows(Before::Waits),
                whole(Before::Waits),
                [1, 1, 6, 74, 2],
                [0, 1],
            ),
            (
                without_loading(unloaded.clone()),
                unloaded,
                at_loading,
                [1, 0],
            ),
            (
                without_loading(Before::Waits.old_sheet(&waitless)),
                waitless,
                at_loading,
                [1, 1],
            ),
        ] {
            let hint = LACKING[in_first][in_rows];
            assert_eq!(read_sheet(&before).0, place[0]);
            let plain = command(&["explain", "--plain", "-"], &before);
            assert_eq!(plain, (write_line(&place), 2));
            let (said, status) = command(&["explain", "-"], &before);
            assert_eq!((text(&said).lines().last(), status), (Some(hint), 2));
            let (_, errors, status) = command_with_errors(&["plan", "-"], &before);
            assert_eq!((errors.lines().last(), status), (Some(hint), 2));
            assert_eq!(brought_up(&before, in_first, in_rows), sheet);
        }
    }
}

/// The first of these fields of a sheet are well formed, from this byte on, and a line
/// end stands after them.
fn ends_after(sheet: &[u8], from: usize, count: usize) -> bool {
    let fields = sheet.get(from..).unwrap_or(&[]).chunks(FIELD).take(count);
    let good = fields.filter(|field| {
        let field: Option<&[u8; FIELD]> = (*field).try_into().ok();
        field.and_then(read_field).is_some()
    });
    good.count() == count && sheet.get(from + count * FIELD) == Some(&b'\n')
}

/// Whether the first line of a sheet lacks the field of K, and how many fields that of its
/// first row lacks, if it has a first line.
fn lacking(sheet: &[u8]) -> [usize; 2] {
    let fields = match [3, 4].map(|count| ends_after(sheet, 0, count)) {
        [true, _] => 3,
        [_, true] => 4,
        _ => return [0, 0],
    };
    let in_row = |count| ends_after(sheet, fields * FIELD + 1, count);
    let in_rows = match [5, 4].map(in_row) {
        [true, _] => 1,
        [_, true] => 2,
        _ => 0,
    };
    [4 - fields, in_rows]
}

/// That fields are missing is said of no sheet but one whose lines end where these fields
/// belong, its first line and its first row's.
#[test]
fn other_sheets_are_not_from_before() {
    let mut random = Random::seeded(715);
    let mut tally = Tally::new("command explain, said to lack a field, by number");
    for _ in 0..300 {
        let mut tried = sheets(&mut random).to_vec();
        let sheet = sheet_of(&small_table(&mut random));
        let [unloaded, waitless] =
            [&sheet, &Before::Waits.old_sheet(&sheet)].map(|sheet| without_loading(sheet.clone()));
        let before = TIMES.map(|before| before.old_sheet(&sheet));
        for before in before.into_iter().chain([unloaded, waitless]) {
            let length = random.between(20, before.len() as u32 - 1);
            tried.push(before[..length as usize].to_vec());
            tried.push(damaged(&mut random, before));
        }
        for sheet in tried {
            let (said, _) = command(&["explain", "-"], &sheet);
            let hints: Vec<&str> = text(&said)
                .lines()
                .filter(|line| LACKING.concat().contains(line))
                .collect();
            let [in_first, in_rows] = lacking(&sheet);
            let expected: &[&str] = match [in_first, in_rows] {
                [0, 0] => &[],
                _ => &LACKING[in_first][in_rows..=in_rows],
            };
            assert_eq!(hints, expected, "{}", text_or_bytes(&sheet));
            tally.saw(([in_first, in_rows], read_sheet(&sheet).0));
        }
    }
    tally.assert_common(&[([1, 0], 1), ([1, 0], 2)], 20);
    tally.assert_common(&[([1, 1], 2), ([1, 2], 2)], 100);
    tally.assert_common(&[([0, 1], 1), ([0, 2], 1)], 40);
    tally.assert_common(&[1, 2, 11].map(|number| ([0, 0], number)), 40);
}

fn text_or_bytes(sheet: &[u8]) -> String {
    sheet.escape_ascii().to_string()
}

/// A sheet that is refused for its length by a byte too many or too few inside
/// a row is said to go wrong no later than where that byte is.
#[test]
fn lengths() {
    let mut random = Random::seeded(705);
    let mut tally = Tally::new("command explain, lengths");
    for _ in 0..500 {
        let sheet = sheet_of(&small_table(&mut random));
        let place = random.between(FIRST_LINE as u32, sheet.len() as u32 - 1) as usize;
        let mut changed = sheet.clone();
        let added = random.once_in(2);
        if added {
            changed.insert(place, random.one_of(b"\r\t x\n"));
        } else {
            changed.remove(place);
        }
        let (said, status) = command(&["explain", "--plain", "-"], &changed);
        assert_eq!((figure(&said[..8]), status), (1, 2));
        let byte = figure(&said[24..32]) as usize;
        // The line around the change, and the one after it where the change is
        // made up by a space, holds the first byte that does not fit.
        let line_end = FIRST_LINE + (place - FIRST_LINE) / ROW_LINE * ROW_LINE + ROW_LINE;
        assert!(
            byte <= line_end + 1,
            "byte {byte}: {}",
            text_or_bytes(&changed)
        );
        tally.saw(added);
    }
    tally.assert_common(&[false, true], 150);
}

/// A small table or, once in three times, a large one.
fn a_table(random: &mut Random) -> Table {
    if random.once_in(3) {
        large_table(random)
    } else {
        small_table(random)
    }
}

/// A table in the making, with any figures and any number of rows.
#[derive(Clone, Debug, PartialEq)]
struct Written {
    normal: u32,
    degraded: u32,
    loading: u32,
    rows: Vec<Row>,
}

impl Written {
    fn of(table: &Table) -> Written {
        Written {
            normal: table.normal,
            degraded: table.degraded,
            loading: table.loading,
            rows: table.rows(),
        }
    }

    /// A random table, once in two times changed so that a check refuses it, or
    /// that several would.
    fn random(random: &mut Random) -> Written {
        let mut table = a_table(random);
        match random.between(0, 12) {
            0 => spoil_table(random, &mut table, 4),
            1..=2 => spoil_table(random, &mut table, 5),
            number @ 3..=6 => spoil_table(random, &mut table, number + 9),
            _ => {}
        }
        if random.once_in(6) {
            table.loading = long_loading(random);
        }
        let mut written = Written::of(&table);
        if random.once_in(8) {
            let count = random.one_of(&[0, 65, 66, 90]);
            let row = written.rows[0];
            written.rows.resize(count, row);
        }
        written
    }

    /// The number by which the archive refuses the table, or 0.
    fn number(&self) -> u32 {
        match self.rows.len() {
            1..=ROWS => check_table(&self.table()),
            _ => 3,
        }
    }

    /// The table of at most 64 rows.
    fn table(&self) -> Table {
        Table::of(self.normal, self.degraded, self.loading, &self.rows)
    }

    /// The sheet and status that the command has to answer with.
    fn sheet_and_status(&self) -> (Vec<u8>, i32) {
        match self.number() {
            0 => (sheet_of(&self.table()), 0),
            _ => (Vec::new(), 2),
        }
    }

    /// The line and the column of the figure that the archive refuses, in a
    /// rows file; column 0 where it refuses the number of rows.
    fn place(&self) -> Place {
        let capped = |figure: u32| figure.min(99_999_999);
        let rows = self.rows.iter();
        let rows: Vec<Row> = rows.map(|row| Row::of(row.figures().map(capped))).collect();
        let n = rows.len() as u32;
        let [normal, degraded, loading] = [self.normal, self.degraded, self.loading].map(capped);
        let sheet = write_sheet(n, normal, degraded, loading, &rows);
        let place = place_of_fault(&sheet).expect("it is refused");
        match (self.number(), place.row) {
            (3, _) => (if n == 0 { 4 } else { 4 + ROWS }, 0),
            (_, 0) => (2, place.field as usize - 1),
            (_, row) => (3 + row as usize, place.field as usize),
        }
    }

    /// A table of one row with this figure in place of the one that is refused,
    /// beside the figure that limits it; the other figures are right.
    fn with_figure(&self, (line, column): Place, figure: u32) -> Table {
        let mut first = [1, 1, 0];
        let mut cells = [0, 1, LATEST_DEADLINE, 0, 0, 0];
        if line == 2 {
            first[0] = self.normal;
            first[column - 1] = figure;
        } else {
            let row = self.rows[line - 4];
            match column {
                1 => cells[2] = row.deadline,
                3 if row.release < LATEST_DEADLINE => cells[0] = row.release,
                5 => (cells[1], cells[3]) = (row.work, row.level),
                _ => {}
            }
            cells[column - 1] = figure;
        }
        let [normal, degraded, loading] = first;
        Table::of(normal, degraded, loading, &[Row::of(cells)])
    }

    /// Which rows the row of this line may follow, in words.
    fn rows_to_follow(&self, line: usize) -> String {
        let row = line - 3;
        let kind = match self.rows[row - 1].level {
            0 => "is released no later",
            _ => "is HI and released no later",
        };
        match row {
            1 => "only 0 (none): no row stands above row 1".to_string(),
            2 => format!("0 (none), or row 1 if it {kind}"),
            _ => format!("0 (none), or one of rows 1 to {} that {kind}", row - 1),
        }
    }

    /// What is said to be allowed in a place is what the check accepts there: the
    /// figures at both ends, and none beyond them.
    fn assert_allowed(&self, place: Place, allowed: &str) {
        match place {
            (_, 0) => assert_eq!(allowed, "1 to 64 rows"),
            (4.., 4) => assert_eq!(allowed, "HI or LO (or 1 or 0)"),
            (4.., 6) => assert_eq!(allowed, self.rows_to_follow(place.0)),
            _ => {
                let [least, most] = ends_of(allowed);
                let accepts = |figure| check_table(&self.with_figure(place, figure)) == 0;
                assert!(accepts(least) && accepts(most), "{place:?} {allowed}");
                assert!(least == 0 || !accepts(least - 1), "{place:?} {allowed}");
                assert!(!accepts(most + 1), "{place:?} {allowed}");
            }
        }
    }
}

/// Sheets of words are the model's; a table that a check refuses ends with
/// status 2, a word that is no figure with 3.
#[test]
fn sheets_of_words() {
    let mut random = Random::seeded(706);
    let mut tally = Tally::new("command sheet, from words");
    for _ in 0..500 {
        let written = Written::random(&mut random);
        let mut words = vec![
            "sheet".to_string(),
            written.normal.to_string(),
            written.degraded.to_string(),
            written.loading.to_string(),
        ];
        words.extend(written.rows.iter().map(|row| row_word(&mut random, row)));
        let mut expected = written.sheet_and_status();
        let left_out = random.once_in(8);
        if left_out {
            // K, as in words from before it: a row, or nothing, stands there.
            words.remove(3);
            expected = (Vec::new(), 3);
        } else if random.once_in(6) {
            let place = random.between(1, words.len() as u32 - 1) as usize;
            let bad = random.one_of(&["x", "-1", "1.5", "+1", "", "01", "1e3", "4294967296"]);
            words[place] = match place {
                1..=3 => bad.to_string(),
                _ => spoiled_word(&mut random, &words[place], bad),
            };
            expected = (Vec::new(), 3);
        }
        let words: Vec<&str> = words.iter().map(String::as_str).collect();
        let (sheet, errors, status) = command_with_errors(&words, b"");
        assert_eq!((sheet, status), expected, "{words:?}");
        if left_out {
            assert!(errors.starts_with("jasminebrace: loading K: "), "{errors}");
            assert!(errors.contains("; K is missing: "), "{errors}");
        }
        tally.saw((status, left_out));
    }
    tally.assert_common(&[(0, false), (2, false), (3, false), (3, true)], 40);
}

/// The figures of a row. The followed row of 0 may be left out, and with it a promised part
/// of 0.
fn row_word(random: &mut Random, row: &Row) -> String {
    let mut figures = row.figures().map(|figure| figure.to_string()).to_vec();
    while figures.len() > 4 && figures.last().is_some_and(|last| last == "0") && random.once_in(2) {
        figures.pop();
    }
    figures.join(",")
}

/// The word of a row with one figure replaced, or with a comma more, or too few.
fn spoiled_word(random: &mut Random, word: &str, bad: &str) -> String {
    let mut figures: Vec<&str> = word.split(',').collect();
    let last = figures.len() as u32 - 1;
    match random.between(0, 9) {
        0 => figures.push(""),
        1 => figures.truncate(3),
        _ => figures[random.between(0, last) as usize] = bad,
    }
    figures.join(",")
}

const TABLE_HEADINGS: [&str; 3] = [
    "normal speed N (work units per slot)",
    "degraded speed G (work units per slot)",
    "loading K (slots)",
];
const ROW_HEADINGS: [&str; FIGURES] = [
    "release (slots)",
    "work (work units)",
    "deadline (slots)",
    "level (HI or LO)",
    "promised (work units)",
    "follows (row or 0)",
];

/// The column of levels, from 1. Those after it came one after another.
const LEVELS: usize = 4;

/// The cells of a rows file, line by line; a level that is none as its figure.
fn cells_of(written: &Written) -> Vec<Vec<String>> {
    let texts = |headings: &[&str]| headings.iter().map(|text| text.to_string()).collect();
    let mut lines: Vec<Vec<String>> = vec![
        texts(&TABLE_HEADINGS),
        [written.normal, written.degraded, written.loading]
            .map(|figure| figure.to_string())
            .to_vec(),
        texts(&ROW_HEADINGS),
    ];
    for row in &written.rows {
        let mut cells = row.figures().map(|figure| figure.to_string()).to_vec();
        match row.level {
            0 => cells[LEVELS - 1] = "LO".to_string(),
            1 => cells[LEVELS - 1] = "HI".to_string(),
            _ => {}
        }
        lines.push(cells);
    }
    lines
}

/// The rows file as the command writes it.
fn rows_text(written: &Written) -> Vec<u8> {
    let mut text = String::new();
    for (index, cells) in cells_of(written).iter().enumerate() {
        text += &cells.join(",");
        text += if index < 2 { ",,,\n" } else { "\n" };
    }
    text.into_bytes()
}

/// From a sheet to rows and back, and from these rows to a sheet and back.
#[test]
fn rows_and_back() {
    let mut random = Random::seeded(707);
    let mut tally = Tally::new("command rows and sheet, by rows");
    let mut loadings = Tally::new("command rows and sheet, with loading or without");
    let mut there_and_back = |sheet: Vec<u8>| {
        let (number, table) = read_sheet(&sheet);
        assert_eq!(number, 0);
        let rows = command(&["rows", "-"], &sheet);
        assert_eq!(rows, (rows_text(&Written::of(&table)), 0), "{table:?}");
        assert_eq!(command(&["sheet", "-"], &rows.0), (sheet, 0), "{table:?}");
        tally.saw(table.n.ilog2());
        loadings.saw(table.loading > 0);
    };
    sample_sheets().into_iter().for_each(&mut there_and_back);
    for _ in 0..400 {
        there_and_back(sheet_of(&a_table(&mut random)));
    }
    tally.assert_common(&[0, 1, 2, 3, 4, 5], 10);
    loadings.assert_common(&[false, true], 100);
}

/// A rows file from before K is refused at the place of the heading that it
/// lacks, with what to add; with that added it gives the sheet without loading.
#[test]
fn rows_files_from_before_loading() {
    let mut random = Random::seeded(716);
    for _ in 0..100 {
        let table = a_table(&mut random).with_loading(0);
        let rows = text(&rows_text(&Written::of(&table))).to_string();
        let before = rows.replacen("loading K (slots),,,\n", ",,,\n", 1);
        let before = before.replacen(",0,,,\n", ",,,,\n", 1);
        let (sheet, errors, status) = command_with_errors(&["sheet", "-"], before.as_bytes());
        assert_eq!((sheet, status), (Vec::new(), 3));
        let place = (1, TABLE_HEADINGS.len());
        assert!(
            names_place(&errors, "jasminebrace: standard input", place),
            "{errors}"
        );
        assert!(
            errors.contains("the heading 'loading K (slots)' belongs"),
            "{errors}"
        );
        let added = "write this heading here and 0 (slots, no loading) in line 2, column 3";
        assert!(errors.contains(added), "{errors}");
        assert_eq!(
            command(&["sheet", "-"], rows.as_bytes()),
            (sheet_of(&table), 0)
        );
    }
}

/// A rows file from before rows could follow rows lacks their column, and no row follows
/// another; one from before promised parts lacks that of those too, and promises none.
#[test]
fn rows_files_from_before_promised_parts_and_waits() {
    let mut random = Random::seeded(717);
    for round in 0..100 {
        let (before, columns) = match round % 2 {
            0 => (Before::Promises, LEVELS),
            _ => (Before::Waits, LEVELS + 1),
        };
        let table = before.old_table(&a_table(&mut random));
        let mut lines = cells_of(&Written::of(&table));
        for line in &mut lines {
            line.truncate(columns);
            line.resize(line.len() + random.between(0, 2) as usize, String::new());
        }
        let lines: Vec<String> = lines.iter().map(|cells| cells.join(",")).collect();
        let before = lines.join("\n");
        let made = command(&["sheet", "-"], before.as_bytes());
        assert_eq!(made, (sheet_of(&table), 0), "{before}");
        // A figure below the heading that is missing has no place.
        let stray = before + ",1";
        let (sheet, errors, status) = command_with_errors(&["sheet", "-"], stray.as_bytes());
        assert_eq!((sheet, status), (Vec::new(), 3), "{errors}");
    }
}

/// A sheet that is refused has no rows, and the explanation is that of the
/// other commands.
#[test]
fn rows_of_refused_sheets() {
    let mut random = Random::seeded(708);
    let mut tally = Tally::new("command rows, by the reader's number");
    for _ in 0..200 {
        for sheet in sheets(&mut random) {
            let number = read_sheet(&sheet).0;
            let plain = if random.once_in(2) { "--plain" } else { "--" };
            let (rows, errors, status) = command_with_errors(&["rows", plain, "-"], &sheet);
            assert_eq!(status, status_of(number), "{}", text_or_bytes(&sheet));
            assert_eq!(rows.is_empty(), number != 0);
            if number != 0 {
                let explained = command(&["explain", "-"], &sheet).0;
                assert_eq!(errors.as_bytes(), explained);
            }
            tally.saw(number);
        }
    }
    tally.assert_common(&[0, 1, 2], 20);
    tally.assert_common(&TABLE_CHECKS, 15);
}

/// A cell as a spreadsheet program or a hand may write it.
fn spelled(random: &mut Random, cell: &str) -> String {
    let blanks = ["", "", "", " ", "\t", "  \t "];
    let mut text: String = cell
        .chars()
        .map(|letter| match random.between(0, 3) {
            0 => letter.to_ascii_uppercase(),
            1 => letter.to_ascii_lowercase(),
            _ => letter,
        })
        .collect();
    match cell {
        "HI" if random.once_in(4) => text = "1".to_string(),
        "LO" if random.once_in(4) => text = "0".to_string(),
        _ => {}
    }
    if random.once_in(3) {
        let inside = [random.one_of(&blanks), random.one_of(&blanks)];
        text = format!("\"{}{text}{}\"", inside[0], inside[1]);
    }
    format!("{}{text}{}", random.one_of(&blanks), random.one_of(&blanks))
}

/// The rows file in another spelling: a mark, quotes, blanks, upper and lower
/// case, empty cells and lines at the end, line ends of three kinds, or of one.
fn spelled_rows(random: &mut Random, written: &Written) -> Vec<u8> {
    let mut lines = cells_of(written);
    // As before rows could follow rows, or before there were promised parts.
    let mut columns = FIGURES;
    let is_unused = |column| {
        written
            .rows
            .iter()
            .all(|row| row.figures()[column - 1] == 0)
    };
    while columns > LEVELS && is_unused(columns) && random.once_in(2) {
        columns -= 1;
    }
    lines.iter_mut().for_each(|line| line.truncate(columns));
    for line in &mut lines {
        let empty = random.one_of(&[0, 0, 1, 2, 5]);
        line.resize(line.len() + empty, String::new());
    }
    for _ in 0..random.one_of(&[0, 0, 0, 1, 3]) {
        lines.push(vec![String::new(); random.between(1, 6) as usize]);
    }
    let ends = ["\n", "\r\n", "\r"];
    let same = random.one_of(&ends);
    let mixed = random.once_in(3);
    let mut text = random.one_of(&["", "\u{feff}"]).to_string();
    let mut end = "";
    for line in &lines {
        let cells: Vec<String> = line.iter().map(|cell| spelled(random, cell)).collect();
        end = if mixed { random.one_of(&ends) } else { same };
        text += &cells.join(",");
        text += end;
    }
    if random.once_in(3) {
        text.truncate(text.len() - end.len());
    }
    text.into_bytes()
}

/// Every spelling of the same rows gives the same sheet, and one that a check
/// refuses is named by its line and column, with what is allowed there.
#[test]
fn spellings_of_rows() {
    let mut random = Random::seeded(709);
    let mut tally = Tally::new("command sheet, spellings, by number");
    for _ in 0..700 {
        let written = Written::random(&mut random);
        let text = spelled_rows(&mut random, &written);
        assert_eq!(
            read_rows(&text),
            Ok(written.clone()),
            "the test's own reading"
        );
        let (sheet, errors, status) = command_with_errors(&["sheet", "-"], &text);
        let shown = text_or_bytes(&text);
        assert_eq!((sheet, status), written.sheet_and_status(), "{shown}");
        let number = written.number();
        if number == 0 {
            assert_eq!(errors, "", "{shown}");
        } else {
            let said: Vec<&str> = errors.lines().collect();
            assert!(
                said[0].starts_with(&format!("number {number}: ")),
                "{errors}"
            );
            let place = written.place();
            assert!(
                names_place(said[1], "where: standard input", place),
                "{errors}{shown}"
            );
            let allowed = said[2].strip_prefix("allowed: ").expect("what is allowed");
            written.assert_allowed(place, allowed);
            assert!(said[3].starts_with("remedy: "), "{errors}");
        }
        tally.saw(number);
    }
    tally.assert_common(&[0, 3, 4, 5, 11, 12], 30);
    tally.assert_common(&[13, 14, 15], 15);
}

/// A line and a column of a rows file, from 1; 0 for the line, or the file, as a
/// whole.
type Place = (usize, usize);

/// The text says what it says of this place.
fn names_place(text: &str, begin: &str, (line, column): Place) -> bool {
    let place = match (line, column) {
        (0, _) => String::new(),
        (_, 0) => format!(", line {line}"),
        _ => format!(", line {line}, column {column}"),
    };
    let rest = text.strip_prefix(&format!("{begin}{place}"));
    let named = column != 0 && rest.is_some_and(|rest| rest.starts_with(" ("));
    named || rest.is_some_and(|rest| rest.starts_with(": "))
}

/// The smallest and the largest figure of "1 to 1,000 slots" or "only 1 (slots)".
fn ends_of(allowed: &str) -> [u32; 2] {
    let plain = allowed.replace(',', "");
    let words: Vec<&str> = plain.split(' ').collect();
    let figure = |index: usize| words[index].parse::<u32>().expect("a figure");
    match words[..2] {
        ["only", _] => [figure(1); 2],
        [_, "to"] => [figure(0), figure(2)],
        _ => panic!("not a range: {allowed}"),
    }
}

/// Damaged rows files: the command takes those, and only those, that its
/// description takes, names the place in others, never crashes, and writes
/// nothing but a whole sheet.
#[test]
fn damaged_rows() {
    let mut random = Random::seeded(710);
    let mut tally = Tally::new("command sheet, damaged rows, by status");
    let mut places = Tally::new("command sheet, damaged rows, by column");
    for round in 0..3_000 {
        let written = Written::random(&mut random);
        let mut text = match round % 3 {
            0 => rows_text(&written),
            _ => spelled_rows(&mut random, &written),
        };
        for _ in 0..random.one_of(&[1, 1, 1, 2, 3]) {
            damage_rows(&mut random, &mut text);
        }
        let read = read_rows(&text);
        let expected = match &read {
            Ok(written) => written.sheet_and_status(),
            Err(_) => (Vec::new(), 3),
        };
        let (sheet, errors, status) = command_with_errors(&["sheet", "-"], &text);
        assert_eq!((sheet, status), expected, "{}", text_or_bytes(&text));
        assert_eq!(errors.is_empty(), status == 0);
        if let Err(place) = read {
            assert!(
                names_place(&errors, "jasminebrace: standard input", place),
                "{place:?} {errors}{}",
                text_or_bytes(&text)
            );
            assert_eq!(errors.lines().count(), 1, "{errors}");
            places.saw(place.1);
        }
        tally.saw(status);
    }
    tally.assert_common(&[0, 2, 3], 150);
    places.assert_common(&[0, 1, 2, 3, 4, 5, 6, 7], 20);
}

fn damage_rows(random: &mut Random, text: &mut Vec<u8>) {
    let bytes = b"\",\n\r\t ;019HhLo.-\0\xEF\xBB\xBF\xFFP";
    if text.is_empty() {
        return text.push(random.one_of(bytes));
    }
    let place = random.between(0, text.len() as u32 - 1) as usize;
    let digits = text.iter().filter(|byte| byte.is_ascii_digit()).count() as u32;
    match random.between(0, 12) {
        0..=2 => text[place] = random.one_of(bytes),
        3..=4 => text.insert(place, random.one_of(bytes)),
        5 => _ = text.remove(place),
        6 => text[place] = random.word() as u8,
        7 => text.truncate(place),
        8..=11 if digits > 0 => {
            let chosen = random.between(0, digits - 1) as usize;
            let mut figures = text.iter_mut().filter(|byte| byte.is_ascii_digit());
            *figures.nth(chosen).expect("a digit") = random.one_of(b"0123456789 ");
        }
        _ => {
            let end = (place + random.between(1, 40) as usize).min(text.len());
            let copied = text[place..end].to_vec();
            let to = random.between(0, text.len() as u32) as usize;
            text.splice(to..to, copied);
        }
    }
}

/// How files begin that are no text in UTF-8.
const OTHER_BEGINNINGS: [&[u8]; 5] = [
    b"\xFF\xFE",
    b"\xFE\xFF",
    b"\0\0\xFE\xFF",
    b"PK",
    b"\xD0\xCF\x11\xE0",
];

/// A rows file read by its description in README.md and the command's help; the
/// place of the first fault if it cannot be taken.
fn read_rows(text: &[u8]) -> Result<Written, Place> {
    if OTHER_BEGINNINGS.iter().any(|begin| text.starts_with(begin)) {
        return Err((0, 0));
    }
    let text = text.strip_prefix(b"\xEF\xBB\xBF").unwrap_or(text);
    let mut written = Written {
        normal: 0,
        degraded: 0,
        loading: 0,
        rows: Vec::new(),
    };
    let (mut filled, mut empty, mut columns) = (0, None, FIGURES);
    for (index, line) in lines_of_text(text).into_iter().enumerate() {
        let number = index + 1;
        let at = |column| (number, column);
        let cells = cells_of_line(line).map_err(at)?;
        if cells.is_empty() {
            empty = empty.or(Some(number));
        } else if let Some(empty) = empty {
            return Err((empty, 0));
        } else {
            if number == 3 {
                columns = columns_of(&cells);
            }
            take_line(&mut written, number, &cells, columns).map_err(at)?;
            filled = number;
        }
    }
    match filled {
        0 => Err((0, 0)),
        1..=2 => Err((filled + 1, 0)),
        _ => Ok(written),
    }
}

/// Takes a filled line for what its number makes it, or gives the column at
/// fault. Rows have so many columns.
fn take_line(
    written: &mut Written,
    number: usize,
    cells: &[Vec<u8>],
    columns: usize,
) -> Result<(), usize> {
    match number {
        1 => take_headings(cells, &TABLE_HEADINGS)?,
        2 => [written.normal, written.degraded, written.loading] = take_figures(cells, 3)?,
        3 => take_headings(cells, &ROW_HEADINGS[..columns])?,
        _ => written.rows.push(Row::of(take_figures(cells, columns)?)),
    }
    Ok(())
}

/// How many columns rows have by their headings: those that came after levels may be
/// missing, the last ones first.
fn columns_of(headings: &[Vec<u8>]) -> usize {
    let mut columns = FIGURES;
    while columns > LEVELS && lacks_heading(headings, columns) {
        columns -= 1;
    }
    columns
}

/// Nothing stands in this column of the headings, and its heading in no other one. Of the
/// cells after all columns the first filled one is looked at.
fn lacks_heading(headings: &[Vec<u8>], column: usize) -> bool {
    let heading = ROW_HEADINGS[column - 1].as_bytes();
    let is_heading = |column| cell_at(headings, column).eq_ignore_ascii_case(heading);
    let is_beyond = filled_after(headings, FIGURES).is_some_and(is_heading);
    cell_at(headings, column).is_empty() && !(1..=FIGURES).any(is_heading) && !is_beyond
}

/// The lines of a text, whatever ends them.
fn lines_of_text(text: &[u8]) -> Vec<&[u8]> {
    let mut lines = Vec::new();
    let mut rest = text;
    while !rest.is_empty() {
        let length = rest.iter().position(|byte| b"\r\n".contains(byte));
        let (line, after) = rest.split_at(length.unwrap_or(rest.len()));
        lines.push(line);
        let end = if after.starts_with(b"\r\n") { 2 } else { 1 };
        rest = &after[end.min(after.len())..];
    }
    lines
}

fn trimmed(mut text: &[u8]) -> &[u8] {
    while let [b' ' | b'\t', rest @ ..] | [rest @ .., b' ' | b'\t'] = text {
        text = rest;
    }
    text
}

/// The cells of a line up to the last that is filled, or the column that is
/// malformed; 0 if something else than commas separates them.
fn cells_of_line(line: &[u8]) -> Result<Vec<Vec<u8>>, usize> {
    let other_separator = |byte| !line.contains(&b',') && trimmed(line).contains(&byte);
    if other_separator(b';') || other_separator(b'\t') && !is_empty_cell(line) {
        return Err(0);
    }
    let mut cells = Vec::new();
    // Commas outside quotes separate: there the number of quotes before is even,
    // since a cell's quotes open at its beginning.
    let mut begin = 0;
    loop {
        let cell = &line[begin..];
        let quoted = trimmed_before(cell).first() == Some(&b'"');
        let mut inside = false;
        let length = cell.iter().position(|&byte| {
            inside ^= quoted && byte == b'"';
            byte == b',' && !inside
        });
        let end = length.unwrap_or(cell.len());
        cells.push(text_of_cell(trimmed(&cell[..end])).ok_or(cells.len() + 1)?);
        match length {
            Some(length) => begin += length + 1,
            None => break,
        }
    }
    while cells.last().is_some_and(|cell| cell.is_empty()) {
        cells.pop();
    }
    Ok(cells)
}

/// Nothing but blanks, in quotes or not.
fn is_empty_cell(line: &[u8]) -> bool {
    text_of_cell(trimmed(line)).is_some_and(|text| text.is_empty())
}

fn trimmed_before(mut text: &[u8]) -> &[u8] {
    while let [b' ' | b'\t', rest @ ..] = text {
        text = rest;
    }
    text
}

/// A cell's text without its quotes; none if a quote is not closed or does not
/// stand twice inside, and for a byte 0.
fn text_of_cell(cell: &[u8]) -> Option<Vec<u8>> {
    if cell.contains(&0) {
        return None;
    }
    let Some(inside) = cell.strip_prefix(b"\"") else {
        return Some(cell.to_vec());
    };
    let inside = inside.strip_suffix(b"\"")?;
    let mut text = Vec::new();
    let mut bytes = inside.iter();
    while let Some(&byte) = bytes.next() {
        if byte == b'"' && bytes.next() != Some(&b'"') {
            return None;
        }
        text.push(byte);
    }
    Some(trimmed(&text).to_vec())
}

fn cell_at(cells: &[Vec<u8>], column: usize) -> &[u8] {
    cells.get(column - 1).map_or(&[], |cell| cell)
}

/// The column of the first filled cell after these columns.
fn filled_after(cells: &[Vec<u8>], columns: usize) -> Option<usize> {
    (columns + 1..=cells.len()).find(|&column| !cell_at(cells, column).is_empty())
}

/// Headings are looked at from the left, and then what stands after them.
fn take_headings(cells: &[Vec<u8>], headings: &[&str]) -> Result<(), usize> {
    let wrong = (1..=headings.len()).find(|&column| {
        !cell_at(cells, column).eq_ignore_ascii_case(headings[column - 1].as_bytes())
    });
    match wrong.or(filled_after(cells, headings.len())) {
        Some(column) => Err(column),
        None => Ok(()),
    }
}

/// Figures are looked at from the left, so many; those after them are 0. A cell too many
/// counts before a cell at fault that is empty, has digits alone or a level after the column
/// of levels, and after one with other text.
fn take_figures<const MOST: usize>(
    cells: &[Vec<u8>],
    columns: usize,
) -> Result<[u32; MOST], usize> {
    let mut figures = [0; MOST];
    for column in 1..=columns {
        let cell = cell_at(cells, column);
        let read = match column {
            LEVELS => level_of_cell(cell),
            _ => figure_of_cell(cell),
        };
        let Some(figure) = read else {
            let is_level = [&b"HI"[..], b"LO"].contains(&&cell.to_ascii_uppercase()[..]);
            let moved_level = column > LEVELS && is_level;
            let has_text = !moved_level && !cell.iter().all(u8::is_ascii_digit);
            let beyond = filled_after(cells, columns);
            return Err(if has_text {
                column
            } else {
                beyond.unwrap_or(column)
            });
        };
        figures[column - 1] = figure;
    }
    filled_after(cells, columns).map_or(Ok(figures), Err)
}

fn figure_of_cell(cell: &[u8]) -> Option<u32> {
    let digits = std::str::from_utf8(cell).ok()?;
    let figure: u32 = digits.parse().ok()?;
    (figure.to_string() == digits).then_some(figure)
}

fn level_of_cell(cell: &[u8]) -> Option<u32> {
    match &cell.to_ascii_uppercase()[..] {
        b"HI" => Some(1),
        b"LO" => Some(0),
        other => figure_of_cell(other),
    }
}

/// An order of another number of rows is refused with 6.
#[test]
fn orders_of_other_tables() {
    let sheet = sheet_of(&easy(5));
    for n in 1..=9 {
        let rows: Vec<u8> = (1..=n).collect();
        let order = model::order::order_of(&rows);
        let number = check_order(&easy(5), &order);
        let words = words_of(&rows).join(",");
        let (_, status) = command(&["judge", "--plain", "-", &words], &sheet);
        assert_eq!(status, status_of(number), "{n} rows");
    }
}
