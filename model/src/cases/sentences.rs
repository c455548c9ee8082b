//! Answers and their sentences (section 24 of the rules), written out by hand, and bytes that
//! are no sentence; those of rule 13.18 are among them. Slacks are in slots.

use crate::order::{order_of, Order, NO_ORDER};
use crate::plan::word_of;
use crate::sentences::{Answer, JudgeAnswer, PlannerAnswer};
use crate::table::ROWS;

/// An answer and its sentence.
pub struct SentenceCase {
    pub what: String,
    pub answer: Answer,
    pub sentence: String,
}

/// Bytes that the reader refuses with 2.
pub struct RefusedCase {
    pub what: &'static str,
    pub bytes: Vec<u8>,
}

/// The words of the numbers from 1 to 20, by rule 24.6.
pub const WORDS: [&str; 20] = [
    "refused: the sheet has the wrong length",
    "refused: a field or a line end is malformed",
    "refused: the row count is beyond its limits",
    "refused: a speed is beyond its limits",
    "refused: a row is beyond its limits, or figures stand after the last",
    "refused: the numbers are not an order of the table",
    "no correct order exists",
    "refused: the clock is at its end",
    "refused: the run record is unsound",
    "refused: the memory lent is too short",
    "refused: the loading is beyond its limit",
    "refused: a promised part is beyond its limit",
    "refused: a row follows what is not a row above it",
    "refused: a row follows one that is released later",
    "refused: a HI row follows a LO row",
    "refused: the order to be committed is not correct",
    "refused: a row of the running sheet is open",
    "refused: a row is released before the clock",
    "refused: planning takes more trials than the ceiling",
    "refused: the table has more rows than can be counted",
];

/// The examples of rule 24.8, in its sequence.
pub const P1_PLANNED: &str =
    "The planner answers number 0 (an order was made): 6 trials, 4 rows in the order (highest \
     first: 1, 2, 3, 4), 0 rows left.";
pub const P3_PLANNED: &str =
    "The planner answers number 7 (no correct order exists): 2 trials, 0 rows in the order, 2 \
     rows left (1, 2).";
pub const P1_OVER_5: &str =
    "The planner answers number 19 (refused: planning takes more trials than the ceiling): 5 \
     trials, 0 rows in the order, 0 rows left.";
pub const OF_65_ROWS: &str =
    "The planner answers number 3 (refused: the row count is beyond its limits): 0 trials, 0 rows \
     in the order, 0 rows left.";
pub const ABSURD_PLAN: &str =
    "The planner answers number 4000000000 (a number without a meaning): 1 trial, 3 rows in \
     the order (highest first: 0, 0, 255), 2 rows left (1, 64).";
pub const P1_CORRECT: &str =
    "The judge says yes (number 0, the order is correct): tightest row 1, slack 0 slots.";
pub const P1_NOT_CORRECT: &str =
    "The judge says no (number 0, the order is not correct): tightest row 1, slack -10 slots.";
pub const P1_ROW_TWICE: &str =
    "The judge says no (number 6, refused: the numbers are not an order of the table): tightest \
     row 0, slack 0 slots.";
pub const ONE_OF_EACH: &str =
    "The planner answers number 0 (an order was made): 1 trial, 1 row in the order (highest \
     first: 1), 1 row left (2).";
pub const ONE_BELOW: &str =
    "The judge says yes (number 0, the order is correct): tightest row 64, slack -1 slot.";
pub const ABSURD_VERDICT: &str =
    "The judge says 7, neither yes nor no (number 0, an order was judged): tightest row \
     4294967295, slack -2147483648 slots.";

/// An answer and its sentence in one line.
fn case(what: &str, answer: Answer, sentence: impl Into<String>) -> SentenceCase {
    SentenceCase {
        what: what.to_string(),
        answer,
        sentence: sentence.into(),
    }
}

/// The planner's answer with these fields.
fn planned(number: u32, trials: u32, order: Order, left: u64) -> Answer {
    Answer::Planner(PlannerAnswer {
        number,
        left,
        order,
        trials,
    })
}

/// The judge's answer with these fields.
fn judged(number: u32, yes: u32, row: u32, slack: i32) -> Answer {
    Answer::Judge(JudgeAnswer {
        number,
        yes,
        row,
        slack,
    })
}

/// The cases of rule 13.18, and then some of our own.
pub fn sentences() -> Vec<SentenceCase> {
    let mut cases = examples();
    cases.extend(every_number());
    cases.extend(absurd_plans());
    cases.extend(absurd_verdicts());
    cases.extend(longest());
    cases.extend(more_sentences());
    cases
}

/// The eleven examples of rule 24.8.
pub fn examples() -> Vec<SentenceCase> {
    let p1_order = order_of(&[1, 2, 3, 4]);
    let absurd = planned(4_000_000_000, 1, order_of(&[0, 0, 255]), (1 << 63) + 1);
    vec![
        case("P1 planned", planned(0, 6, p1_order, 0), P1_PLANNED),
        case("P3 planned", planned(7, 2, NO_ORDER, 0b11), P3_PLANNED),
        case(
            "P1 at a ceiling of 5",
            planned(19, 5, NO_ORDER, 0),
            P1_OVER_5,
        ),
        case("65 rows planned", planned(3, 0, NO_ORDER, 0), OF_65_ROWS),
        case("a plan that no call answers", absurd, ABSURD_PLAN),
        case("a correct order of P1", judged(0, 1, 1, 0), P1_CORRECT),
        case("another order of P1", judged(0, 0, 1, -10), P1_NOT_CORRECT),
        case("row 1 of P1 twice", judged(6, 0, 0, 0), P1_ROW_TWICE),
        case(
            "one of each in a plan",
            planned(0, 1, order_of(&[1]), 0b10),
            ONE_OF_EACH,
        ),
        case("one slot below", judged(0, 1, 64, -1), ONE_BELOW),
        case(
            "a verdict that no call answers",
            judged(0, 7, u32::MAX, i32::MIN),
            ABSURD_VERDICT,
        ),
    ]
}

/// The planner's sentence of this number with these words, all other fields 0.
fn plan_of_number(number: u32, words: &str) -> SentenceCase {
    case(
        &format!("number {number} of the planner"),
        planned(number, 0, NO_ORDER, 0),
        format!(
            "The planner answers number {number} ({words}): \
             0 trials, 0 rows in the order, 0 rows left."
        ),
    )
}

/// The judge's sentence of this number with these words, all other fields 0.
fn verdict_of_number(number: u32, words: &str) -> SentenceCase {
    case(
        &format!("number {number} of the judge"),
        judged(number, 0, 0, 0),
        format!("The judge says no (number {number}, {words}): tightest row 0, slack 0 slots."),
    )
}

/// Each number from 1 to 20 of the planner and of the judge.
fn every_number() -> Vec<SentenceCase> {
    let mut cases = Vec::new();
    for (number, words) in (1..).zip(WORDS) {
        cases.push(plan_of_number(number, words));
        cases.push(verdict_of_number(number, words));
    }
    cases
}

/// The rows from 1 to 64 as a list has them.
fn all_rows() -> String {
    let rows: Vec<String> = (1..=ROWS).map(|row| row.to_string()).collect();
    rows.join(", ")
}

/// Plans with absurd fields (rule 13.18).
fn absurd_plans() -> Vec<SentenceCase> {
    let begin = "The planner answers number 0 (an order was made)";
    let plan = |what: &str, trials, order, left, rest: &str| {
        let sentence = format!("{begin}: {rest}.");
        case(what, planned(0, trials, order, left), sentence)
    };
    let mut last_only = NO_ORDER;
    last_only[ROWS - 1] = 255;
    let numbers = |each: &str, last: &str| {
        let list = each.repeat(ROWS - 1) + last;
        format!("0 trials, 64 rows in the order (highest first: {list}), 0 rows left")
    };
    let every_row = format!(
        "0 trials, 0 rows in the order, 64 rows left ({})",
        all_rows()
    );
    let row_64 = "0 trials, 0 rows in the order, 1 row left (64)";
    let most = "4294967295 trials, 0 rows in the order, 0 rows left";
    vec![
        plan(
            "255 after 63 zeros",
            0,
            last_only,
            0,
            &numbers("0, ", "255"),
        ),
        plan("64 times 255", 0, [255; ROWS], 0, &numbers("255, ", "255")),
        plan("all rows left", 0, NO_ORDER, u64::MAX, &every_row),
        plan("row 64 left", 0, NO_ORDER, 1 << 63, row_64),
        plan(
            "1 trial",
            1,
            NO_ORDER,
            0,
            "1 trial, 0 rows in the order, 0 rows left",
        ),
        plan("4,294,967,295 trials", u32::MAX, NO_ORDER, 0, most),
        plan_of_number(21, "a number without a meaning"),
        plan_of_number(u32::MAX, "a number without a meaning"),
    ]
}

/// Verdicts with absurd fields (rule 13.18).
fn absurd_verdicts() -> Vec<SentenceCase> {
    let no = |what: &str, row, slack, rest: &str| {
        let begin = "The judge says no (number 0, the order is not correct)";
        let sentence = format!("{begin}: tightest row {rest}.");
        case(what, judged(0, 0, row, slack), sentence)
    };
    let neither = |what: &str, yes| {
        let sentence = format!(
            "The judge says {yes}, neither yes nor no (number 0, an order was judged): \
             tightest row 0, slack 0 slots."
        );
        case(what, judged(0, yes, 0, 0), sentence)
    };
    vec![
        no("the least slack", 0, i32::MIN, "0, slack -2147483648 slots"),
        no("slack -1", 0, -1, "0, slack -1 slot"),
        no("slack 1", 0, 1, "0, slack 1 slot"),
        no("the most slack", 0, i32::MAX, "0, slack 2147483647 slots"),
        no("the last row", u32::MAX, 0, "4294967295, slack 0 slots"),
        neither("yes or no 2", 2),
        neither("yes or no 4,294,967,295", u32::MAX),
        verdict_of_number(21, "a number without a meaning"),
        verdict_of_number(4_000_000_000, "a number without a meaning"),
    ]
}

/// The longest sentences, of 739 and of 177 bytes (rule 24.10).
pub fn longest() -> [SentenceCase; 2] {
    let refused = WORDS[4];
    let (numbers, rows) = ("255, ".repeat(63), all_rows());
    [
        case(
            "the longest plan",
            planned(5, u32::MAX, [255; ROWS], u64::MAX),
            format!(
                "The planner answers number 5 ({refused}): 4294967295 trials, \
                 64 rows in the order (highest first: {numbers}255), 64 rows left ({rows})."
            ),
        ),
        case(
            "the longest verdict",
            judged(5, u32::MAX, u32::MAX, i32::MIN),
            format!(
                "The judge says 4294967295, neither yes nor no (number 5, {refused}): \
                 tightest row 4294967295, slack -2147483648 slots."
            ),
        ),
    ]
}

/// One row in the order and one left, zeros between and before other numbers, and words beside a
/// yes or no that no call answers with them.
fn more_sentences() -> Vec<SentenceCase> {
    let plan = |what: &str, order: &[u8], rows: &[u8], rest: &str| {
        let sentence = format!("The planner answers number 7 (no correct order exists): {rest}.");
        let answer = planned(7, 10, order_of(order), word_of(rows));
        case(what, answer, sentence)
    };
    let verdict = |what: &str, number, yes, says: &str| {
        let sentence = format!("The judge says {says}): tightest row 10, slack 10 slots.");
        case(what, judged(number, yes, 10, 10), sentence)
    };
    vec![
        plan(
            "one row in the order and one left",
            &[1],
            &[1],
            "10 trials, 1 row in the order (highest first: 1), 1 row left (1)",
        ),
        plan(
            "a zero between two numbers",
            &[1, 0, 2],
            &[],
            "10 trials, 3 rows in the order (highest first: 1, 0, 2), 0 rows left",
        ),
        plan(
            "a zero before the only number",
            &[0, 10],
            &[9, 10, 11],
            "10 trials, 2 rows in the order (highest first: 0, 10), 3 rows left (9, 10, 11)",
        ),
        case(
            "a planner's zeros",
            Answer::Planner(PlannerAnswer::ZERO),
            "The planner answers number 0 (an order was made): \
             0 trials, 0 rows in the order, 0 rows left.",
        ),
        case(
            "a judge's zeros",
            Answer::Judge(JudgeAnswer::ZERO),
            "The judge says no (number 0, the order is not correct): \
             tightest row 0, slack 0 slots.",
        ),
        verdict(
            "yes beside 7",
            7,
            1,
            "yes (number 7, no correct order exists",
        ),
        verdict(
            "10 beside 10",
            10,
            10,
            "10, neither yes nor no (number 10, refused: the memory lent is too short",
        ),
        verdict(
            "yes beside 21",
            21,
            1,
            "yes (number 21, a number without a meaning",
        ),
    ]
}

/// A sentence with other words in the place of these, which stand in it once.
fn with(what: &'static str, sentence: &str, words: &str, others: &str) -> RefusedCase {
    let times = sentence.matches(words).count();
    assert_eq!(times, 1, "{what}: {words} in {sentence}");
    RefusedCase {
        what,
        bytes: sentence.replace(words, others).into_bytes(),
    }
}

/// The bytes of rule 13.18 that the reader refuses, and then some of our own.
pub fn refused_sentences() -> Vec<RefusedCase> {
    let mut cases = refused_plans();
    cases.extend(refused_rows());
    cases.extend(refused_verdicts());
    cases.extend(more_refused_plans());
    cases.extend(more_refused_verdicts());
    cases
}

/// Those of rule 13.18 that are no bytes at all or come from P1's plan.
fn refused_plans() -> Vec<RefusedCase> {
    let plan = |what, words, others| with(what, P1_PLANNED, words, others);
    let listed = "4 rows in the order (highest first: 1, 2, 3, 4)";
    vec![
        RefusedCase {
            what: "no bytes",
            bytes: Vec::new(),
        },
        plan("a second space", "The planner", "The  planner"),
        plan("no full stop", "left.", "left"),
        plan("byte 10 after it", "left.", "left.\n"),
        plan("a space after it", "left.", "left. "),
        plan("a leading zero", "6 trials", "06 trials"),
        plan("a leading zero in the list", ": 1, 2", ": 01, 2"),
        plan("1 trials", "6 trials", "1 trials"),
        plan("words of 7", "an order was made", "no correct order exists"),
        plan("a row more in the order than is listed", "4 rows", "5 rows"),
        plan(
            "a row fewer in the order than is listed",
            "4 rows",
            "3 rows",
        ),
        plan(
            "a last 0 in the order",
            listed,
            "5 rows in the order (highest first: 1, 2, 3, 4, 0)",
        ),
        plan("number 4,294,967,296", "number 0", "number 4294967296"),
        plan(
            "number 4,294,967,296 without a meaning",
            "0 (an order was made)",
            "4294967296 (a number without a meaning)",
        ),
        plan("a 256 in the order", ": 1, 2", ": 256, 2"),
        plan("a last 256 in the order", "3, 4)", "3, 256)"),
    ]
}

/// Those that come from P3's plan.
fn refused_rows() -> Vec<RefusedCase> {
    let plan = |what, others| with(what, P3_PLANNED, "(1, 2)", others);
    vec![
        plan("rows the other way round", "(2, 1)"),
        plan("row 65", "(1, 65)"),
        plan("one row twice", "(1, 1)"),
    ]
}

/// Those that come from P1's verdicts.
fn refused_verdicts() -> Vec<RefusedCase> {
    let slack = |what, others| with(what, P1_NOT_CORRECT, "-10 slots", others);
    let yes = |what, words, others| with(what, P1_CORRECT, words, others);
    vec![
        yes("slack -0 slots", "0 slots", "-0 slots"),
        slack("slack -10 slot", "-10 slot"),
        slack("slack 2,147,483,648", "2147483648 slots"),
        slack("slack -2,147,483,649", "-2147483649 slots"),
        yes(
            "says 1",
            "yes (number 0, the order is correct)",
            "1, neither yes nor no (number 0, an order was judged)",
        ),
        yes("planner for judge", "judge", "planner"),
    ]
}

/// Our own, from plans.
fn more_refused_plans() -> Vec<RefusedCase> {
    let plan = |what, words, others| with(what, P1_PLANNED, words, others);
    let stuck = |what, words, others| with(what, P3_PLANNED, words, others);
    let rows = "2 rows left (1, 2)";
    let twice = [P1_PLANNED; 2].concat();
    vec![
        plan("a space before it", "The planner", " The planner"),
        plan("a small first letter", "The planner", "the planner"),
        plan("a tab for a space", "The planner", "The\tplanner"),
        plan("a zero byte after it", "left.", "left.\0"),
        plan("the sentence twice", P1_PLANNED, &twice),
        plan(
            "the verdict after it",
            "left.",
            &format!("left.{P1_CORRECT}"),
        ),
        plan("judge for planner", "planner", "judge"),
        plan("number 00", "number 0", "number 00"),
        plan("no number", "number 0", "number "),
        plan("number 21 with the words of 0", "number 0", "number 21"),
        plan(
            "a judge's words",
            "an order was made",
            "the order is correct",
        ),
        plan("6 trial", "6 trials", "6 trial"),
        plan("no trials", "6 trials, ", ""),
        plan("4,294,967,296 trials", "6 trials", "4294967296 trials"),
        plan(
            "2 to the power 64 and 6 trials",
            "6 trials",
            "18446744073709551622 trials",
        ),
        plan("+6 trials", "6 trials", "+6 trials"),
        plan("-6 trials", "6 trials", "-6 trials"),
        plan("6,000 trials", "6 trials", "6,000 trials"),
        plan("no list of the order", " (highest first: 1, 2, 3, 4)", ""),
        plan("a list that stops", "3, 4)", "3, 4"),
        plan("a list without a space", "3, 4)", "3,4)"),
        plan("a list that begins otherwise", "(highest first: ", "("),
        plan(
            "a row fewer left than is listed",
            "0 rows left",
            "0 rows left (1)",
        ),
        plan("an empty list of rows", "0 rows left", "0 rows left ()"),
        stuck(
            "an empty list of the order",
            "in the order",
            "in the order (highest first: )",
        ),
        stuck("0 row", "0 rows", "0 row"),
        stuck("1 rows", rows, "1 rows left (1)"),
        stuck("2 row", rows, "2 row left (1, 2)"),
        stuck("row 0", "(1, 2)", "(0, 2)"),
        stuck("a row more left than is listed", "2 rows", "3 rows"),
        stuck("rows without a list", rows, "2 rows left"),
        with("1 rows in the order", ONE_OF_EACH, "1 row in", "1 rows in"),
        with(
            "65 rows in the order",
            P1_PLANNED,
            "4 rows in the order (highest first: ",
            &format!("65 rows in the order (highest first: {}", "5, ".repeat(61)),
        ),
    ]
}

/// Our own, from verdicts.
fn more_refused_verdicts() -> Vec<RefusedCase> {
    let yes = |what, words, others| with(what, P1_CORRECT, words, others);
    let no = |what, words, others| with(what, P1_NOT_CORRECT, words, others);
    let absurd = |what, words, others| with(what, ABSURD_VERDICT, words, others);
    vec![
        yes("yes with the words of no", "is correct", "is not correct"),
        yes(
            "yes with the words of neither",
            "the order is correct",
            "an order was judged",
        ),
        yes("no with the words of yes", "yes", "no"),
        yes(
            "a planner's words",
            "the order is correct",
            "an order was made",
        ),
        yes("Yes", "yes", "Yes"),
        yes("number 00 of the judge", "number 0", "number 00"),
        yes("a verdict without its full stop", "slots.", "slots"),
        yes("a line end after a verdict", "slots.", "slots.\n"),
        absurd("says 0", "says 7", "says 0"),
        absurd("says 07", "says 7", "says 07"),
        absurd("says 4,294,967,296", "says 7", "says 4294967296"),
        absurd(
            "tightest row 4,294,967,296",
            "row 4294967295",
            "row 4294967296",
        ),
        no("slack -1 slots", "-10 slots", "-1 slots"),
        no("slack -01 slot", "-10 slots", "-01 slot"),
        no("two minuses", "-10 slots", "--10 slots"),
        no("a plus", "-10 slots", "+10 slots"),
        no("a space after the minus", "-10 slots", "- 10 slots"),
        no("a row below 0", "row 1", "row -1"),
        no("a slack without a noun", "-10 slots", "-10"),
    ]
}
