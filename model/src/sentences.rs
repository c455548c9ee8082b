//! Verdicts as sentences (section 24 of the rules): an answer of the planner at a ceiling or of
//! the judge as one English line, the composer, and the reader that gives the answer back.
//!
//! Answers hold whatever values their fields can hold, also such as no call answers (rule 24.1).
//! The reader goes through the bytes once, from left to right, and composes nothing.

use crate::judge::Verdict;
use crate::order::{order_of, Order, NO_ORDER};
use crate::plan::{rows_in_word, word_of, Counted};
use crate::sheet::put_text;
use crate::table::ROWS;

/// Bytes in the planner's longest sentences (rule 24.10). So many are enough for every answer.
pub const LONGEST_OF_PLANNER: usize = 739;

/// Bytes in the judge's longest sentences (rule 24.10).
pub const LONGEST_OF_JUDGE: usize = 177;

/// A planner's answer, with any values (rule 24.1).
#[derive(Clone, Copy, Debug, PartialEq, Eq)]
pub struct PlannerAnswer {
    pub number: u32,
    /// The rows left as a word (rule 4.8).
    pub left: u64,
    /// The sixty-four small numbers.
    pub order: Order,
    pub trials: u32,
}

/// A judge's answer, with any values (rule 24.1).
#[derive(Clone, Copy, Debug, PartialEq, Eq)]
pub struct JudgeAnswer {
    pub number: u32,
    /// 1 for yes, 0 for no, or any other value.
    pub yes: u32,
    pub row: u32,
    /// In slots.
    pub slack: i32,
}

impl PlannerAnswer {
    pub const ZERO: PlannerAnswer = PlannerAnswer {
        number: 0,
        left: 0,
        order: NO_ORDER,
        trials: 0,
    };

    /// What the planner answers at a ceiling.
    pub fn of(answer: &Counted) -> PlannerAnswer {
        PlannerAnswer {
            number: answer.plan.number,
            left: answer.plan.left,
            order: answer.plan.order,
            trials: answer.trials,
        }
    }

    /// The numbers up to the last one that is not 0 (rule 24.4).
    fn rows_in_order(&self) -> &[u8] {
        let last = self.order.iter().rposition(|&held| held != 0);
        &self.order[..last.map_or(0, |index| index + 1)]
    }

    /// The planner's sentence (rule 24.3).
    pub fn sentence(&self) -> Vec<u8> {
        let (placed, left) = (self.rows_in_order(), rows_in_word(self.left));
        let sentence = format!(
            "The planner answers number {} ({}): {}, {} in the order{}, {} left{}.",
            self.number,
            meaning(self.number, PLANNED),
            counted(self.trials, "trial"),
            counted(placed.len() as u32, "row"),
            list(" (highest first: ", placed),
            counted(left.len() as u32, "row"),
            list(" (", &left),
        );
        sentence.into_bytes()
    }
}

impl JudgeAnswer {
    pub const ZERO: JudgeAnswer = JudgeAnswer {
        number: 0,
        yes: 0,
        row: 0,
        slack: 0,
    };

    /// What the judge answers. Every slack of an accepted table fits (rule 3.7).
    pub fn of(answer: &Verdict) -> JudgeAnswer {
        JudgeAnswer {
            number: answer.number,
            yes: u32::from(answer.yes),
            row: u32::from(answer.row),
            slack: i32::try_from(answer.slack).expect("a slack has at most eight digits"),
        }
    }

    /// The judge's sentence (rule 24.7).
    pub fn sentence(&self) -> Vec<u8> {
        let says = match self.yes {
            1 => "yes".to_string(),
            0 => "no".to_string(),
            other => format!("{other}, neither yes nor no"),
        };
        let sentence = format!(
            "The judge says {says} (number {}, {}): tightest row {}, slack {}{}.",
            self.number,
            meaning(self.number, judged(self.yes)),
            self.row,
            if self.slack < 0 { "-" } else { "" },
            counted(self.slack.unsigned_abs(), "slot"),
        );
        sentence.into_bytes()
    }
}

/// What number 0 of the planner means (rule 24.6).
const PLANNED: &str = "an order was made";

/// What number 0 of the judge means beside this yes or no (rule 24.6).
fn judged(yes: u32) -> &'static str {
    match yes {
        1 => "the order is correct",
        0 => "the order is not correct",
        _ => "an order was judged",
    }
}

/// What a number means (rule 24.6); 0 means something else of the planner and of the judge.
fn meaning(number: u32, of_zero: &'static str) -> &'static str {
    match number {
        0 => of_zero,
        1 => "refused: the sheet has the wrong length",
        2 => "refused: a field or a line end is malformed",
        3 => "refused: the row count is beyond its limits",
        4 => "refused: a speed is beyond its limits",
        5 => "refused: a row is beyond its limits, or figures stand after the last",
        6 => "refused: the numbers are not an order of the table",
        7 => "no correct order exists",
        8 => "refused: the clock is at its end",
        9 => "refused: the run record is unsound",
        10 => "refused: the memory lent is too short",
        11 => "refused: the loading is beyond its limit",
        12 => "refused: a promised part is beyond its limit",
        13 => "refused: a row follows what is not a row above it",
        14 => "refused: a row follows one that is released later",
        15 => "refused: a HI row follows a LO row",
        16 => "refused: the order to be committed is not correct",
        17 => "refused: a row of the running sheet is open",
        18 => "refused: a row is released before the clock",
        19 => "refused: planning takes more trials than the ceiling",
        20 => "refused: the table has more rows than can be counted",
        _ => "a number without a meaning",
    }
}

/// How a noun ends after this figure (rule 24.2).
fn ending(figure: u32) -> &'static str {
    if figure == 1 {
        ""
    } else {
        "s"
    }
}

/// A figure and its noun (rule 24.2).
fn counted(figure: u32, noun: &str) -> String {
    format!("{figure} {noun}{}", ending(figure))
}

/// A list of numbers that begins like this, or nothing if there are none (rules 24.4, 24.5).
fn list(begin: &str, numbers: &[u8]) -> String {
    if numbers.is_empty() {
        return String::new();
    }
    let figures: Vec<String> = numbers.iter().map(u8::to_string).collect();
    format!("{begin}{})", figures.join(", "))
}

/// An answer of either kind.
#[derive(Clone, Copy, Debug, PartialEq, Eq)]
pub enum Answer {
    Planner(PlannerAnswer),
    Judge(JudgeAnswer),
}

impl Answer {
    /// The answer's sentence.
    pub fn sentence(&self) -> Vec<u8> {
        match self {
            Answer::Planner(answer) => answer.sentence(),
            Answer::Judge(answer) => answer.sentence(),
        }
    }
}

/// The composer: 0 and the length in bytes of the sentence, which then stands at the start of
/// the lent bytes; or 10 and 0 if they are fewer than it has. All other lent bytes stay as they
/// were (rules 24.9 and 11.12).
pub fn compose(answer: &Answer, lent: &mut [u8]) -> (u32, u32) {
    put_text(&answer.sentence(), lent)
}

/// What the reader of sentences answers (rule 24.11).
#[derive(Clone, Copy, Debug, PartialEq, Eq)]
pub struct Read {
    pub number: u32,
    /// 1 for the planner's, 2 for the judge's, 0 with a refusal.
    pub kind: u32,
    /// All zero if the kind is another.
    pub planner: PlannerAnswer,
    /// All zero if the kind is another.
    pub judge: JudgeAnswer,
}

impl Read {
    /// What is answered to bytes that are no answer's sentence.
    pub const REFUSED: Read = Read {
        number: 2,
        kind: 0,
        planner: PlannerAnswer::ZERO,
        judge: JudgeAnswer::ZERO,
    };

    /// What is answered to the sentence of this answer (rule 24.12).
    pub fn of(answer: &Answer) -> Read {
        let (number, unread) = (0, Read::REFUSED);
        match *answer {
            Answer::Planner(planner) => Read {
                number,
                kind: 1,
                planner,
                ..unread
            },
            Answer::Judge(judge) => Read {
                number,
                kind: 2,
                judge,
                ..unread
            },
        }
    }

    /// The answer that was read, if one was.
    pub fn answer(&self) -> Option<Answer> {
        match self.kind {
            1 => Some(Answer::Planner(self.planner)),
            2 => Some(Answer::Judge(self.judge)),
            _ => None,
        }
    }
}

/// The reader of sentences: 0 with the kind and the answer, or 2 (rules 24.11 and 11.12).
pub fn read_sentence(bytes: &[u8]) -> Read {
    let planner = read_planner(bytes).map(Answer::Planner);
    let answer = planner.or_else(|| read_judge(bytes).map(Answer::Judge));
    answer.map_or(Read::REFUSED, |answer| Read::of(&answer))
}

/// The planner's answer that these bytes are the sentence of (rule 24.3).
fn read_planner(bytes: &[u8]) -> Option<PlannerAnswer> {
    let mut rest = Rest(bytes);
    rest.expect("The planner answers number ")?;
    let number = rest.figure(u32::MAX)?;
    rest.expect(" (")?;
    rest.expect(meaning(number, PLANNED))?;
    rest.expect("): ")?;
    let trials = rest.counted(u32::MAX, "trial")?;
    rest.expect(", ")?;
    let order = rest.rows_in_order()?;
    rest.expect(", ")?;
    let left = rest.rows_left()?;
    rest.full_stop()?;
    Some(PlannerAnswer {
        number,
        left,
        order,
        trials,
    })
}

/// The judge's answer that these bytes are the sentence of (rule 24.7).
fn read_judge(bytes: &[u8]) -> Option<JudgeAnswer> {
    let mut rest = Rest(bytes);
    rest.expect("The judge says ")?;
    let yes = rest.yes_or_no()?;
    rest.expect(" (number ")?;
    let number = rest.figure(u32::MAX)?;
    rest.expect(", ")?;
    rest.expect(meaning(number, judged(yes)))?;
    rest.expect("): tightest row ")?;
    let row = rest.figure(u32::MAX)?;
    rest.expect(", slack ")?;
    let slack = rest.slack()?;
    rest.full_stop()?;
    Some(JudgeAnswer {
        number,
        yes,
        row,
        slack,
    })
}

/// The bytes that the reader has not gone past yet. Each function goes past what it reads, and
/// gives none where the bytes are no sentence.
struct Rest<'a>(&'a [u8]);

impl Rest<'_> {
    /// These words, one byte after the other.
    fn expect(&mut self, words: &str) -> Option<()> {
        self.0 = self.0.strip_prefix(words.as_bytes())?;
        Some(())
    }

    /// A figure from 0 to `most`, without a zero before other digits (rule 24.2).
    fn figure(&mut self, most: u32) -> Option<u32> {
        let is_digit = |byte: &&u8| byte.is_ascii_digit();
        let (digits, rest) = self.0.split_at(self.0.iter().take_while(is_digit).count());
        if digits.is_empty() || (digits.len() > 1 && digits[0] == b'0') {
            return None;
        }
        let mut figure: u32 = 0;
        for digit in digits {
            figure = figure.checked_mul(10)?;
            figure = figure.checked_add(u32::from(digit - b'0'))?;
        }
        self.0 = rest;
        (figure <= most).then_some(figure)
    }

    /// A figure and its noun, with an s unless the figure is 1 (rule 24.2).
    fn counted(&mut self, most: u32, noun: &str) -> Option<u32> {
        let figure = self.figure(most)?;
        self.expect(" ")?;
        self.expect(noun)?;
        self.expect(ending(figure))?;
        Some(figure)
    }

    /// A list of so many figures from 0 to `most` that begins like this; for none of them there
    /// is nothing to read (rules 24.4 and 24.5).
    fn list(&mut self, begin: &str, count: u32, most: u8) -> Option<Vec<u8>> {
        let mut figures = Vec::new();
        for index in 0..count {
            self.expect(if index == 0 { begin } else { ", " })?;
            figures.push(self.figure(u32::from(most))? as u8);
        }
        if count > 0 {
            self.expect(")")?;
        }
        Some(figures)
    }

    /// The rows in the order and their list, of which the last number is not 0 (rule 24.4).
    fn rows_in_order(&mut self) -> Option<Order> {
        let count = self.counted(ROWS as u32, "row")?;
        self.expect(" in the order")?;
        let numbers = self.list(" (highest first: ", count, u8::MAX)?;
        (numbers.last() != Some(&0)).then(|| order_of(&numbers))
    }

    /// The rows left and their list, each row above the one before it and none of them 0 (rule
    /// 24.5).
    fn rows_left(&mut self) -> Option<u64> {
        let count = self.counted(ROWS as u32, "row")?;
        self.expect(" left")?;
        let rows = self.list(" (", count, ROWS as u8)?;
        let rise = rows.windows(2).all(|two| two[0] < two[1]);
        (rise && rows.first() != Some(&0)).then(|| word_of(&rows))
    }

    /// What the judge says: `yes`, `no`, or another value than these stand for (rule 24.7).
    fn yes_or_no(&mut self) -> Option<u32> {
        if self.expect("yes").is_some() {
            return Some(1);
        }
        if self.expect("no").is_some() {
            return Some(0);
        }
        let value = self.figure(u32::MAX)?;
        self.expect(", neither yes nor no")?;
        (value > 1).then_some(value)
    }

    /// A slack with its noun, in slots. A minus stands only before one that is below 0 (rule
    /// 24.7).
    fn slack(&mut self) -> Option<i32> {
        let is_below = self.expect("-").is_some();
        let size = i64::from(self.counted(u32::MAX, "slot")?);
        if is_below && size == 0 {
            return None;
        }
        i32::try_from(if is_below { -size } else { size }).ok()
    }

    /// The full stop, and no byte after it (rule 24.3).
    fn full_stop(&mut self) -> Option<()> {
        self.expect(".")?;
        self.0.is_empty().then_some(())
    }
}
