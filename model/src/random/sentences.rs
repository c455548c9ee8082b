//! Random answers, and sentences that are damaged, with which sentences and their reader are
//! compared (section 24 of the rules).

use super::Random;
use crate::order::{order_of, Order, NO_ORDER};
use crate::sentences::{Answer, JudgeAnswer, PlannerAnswer};
use crate::table::ROWS;
use std::ops::Range;

/// An answer of either kind, with any values.
pub fn answer(random: &mut Random) -> Answer {
    if random.once_in(2) {
        Answer::Planner(planner_answer(random))
    } else {
        Answer::Judge(judge_answer(random))
    }
}

/// A planner's answer: every value as likely as any other, or mostly small and extreme ones.
pub fn planner_answer(random: &mut Random) -> PlannerAnswer {
    if random.once_in(4) {
        return PlannerAnswer {
            number: random.word() as u32,
            left: random.word(),
            order: any_bytes(random),
            trials: random.word() as u32,
        };
    }
    PlannerAnswer {
        number: figure(random),
        left: left(random),
        order: numbers(random),
        trials: figure(random),
    }
}

/// A judge's answer: every value as likely as any other, or mostly small and extreme ones.
pub fn judge_answer(random: &mut Random) -> JudgeAnswer {
    if random.once_in(4) {
        return JudgeAnswer {
            number: random.word() as u32,
            yes: random.word() as u32,
            row: random.word() as u32,
            slack: random.word() as i32,
        };
    }
    let yes = random.between(0, 2);
    JudgeAnswer {
        number: figure(random),
        yes: if random.once_in(4) {
            figure(random)
        } else {
            yes
        },
        row: figure(random),
        slack: slack(random),
    }
}

/// A number of 32 bits: of those with words, about a power of ten or of two, among the last, or
/// any.
fn figure(random: &mut Random) -> u32 {
    let ten = 10u32.pow(random.between(0, 9));
    let two = 1 << random.between(0, 31);
    match random.between(0, 7) {
        0 => random.word() as u32,
        1 => random.one_of(&[ten - 1, ten, ten + 1]),
        2 => random.one_of(&[two - 1, two, two + 1]),
        3 => u32::MAX - random.between(0, 2),
        4 => random.between(0, 2),
        _ => random.between(0, 22),
    }
}

/// A slack in slots.
fn slack(random: &mut Random) -> i32 {
    let size = figure(random) as i32;
    let extreme = [i32::MIN, i32::MIN + 1, i32::MAX, -1, 0, 1];
    match random.between(0, 2) {
        0 => random.one_of(&extreme),
        1 => size,
        _ => size.wrapping_neg(),
    }
}

/// A word of rows left: none, all, one, few, or any.
fn left(random: &mut Random) -> u64 {
    let one = 1 << random.between(0, 63);
    let few = random.word() & random.word() & random.word() & random.word();
    let any = random.word();
    let first = u64::MAX >> random.between(0, 63);
    random.one_of(&[0, 0, u64::MAX, one, few, any, first])
}

/// Sixty-four numbers: none but zeros, the rows of a table, zeros among others, large ones, or
/// any.
fn numbers(random: &mut Random) -> Order {
    let rows: Vec<u8> = (1..=random.between(1, 64) as u8).collect();
    match random.between(0, 4) {
        0 => NO_ORDER,
        1 => order_of(&random.shuffled(&rows)),
        2 => few_numbers(random),
        3 => [random.one_of(&[1, 9, 10, 99, 100, 255]); ROWS],
        _ => any_bytes(random),
    }
}

/// Zeros, and up to four numbers at any of the places.
fn few_numbers(random: &mut Random) -> Order {
    let mut order = NO_ORDER;
    for _ in 0..random.between(1, 4) {
        let index = random.between(0, ROWS as u32 - 1) as usize;
        order[index] = random.one_of(&[0, 1, 2, 9, 10, 64, 65, 99, 100, 254, 255]);
    }
    order
}

fn any_bytes(random: &mut Random) -> Order {
    std::array::from_fn(|_| random.word() as u8)
}

/// The sentence with one to three changes; some of them make another sentence of it.
pub fn damaged(random: &mut Random, sentence: &[u8]) -> Vec<u8> {
    let mut bytes = sentence.to_vec();
    for _ in 0..random.between(1, 3) {
        if bytes.is_empty() {
            break;
        }
        match random.between(0, 4) {
            0 => damage_byte(random, &mut bytes),
            1 => damage_end(random, &mut bytes),
            2 => damage_word(random, &mut bytes),
            _ => damage_figure(random, &mut bytes),
        }
    }
    bytes
}

/// Changes a byte, takes one out, puts one in, or swaps two.
fn damage_byte(random: &mut Random, bytes: &mut Vec<u8>) {
    let at = random.between(0, bytes.len() as u32 - 1) as usize;
    let byte = random.one_of(b"  0123456789-,.:()sTryn\n\0\xff");
    match random.between(0, 3) {
        0 => bytes[at] = byte,
        1 => bytes.insert(at, byte),
        2 => bytes.swap(at, at.saturating_sub(1)),
        _ => {
            bytes.remove(at);
        }
    }
}

/// Cuts some bytes off, or puts one after the last.
fn damage_end(random: &mut Random, bytes: &mut Vec<u8>) {
    if random.once_in(2) {
        bytes.push(random.one_of(b" .0\n\0"));
    } else {
        let most = bytes.len().min(12) as u32;
        bytes.truncate(bytes.len() - random.between(1, most) as usize);
    }
}

/// Words and what is put in their place.
const SWAPS: [[&[u8]; 2]; 12] = [
    [b" ", b"  "],
    [b" ", b""],
    [b"planner", b"judge"],
    [b"judge", b"planner"],
    [b"yes", b"no"],
    [b"no", b"yes"],
    [b"trials", b"trial"],
    [b"trial", b"trials"],
    [b"rows", b"row"],
    [b"row", b"rows"],
    [b"slots", b"slot"],
    [b"-", b""],
];

/// Puts another word in the place of one, wherever it stands, if there is one such word.
fn damage_word(random: &mut Random, bytes: &mut Vec<u8>) {
    let [word, other] = random.one_of(&SWAPS);
    let stands_at = |at: &usize| bytes[*at..].starts_with(word);
    let places: Vec<usize> = (0..bytes.len()).filter(stands_at).collect();
    if !places.is_empty() {
        let at = random.one_of(&places);
        bytes.splice(at..at + word.len(), other.iter().copied());
    }
}

/// Puts another figure in the place of one, or digits that are none: one beyond the limits, or
/// with a leading zero.
fn damage_figure(random: &mut Random, bytes: &mut Vec<u8>) {
    let figures = figures_in(bytes);
    if figures.is_empty() {
        return;
    }
    let at = figures[random.between(0, figures.len() as u32 - 1) as usize].clone();
    let near = random.one_of(&[0u64, 1, 2, 3, 63, 64, 65, 255, 256, 1 << 31, 1 << 32]);
    let other = match random.between(0, 3) {
        0 => near.to_string(),
        1 => figure(random).to_string(),
        2 => random.between(0, 9).to_string(),
        _ => format!("0{near}"),
    };
    bytes.splice(at, other.into_bytes());
}

/// Where the digits of each figure stand.
fn figures_in(bytes: &[u8]) -> Vec<Range<usize>> {
    let is_digit = |index: usize| bytes.get(index).is_some_and(u8::is_ascii_digit);
    let mut figures = Vec::new();
    let mut at = 0;
    while at < bytes.len() {
        let mut end = at;
        while is_digit(end) {
            end += 1;
        }
        if end > at {
            figures.push(at..end);
        }
        at = end + 1;
    }
    figures
}
