//! The composer and the reader of sentences of the library (section 24 of the rules) against the
//! model's, number, length and every lent byte, and field by field what is read.

mod common;

use common::planning::{at_ceiling, by_both};
use common::{any_order, large_table, rubbish, small_table, spoil_by_several, Tally};
use compiled::library;
use model::cases::sentences::{
    examples, longest, refused_sentences, sentences, ABSURD_PLAN, ABSURD_VERDICT, OF_65_ROWS,
    P1_CORRECT, P1_NOT_CORRECT, P1_OVER_5, P1_PLANNED, P1_ROW_TWICE, P3_PLANNED,
};
use model::cases::{p1, p3};
use model::order::{order_of, Order, NO_ORDER};
use model::plain;
use model::plan::{most_trials, plan_within};
use model::random::sentences::{answer, damaged, judge_answer, planner_answer};
use model::random::Random;
use model::sentences::{
    compose, read_sentence, Answer, JudgeAnswer, PlannerAnswer, Read, LONGEST_OF_JUDGE,
    LONGEST_OF_PLANNER,
};
use model::table::Table;
use std::collections::HashMap;

/// Sentences of every form: places and none, rows left and none, yes, no and neither, words of a
/// refusal, figures of one digit and of many.
const FORMS: [&str; 8] = [
    P1_PLANNED,
    P3_PLANNED,
    P1_OVER_5,
    ABSURD_PLAN,
    P1_CORRECT,
    P1_NOT_CORRECT,
    P1_ROW_TWICE,
    ABSURD_VERDICT,
];

/// The bytes as far as they are text, for what is printed when a test fails.
fn shown(bytes: &[u8]) -> String {
    String::from_utf8_lossy(bytes).into_owned()
}

/// The library's and the model's composer over this many bytes of rubbish; gives the number.
fn compare_in(answer: &Answer, room: usize) -> u32 {
    let (mut ours, mut paper) = (rubbish(room), rubbish(room));
    let answered = library::compose(answer, &mut ours);
    assert_eq!(answered, compose(answer, &mut paper), "{answer:?}");
    assert_eq!(shown(&ours), shown(&paper), "{answer:?}, {room} bytes");
    assert!(ours == paper, "{answer:?}, {room} bytes");
    answered.0
}

/// The answer's sentence by the library, in memory of just its length.
fn sentence_of(answer: &Answer) -> Vec<u8> {
    let mut lent = rubbish(LONGEST_OF_PLANNER);
    let (number, length) = library::compose(answer, &mut lent);
    assert_eq!(number, 0, "739 bytes are enough for {answer:?}");
    lent.truncate(length as usize);
    lent
}

/// An answer there and back: the model's sentence, in all the room that any needs, in just
/// enough and in a byte less, and the answer read from it (rules 24.9 and 24.12).
fn there_and_back(answer: &Answer) -> Vec<u8> {
    let sentence = sentence_of(answer);
    assert_eq!(shown(&sentence), shown(&answer.sentence()), "{answer:?}");
    assert_eq!(compare_in(answer, sentence.len()), 0);
    assert_eq!(compare_in(answer, sentence.len() - 1), 10);
    let read = library::read_sentence(&sentence);
    assert_eq!(read, Read::of(answer), "{}", shown(&sentence));
    sentence
}

/// The library's reader against the model's; what it takes is the sentence of what it read
/// (rule 24.13). Gives whether it takes the bytes.
fn compare_reading(bytes: &[u8]) -> bool {
    let read = library::read_sentence(bytes);
    assert_eq!(read, read_sentence(bytes), "{}", shown(bytes));
    match read.answer() {
        Some(answer) => assert_eq!(shown(&sentence_of(&answer)), shown(bytes)),
        None => assert_eq!(read, Read::REFUSED),
    }
    read.number == 0
}

#[test]
fn cases_worked_out_by_hand() {
    let cases = sentences();
    assert!(cases.len() > 60, "{} cases", cases.len());
    for case in cases {
        let sentence = there_and_back(&case.answer);
        assert_eq!(shown(&sentence), case.sentence, "{}", case.what);
    }
}

#[test]
fn bytes_refused_by_hand() {
    let cases = refused_sentences();
    assert!(cases.len() > 50, "{} cases", cases.len());
    for case in cases {
        assert!(!compare_reading(&case.bytes), "{}", case.what);
    }
}

/// The longest sentence of each kind, and no longer one among random answers (rule 24.10). A
/// sentence is printable ASCII from its first byte to its full stop.
#[test]
fn lengths() {
    let [plan, verdict] = longest().map(|case| there_and_back(&case.answer).len());
    assert_eq!([plan, verdict], [LONGEST_OF_PLANNER, LONGEST_OF_JUDGE]);
    let mut random = Random::seeded(1201);
    for _ in 0..50_000 {
        let plan = sentence_of(&Answer::Planner(planner_answer(&mut random)));
        let verdict = sentence_of(&Answer::Judge(judge_answer(&mut random)));
        assert!(plan.len() <= LONGEST_OF_PLANNER, "{}", shown(&plan));
        assert!(verdict.len() <= LONGEST_OF_JUDGE, "{}", shown(&verdict));
        for sentence in [plan, verdict] {
            let is_printable = |byte: &u8| (32..127).contains(byte);
            assert!(sentence.iter().all(is_printable), "{}", shown(&sentence));
            assert!(sentence.ends_with(b"."), "{}", shown(&sentence));
        }
    }
}

/// Random answers, of every value alike and mostly small and extreme ones, with any values in
/// fields that no call gives them.
#[test]
fn random_answers() {
    let mut random = Random::seeded(1202);
    let mut tally = Tally::new("sentences, random answers, by kind and whether words go with it");
    for _ in 0..100_000 {
        let answer = answer(&mut random);
        there_and_back(&answer);
        let (kind, number) = match answer {
            Answer::Planner(answer) => (1, answer.number),
            Answer::Judge(answer) => (2, answer.number),
        };
        tally.saw((kind, number <= 20));
    }
    let kinds = [(1, true), (1, false), (2, true), (2, false)];
    tally.assert_common(&kinds, 10_000);
}

/// Every number with words and some without, beside each yes or no; each field alone at its ends.
#[test]
fn every_number_and_the_ends_of_each_field() {
    let ends = [0, 1, 2, 9, 10, 99, 100, 1 << 31, u32::MAX - 1, u32::MAX];
    for number in (0..=40).chain(ends) {
        for yes in (0..=3).chain(ends) {
            there_and_back(&Answer::Judge(JudgeAnswer {
                number,
                yes,
                ..JudgeAnswer::ZERO
            }));
        }
        for end in ends {
            there_and_back(&Answer::Planner(PlannerAnswer {
                number,
                trials: end,
                ..PlannerAnswer::ZERO
            }));
            for slack in [end as i32, (end as i32).wrapping_neg()] {
                let (yes, row) = (number % 2, end);
                let judge = Answer::Judge(JudgeAnswer {
                    number,
                    yes,
                    row,
                    slack,
                });
                there_and_back(&judge);
            }
        }
    }
}

/// Each of the sixty-four places alone, with each number; each row left alone, and all but it.
#[test]
fn every_place_and_every_row_left() {
    for index in 0..64 {
        for number in 1..=255 {
            let mut order = NO_ORDER;
            order[index] = number;
            there_and_back(&Answer::Planner(PlannerAnswer {
                order,
                ..PlannerAnswer::ZERO
            }));
        }
        for left in [1 << index, !(1 << index), u64::MAX >> index] {
            there_and_back(&Answer::Planner(PlannerAnswer {
                left,
                ..PlannerAnswer::ZERO
            }));
        }
    }
}

/// Lent bytes of every length from none to three more than a sentence has: 10 for each that is
/// too short, with every byte as it was (rule 24.9).
#[test]
fn every_room() {
    let mut tally = Tally::new("sentences, every room");
    let cases = examples().into_iter().chain(longest());
    for case in cases {
        let length = case.sentence.len();
        for room in 0..=length + 3 {
            let number = compare_in(&case.answer, room);
            assert_eq!(number == 10, room < length, "{}, {room} bytes", case.what);
            tally.saw(number);
        }
    }
    tally.assert_only(&[0, 10]);
}

/// Every byte of several sentences with every other value, taken out, and with every byte put in
/// before it; every beginning and every end.
#[test]
fn every_change_of_one_byte() {
    let mut tally = Tally::new("sentences, one byte changed, by whether it still is one");
    let absurd = longest().map(|case| case.sentence);
    for sentence in FORMS.iter().copied().chain([absurd[1].as_str()]) {
        let bytes = sentence.as_bytes();
        for at in 0..bytes.len() {
            let mut changed = bytes.to_vec();
            for other in 1..=255 {
                changed[at] = bytes[at].wrapping_add(other);
                tally.saw(compare_reading(&changed));
            }
            changed.remove(at);
            tally.saw(compare_reading(&changed));
            for byte in 0..=255 {
                let longer = [&bytes[..at], &[byte], &bytes[at..]].concat();
                tally.saw(compare_reading(&longer));
            }
            assert!(!compare_reading(&bytes[..at]), "a beginning: {at}");
            assert!(at == 0 || !compare_reading(&bytes[at..]), "an end: {at}");
        }
        for byte in 0..=255 {
            let longer = [bytes, &[byte]].concat();
            assert!(!compare_reading(&longer), "byte {byte} after it");
        }
    }
    tally.assert_common(&[true, false], 100);
}

/// The bytes of the longest sentence, each turned to some other ones that sentences have.
#[test]
fn changes_of_the_longest() {
    let mut tally = Tally::new("sentences, the longest changed, by whether it still is one");
    let [plan, _] = longest();
    let bytes = plan.sentence.as_bytes();
    for at in 0..bytes.len() {
        for &byte in b" 0123456789-,.()s" {
            let mut changed = bytes.to_vec();
            changed[at] = byte;
            tally.saw(compare_reading(&changed));
        }
    }
    tally.assert_common(&[true, false], 100);
}

/// Sentences of random answers with a few changes, and two that are cut and put together.
#[test]
fn damaged_sentences() {
    let mut random = Random::seeded(1203);
    let mut tally = Tally::new("sentences, damaged, by whether they still are some");
    for _ in 0..150_000 {
        let sentence = answer(&mut random).sentence();
        tally.saw(compare_reading(&damaged(&mut random, &sentence)));
    }
    tally.assert_common(&[true, false], 2_000);
    let mut tally = Tally::new("sentences, put together of two, by whether they still are some");
    for _ in 0..100_000 {
        let [first, second] = [(); 2].map(|()| answer(&mut random).sentence());
        let cut = |random: &mut Random, of: &[u8]| random.between(0, of.len() as u32) as usize;
        let (from, to) = (cut(&mut random, &first), cut(&mut random, &second));
        tally.saw(compare_reading(&[&first[..from], &second[to..]].concat()));
        // Both have this many bytes before the cut, so that some fit together.
        let at = from.min(second.len());
        tally.saw(compare_reading(&[&first[..at], &second[at..]].concat()));
    }
    tally.assert_common(&[true, false], 100);
}

/// Bytes that are no text at all, and bytes that sentences have, in any turn.
#[test]
fn any_bytes() {
    let mut random = Random::seeded(1204);
    for round in 0..50_000 {
        let length = random.between(0, 800);
        let byte = |random: &mut Random| match round % 2 {
            0 => random.word() as u8,
            _ => random.one_of(P1_PLANNED.as_bytes()),
        };
        let bytes: Vec<u8> = (0..length).map(|_| byte(&mut random)).collect();
        assert!(!compare_reading(&bytes), "{}", shown(&bytes));
    }
    let far = vec![b' '; 5_000_000];
    assert!(!compare_reading(&far), "5,000,000 spaces");
}

/// A table of a few rows or of up to sixty-four with an order or other numbers; the table is
/// refused by a check now and then.
fn any_table_and_order(random: &mut Random, round: u32) -> (Table, Order) {
    let mut table = match round % 8 {
        0 => large_table(random),
        _ => small_table(random),
    };
    let order = any_order(random, &table, 4);
    if random.once_in(5) {
        spoil_by_several(random, &mut table);
    }
    (table, order)
}

/// The library's answer of a table at this ceiling, in trials, which is the model's or, where
/// that takes too long, that of plain Rust.
fn planned(table: &Table, ceiling: u32) -> PlannerAnswer {
    let of_library = library::plan_within(table, ceiling);
    let paper = match table.n {
        0..=6 => plan_within(table, ceiling),
        _ => at_ceiling(by_both(table), ceiling),
    };
    assert_eq!(of_library, paper, "{ceiling}: {table:?}");
    PlannerAnswer::of(&of_library)
}

/// What the planner and the judge answer of tables, as sentences: the model's, there and back,
/// and of two different answers never the same (rule 24.14).
#[test]
fn answers_of_tables() {
    let mut random = Random::seeded(1205);
    let mut tally = Tally::new("sentences, planner's and judge's answers, by kind and number");
    let mut told: HashMap<Vec<u8>, Answer> = HashMap::new();
    let mut tell = |kind, number, answer: Answer| {
        let sentence = there_and_back(&answer);
        let before = told.insert(sentence, answer);
        assert_eq!(before.unwrap_or(answer), answer, "of another answer");
        tally.saw((kind, number));
    };
    for round in 0..20_000 {
        let (table, order) = any_table_and_order(&mut random, round);
        let most = most_trials(table.n.min(64));
        for ceiling in [most, random.between(0, most)] {
            let answer = planned(&table, ceiling);
            tell(1, answer.number, Answer::Planner(answer));
        }
        let verdict = library::judge(&table, &order);
        assert_eq!(verdict, plain::judge(&table, &order), "{table:?}");
        tell(2, verdict.number, Answer::Judge(JudgeAnswer::of(&verdict)));
    }
    let numbers = [0, 3, 4, 5, 11, 12, 13, 14, 15];
    for number in numbers {
        tally.assert_common(&[(1, number), (2, number)], 20);
    }
    tally.assert_common(&[(1, 7), (1, 19), (2, 6)], 500);
}

/// What the rules show of P1 and P3 (rule 24.8), from the tables on.
#[test]
fn examples_from_their_tables() {
    let p1 = p1();
    let of_65_rows = Table { n: 65, ..p1 };
    let plans = [
        (p1, 6, P1_PLANNED),
        (p1, u32::MAX, P1_PLANNED),
        (p3(), 2, P3_PLANNED),
        (p1, 5, P1_OVER_5),
        (of_65_rows, 6, OF_65_ROWS),
    ];
    for (table, ceiling, sentence) in plans {
        let answer = PlannerAnswer::of(&library::plan_within(&table, ceiling));
        assert_eq!(shown(&there_and_back(&Answer::Planner(answer))), sentence);
    }
    for (rows, sentence) in [
        ([1, 2, 3, 4], P1_CORRECT),
        ([4, 3, 2, 1], P1_NOT_CORRECT),
        ([1, 1, 3, 4], P1_ROW_TWICE),
    ] {
        let verdict = library::judge(&p1, &order_of(&rows));
        let answer = Answer::Judge(JudgeAnswer::of(&verdict));
        assert_eq!(shown(&there_and_back(&answer)), sentence);
    }
}
