//! Verdicts as sentences (section 24 of the rules): the sentences written out by hand, what the
//! planner and the judge answer, there and back, every change of a byte, a second reader that
//! composes, lent bytes of every length, and the longest sentences.

mod common;

use common::{rubbish, table_and_order, SMALL};
use model::cases::sentences::{
    examples, longest, refused_sentences, sentences, ABSURD_PLAN, ABSURD_VERDICT, OF_65_ROWS,
    ONE_BELOW, ONE_OF_EACH, P1_CORRECT, P1_NOT_CORRECT, P1_OVER_5, P1_PLANNED, P1_ROW_TWICE,
    P3_PLANNED, WORDS,
};
use model::cases::{p1, p3};
use model::judge::judge_table;
use model::order::{order_of, NO_ORDER};
use model::plan::{plan_and_trials, plan_within};
use model::random::sentences::{answer, damaged, judge_answer, planner_answer};
use model::random::{table_in, Random};
use model::sentences::{
    compose, read_sentence, Answer, JudgeAnswer, PlannerAnswer, Read, LONGEST_OF_JUDGE,
    LONGEST_OF_PLANNER,
};
use model::table::{Table, ROWS};
use std::collections::{HashMap, HashSet};

/// What the planner answers to a table at a ceiling.
fn planned(table: &Table, ceiling: u32) -> Answer {
    Answer::Planner(PlannerAnswer::of(&plan_within(table, ceiling)))
}

/// What the judge answers to a table with these numbers.
fn judged(table: &Table, numbers: &[u8]) -> Answer {
    Answer::Judge(JudgeAnswer::of(&judge_table(table, &order_of(numbers))))
}

/// Reading the sentence of an answer gives its kind and that very answer, with zeros for the
/// other kind (rules 24.11 and 24.12).
fn assert_comes_back(answer: &Answer) {
    let read = read_sentence(&answer.sentence());
    assert_eq!(read, Read::of(answer), "{answer:?}");
    match *answer {
        Answer::Planner(planner) => {
            assert_eq!((read.number, read.kind, read.planner), (0, 1, planner));
            assert_eq!(read.judge, JudgeAnswer::ZERO);
        }
        Answer::Judge(judge) => {
            assert_eq!((read.number, read.kind, read.judge), (0, 2, judge));
            assert_eq!(read.planner, PlannerAnswer::ZERO);
        }
    }
}

/// Each case as it says; no two have the same name.
#[test]
fn sentences_written_out_by_hand() {
    let mut names = HashSet::new();
    for case in sentences() {
        let sentence = case.answer.sentence();
        assert_eq!(String::from_utf8_lossy(&sentence), case.sentence);
        assert_comes_back(&case.answer);
        assert!(names.insert(case.what.clone()), "{} twice", case.what);
    }
    assert_eq!(examples().len(), 11);
}

/// The examples of rule 24.8 that come from tables.
#[test]
fn what_the_planner_and_the_judge_answer() {
    let says = |answer: Answer, sentence: &str| {
        assert_eq!(String::from_utf8_lossy(&answer.sentence()), sentence);
        assert_comes_back(&answer);
        assert_as_calls_answer(&answer);
    };
    for ceiling in [6, 7, 10, u32::MAX] {
        says(planned(&p1(), ceiling), P1_PLANNED);
    }
    for ceiling in [2, 3, u32::MAX] {
        says(planned(&p3(), ceiling), P3_PLANNED);
    }
    says(planned(&p1(), 5), P1_OVER_5);
    for ceiling in [0, 6, u32::MAX] {
        says(planned(&Table { n: 65, ..p1() }, ceiling), OF_65_ROWS);
    }
    says(judged(&p1(), &[1, 2, 3, 4]), P1_CORRECT);
    says(judged(&p1(), &[4, 3, 2, 1]), P1_NOT_CORRECT);
    says(judged(&p1(), &[1, 1, 3, 4]), P1_ROW_TWICE);
}

/// The words of rule 24.6 have no digit and no minus, and those of a refusal begin alike.
#[test]
fn words_of_the_numbers() {
    for (number, words) in (1..).zip(WORDS) {
        let is_plain = |byte: u8| !byte.is_ascii_digit() && byte != b'-';
        assert!(words.bytes().all(is_plain), "{words}");
        assert_eq!(words.starts_with("refused: "), number != 7, "{words}");
    }
    let numbers = [0, 1, 2, 19, 20, 21, 22, 99, 1 << 31, u32::MAX];
    for number in numbers.into_iter().chain((0..32).map(|bit| 1 << bit)) {
        let answers = [
            Answer::Planner(PlannerAnswer {
                number,
                ..PlannerAnswer::ZERO
            }),
            Answer::Judge(JudgeAnswer {
                number,
                ..JudgeAnswer::ZERO
            }),
        ];
        for answer in answers {
            let sentence = String::from_utf8(answer.sentence()).expect("plain letters");
            let is_without = sentence.contains("a number without a meaning");
            assert_eq!(is_without, number > 20, "{sentence}");
            assert_comes_back(&answer);
        }
    }
}

/// Each field with figures of every length, and about the ends of their ranges.
#[test]
fn figures_of_every_length() {
    let powers = (0..=9).map(|digits| 10u32.pow(digits));
    let near = powers.flat_map(|power| [power - 1, power, power + 1]);
    for figure in near.chain([u32::MAX - 1, u32::MAX, 1 << 31, (1 << 31) - 1]) {
        for (number, trials) in [(0, figure), (figure, 0), (figure, figure)] {
            assert_comes_back(&Answer::Planner(PlannerAnswer {
                number,
                trials,
                ..PlannerAnswer::ZERO
            }));
        }
        for slack in [0, figure as i32, (figure as i32).wrapping_neg()] {
            for (yes, row) in [(0, figure), (figure, 0), (figure, figure)] {
                for number in [0, figure] {
                    assert_comes_back(&Answer::Judge(JudgeAnswer {
                        number,
                        yes,
                        row,
                        slack,
                    }));
                }
            }
        }
    }
}

/// Every number but 0 alone at each place, and the rows of its bits from each row on.
#[test]
fn one_number_and_some_rows() {
    for index in 0..ROWS {
        for held in 1..=255 {
            let mut order = NO_ORDER;
            order[index] = held;
            assert_comes_back(&Answer::Planner(PlannerAnswer {
                left: u64::from(held).rotate_left(index as u32),
                order,
                ..PlannerAnswer::ZERO
            }));
        }
    }
}

/// Random answers of all values, and mostly of small and extreme ones (rule 24.12).
#[test]
fn there_and_back() {
    let mut random = Random::seeded(141);
    let mut kinds = [0; 2];
    let mut numbers = HashSet::new();
    for _ in 0..60_000 {
        let answer = answer(&mut random);
        assert_comes_back(&answer);
        let (kind, number) = match answer {
            Answer::Planner(it) => (0, it.number),
            Answer::Judge(it) => (1, it.number),
        };
        kinds[kind] += 1;
        if number <= 21 {
            numbers.insert((kind, number));
        }
    }
    assert!(kinds.iter().all(|&times| times > 20_000), "{kinds:?}");
    assert_eq!(numbers.len(), 2 * 22);
}

/// Only number 0 comes with an order and only number 7 with rows left (rules 24.4 and 24.5); what
/// the judge refuses has zeros and words that begin with `refused:` (rule 24.7).
fn assert_as_calls_answer(answer: &Answer) {
    match *answer {
        Answer::Planner(plan) => {
            assert_eq!(plan.order != NO_ORDER, plan.number == 0, "{plan:?}");
            assert_eq!(plan.left != 0, plan.number == 7, "{plan:?}");
        }
        Answer::Judge(verdict) => {
            let number = verdict.number;
            let zeros = JudgeAnswer {
                number,
                ..JudgeAnswer::ZERO
            };
            assert!(number == 0 || verdict == zeros, "{verdict:?}");
            let begin = format!("The judge says no (number {number}, refused: ");
            let is_refused = answer.sentence().starts_with(begin.as_bytes());
            assert_eq!(is_refused, number != 0, "{verdict:?}");
        }
    }
}

/// What the planner and the judge answer to random tables comes back; one sentence never tells
/// two answers (rule 24.14).
#[test]
fn answers_to_random_tables_come_back() {
    let mut random = Random::seeded(142);
    let mut told: HashMap<Vec<u8>, Answer> = HashMap::new();
    let mut again = 0;
    for _ in 0..3_000 {
        let (table, order) = table_and_order(&mut random);
        let (_, count) = plan_and_trials(&table);
        let ceiling = random.one_of(&[0, 1, 2, count - 1, count, count + 1, u32::MAX]);
        let mut numbers = order;
        if random.once_in(4) {
            numbers[random.between(0, 4) as usize] = random.between(0, 6) as u8;
        }
        for answer in [planned(&table, ceiling), judged(&table, &numbers)] {
            assert_comes_back(&answer);
            assert_as_calls_answer(&answer);
            if let Some(other) = told.insert(answer.sentence(), answer) {
                assert_eq!(other, answer);
                again += 1;
            }
        }
    }
    println!("{} sentences, {again} times one of them again", told.len());
    assert!(told.len() > 500 && again > 1_000);
}

/// Answers of a few small values, so that many come up again: no two have one sentence (rule
/// 24.14).
#[test]
fn no_two_alike() {
    let mut random = Random::seeded(143);
    let mut told: HashMap<Vec<u8>, Answer> = HashMap::new();
    for _ in 0..40_000 {
        let mut small = || random.between(0, 2);
        let answer = match small() {
            0 => Answer::Judge(JudgeAnswer {
                number: small(),
                yes: small(),
                row: small(),
                slack: small() as i32 - 1,
            }),
            _ => Answer::Planner(PlannerAnswer {
                number: small(),
                left: u64::from(small()),
                order: order_of(&[small() as u8, small() as u8, small() as u8]),
                trials: small(),
            }),
        };
        let other = told.insert(answer.sentence(), answer);
        assert!(other.is_none_or(|other| other == answer), "{answer:?}");
    }
    // Of the judge 3 × 3 × 3 × 3, of the planner 3 × 3 × 27 × 3.
    assert_eq!(told.len(), 81 + 729);
}

/// Every run of digits in these bytes as a number, or none if one has more than nineteen.
fn figures(bytes: &[u8]) -> Option<Vec<u64>> {
    let runs = bytes.split(|byte| !byte.is_ascii_digit());
    let runs = runs.filter(|digits| !digits.is_empty());
    let figure = |digits: &[u8]| match digits.len() {
        1..=19 => String::from_utf8_lossy(digits).parse().ok(),
        _ => None,
    };
    runs.map(figure).collect()
}

/// The planner's answer that has the figures of these bytes, whatever stands between them.
fn planner_by_figures(bytes: &[u8]) -> Option<PlannerAnswer> {
    let mut figures = figures(bytes)?.into_iter();
    let number = u32::try_from(figures.next()?).ok()?;
    let trials = u32::try_from(figures.next()?).ok()?;
    let mut order = NO_ORDER;
    for index in 0..figures.next()? as usize {
        *order.get_mut(index)? = u8::try_from(figures.next()?).ok()?;
    }
    figures.next()?;
    let mut left = 0;
    for row in figures {
        left |= 1u64.checked_shl(u32::try_from(row.checked_sub(1)?).ok()?)?;
    }
    Some(PlannerAnswer {
        number,
        left,
        order,
        trials,
    })
}

/// The judge's answer that has the figures of these bytes, whatever stands between them.
fn judge_by_figures(bytes: &[u8]) -> Option<JudgeAnswer> {
    let mut figures = figures(bytes)?.into_iter();
    let mut figure = || u32::try_from(figures.next()?).ok();
    let yes = match bytes {
        _ if bytes.starts_with(b"The judge says yes") => 1,
        _ if bytes.starts_with(b"The judge says no") => 0,
        _ => figure()?,
    };
    let (number, row, size) = (figure()?, figure()?, i64::from(figure()?));
    let sign = if bytes.contains(&b'-') { -1 } else { 1 };
    Some(JudgeAnswer {
        number,
        yes,
        row,
        slack: i32::try_from(sign * size).ok()?,
    })
}

/// The reader in another way: bytes are a sentence if they are that of the answer which has
/// their figures (rule 24.11).
fn read_by_composing(bytes: &[u8]) -> Read {
    let planner = planner_by_figures(bytes).map(Answer::Planner);
    let judge = judge_by_figures(bytes).map(Answer::Judge);
    let mut answers = planner.into_iter().chain(judge);
    let own = answers.find(|answer| answer.sentence() == bytes);
    own.map_or(Read::REFUSED, |answer| Read::of(&answer))
}

/// The reader refuses these bytes with zeros, or they are the sentence of the answer that it
/// reads (rules 24.11 and 24.13); a reader that composes says the same. Gives whether they are
/// a sentence.
fn is_read(bytes: &[u8]) -> bool {
    let read = read_sentence(bytes);
    let text = String::from_utf8_lossy(bytes);
    assert_eq!(read, read_by_composing(bytes), "{text}");
    match read.answer() {
        Some(answer) => {
            assert_eq!(answer.sentence(), bytes, "{text}");
            assert_eq!(read, Read::of(&answer), "{text}");
            true
        }
        None => {
            assert_eq!(read, Read::REFUSED, "{text}");
            false
        }
    }
}

/// Each is refused with 2, kind 0 and zeros; no two have the same name.
#[test]
fn bytes_that_are_no_sentence() {
    let mut names = HashSet::new();
    for case in refused_sentences() {
        assert!(!is_read(&case.bytes), "{}", case.what);
        assert!(names.insert(case.what), "{} twice", case.what);
    }
    assert_eq!(Read::REFUSED.number, 2);
    assert_eq!(Read::REFUSED.kind, 0);
    let zeros = PlannerAnswer {
        number: 0,
        left: 0,
        order: [0; ROWS],
        trials: 0,
    };
    assert_eq!(Read::REFUSED.planner, zeros);
    assert_eq!(Read::REFUSED.judge, JudgeAnswer::ZERO);
    for length in 0..200 {
        assert!(!is_read(&rubbish(length)));
        assert!(!is_read(&b"The planner ".repeat(length)));
    }
}

/// The example of rule 10.2: two spaces where one stands, anywhere in any of the sentences.
#[test]
fn a_second_space_anywhere() {
    for case in sentences() {
        for (at, _) in case.sentence.match_indices(' ') {
            let (before, after) = case.sentence.split_at(at);
            assert!(!is_read(format!("{before} {after}").as_bytes()));
        }
    }
}

/// How many of the one-byte changes, of the insertions and of the deletions of a byte make
/// another sentence of this one.
fn other_sentences(sentence: &[u8]) -> [usize; 3] {
    let (mut changed, mut longer, mut shorter) = (0, 0, 0);
    for at in 0..=sentence.len() {
        let (before, after) = sentence.split_at(at);
        for byte in 0..=255 {
            longer += usize::from(is_read(&[before, &[byte], after].concat()));
        }
        let Some((&old, after)) = after.split_first() else {
            break;
        };
        shorter += usize::from(is_read(&[before, after].concat()));
        for byte in (0..=255).filter(|&byte| byte != old) {
            changed += usize::from(is_read(&[before, &[byte], after].concat()));
        }
    }
    [changed, longer, shorter]
}

/// All 255 other values of each byte, all bytes put in anywhere, and each byte taken out. How
/// many of them are sentences is counted by hand.
#[test]
fn every_change_of_a_byte_of_plans() {
    // Other trials: 0, 2 to 5, 7 to 9, and two digits; another order, its last number not 0.
    let [trials, order] = [[8, 9 + 10], [9 + 9 + 9 + 8, 4 * (9 + 10)]];
    let expected = [trials[0] + order[0], trials[1] + order[1], 0];
    assert_eq!(other_sentences(P1_PLANNED.as_bytes()), expected);
    // Other trials: 0, 3 to 9. A last row from 3 to 9, or of two digits: 12, 20 to 29, 32, 42, 52
    // and 62; 22 comes up twice.
    let expected = [8 + 7, 19 + 6 + 10, 0];
    assert_eq!(other_sentences(P3_PLANNED.as_bytes()), expected);
    // The number: 1, 2 or 3 for its first digit, 1 or 2 for the second, any for the others; no
    // digit more, and a zero less.
    let number = [3 + 2 + 8 * 9, 0, 9];
    // The order: any digit for 0 or before it; 155, 205 to 245 and 250 to 254 for 255, or one
    // of its digits less.
    let order = [9 + 9 + 1 + 5 + 5, 9 + 9, 3];
    // The rows: 2 to 9, 11 to 61 and 10 to 19 for 1; 14 to 54, 60 to 63, 6 and 4 for 64.
    let rows = [8 + 5 + 4, 6 + 10, 2];
    let expected = [0, 1, 2].map(|of| number[of] + order[of] + rows[of]);
    assert_eq!(other_sentences(ABSURD_PLAN.as_bytes()), expected);
    // No other trials, for their noun would take an s. In the order 2 to 9 for 1, and two digits;
    // left 1 and 3 to 9 for 2, 12 to 62 and 20 to 29.
    let expected = [8 + 8, 9 + 10 + 6 + 10, 0];
    assert_eq!(other_sentences(ONE_OF_EACH.as_bytes()), expected);
}

#[test]
fn every_change_of_a_byte_of_verdicts() {
    // Another row; slacks from 2 to 9, and from 10 to 90.
    let expected = [9 + 8, 19 + 9, 0];
    assert_eq!(other_sentences(P1_CORRECT.as_bytes()), expected);
    // Another row; slacks from 110 to 910, -20 to -90 and -11 to -19; a digit more; no minus.
    let expected = [9 + 9 + 8 + 9, 19 + 9 + 10 + 10, 1];
    assert_eq!(other_sentences(P1_NOT_CORRECT.as_bytes()), expected);
    // Another row than 0; slacks as before.
    let expected = [9 + 8, 9 + 9, 0];
    assert_eq!(other_sentences(P1_ROW_TWICE.as_bytes()), expected);
    // Another row: 14 to 94 and 60 to 69, a digit more, 4 and 6. No other slack but 1, without the
    // minus, for the noun would take an s.
    let expected = [8 + 9, 9 + 10 + 10, 2 + 1];
    assert_eq!(other_sentences(ONE_BELOW.as_bytes()), expected);
    for case in [ABSURD_VERDICT, &longest()[1].sentence] {
        let [changed, longer, shorter] = other_sentences(case.as_bytes());
        println!("{changed} changed, {longer} longer, {shorter} shorter: {case}");
        assert!(changed > 50 && shorter > 10, "{case}");
    }
}

/// Every byte of the longest plan changed to each other value, and each byte taken out.
#[test]
fn every_change_of_a_byte_of_the_longest_plan() {
    let sentence = longest()[0].sentence.clone().into_bytes();
    let read = |bytes: &[u8]| match read_sentence(bytes).answer() {
        Some(answer) => {
            assert_eq!(answer.sentence(), bytes);
            1
        }
        None => {
            assert_eq!(read_sentence(bytes), Read::REFUSED);
            0
        }
    };
    let (mut changed, mut shorter) = (0, 0);
    for at in 0..sentence.len() {
        let mut other = sentence.clone();
        for byte in (0..=255).filter(|&byte| byte != sentence[at]) {
            other[at] = byte;
            changed += read(&other);
        }
        other.remove(at);
        shorter += read(&other);
    }
    // The trials: each digit lower, the first of them not 0; each number of the order: 155, 205 to
    // 245, 250 to 254. Taken out: any digit of the trials and of the order.
    let trials = 3 + 2 + 9 + 4 + 9 + 6 + 7 + 2 + 9 + 5;
    assert_eq!(changed, trials + 64 * (1 + 5 + 5));
    assert_eq!(shorter, 10 + 64 * 3);
}

/// Damaged sentences of random answers: refused, or another answer's (rule 24.13).
#[test]
fn damaged_sentences() {
    let mut random = Random::seeded(144);
    let mut seen = [0; 2];
    for _ in 0..60_000 {
        let sentence = answer(&mut random).sentence();
        let bytes = damaged(&mut random, &sentence);
        if bytes != sentence {
            seen[usize::from(is_read(&bytes))] += 1;
        }
    }
    println!("refused and read: {seen:?}");
    assert!(seen.iter().all(|&times| times > 5_000), "{seen:?}");
}

/// The start of one sentence with the end of another, at each pair of places where either may
/// be cut.
#[test]
fn sentences_put_together() {
    let texts = [P1_PLANNED, P3_PLANNED, P1_CORRECT, P1_NOT_CORRECT];
    let mut seen = [0; 2];
    for first in texts {
        for second in texts {
            for from in 0..=first.len() {
                for to in 0..=second.len() {
                    let bytes = [&first.as_bytes()[..from], &second.as_bytes()[to..]].concat();
                    if bytes != first.as_bytes() && bytes != second.as_bytes() {
                        seen[usize::from(is_read(&bytes))] += 1;
                    }
                }
            }
        }
    }
    println!("refused and read: {seen:?}");
    assert!(seen[0] > 100_000 && seen[1] > 10, "{seen:?}");
}

/// Composes into so many bytes: 10 exactly if the sentence has more, and all other bytes stay
/// (rule 24.9).
fn assert_composed(answer: &Answer, room: usize) {
    let sentence = answer.sentence();
    let before = rubbish(room);
    let mut lent = before.clone();
    let told = compose(answer, &mut lent);
    if room < sentence.len() {
        assert_eq!((told, lent), ((10, 0), before), "{room} bytes");
    } else {
        assert_eq!(told, (0, sentence.len() as u32), "{room} bytes");
        let (text, after) = lent.split_at(sentence.len());
        assert_eq!(text, sentence, "{room} bytes");
        assert_eq!(after, &before[sentence.len()..], "{room} bytes");
    }
}

/// The example of rule 10.10.
#[test]
fn a_byte_less_than_the_sentence_of_p1() {
    let (plan, mut lent) = (planned(&p1(), 6), [165; 122]);
    assert_eq!(compose(&plan, &mut lent[..120]), (10, 0));
    assert_eq!(lent, [165; 122]);
    assert_eq!(compose(&plan, &mut lent[..121]), (0, 121));
    assert_eq!((&lent[..121], lent[121]), (P1_PLANNED.as_bytes(), 165));
    assert_eq!(compose(&plan, &mut []), (10, 0));
}

#[test]
fn lent_bytes_of_every_length() {
    for case in examples().iter().chain(&longest()) {
        for room in 0..=case.sentence.len() + 70 {
            assert_composed(&case.answer, room);
        }
        assert_composed(&case.answer, 2 * LONGEST_OF_PLANNER);
    }
    for case in sentences() {
        let length = case.sentence.len();
        for room in [0, 1, length - 1, length, length + 1, LONGEST_OF_PLANNER] {
            assert_composed(&case.answer, room);
        }
    }
    let mut random = Random::seeded(145);
    for _ in 0..5_000 {
        let answer = answer(&mut random);
        let length = answer.sentence().len() as u32;
        let about = random.between(length - 2, length + 2);
        assert_composed(&answer, about as usize);
        assert_composed(&answer, LONGEST_OF_PLANNER);
    }
}

/// What stood in the lent bytes before makes no difference.
#[test]
fn over_other_sentences() {
    let mut random = Random::seeded(146);
    for _ in 0..5_000 {
        let [before, after] = [answer(&mut random), answer(&mut random)];
        let mut lent = vec![b'.'; LONGEST_OF_PLANNER];
        let (_, first) = compose(&before, &mut lent);
        let (number, second) = compose(&after, &mut lent);
        assert_eq!(
            (number, &lent[..second as usize]),
            (0, &after.sentence()[..])
        );
        if first > second {
            let rest = second as usize..first as usize;
            assert_eq!(lent[rest.clone()], before.sentence()[rest]);
        }
    }
}

/// No sentence has more than 739 bytes, and no judge's more than 177 (rule 24.10). How long each
/// part is depends on no other part, but for the yes or no and its words.
#[test]
fn the_longest_sentences() {
    let lengths = longest().map(|case| case.answer.sentence().len());
    assert_eq!(lengths, [739, 177]);
    assert_eq!([LONGEST_OF_PLANNER, LONGEST_OF_JUDGE], lengths);
    let numbers = || (0..=21).chain([u32::MAX]);
    let mut most = [0; 2];
    for number in numbers() {
        for count in 0..=64 {
            let mut order = NO_ORDER;
            order[..count].fill(255);
            let left = u64::MAX.checked_shl(64 - count as u32).unwrap_or(0);
            for (order, left) in [(order, u64::MAX), ([255; ROWS], left)] {
                let planner = PlannerAnswer {
                    number,
                    left,
                    order,
                    trials: u32::MAX,
                };
                most[0] = planner.sentence().len().max(most[0]);
            }
        }
        for yes in [0, 1, 2, 9, u32::MAX] {
            for slack in [i32::MIN, -1, 0, 1, i32::MAX] {
                let judge = JudgeAnswer {
                    number,
                    yes,
                    row: u32::MAX,
                    slack,
                };
                most[1] = judge.sentence().len().max(most[1]);
            }
        }
    }
    assert_eq!(most, lengths);
    let mut random = Random::seeded(147);
    for _ in 0..20_000 {
        assert!(planner_answer(&mut random).sentence().len() <= 739);
        assert!(judge_answer(&mut random).sentence().len() <= 177);
    }
    for _ in 0..2_000 {
        let table = table_in(&mut random, SMALL);
        assert!(planned(&table, u32::MAX).sentence().len() <= 739);
    }
}
