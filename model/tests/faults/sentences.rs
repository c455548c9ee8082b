//! Faults of sentences (rules 14.50 to 14.53), of their reader (rules 14.54 to 14.56) and some
//! more, the smallest answers that share a faulty sentence, and the cases and random bytes that
//! tell them.

use model::cases::sentences::{
    examples, refused_sentences, sentences, P1_CORRECT, P1_NOT_CORRECT, P1_PLANNED,
};
use model::order::order_of;
use model::random::sentences::{answer as any_answer, damaged};
use model::random::Random;
use model::sentences::{
    compose, read_sentence, Answer, JudgeAnswer, PlannerAnswer, Read, LONGEST_OF_PLANNER,
};

/// Sentences with a fault.
struct Faulty {
    name: &'static str,
    sentence: fn(&Answer) -> String,
    /// The first case written out by hand that tells it.
    told_by: &'static str,
}

/// A reader of sentences with a fault.
struct FaultyReader {
    name: &'static str,
    read: fn(&[u8]) -> Read,
    /// The first case written out by hand that tells it.
    told_by: &'static str,
}

/// A composer with a fault.
struct FaultyComposer {
    name: &'static str,
    compose: fn(&Answer, &mut [u8]) -> (u32, u32),
    /// The fewest lent bytes with which P1's plan tells it.
    told_by: usize,
}

/// The true sentence.
fn text(answer: &Answer) -> String {
    String::from_utf8(answer.sentence()).expect("plain letters")
}

/// The true sentence of a planner's answer with other fields.
fn for_plan(answer: &Answer, other: impl Fn(&mut PlannerAnswer)) -> String {
    let mut answer = *answer;
    if let Answer::Planner(plan) = &mut answer {
        other(plan);
    }
    text(&answer)
}

/// The true sentence of a judge's answer with other fields.
fn for_verdict(answer: &Answer, other: impl Fn(&mut JudgeAnswer)) -> String {
    let mut answer = *answer;
    if let Answer::Judge(verdict) = &mut answer {
        other(verdict);
    }
    text(&answer)
}

/// The nouns that figures have.
const NOUNS: [&str; 3] = ["trial", "row", "slot"];

/// The words before a list, and what the list begins with.
type ListOf = [&'static str; 2];
const IN_ORDER: ListOf = [" in the order", " (highest first: "];
const ROWS_LEFT: ListOf = [" left", " ("];

/// What stands before a list and its words, the numbers in it, and what stands after it; none if
/// some number has a leading zero.
fn listed(text: &str, of: ListOf) -> Option<(&str, Vec<u32>, &str)> {
    let (head, rest) = text.split_once(&of.concat())?;
    let (figures, tail) = rest.split_once(')')?;
    let numbers: Result<Vec<u32>, _> = figures.split(", ").map(str::parse).collect();
    let numbers = numbers.ok()?;
    let is_plain = text == format!("{head}{}{tail}", list(&numbers, of));
    is_plain.then_some((head, numbers, tail))
}

/// The words before a list, and the list.
fn list(numbers: &[u32], [words, begin]: ListOf) -> String {
    if numbers.is_empty() {
        return words.to_string();
    }
    let figures: Vec<String> = numbers.iter().map(u32::to_string).collect();
    format!("{words}{begin}{})", figures.join(", "))
}

/// The text with another list, if it has one.
fn relisted(text: &str, of: ListOf, change: impl Fn(&mut Vec<u32>)) -> String {
    let Some((head, mut numbers, tail)) = listed(text, of) else {
        return text.to_string();
    };
    change(&mut numbers);
    format!("{head}{}{tail}", list(&numbers, of))
}

/// The same, with the count of the list before its noun, whatever count stood there.
fn recounted(text: &str, of: ListOf, change: impl Fn(&mut Vec<u32>)) -> String {
    let Some((head, mut numbers, tail)) = listed(text, of) else {
        return text.to_string();
    };
    change(&mut numbers);
    let mut words = head.rsplitn(3, ' ');
    let before = words.nth(2).unwrap_or("");
    let s = if numbers.len() == 1 { "" } else { "s" };
    let count = format!("{} row{s}", numbers.len());
    format!("{before} {count}{}{tail}", list(&numbers, of))
}

/// The text with another figure in the place of each run of digits.
fn refigured(text: &str, other: impl Fn(&str) -> String) -> String {
    let mut refigured = String::new();
    let mut rest = text;
    while let Some(at) = rest.find(|it: char| it.is_ascii_digit()) {
        let (before, from) = rest.split_at(at);
        let end = from.find(|it: char| !it.is_ascii_digit());
        let (figure, after) = from.split_at(end.unwrap_or(from.len()));
        refigured += before;
        refigured += &other(figure);
        rest = after;
    }
    refigured + rest
}

/// What stands before the words of a number, the words, and what stands after them.
fn worded(text: &str) -> Option<(&str, &str, &str)> {
    let (head, tail) = text.split_once("):")?;
    let number = head.rfind(|it: char| it.is_ascii_digit())? + 1;
    let begin = number + head[number..].find(|it: char| it.is_ascii_lowercase())?;
    Some((&head[..begin], &head[begin..], tail))
}

const TRIALS_LEFT_OUT: Faulty = Faulty {
    name: "no trials (rule 14.50)",
    sentence: |answer| match answer {
        Answer::Planner(_) => {
            let text = text(answer);
            let (head, rest) = text.split_once("): ").expect("the end of the words");
            let (_, rest) = rest.split_once(", ").expect("the end of the trials");
            format!("{head}): {rest}")
        }
        Answer::Judge(_) => text(answer),
    },
    told_by: "P1 planned",
};

const ROWS_AS_A_COUNT: Faulty = Faulty {
    name: "rows left as a count (rule 14.51)",
    sentence: |answer| relisted(&text(answer), ROWS_LEFT, Vec::clear),
    told_by: "P3 planned",
};

const SLACK_WITHOUT_SIGN: Faulty = Faulty {
    name: "a slack without its sign (rule 14.52)",
    sentence: |answer| text(answer).replace('-', ""),
    told_by: "another order of P1",
};

const ORDER_CUT: Faulty = Faulty {
    name: "an order cut at its first zero (rule 14.53)",
    sentence: |answer| {
        for_plan(answer, |plan| {
            let zero = plan.order.iter().position(|&held| held == 0);
            plan.order[zero.unwrap_or(64)..].fill(0);
        })
    },
    told_by: "a plan that no call answers",
};

/// The faults of rules 14.50 to 14.53.
const OF_THE_RULES: [&Faulty; 4] = [
    &TRIALS_LEFT_OUT,
    &ROWS_AS_A_COUNT,
    &SLACK_WITHOUT_SIGN,
    &ORDER_CUT,
];

/// Faults of sentences that no rule names.
const MORE: &[Faulty] = &[
    Faulty {
        name: "1 takes an s",
        sentence: |answer| {
            let with_s = |text: String, noun| {
                let [one, ones] = [format!(" 1 {noun}"), format!(" 1 {noun}s")];
                text.replace(&one, &ones)
            };
            NOUNS.into_iter().fold(text(answer), with_s)
        },
        told_by: "a plan that no call answers",
    },
    Faulty {
        name: "0 takes no s",
        sentence: |answer| {
            let without = |text: String, noun| {
                let [nones, none] = [format!(" 0 {noun}s"), format!(" 0 {noun}")];
                text.replace(&nones, &none)
            };
            NOUNS.into_iter().fold(text(answer), without)
        },
        told_by: "P1 planned",
    },
    Faulty {
        name: "-1 takes an s",
        sentence: |answer| text(answer).replace("-1 slot.", "-1 slots."),
        told_by: "one slot below",
    },
    Faulty {
        name: "a line end",
        sentence: |answer| text(answer) + "\n",
        told_by: "P1 planned",
    },
    Faulty {
        name: "zeros are left out of the list",
        sentence: |answer| relisted(&text(answer), IN_ORDER, |order| order.retain(|&it| it != 0)),
        told_by: "a plan that no call answers",
    },
    Faulty {
        name: "zeros are left out of the list and of the count",
        sentence: |answer| {
            recounted(&text(answer), IN_ORDER, |order| {
                order.retain(|&held| held != 0);
            })
        },
        told_by: "a plan that no call answers",
    },
    Faulty {
        name: "all sixty-four numbers",
        sentence: |answer| {
            recounted(&text(answer), IN_ORDER, |order| {
                order.resize(64, 0);
            })
        },
        told_by: "P1 planned",
    },
    Faulty {
        name: "the lowest place first",
        sentence: |answer| relisted(&text(answer), IN_ORDER, |order| order.reverse()),
        told_by: "P1 planned",
    },
    Faulty {
        name: "the highest row left first",
        sentence: |answer| relisted(&text(answer), ROWS_LEFT, |rows| rows.reverse()),
        told_by: "P3 planned",
    },
    Faulty {
        name: "rows left count from 0",
        sentence: |answer| {
            relisted(&text(answer), ROWS_LEFT, |rows| {
                rows.iter_mut().for_each(|row| *row -= 1);
            })
        },
        told_by: "P3 planned",
    },
    Faulty {
        name: "rows left above 32 are lost",
        sentence: |answer| for_plan(answer, |plan| plan.left &= u64::from(u32::MAX)),
        told_by: "a plan that no call answers",
    },
    Faulty {
        name: "figures are signed",
        sentence: |answer| {
            refigured(&text(answer), |figure| {
                let value: u32 = figure.parse().expect("no figure is larger");
                (value as i32).to_string()
            })
        },
        told_by: "a plan that no call answers",
    },
    Faulty {
        name: "the words of the last byte of the number",
        sentence: |answer| {
            let (own, of_byte) = (
                text(answer),
                match answer {
                    Answer::Planner(_) => for_plan(answer, |plan| plan.number &= 0xff),
                    Answer::Judge(_) => for_verdict(answer, |verdict| verdict.number &= 0xff),
                },
            );
            let (head, _, tail) = worded(&own).expect("words");
            let (_, words, _) = worded(&of_byte).expect("words");
            format!("{head}{words}):{tail}")
        },
        told_by: "a plan that no call answers",
    },
    Faulty {
        name: "trials above 2,080 are told as 2,080",
        sentence: |answer| for_plan(answer, |plan| plan.trials = plan.trials.min(2_080)),
        told_by: "4,294,967,295 trials",
    },
    Faulty {
        name: "any value but 0 is a yes",
        sentence: |answer| for_verdict(answer, |verdict| verdict.yes = verdict.yes.min(1)),
        told_by: "a verdict that no call answers",
    },
    Faulty {
        name: "words of 0 that do not tell yes from no",
        sentence: |answer| text(answer).replace("is not correct)", "is correct)"),
        told_by: "another order of P1",
    },
    Faulty {
        name: "the planner's words of 0 from the judge",
        sentence: |answer| text(answer).replace("the order is correct", "an order was made"),
        told_by: "a correct order of P1",
    },
    Faulty {
        name: "a refusal says no, row 0 and slack 0 whatever it has",
        sentence: |answer| {
            for_verdict(answer, |verdict| {
                if verdict.number != 0 {
                    let number = verdict.number;
                    *verdict = JudgeAnswer {
                        number,
                        ..JudgeAnswer::ZERO
                    };
                }
            })
        },
        told_by: "the longest verdict",
    },
    Faulty {
        name: "the least slack keeps its sign and gets another",
        sentence: |answer| text(answer).replace("-2147483648", "--2147483648"),
        told_by: "a verdict that no call answers",
    },
    Faulty {
        name: "the tightest row as a byte",
        sentence: |answer| for_verdict(answer, |verdict| verdict.row &= 0xff),
        told_by: "a verdict that no call answers",
    },
];

/// The reader that makes another text of what it would refuse and reads that.
fn repaired(bytes: &[u8], repair: impl Fn(&str) -> String) -> Read {
    let truth = read_sentence(bytes);
    match std::str::from_utf8(bytes) {
        Ok(text) if truth.number != 0 => read_sentence(repair(text).as_bytes()),
        _ => truth,
    }
}

/// The reader that refuses the plans of which this is so.
fn refusing_plans(bytes: &[u8], is_so: impl Fn(&PlannerAnswer) -> bool) -> Read {
    match read_sentence(bytes) {
        read if read.kind == 1 && is_so(&read.planner) => Read::REFUSED,
        read => read,
    }
}

/// The reader that refuses the verdicts of which this is so.
fn refusing_verdicts(bytes: &[u8], is_so: impl Fn(&JudgeAnswer) -> bool) -> Read {
    match read_sentence(bytes) {
        read if read.kind == 2 && is_so(&read.judge) => Read::REFUSED,
        read => read,
    }
}

/// The bytes up to the first full stop.
fn up_to_the_stop(bytes: &[u8]) -> &[u8] {
    let stop = bytes.iter().position(|&byte| byte == b'.');
    &bytes[..stop.map_or(bytes.len(), |at| at + 1)]
}

const TWO_SPACES: FaultyReader = FaultyReader {
    name: "two spaces (rule 14.54)",
    read: |bytes| repaired(bytes, |text| text.replace("  ", " ")),
    told_by: "a second space",
};

const WHAT_FOLLOWS: FaultyReader = FaultyReader {
    name: "what follows is ignored (rule 14.55)",
    read: |bytes| read_sentence(up_to_the_stop(bytes)),
    told_by: "byte 10 after it",
};

const JUDGE_AS_PLANNER: FaultyReader = FaultyReader {
    name: "the judge read as the planner (rule 14.56)",
    read: |bytes| match read_sentence(bytes) {
        read if read.kind == 2 => Read::of(&Answer::Planner(PlannerAnswer {
            number: read.judge.number,
            ..PlannerAnswer::ZERO
        })),
        read => read,
    },
    told_by: "a correct order of P1",
};

/// The faults of rules 14.54 to 14.56.
const READERS_OF_THE_RULES: [&FaultyReader; 3] = [&TWO_SPACES, &WHAT_FOLLOWS, &JUDGE_AS_PLANNER];

/// Faults of a reader that no rule names: first what is taken.
const TAKING: &[FaultyReader] = &[
    FaultyReader {
        name: "planner for judge",
        read: |bytes| repaired(bytes, |text| text.replace("planner", "judge")),
        told_by: "planner for judge",
    },
    FaultyReader {
        name: "a line end after it",
        read: |bytes| repaired(bytes, |text| text.trim_end_matches('\n').to_string()),
        told_by: "byte 10 after it",
    },
    FaultyReader {
        name: "no full stop",
        read: |bytes| repaired(bytes, |text| text.to_string() + "."),
        told_by: "no full stop",
    },
    FaultyReader {
        name: "leading zeros",
        read: |bytes| {
            repaired(bytes, |text| {
                refigured(text, |figure| match figure.trim_start_matches('0') {
                    "" => "0".to_string(),
                    digits => digits.to_string(),
                })
            })
        },
        told_by: "a leading zero",
    },
    FaultyReader {
        name: "figures that wrap at 32 bits",
        read: |bytes| {
            repaired(bytes, |text| {
                refigured(text, |figure| match figure.parse::<u128>() {
                    Ok(value) if value > u128::from(u32::MAX) => (value as u32).to_string(),
                    _ => figure.to_string(),
                })
            })
        },
        told_by: "number 4,294,967,296",
    },
    FaultyReader {
        name: "figures that stop at the largest",
        read: |bytes| {
            repaired(bytes, |text| {
                refigured(text, |figure| match figure.parse::<u32>() {
                    Ok(_) => figure.to_string(),
                    Err(_) => u32::MAX.to_string(),
                })
            })
        },
        told_by: "number 4,294,967,296 without a meaning",
    },
    FaultyReader {
        name: "numbers of the order that wrap at 256",
        read: |bytes| {
            repaired(bytes, |text| {
                relisted(text, IN_ORDER, |order| {
                    order.iter_mut().for_each(|held| *held %= 256);
                })
            })
        },
        told_by: "a 256 in the order",
    },
    FaultyReader {
        name: "an s after 1",
        read: |bytes| {
            repaired(bytes, |text| {
                let without = |text: String, noun| {
                    let [ones, one] = [format!("1 {noun}s"), format!("1 {noun}")];
                    text.replace(&ones, &one)
                };
                NOUNS.into_iter().fold(text.to_string(), without)
            })
        },
        told_by: "1 trials",
    },
    FaultyReader {
        name: "no s after other figures than 1",
        read: |bytes| {
            repaired(bytes, |text| {
                text.replace("trial,", "trials,").replace("slot.", "slots.")
            })
        },
        told_by: "slack -10 slot",
    },
    FaultyReader {
        name: "another number's words",
        read: |bytes| {
            repaired(bytes, |text| {
                let Some((head, _, tail)) = worded(text) else {
                    return text.to_string();
                };
                let number = head.split(' ').find_map(|figure| figure.parse().ok());
                let zeros = Answer::Planner(PlannerAnswer::ZERO);
                let own = for_plan(&zeros, |plan| plan.number = number.unwrap_or(0));
                let (_, words, _) = worded(&own).expect("words");
                format!("{head}{words}):{tail}")
            })
        },
        told_by: "words of 7",
    },
    FaultyReader {
        name: "any count of rows in the order",
        read: |bytes| repaired(bytes, |text| recounted(text, IN_ORDER, |_| {})),
        told_by: "a row more in the order than is listed",
    },
    FaultyReader {
        name: "a last 0 in the order",
        read: |bytes| {
            repaired(bytes, |text| match listed(text, IN_ORDER) {
                Some((_, order, _)) if order.last() == Some(&0) => {
                    recounted(text, IN_ORDER, |order| {
                        let last = order.iter().rposition(|&held| held != 0);
                        order.truncate(last.map_or(0, |at| at + 1));
                    })
                }
                _ => text.to_string(),
            })
        },
        told_by: "a last 0 in the order",
    },
    FaultyReader {
        name: "any count of rows left",
        read: |bytes| repaired(bytes, |text| recounted(text, ROWS_LEFT, |_| {})),
        told_by: "a row fewer left than is listed",
    },
    FaultyReader {
        name: "rows left in any sequence",
        read: |bytes| {
            repaired(bytes, |text| {
                relisted(text, ROWS_LEFT, |rows| rows.sort_unstable())
            })
        },
        told_by: "rows the other way round",
    },
    FaultyReader {
        name: "a row left twice",
        read: |bytes| repaired(bytes, |text| recounted(text, ROWS_LEFT, Vec::dedup)),
        told_by: "one row twice",
    },
    FaultyReader {
        name: "rows left from 65 on",
        read: |bytes| {
            repaired(bytes, |text| {
                recounted(text, ROWS_LEFT, |rows| rows.retain(|&row| row <= 64))
            })
        },
        told_by: "row 65",
    },
    FaultyReader {
        name: "row 0 left",
        read: |bytes| {
            repaired(bytes, |text| {
                recounted(text, ROWS_LEFT, |rows| rows.retain(|&row| row != 0))
            })
        },
        told_by: "a row fewer left than is listed",
    },
    FaultyReader {
        name: "a minus before 0",
        read: |bytes| repaired(bytes, |text| text.replace("slack -0 ", "slack 0 ")),
        told_by: "slack -0 slots",
    },
    FaultyReader {
        name: "a slack that wraps",
        read: |bytes| {
            repaired(bytes, |text| {
                let other = text.replace("slack 2147483648 ", "slack -2147483648 ");
                other.replace("slack -2147483649 ", "slack 2147483647 ")
            })
        },
        told_by: "slack 2,147,483,648",
    },
    FaultyReader {
        name: "1 for yes and 0 for no",
        read: |bytes| {
            repaired(bytes, |text| {
                let words = ", neither yes nor no (number 0, an order was judged)";
                let yes = "yes (number 0, the order is correct)";
                let no = "no (number 0, the order is not correct)";
                text.replace(&format!("1{words}"), yes)
                    .replace(&format!("0{words}"), no)
            })
        },
        told_by: "says 1",
    },
];

/// Then what is refused or answered otherwise.
const ANSWERING: &[FaultyReader] = &[
    FaultyReader {
        name: "numbers without a meaning are refused",
        read: |bytes| refusing_plans(bytes, |plan| plan.number > 20),
        told_by: "a plan that no call answers",
    },
    FaultyReader {
        name: "zeros before the last number are refused",
        read: |bytes| {
            refusing_plans(bytes, |plan| {
                let zero = plan.order.iter().position(|&held| held == 0);
                plan.order[zero.unwrap_or(64)..]
                    .iter()
                    .any(|&held| held != 0)
            })
        },
        told_by: "a plan that no call answers",
    },
    FaultyReader {
        name: "more than 2,080 trials are refused",
        read: |bytes| refusing_plans(bytes, |plan| plan.trials > 2_080),
        told_by: "4,294,967,295 trials",
    },
    FaultyReader {
        name: "rows left beside an order are refused",
        read: |bytes| refusing_plans(bytes, |plan| plan.left != 0 && plan.order[0] != 0),
        told_by: "one of each in a plan",
    },
    FaultyReader {
        name: "neither yes nor no is refused",
        read: |bytes| refusing_verdicts(bytes, |verdict| verdict.yes > 1),
        told_by: "a verdict that no call answers",
    },
    FaultyReader {
        name: "tightest rows above 64 are refused",
        read: |bytes| refusing_verdicts(bytes, |verdict| verdict.row > 64),
        told_by: "a verdict that no call answers",
    },
    FaultyReader {
        name: "the least slack is refused",
        read: |bytes| refusing_verdicts(bytes, |verdict| verdict.slack == i32::MIN),
        told_by: "a verdict that no call answers",
    },
    FaultyReader {
        name: "the rows left lose those above 32",
        read: |bytes| {
            let mut read = read_sentence(bytes);
            read.planner.left &= u64::from(u32::MAX);
            read
        },
        told_by: "a plan that no call answers",
    },
    FaultyReader {
        name: "the judge's number stands in the planner's answer too",
        read: |bytes| {
            let mut read = read_sentence(bytes);
            read.planner.number |= read.judge.number;
            read
        },
        told_by: "row 1 of P1 twice",
    },
    FaultyReader {
        name: "the kind of what is refused",
        read: |bytes| match read_sentence(bytes) {
            read if bytes.starts_with(b"The planner") => Read { kind: 1, ..read },
            read => read,
        },
        told_by: "no full stop",
    },
    FaultyReader {
        name: "the fields of what is refused",
        read: |bytes| Read {
            number: read_sentence(bytes).number,
            kind: read_sentence(bytes).kind,
            ..read_sentence(up_to_the_stop(bytes))
        },
        told_by: "byte 10 after it",
    },
    FaultyReader {
        name: "1 for no bytes",
        read: |bytes| match read_sentence(bytes) {
            read if bytes.is_empty() => Read { number: 1, ..read },
            read => read,
        },
        told_by: "no bytes",
    },
];

/// Faults of a composer (against rule 24.9).
const COMPOSERS: &[FaultyComposer] = &[
    FaultyComposer {
        name: "10 with just enough bytes",
        compose: |answer, lent| match lent.len() == answer.sentence().len() {
            true => (10, 0),
            false => compose(answer, lent),
        },
        told_by: 121,
    },
    FaultyComposer {
        name: "10 with fewer bytes than the longest sentence has",
        compose: |answer, lent| match lent.len() < LONGEST_OF_PLANNER {
            true => (10, 0),
            false => compose(answer, lent),
        },
        told_by: 121,
    },
    FaultyComposer {
        name: "as much as there is room for",
        compose: |answer, lent| {
            let sentence = answer.sentence();
            let length = lent.len().min(sentence.len());
            lent[..length].copy_from_slice(&sentence[..length]);
            compose(answer, lent)
        },
        told_by: 1,
    },
    FaultyComposer {
        name: "the length with 10",
        compose: |answer, lent| (compose(answer, lent).0, answer.sentence().len() as u32),
        told_by: 0,
    },
    FaultyComposer {
        name: "a zero byte after the sentence",
        compose: |answer, lent| {
            let told = compose(answer, lent);
            if let (0, Some(after)) = (told.0, lent.get_mut(told.1 as usize)) {
                *after = 0;
            }
            told
        },
        told_by: 122,
    },
];

/// All answers whose few first fields sum to so much, a slack by its size; the other fields are
/// 0.
fn answers_of_sum(sum: u32) -> Vec<Answer> {
    let mut answers = Vec::new();
    for fields in fields_of_sum(6, sum) {
        let order: Vec<u8> = fields[3..].iter().map(|&held| held as u8).collect();
        answers.push(Answer::Planner(PlannerAnswer {
            number: fields[0],
            left: u64::from(fields[1]),
            order: order_of(&order),
            trials: fields[2],
        }));
    }
    for fields in fields_of_sum(4, sum) {
        let size = fields[3] as i32;
        for slack in if size == 0 {
            vec![0]
        } else {
            vec![size, -size]
        } {
            answers.push(Answer::Judge(JudgeAnswer {
                number: fields[0],
                yes: fields[1],
                row: fields[2],
                slack,
            }));
        }
    }
    answers
}

/// All lists of so many numbers that sum to so much, larger first numbers first.
fn fields_of_sum(count: u32, sum: u32) -> Vec<Vec<u32>> {
    if count == 0 {
        return if sum == 0 { vec![vec![]] } else { vec![] };
    }
    let mut lists = Vec::new();
    for first in (0..=sum).rev() {
        for rest in fields_of_sum(count - 1, sum - first) {
            lists.push([vec![first], rest].concat());
        }
    }
    lists
}

/// The first two answers, by rising sums, that share a sentence.
fn first_pair(sentence: impl Fn(&Answer) -> String) -> Option<[Answer; 2]> {
    let answers: Vec<Answer> = (0..=3).flat_map(answers_of_sum).collect();
    let told: Vec<String> = answers.iter().map(sentence).collect();
    let before = |at: usize| told[..at].iter().position(|other| *other == told[at]);
    let at = (0..told.len()).find(|&at| before(at).is_some())?;
    Some([answers[before(at)?], answers[at]])
}

/// Each fault of a rule makes one sentence of two answers (against rule 24.14); true sentences do
/// not.
#[test]
fn smallest_answers_with_one_sentence() {
    let (plan, verdict) = (PlannerAnswer::ZERO, JudgeAnswer::ZERO);
    let plans = |first, second| [Answer::Planner(first), Answer::Planner(second)];
    let [slack, below] = [1, -1].map(|slack| Answer::Judge(JudgeAnswer { slack, ..verdict }));
    let [left, other] = [1, 2].map(|left| PlannerAnswer {
        left,
        ..PlannerAnswer::ZERO
    });
    let order = order_of(&[0, 1]);
    let expected = [
        plans(plan, PlannerAnswer { trials: 1, ..plan }),
        plans(left, other),
        [slack, below],
        plans(plan, PlannerAnswer { order, ..plan }),
    ];
    for (fault, pair) in OF_THE_RULES.iter().zip(expected) {
        let found = first_pair(fault.sentence).expect(fault.name);
        println!("{}", fault.name);
        for answer in &found {
            println!("  true:   {}", text(answer));
            println!("  faulty: {}", (fault.sentence)(answer));
        }
        assert_eq!(found, pair, "{}", fault.name);
    }
    assert_eq!(first_pair(text), None);
}

/// What the readers of the rules make of the sentences of P1.
#[test]
fn sentences_of_p1_read_wrongly() {
    let [plan, verdict] = [P1_PLANNED, P1_CORRECT].map(|text| read_sentence(text.as_bytes()));
    let read = |fault: &FaultyReader, text: &str| {
        let read = (fault.read)(text.as_bytes());
        println!("{}: {text:?} is kind {}", fault.name, read.kind);
        read
    };
    let two_spaces = P1_PLANNED.replace("number 0", "number  0");
    assert_eq!(read(&TWO_SPACES, &two_spaces), plan);
    for after in ["\n", " ", "\0", ".", P1_NOT_CORRECT] {
        let longer = P1_CORRECT.to_string() + after;
        assert_eq!(read(&WHAT_FOLLOWS, &longer), verdict);
        assert_eq!(read_sentence(longer.as_bytes()), Read::REFUSED);
    }
    assert_eq!(read_sentence(two_spaces.as_bytes()), Read::REFUSED);
    let as_planner = read(&JUDGE_AS_PLANNER, P1_CORRECT);
    assert_eq!((as_planner.number, as_planner.kind), (0, 1));
    assert_eq!((verdict.number, verdict.kind), (0, 2));
    assert_eq!(as_planner.judge, JudgeAnswer::ZERO);
}

/// The first case written out by hand that tells each fault of sentences; random answers tell it
/// as well.
#[test]
fn cases_and_random_answers_that_tell_a_fault() {
    let mut random = Random::seeded(91);
    let answers: Vec<Answer> = (0..6_000).map(|_| any_answer(&mut random)).collect();
    let cases = sentences();
    for fault in OF_THE_RULES.into_iter().chain(MORE) {
        let tells = |answer: &Answer| (fault.sentence)(answer) != text(answer);
        let told: Vec<&str> = cases
            .iter()
            .filter(|case| tells(&case.answer))
            .map(|case| case.what.as_str())
            .collect();
        let count = answers.iter().filter(|answer| tells(answer)).count();
        println!("{}: {} cases, {count} answers", fault.name, told.len());
        assert_eq!(told.first(), Some(&fault.told_by), "{}", fault.name);
        assert!(count > 30, "{}: {count} answers", fault.name);
    }
}

/// The sentence with each byte taken out, and with each of these put in anywhere or in the place
/// of another.
fn edits(sentence: &[u8]) -> Vec<Vec<u8>> {
    let mut edits = Vec::new();
    for at in 0..=sentence.len() {
        let (before, after) = sentence.split_at(at);
        let rest = after.get(1..).unwrap_or(&[]);
        edits.push([before, rest].concat());
        for byte in b"0123456789 .,-s\n" {
            edits.push([before, &[*byte], after].concat());
            edits.push([before, &[*byte], rest].concat());
        }
    }
    edits
}

/// The first case written out by hand that tells each fault of a reader; damaged sentences tell
/// it as well.
#[test]
fn cases_and_damaged_sentences_that_tell_a_reader() {
    let mut random = Random::seeded(92);
    let mut inputs: Vec<Vec<u8>> = Vec::new();
    for _ in 0..4_000 {
        let sentence = any_answer(&mut random).sentence();
        inputs.push(damaged(&mut random, &sentence));
        inputs.push(sentence);
    }
    for case in examples() {
        inputs.extend(edits(case.sentence.as_bytes()));
    }
    inputs.push(Vec::new());
    let read = sentences().into_iter();
    let read = read.map(|case| (case.what, case.sentence.into_bytes()));
    let refused = refused_sentences().into_iter();
    let refused = refused.map(|case| (case.what.to_string(), case.bytes));
    let cases: Vec<(String, Vec<u8>)> = read.chain(refused).collect();
    let of_the_rules = READERS_OF_THE_RULES.into_iter();
    for fault in of_the_rules.chain(TAKING).chain(ANSWERING) {
        let tells = |bytes: &[u8]| (fault.read)(bytes) != read_sentence(bytes);
        let told: Vec<&str> = cases
            .iter()
            .filter(|(_, bytes)| tells(bytes))
            .map(|(what, _)| what.as_str())
            .collect();
        let count = inputs.iter().filter(|bytes| tells(bytes)).count();
        println!("{}: {} cases, {count} texts", fault.name, told.len());
        assert_eq!(told.first(), Some(&fault.told_by), "{}", fault.name);
        assert!(count > 0, "{}", fault.name);
    }
}

/// How many bytes have to be lent for P1's plan to tell each fault of a composer.
#[test]
fn lent_bytes_that_tell_a_composer() {
    let plan = examples()[0].answer;
    for fault in COMPOSERS {
        let tells = |room: &usize| {
            let before: Vec<u8> = (0..*room).map(|index| index as u8 | 128).collect();
            let [mut faulty, mut lent] = [before.clone(), before];
            (fault.compose)(&plan, &mut faulty) != compose(&plan, &mut lent) || faulty != lent
        };
        assert_eq!((0..800).find(tells), Some(fault.told_by), "{}", fault.name);
    }
}

/// Nothing is told where there is no fault.
#[test]
fn sentences_without_a_fault() {
    for case in sentences() {
        let own = text(&case.answer);
        assert_eq!(own, case.sentence, "{}", case.what);
        for of in [IN_ORDER, ROWS_LEFT] {
            assert_eq!(relisted(&own, of, |_| {}), own);
            assert_eq!(recounted(&own, of, |_| {}), own);
        }
        assert_eq!(refigured(&own, str::to_string), own);
        assert_eq!(for_plan(&case.answer, |_| {}), own);
        assert_eq!(for_verdict(&case.answer, |_| {}), own);
        let (head, words, tail) = worded(&own).expect("words");
        assert_eq!(format!("{head}{words}):{tail}"), own);
        let read = Read::of(&case.answer);
        assert_eq!(repaired(own.as_bytes(), |_| String::new()), read);
        assert_eq!(refusing_plans(own.as_bytes(), |_| false), read);
        assert_eq!(refusing_verdicts(own.as_bytes(), |_| false), read);
    }
    for case in refused_sentences() {
        let read = repaired(&case.bytes, str::to_string);
        assert_eq!(read, Read::REFUSED, "{}", case.what);
    }
}
