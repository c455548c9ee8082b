//! The planner against every arrangement of the rows of many small tables.

mod common;

use common::correct::{correct_by_every_course, correct_by_slacks, survives_random_courses, TINY};
use common::{all_rows, Kinds, SMALL};
use model::judge::{judge, judge_table};
use model::order::{check_order, orders, NO_ORDER};
use model::plan::{is_skipped, passes_lowest, plan, rows_in_word, slack};
use model::random::{table_in, Random};
use model::run::step;
use model::sheet::{sheet_of, write_line};
use model::table::Table;

#[test]
fn an_order_is_answered_exactly_if_a_correct_one_exists() {
    let mut random = Random::seeded(21);
    let mut answered = [[0u32; 2]; 6];
    let mut by_answer = [(); 2].map(|()| Kinds::default());
    for _ in 0..40_000 {
        let table = table_in(&mut random, SMALL);
        let answer = plan(&table);
        let exists = orders(&table)
            .iter()
            .any(|order| correct_by_slacks(&table, order));
        match answer.number {
            0 => {
                assert!(exists, "{table:?}");
                assert_eq!(check_order(&table, &answer.order), 0);
                assert!(correct_by_slacks(&table, &answer.order), "{table:?}");
                assert_eq!(answer.left, 0);
                assert!(judge_table(&table, &answer.order).yes);
            }
            7 => {
                assert!(!exists, "{table:?}");
                assert_eq!(answer.order, NO_ORDER);
                no_row_left_passes(&table, &rows_in_word(answer.left));
            }
            number => panic!("{number} for {table:?}"),
        }
        let none = usize::from(answer.number == 7);
        answered[table.n as usize][none] += 1;
        by_answer[none].saw(&table);
    }
    println!("answers 0 and 7 by row count: {answered:?}");
    for kinds in &by_answer {
        kinds.assert_all(200);
    }
    for by_count in &answered[1..] {
        assert!(
            by_count[0] >= 700 && by_count[1] >= 700,
            "both answers are common: {answered:?}"
        );
    }
}

/// With 7, no row of the rows left passes lowest among them, but for those that a row left
/// follows.
fn no_row_left_passes(table: &Table, left: &[u8]) {
    assert!(!left.is_empty());
    let placed: Vec<u8> = all_rows(table)
        .into_iter()
        .filter(|row| !left.contains(row))
        .collect();
    for &row in left.iter().filter(|&&row| !is_skipped(table, left, row)) {
        assert!(!passes_lowest(table, left, &placed, row), "{table:?}");
    }
}

#[test]
fn slacks_judge_as_every_course_of_speed_does() {
    let mut random = Random::seeded(22);
    let (mut correct, mut incorrect, mut without) = (0, 0, 0);
    let mut kinds = Kinds::default();
    for _ in 0..9_000 {
        let table = table_in(&mut random, TINY);
        kinds.saw(&table);
        let mut exists = false;
        for order in orders(&table) {
            let by_slacks = correct_by_slacks(&table, &order);
            let by_courses = correct_by_every_course(step, &table, &order);
            assert_eq!(by_slacks, by_courses, "{table:?} {:?}", &order[..3]);
            exists |= by_courses;
            *(if by_courses {
                &mut correct
            } else {
                &mut incorrect
            }) += 1;
        }
        assert_eq!(plan(&table).number, if exists { 0 } else { 7 });
        without += u32::from(!exists);
    }
    println!("{correct} correct orders, {incorrect} others; {without} tables have none");
    assert!(correct > 3_000 && incorrect > 3_000 && (2_000..7_000).contains(&without));
    kinds.assert_all(200);
}

#[test]
fn slacks_judge_as_random_courses_of_speed_do() {
    let mut random = Random::seeded(23);
    let (mut correct, mut incorrect) = (0, 0);
    let mut kinds = Kinds::default();
    for _ in 0..10_000 {
        let table = table_in(&mut random, SMALL);
        kinds.saw(&table);
        let all = orders(&table);
        for order in [random.one_of(&all), plan(&table).order] {
            if order == NO_ORDER {
                continue;
            }
            let by_slacks = correct_by_slacks(&table, &order);
            let by_courses = survives_random_courses(step, &table, &order, &mut random);
            assert_eq!(by_slacks, by_courses, "{table:?} {:?}", &order[..5]);
            *(if by_slacks {
                &mut correct
            } else {
                &mut incorrect
            }) += 1;
        }
    }
    println!("{correct} correct orders, {incorrect} others");
    assert!(correct > 2_000 && incorrect > 2_000);
    kinds.assert_all(200);
}

#[test]
fn the_judge_answers_from_the_slacks_of_all_rows() {
    let mut random = Random::seeded(24);
    let (mut yes, mut no, mut ties) = (0, 0, 0);
    let mut kinds = Kinds::default();
    for _ in 0..4_000 {
        let table = table_in(&mut random, SMALL);
        kinds.saw(&table);
        let order = random.one_of(&orders(&table));
        let (normal, degraded) = (table.normal, table.degraded);
        let verdict = judge(normal, degraded, table.loading, &table.rows(), &order);
        let slacks: Vec<i64> = all_rows(&table)
            .into_iter()
            .map(|row| slack(&table, &order, row))
            .collect();
        let least = *slacks.iter().min().unwrap();
        let holders: Vec<usize> = (0..slacks.len()).filter(|&i| slacks[i] == least).collect();
        assert_eq!(verdict.number, 0);
        assert_eq!(verdict.slack, least);
        assert_eq!(usize::from(verdict.row), holders[0] + 1);
        assert_eq!(verdict.yes, correct_by_slacks(&table, &order));
        *(if verdict.yes { &mut yes } else { &mut no }) += 1;
        ties += u32::from(holders.len() > 1);
    }
    assert!(yes > 200 && no > 200 && ties > 100, "{yes} {no} {ties}");
    kinds.assert_all(80);
}

#[test]
fn the_program_writes_what_the_planner_answers() {
    let mut random = Random::seeded(25);
    let mut seen = [0; 2];
    let mut kinds = Kinds::default();
    for _ in 0..2_000 {
        let table = table_in(&mut random, SMALL);
        kinds.saw(&table);
        let answer = plan(&table);
        let output = model::program::planning_program(&sheet_of(&table));
        let mut expected;
        if answer.number == 0 {
            expected = write_line(&[0, table.n]);
            for place in 0..table.n as usize {
                let row = answer.order[place];
                let slack = slack(&table, &answer.order, row) as u32;
                expected.extend(write_line(&[place as u32 + 1, u32::from(row), slack]));
            }
        } else {
            let left = rows_in_word(answer.left).len() as u32;
            expected = write_line(&[answer.number, left]);
        }
        assert_eq!(output, expected);
        seen[usize::from(answer.number == 7)] += 1;
    }
    assert!(seen[0] > 400 && seen[1] > 400, "{seen:?}");
    kinds.assert_all(20);
}
