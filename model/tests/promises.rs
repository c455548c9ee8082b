//! Promised parts (section 20 of the rules): what they change in what is correct, the
//! planner against every arrangement of the rows, the promised moment by working every
//! slot and by a sweep, what stands above a row and how fast the slots are, and runs by
//! the running rule that keep promises. Every table here has a promise; cases worked out
//! by hand are in `cases`.

mod common;

use common::correct::{
    correct_by_every_course, correct_by_slacks, promised_in_its_window, promising_rows,
    survives_random_courses, TINY,
};
use common::{all_rows, fresh, slots_with_loading, Kinds, RULES, SMALL};
use model::judge::judge_table;
use model::order::{orders, Order};
use model::plain;
use model::plan::{
    is_skipped, passes_lowest, plan, promised_moment, rows_in_word, slack, worst_finish,
};
use model::planners::{each_place, each_trial};
use model::random::{
    calls_for, promise, supplies, table_in, tight_under, with_promises, Random, Ranges,
};
use model::run::{has_promised, run_by, running_step, step, State};
use model::speeds::{Sought, BOTH};
use model::table::{check_table, need, promised_need, Table, HI, LO};
use std::collections::HashMap;

/// An accepted table in which some row promises a part, or at times every LO row all of
/// its work.
fn promising_table(random: &mut Random, ranges: Ranges) -> Table {
    loop {
        let mut table = table_in(random, ranges);
        for index in 0..table.n as usize {
            let whole = if table.level[index] == LO {
                table.work[index]
            } else {
                0
            };
            let any = promise(random, table.work[index], table.level[index]);
            table.promised[index] = if random.once_in(4) { whole } else { any };
        }
        if !promising_rows(&table).is_empty() {
            assert_eq!(check_table(&table), 0);
            return table;
        }
    }
}

/// The same with deadlines that leave no slot to spare under some order, moved by up to a
/// slot, so that promises often decide.
fn tight_table(random: &mut Random, ranges: Ranges) -> Table {
    let table = promising_table(random, ranges);
    let order = random.one_of(&orders(&table));
    tight_under(random, &table, &order, &[-1, 0, 1])
}

/// Tables with deadlines of either kind, in turns.
fn any_table(random: &mut Random, round: u32, ranges: Ranges) -> Table {
    if round.is_multiple_of(2) {
        promising_table(random, ranges)
    } else {
        tight_table(random, ranges)
    }
}

/// Over every course of speed: an order is correct, with the third clause, exactly if no
/// slack is below zero (rules 3.4 and 3.8). Some that are not correct would be without
/// the promises.
#[test]
fn slacks_judge_as_every_course_of_speed_does() {
    let mut random = Random::seeded(91);
    let (mut correct, mut incorrect, mut by_promise) = (0, 0, 0);
    let mut kinds = Kinds::default();
    for round in 0..6_000 {
        let table = any_table(&mut random, round, TINY);
        kinds.saw(&table);
        for order in orders(&table) {
            let by_slacks = correct_by_slacks(&table, &order);
            let by_courses = correct_by_every_course(step, &table, &order);
            assert_eq!(by_slacks, by_courses, "{table:?} {:?}", &order[..3]);
            assert_eq!(judge_table(&table, &order).yes, by_courses);
            *(if by_courses {
                &mut correct
            } else {
                &mut incorrect
            }) += 1;
            let without = correct_by_slacks(&table.without_promises(), &order);
            assert!(without || !by_courses, "{table:?} {:?}", &order[..3]);
            by_promise += u32::from(without && !by_courses);
        }
    }
    println!("{correct} correct orders, {incorrect} others, {by_promise} by a promise");
    assert!(correct > 3_000 && incorrect > 3_000 && by_promise > 500);
    kinds.assert_all(100);
}

/// The same on larger tables, under exact and random courses of at least G and N.
#[test]
fn slacks_judge_as_random_courses_of_speed_do() {
    let mut random = Random::seeded(92);
    let (mut correct, mut incorrect) = (0, 0);
    for round in 0..8_000 {
        let table = any_table(&mut random, round, SMALL);
        let planned = plan(&table);
        let any = random.one_of(&orders(&table));
        let candidates = [any, planned.order];
        for order in &candidates[..if planned.number == 0 { 2 } else { 1 }] {
            let by_slacks = correct_by_slacks(&table, order);
            let by_courses = survives_random_courses(step, &table, order, &mut random);
            assert_eq!(by_slacks, by_courses, "{table:?} {order:?}");
            *(if by_slacks {
                &mut correct
            } else {
                &mut incorrect
            }) += 1;
        }
    }
    assert!(
        correct > 2_000 && incorrect > 2_000,
        "{correct} {incorrect}"
    );
}

/// The planner finds an order exactly if one of all arrangements is correct; with 7 no
/// row left passes among the rows left. Both plain planners answer the same, with as
/// many trials.
#[test]
fn an_order_is_answered_exactly_if_a_correct_one_exists() {
    let mut random = Random::seeded(93);
    let (mut answered, mut lost, mut changed) = ([0; 2], 0, 0);
    let mut kinds = Kinds::default();
    for round in 0..15_000 {
        let table = any_table(&mut random, round, SMALL);
        kinds.saw(&table);
        let answer = plan(&table);
        let exists = orders(&table)
            .iter()
            .any(|order| correct_by_slacks(&table, order));
        assert_eq!(answer.number, if exists { 0 } else { 7 }, "{table:?}");
        if exists {
            assert!(correct_by_slacks(&table, &answer.order), "{table:?}");
        } else {
            let left = rows_in_word(answer.left);
            let mut placed = all_rows(&table);
            placed.retain(|row| !left.contains(row));
            let is_tried = |row: &&u8| !is_skipped(&table, &left, **row);
            let passes = |&row: &u8| passes_lowest(&table, &left, &placed, row);
            assert!(!left.iter().filter(is_tried).any(passes), "{table:?}");
        }
        let counted = model::plan::plan_and_trials(&table);
        assert_eq!(each_trial::plan_and_trials(&table), counted, "{table:?}");
        assert_eq!(each_place::plan_and_trials(&table), counted, "{table:?}");
        let without = plan(&table.without_promises());
        assert!(without.number <= answer.number, "{table:?}");
        lost += u32::from(without.number < answer.number);
        changed += u32::from(exists && without.order != answer.order);
        answered[usize::from(!exists)] += 1;
    }
    println!("answers 0 and 7 {answered:?}, {lost} have 7 and {changed} another order by promises");
    assert!(answered.iter().all(|&times| times > 2_000) && lost > 500 && changed > 100);
    kinds.assert_all(100);
}

/// The finish, in slots, of a sweep over these rows at G for one of them that stands
/// lowest: each takes its most slots at G, but this one takes `own`.
fn swept(table: &Table, rows: &[u8], row: u8, own: u32) -> u32 {
    let mut by_release = rows.to_vec();
    by_release.sort_by_key(|&other| table.row(other).release);
    let (mut end, mut has_row) = (0, false);
    for other in by_release {
        let job = table.row(other);
        if end <= job.release {
            if has_row {
                return end;
            }
            end = job.release;
        }
        let at_normal = need(table, other, table.normal);
        end += match job.level {
            _ if other == row => own,
            HI => need(table, other, table.degraded),
            _ => at_normal.max(promised_need(table, other)),
        };
        has_row |= other == row;
    }
    end
}

/// The promised moment is the finish of a sweep in which the row takes its need of the
/// promised part at G (rule 20.4), and plain Rust's slacks are the model's.
#[test]
fn the_promised_moment_is_the_finish_of_a_sweep() {
    let mut random = Random::seeded(94);
    let (mut moments, mut before_finish, mut after_finish) = (0, 0, 0);
    let mut kinds = Kinds::default();
    for round in 0..20_000 {
        let table = any_table(&mut random, round, SMALL);
        kinds.saw(&table);
        let order = random.one_of(&orders(&table));
        for place in 0..table.n as usize {
            let row = order[place];
            if table.row(row).promised == 0 {
                continue;
            }
            let moment = promised_moment(&table, &order, row);
            let own = promised_need(&table, row);
            let by_sweep = swept(&table, &order[..=place], row, own);
            assert_eq!(moment, by_sweep, "row {row} {order:?} {table:?}");
            let finish = worst_finish(&table, &order, row);
            before_finish += u32::from(moment < finish);
            after_finish += u32::from(moment > finish);
            moments += 1;
        }
        let slacks: Vec<i64> = all_rows(&table)
            .into_iter()
            .map(|row| slack(&table, &order, row))
            .collect();
        let (number, by_plain) = plain::slacks(&table, &order);
        assert_eq!((number, &by_plain[..slacks.len()]), (0, &slacks[..]));
        let (_, moments) = plain::promised_moments(&table, &order);
        for row in all_rows(&table) {
            let moment = promised_moment(&table, &order, row);
            assert_eq!(moments[row as usize - 1], moment, "row {row} {table:?}");
        }
    }
    println!("{moments} moments, {before_finish} before the finish, {after_finish} after it");
    assert!(moments > 10_000 && before_finish > 1_000 && after_finish > 1_000);
    kinds.assert_all(200);
}

/// Slack and promised moment of a row depend on the set of rows above it, and neither on
/// their order nor on the rows below; a row more above never brings them forward.
#[test]
fn promises_depend_on_the_set_above_and_never_gain_by_a_larger_one() {
    let mut random = Random::seeded(95);
    let (mut compared, mut later) = (0, 0);
    for round in 0..1_500 {
        let table = any_table(&mut random, round, SMALL);
        let mut found: HashMap<(u8, Vec<u8>), (i64, u32)> = HashMap::new();
        for order in orders(&table) {
            for place in 0..table.n as usize {
                let row = order[place];
                let mut above = order[..place].to_vec();
                above.sort_unstable();
                let this = (
                    slack(&table, &order, row),
                    promised_moment(&table, &order, row),
                );
                if let Some(other) = found.insert((row, above), this) {
                    assert_eq!(this, other, "row {row} {order:?} {table:?}");
                    compared += 1;
                }
            }
        }
        for ((row, above), (slack, moment)) in &found {
            for out in 0..above.len() {
                let mut fewer = above.clone();
                fewer.remove(out);
                // It is not there if one of these, or the row, follows the one taken out.
                if let Some((more_slack, earlier)) = found.get(&(*row, fewer)) {
                    let gains = more_slack < slack || earlier > moment;
                    assert!(!gains, "row {row} {table:?}");
                    later += u32::from(earlier < moment);
                }
            }
        }
    }
    println!("{compared} compared, {later} later below one row more");
    assert!(compared > 50_000 && later > 5_000);
}

/// Under any order no larger speeds make a promised moment later or a slack less, so that
/// an order that is correct stays so (rule 20.5); and no smaller promise does.
#[test]
fn larger_speeds_and_smaller_promises_spoil_nothing() {
    let mut random = Random::seeded(96);
    let (mut earlier, mut gained, mut of_promise) = (0, 0, 0);
    for round in 0..15_000 {
        let table = any_table(&mut random, round, SMALL);
        let order = random.one_of(&orders(&table));
        let normal = table.normal + random.between(0, 3);
        let degraded = random.between(table.degraded, normal);
        let faster = Sought::Degraded.put(&Sought::Normal.put(&table, normal), degraded);
        let mut smaller = table;
        for promised in &mut smaller.promised {
            *promised = random.between(0, *promised);
        }
        for row in all_rows(&table) {
            let slacks = [&table, &faster, &smaller].map(|table| slack(table, &order, row));
            assert!(slacks[0] <= slacks[1], "row {row} {order:?} {table:?}");
            assert!(slacks[0] <= slacks[2], "row {row} {order:?} {table:?}");
            let moments = [&table, &faster].map(|table| promised_moment(table, &order, row));
            assert!(moments[1] <= moments[0], "row {row} {order:?} {table:?}");
            earlier += u32::from(moments[1] < moments[0]);
            of_promise += u32::from(slacks[0] < slacks[2]);
        }
        let [before, after] = [&table, &faster].map(|table| correct_by_slacks(table, &order));
        assert!(after || !before, "{order:?} {table:?}");
        gained += u32::from(after && !before);
    }
    println!("{earlier} moments earlier, {gained} orders gained, {of_promise} slacks by less r");
    assert!(earlier > 5_000 && gained > 500 && of_promise > 2_000);
}

/// The least speeds by a scan with the model and by halves in plain Rust; at the least
/// speed all promises are kept, and at the one before there is no order.
#[test]
fn least_speeds_with_promises() {
    let mut random = Random::seeded(97);
    let (mut larger, mut none) = ([0; 2], [0; 2]);
    for round in 0..1_500 {
        let table = any_table(&mut random, round, SMALL);
        // The scan for N may go through 1,000 speeds.
        let sought = BOTH[usize::from(round.is_multiple_of(25))];
        let answer = model::speeds::least(&table, sought);
        let by_halves = plain::least_by_halves(&table, sought);
        assert_eq!(by_halves, answer, "{sought:?} {table:?}");
        let without = plain::least_by_halves(&table.without_promises(), sought);
        if answer.number == 0 {
            assert!(answer.speed >= without.speed && without.number == 0);
            assert!(correct_by_slacks(
                &sought.put(&table, answer.speed),
                &answer.order
            ));
        }
        larger[sought as usize] += u32::from(answer.speed > without.speed);
        none[sought as usize] += u32::from(answer.number == 7 && without.number == 0);
    }
    println!("by promises: {larger:?} speeds are larger, {none:?} have none");
    assert!(larger[0] > 100 && none[1] > 2);
}

/// A correct order keeps its promises by either rule of a slot, over every course in
/// which the slots of a row's window supply at least G, whatever the others do (rules
/// 9.18 and 20.3). Orders that are not correct often break one.
#[test]
fn correct_orders_keep_promises_in_their_windows() {
    let mut random = Random::seeded(98);
    let (mut kept, mut broken, mut serving) = (0, 0, 0);
    for round in 0..2_500 {
        let table = any_table(&mut random, round, TINY);
        for order in orders(&table) {
            let is_correct = correct_by_slacks(&table, &order);
            for row in promising_rows(&table) {
                let [by_planning, by_running] =
                    RULES.map(|rule| promised_in_its_window(rule, &table, &order, row));
                assert!(by_running || !by_planning, "{table:?} {:?}", &order[..3]);
                if is_correct {
                    assert!(by_planning && by_running, "{table:?} {:?}", &order[..3]);
                    kept += 1;
                } else {
                    broken += u32::from(!by_running);
                    serving += u32::from(by_running && !by_planning);
                }
            }
        }
    }
    println!(
        "{kept} kept, {broken} broken under other orders, {serving} by the running rule alone"
    );
    assert!(kept > 1_000 && broken > 1_000);
}

/// A course in which the slots of the row's window (rule 9.14) supply at least G, often
/// just that, and the others anything.
fn course_in_window(random: &mut Random, table: &Table, row: u8, slots: u32) -> Vec<u32> {
    let earliest = table.rows().iter().map(|job| job.release).min().unwrap();
    let window = earliest..table.row(row).deadline;
    let outside = supplies(random, slots);
    let least = table.degraded;
    (0..slots)
        .map(|slot| match slot {
            slot if window.contains(&slot) => least + random.one_of(&[0, 0, 0, 1, 5]),
            slot => outside[slot as usize],
        })
        .collect()
}

/// The clause over whole runs of records by the running rule, with any calls: from its
/// deadline on a planned row has its promised part (rule 9.18).
#[test]
fn planned_rows_keep_promises_in_runs_of_records() {
    let mut random = Random::seeded(99);
    let (mut kept, mut just, mut lost) = (0, 0, 0);
    let mut kinds = Kinds::default();
    for round in 0..25_000 {
        let table = any_table(&mut random, round, SMALL);
        let answer = plan(&table);
        if answer.number != 0 {
            continue;
        }
        kinds.saw(&table);
        let row = random.one_of(&promising_rows(&table));
        let job = table.row(row);
        let slots = slots_with_loading(&table, 30).max(job.deadline + 2);
        let course = course_in_window(&mut random, &table, row, slots);
        let mut state = State::FRESH;
        for &supply in &course {
            running_step(&table, &answer.order, &mut state, supply);
            if state.clock >= job.deadline {
                assert!(has_promised(&table, &state, row), "row {row} {table:?}");
            }
        }
        let calls = calls_for(&mut random, &course);
        let (_, record) = fresh(&table, &answer.order).play(&calls);
        assert_eq!(record.state(), state);
        let until = |slots: u32| {
            run_by(
                running_step,
                &table,
                &answer.order,
                &course[..slots as usize],
            )
        };
        just += u32::from(!has_promised(&table, &until(job.deadline - 1), row));
        kept += 1;
        let others = promising_rows(&table).into_iter();
        lost += others
            .filter(|&other| !has_promised(&table, &state, other))
            .count();
    }
    println!("{kept} watched, {just} just at the deadline; {lost} others lost their part");
    assert!(kept > 3_000 && just > 300 && lost > 200);
    kinds.assert_all(50);
}

/// With every r = 0 the promised moments play no part: finishes decide, and both rules of
/// a slot make the runs of the table without promises (rule 20.2). The stored answers of
/// before are in `before`.
#[test]
fn without_promises_the_finishes_decide() {
    let mut random = Random::seeded(100);
    for _ in 0..5_000 {
        let table = table_in(&mut random, SMALL).without_promises();
        let order: Order = random.one_of(&orders(&table));
        for row in all_rows(&table) {
            let job = table.row(row);
            let finish = worst_finish(&table, &order, row);
            let before = i64::from(job.deadline) - i64::from(finish);
            assert_eq!(slack(&table, &order, row), before);
            assert_eq!(
                model::table::allowance(&table, row),
                need(&table, row, table.normal)
            );
        }
        let promising = with_promises(&mut random, &table);
        assert_eq!(promising.without_promises(), table);
        // At N no row is dropped, so that a promise changes no slot there.
        let course = vec![table.normal; slots_with_loading(&table, 40) as usize];
        for rule in RULES {
            let runs = [&table, &promising].map(|table| run_by(rule, table, &order, &course));
            assert_eq!(runs[0], runs[1], "{promising:?}");
        }
    }
}
