//! The run on paper and on a record: list splitting, closing and dropping, the
//! choice and the supply, kept deadlines. What the running rule adds to a slot is
//! in `late`.

mod common;

use common::{all_rows, fresh, slots_with_loading, table_and_order, Kinds, RULES, SMALL};
use model::calls::{play_on_paper, Answer, LAST_CLOCK};
use model::cases::{p1, p3, table};
use model::order::order_of;
use model::plan::plan;
use model::random::{calls_for, supplies, table_in, Random};
use model::record::Record;
use model::run::{chosen, kept_deadline, run, run_by, running_step, step, State};
use model::table::{allowance, earliest_release, HI, LO, MOST_LOADING};

#[test]
fn calls_on_a_record_answer_as_on_paper() {
    let mut random = Random::seeded(41);
    let mut idle = 0;
    let mut kinds = Kinds::default();
    for _ in 0..3_000 {
        let (table, order) = table_and_order(&mut random);
        kinds.saw(&table);
        let most = slots_with_loading(&table, 40);
        let count = random.between(0, most);
        let supplies = supplies(&mut random, count);
        let calls = calls_for(&mut random, &supplies);
        let (answers, record) = fresh(&table, &order).play(&calls);
        let (on_paper, state) = play_on_paper(&table, &order, &calls);
        assert_eq!(answers, on_paper);
        assert_eq!(record, Record::holding(&table, &order, &state));
        idle += answers
            .iter()
            .filter(|&&answer| answer == Answer::OneSlot { number: 0, row: 0 })
            .count();
    }
    assert!(idle > 1_000, "{idle} idle slots");
    kinds.assert_all(40);
}

#[test]
fn splitting_the_list_changes_nothing() {
    let mut random = Random::seeded(42);
    for _ in 0..2_000 {
        let (table, order) = table_and_order(&mut random);
        let slots = slots_with_loading(&table, 30);
        let supplies = supplies(&mut random, slots);
        let record = fresh(&table, &order);
        let whole = record.forward(&supplies);
        assert_eq!((whole.number, whole.worked), (0, slots));
        let on_paper = run_by(running_step, &table, &order, &supplies);
        assert_eq!(whole.record.state(), on_paper);

        let cut = random.between(0, slots) as usize;
        let first = record.forward(&supplies[..cut]);
        let second = first.record.forward(&supplies[cut..]);
        assert_eq!(first.worked + second.worked, whole.worked);
        assert_eq!(second.record, whole.record);

        let mut single = record;
        for &supply in &supplies {
            single = single.one_slot(supply).record;
        }
        assert_eq!(single, whole.record);
    }
}

#[test]
fn splitting_the_list_at_the_last_clock() {
    let mut late = Record {
        clock: LAST_CLOCK - 3,
        ..fresh(&p1(), &order_of(&[1, 2, 3, 4]))
    };
    // The LO rows were dropped at their deadlines.
    (late.closing[1], late.closing[3]) = (10, 5);
    let supplies = [1, 2, 3, 4, 5];
    let whole = late.forward(&supplies);
    assert_eq!((whole.number, whole.worked), (8, 3));
    assert_eq!(whole.record.clock, LAST_CLOCK);
    for cut in 0..=5 {
        let first = late.forward(&supplies[..cut]);
        let second = first.record.forward(&supplies[cut..]);
        assert_eq!(first.number, if cut > 3 { 8 } else { 0 });
        assert_eq!(first.worked + second.worked, 3);
        assert_eq!(second.number, if cut == 5 { 0 } else { 8 });
        assert_eq!(second.record, whole.record);
    }
}

#[test]
fn the_row_is_the_same_for_every_supply_of_its_slot() {
    let mut random = Random::seeded(43);
    let (mut different, mut loaded) = (0, 0);
    for round in 0..8_000 {
        let rule = RULES[round % 2];
        let (table, order) = table_and_order(&mut random);
        let most = slots_with_loading(&table, 12);
        let length = random.between(0, most);
        let before = run_by(rule, &table, &order, &supplies(&mut random, length));
        let choice = chosen(&table, &order, &before);
        let mut after = Vec::new();
        for supply in [0, 1, 2, table.degraded, table.normal, u32::MAX] {
            let mut state = before;
            assert_eq!(rule(&table, &order, &mut state, supply), choice);
            assert_eq!(state.clock, before.clock + 1);
            after.push(state);
        }
        let differs = after.iter().any(|state| *state != after[0]);
        let loads = choice != 0 && before.used[choice as usize - 1] < table.loading;
        // An idle slot and one that loads bring nothing, whatever they supply.
        assert_eq!(differs, choice != 0 && !loads, "{table:?} {order:?}");
        different += u32::from(differs);
        loaded += u32::from(loads);
    }
    assert!(
        different > 1_000 && loaded > 1_000,
        "{different} slots brought work and {loaded} loaded"
    );
}

/// The first K slots that a row runs bring it no work, however they lie in the
/// run, and every later one brings its supply (rules 1.10 and 2.14).
#[test]
fn the_first_slots_that_a_row_runs_load_it() {
    let mut random = Random::seeded(48);
    let mut kinds = Kinds::default();
    let (mut broken_off, mut worked) = (0, 0);
    for round in 0..4_000 {
        let rule = RULES[round % 2];
        let (table, order) = table_and_order(&mut random);
        kinds.saw(&table);
        let slots = slots_with_loading(&table, 30);
        let mut state = State::FRESH;
        let mut slots_run = [0; 64];
        let mut last = 0;
        for supply in supplies(&mut random, slots) {
            let before = state;
            let row = rule(&table, &order, &mut state, supply);
            if row != 0 {
                let index = row as usize - 1;
                slots_run[index] += 1;
                let missing = table.work[index] - before.got[index];
                let loads = slots_run[index] <= table.loading;
                let brought = if loads { 0 } else { supply.min(missing) };
                assert_eq!(state.got[index] - before.got[index], brought);
                assert_eq!(state.used[index], slots_run[index]);
                broken_off += u32::from(loads && slots_run[index] > 1 && last != row);
                worked += u32::from(brought > 0);
            }
            last = row;
        }
    }
    assert!(
        broken_off > 500 && worked > 5_000,
        "{broken_off} came back while they loaded, {worked} slots brought work"
    );
    kinds.assert_all(60);
}

#[test]
fn a_slot_runs_the_first_ready_row_of_the_order() {
    let mut random = Random::seeded(44);
    let mut passed_over = 0;
    for _ in 0..3_000 {
        let (table, order) = table_and_order(&mut random);
        let slots = slots_with_loading(&table, 30);
        let mut state = State::FRESH;
        for supply in supplies(&mut random, slots) {
            let before = state;
            let run = step(&table, &order, &mut state, supply);
            let ready: Vec<u8> = order[..table.n as usize]
                .iter()
                .copied()
                .filter(|&row| table.row(row).release <= before.clock)
                .filter(|&row| before.closing[row as usize - 1] == 0)
                .filter(|&row| match table.row(row).follows {
                    0 => true,
                    followed => before.closing[followed as usize - 1] != 0,
                })
                .collect();
            assert_eq!(run, ready.first().copied().unwrap_or(0));
            passed_over += ready.len().saturating_sub(1);
            for row in 1..=64u8 {
                let index = row as usize - 1;
                let grown = state.used[index] - before.used[index];
                assert_eq!(grown, u32::from(row == run));
                if row != run {
                    assert_eq!(state.got[index], before.got[index]);
                    assert_eq!(state.closing[index], before.closing[index]);
                }
            }
        }
    }
    assert!(passed_over > 5_000, "{passed_over}");
}

/// By the planning rule, and by the running rule where it differs.
#[test]
fn done_and_dropped() {
    // Allowance of the LO row: 5 work units at 2 per slot, 3 slots.
    let lo = table(2, 1, &[[1, 5, 9, 0]]);
    let order = order_of(&[1]);
    assert_eq!(allowance(&lo, 1), 3);
    let closing_of = |supplies: &[u32]| {
        let state = run(&lo, &order, supplies);
        (state.got[0], state.used[0], state.closing[0])
    };
    assert_eq!(closing_of(&[9]), (0, 0, 0), "not yet released");
    assert_eq!(
        closing_of(&[9, 9]),
        (5, 1, 2),
        "what is supplied above its work goes to nobody"
    );
    assert_eq!(closing_of(&[0, 2, 2]), (4, 2, 0), "open");
    assert_eq!(
        closing_of(&[0, 2, 2, 1]),
        (5, 3, 4),
        "its last allowed slot brings what it is still missing"
    );
    assert_eq!(closing_of(&[0, 2, 2, 0]), (4, 3, 4), "dropped");
    assert_eq!(closing_of(&[0, 2, 2, 0, 9]), (4, 3, 4), "dropped for good");
    assert_eq!(closing_of(&[0, 0, 0, u32::MAX]), (5, 3, 4), "no overflow");

    let hi = table(2, 1, &[[1, 5, 3, 1]]);
    let long = run(&hi, &order, &[0; 50]);
    assert_eq!((long.got[0], long.used[0], long.closing[0]), (0, 49, 0));
    let late = run(&hi, &order, &[1; 50]);
    assert_eq!(
        (late.got[0], late.used[0], late.closing[0]),
        (5, 5, 6),
        "a late job keeps its place and goes on"
    );
    let late_hi = run_by(running_step, &hi, &order, &[1; 50]);
    assert_eq!(late_hi, late, "a HI job goes on by either rule");
    let preview = table(2, 1, &[[1, 5, 2, 0]]);
    let late_lo = run(&preview, &order, &[2; 50]);
    assert_eq!((late_lo.got[0], late_lo.closing[0]), (5, 4));
    let dropped = run_by(running_step, &preview, &order, &[2; 50]);
    assert_eq!(
        (dropped.got[0], dropped.used[0], dropped.closing[0]),
        (2, 1, 2),
        "a late preview is dropped by the running rule"
    );
}

/// The same LO row with each loading time: it uses K slots more and then gets
/// what it got without loading.
#[test]
fn done_and_dropped_after_loading() {
    let order = order_of(&[1]);
    for loading in 0..=MOST_LOADING {
        let lo = table(2, 1, &[[0, 5, 9, 0]]).with_loading(loading);
        assert_eq!(allowance(&lo, 1), loading + 3);
        let after_loading = |supplies: &[u32]| {
            let loads = vec![9; loading as usize];
            let state = run(&lo, &order, &[&loads, supplies].concat());
            let closing = state.closing[0].saturating_sub(loading);
            (state.got[0], state.used[0] - loading, closing)
        };
        assert_eq!(after_loading(&[]), (0, 0, 0), "loaded, K {loading}");
        assert_eq!(after_loading(&[9]), (5, 1, 1), "done, K {loading}");
        assert_eq!(after_loading(&[2, 2]), (4, 2, 0), "open, K {loading}");
        assert_eq!(after_loading(&[2, 2, 1]), (5, 3, 3), "done, K {loading}");
        let dropped = (4, 3, 3);
        assert_eq!(after_loading(&[2, 2, 0]), dropped, "dropped, K {loading}");
        assert_eq!(after_loading(&[2, 2, 0, 9]), dropped, "for good");
    }
}

#[test]
fn a_deadline_is_kept_by_work_got_and_closing_from_1_to_d() {
    // Row 1 of P3: work 2, deadline 2.
    let kept = |got: u32, closing: u32| {
        let mut state = State::FRESH;
        (state.got[0], state.closing[0]) = (got, closing);
        kept_deadline(&p3(), &state, 1)
    };
    assert!(kept(2, 1) && kept(2, 2));
    assert!(!kept(2, 3), "late");
    assert!(!kept(2, 0), "open");
    assert!(!kept(1, 1), "dropped");
}

#[test]
fn rows_left_out_of_the_table_stay_zero() {
    let state = run(&p3(), &order_of(&[2, 1]), &[3; 20]);
    for index in 2..64 {
        let entries = (state.got[index], state.used[index], state.closing[index]);
        assert_eq!(entries, (0, 0, 0));
    }
}

/// The promise of the planned order over a whole run (rules 9.12 and 19.5): from its
/// deadline on a row has kept it if each slot of its window (rule 9.14) supplies
/// at least N for a LO row, or G for a HI row; all other slots may supply anything.
#[test]
fn planned_rows_keep_their_deadlines_in_their_windows() {
    let mut random = Random::seeded(47);
    let (mut kept, mut lost) = ([0; 2], [0; 2]);
    let mut kinds = Kinds::default();
    for _ in 0..12_000 {
        let table = table_in(&mut random, SMALL);
        let answer = plan(&table);
        if answer.number != 0 {
            continue;
        }
        kinds.saw(&table);
        let slots = slots_with_loading(&table, 30);
        let earliest = earliest_release(&table);
        let watched = random.between(1, table.n) as u8;
        let job = table.row(watched);
        let least = if job.level == HI {
            table.degraded
        } else {
            table.normal
        };
        let most_outside = random.one_of(&[0, 1, 9]);
        let course: Vec<u32> = (0..slots)
            .map(|slot| match slot {
                slot if slot < earliest || slot >= job.deadline => random.between(0, most_outside),
                _ => least + random.one_of(&[0, 0, 0, 1, 5]),
            })
            .collect();
        let mut state = State::FRESH;
        for &supply in &course {
            running_step(&table, &answer.order, &mut state, supply);
            if state.clock >= job.deadline {
                assert!(kept_deadline(&table, &state, watched), "{table:?}");
            }
        }
        let calls = calls_for(&mut random, &course);
        let (_, record) = fresh(&table, &answer.order).play(&calls);
        assert_eq!((record.clock, record.state()), (slots, state));
        kept[job.level as usize] += 1;
        for row in all_rows(&table) {
            let level = table.row(row).level as usize;
            lost[level] += u32::from(!kept_deadline(&table, &state, row));
        }
    }
    println!("LO and HI rows: {kept:?} watched, {lost:?} others lost their deadlines");
    let [low, high] = [LO, HI].map(|level| (kept[level as usize], lost[level as usize]));
    assert!(low.0 > 800 && low.1 > 200 && high.0 > 800 && high.1 > 50);
    kinds.assert_all(50);
}
