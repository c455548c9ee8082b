//! The rows left are the whole trouble (section 26 of the rules): the cases, the largest stuck
//! set, every way of choosing, cuts, changes elsewhere, and how many slots a row is short.

mod common;

use common::correct::{correct_by_every_course, TINY};
use common::{all_rows, any_table, SHORT};
use model::cases::stuck::{stuck as cases, StuckCase};
use model::choices::{correct_orders, every_row, lowest_rows, slack_alone, table_alone, words};
use model::order::{arrangements, check_order, every_arrangement, order_of, Order};
use model::plain;
use model::plan::{is_skipped, plan, rows_in_word, slack, word_of};
use model::random::{loading_table_in, random_order, tight_under, wait, Random};
use model::run::step;
use model::stuck::{
    cut, first_numbers, is_stuck, planners_way, slack_in_set, stuck_sets, ways, InHand, Way,
};
use model::table::{check_table, Row, Table, HI, LATEST_DEADLINE, LO};
use std::collections::HashSet;

/// The table with the earliest deadline in the place of each that was moved below 0, which
/// `tight_under` leaves beyond the latest one.
fn accepted(mut table: Table) -> Table {
    for index in 0..table.n as usize {
        if table.deadline[index] > LATEST_DEADLINE {
            table.deadline[index] = table.release[index] + 1;
        }
    }
    table
}

/// An accepted table of so many rows, half of them with deadlines about those that leave no slot
/// to spare under one of its orders, so that often some rows are left and others not.
fn troubled(random: &mut Random, rows: u32) -> Table {
    let table = accepted(any_table(random, rows));
    if random.once_in(2) {
        return table;
    }
    let order = random_order(random, &table);
    let moves = random.one_of(&[&[-1, 0, 3][..], &[-3, 0, 0, 6], &[-2, -1, 4, 8]]);
    accepted(tight_under(random, &table, &order, moves))
}

/// So many tables of each of these row counts.
fn tables(seed: u64, rounds: &[(u32, u32)]) -> Vec<Table> {
    let mut random = Random::seeded(seed);
    let rows = rounds
        .iter()
        .flat_map(|&(rows, times)| vec![rows; times as usize]);
    rows.map(|rows| troubled(&mut random, rows)).collect()
}

/// The word holds no row that the other one has not.
fn is_inside(word: u64, other: u64) -> bool {
    word & !other == 0
}

/// The word of one row.
fn bit(row: u8) -> u64 {
    word_of(&[row])
}

/// Is this so of some row of a word and the row that it follows?
fn some_wait(table: &Table, word: u64, is_so: impl Fn(u64) -> bool) -> bool {
    rows_in_word(word).into_iter().any(|row| {
        let follows = table.row(row).follows;
        follows != 0 && is_so(bit(follows as u8))
    })
}

/// Some row of the word follows a row of it.
fn waits_inside(table: &Table, word: u64) -> bool {
    some_wait(table, word, |followed| is_inside(followed, word))
}

/// Some row of the word follows a row outside it.
fn waits_outside(table: &Table, word: u64) -> bool {
    some_wait(table, word, |followed| !is_inside(followed, word))
}

/// Some row outside the word follows a row of it.
fn is_followed_outside(table: &Table, word: u64) -> bool {
    let outside = every_row(table) & !word;
    some_wait(table, outside, |followed| is_inside(followed, word))
}

/// The table has a correct order: one is found among all arrangements of its rows.
fn has_order(table: &Table) -> bool {
    !correct_orders(table).is_empty()
}

/// The table with a row cut alone, which is not its only one.
fn without_row(table: &Table, row: u8) -> Table {
    cut(table, &[every_row(table) & !bit(row)]).table
}

/// How often a table had no row left, some, or all.
#[derive(Default, Debug)]
struct Left {
    none: u32,
    some: u32,
    all: u32,
}

impl Left {
    fn saw(&mut self, table: &Table, left: u64) {
        match left {
            0 => self.none += 1,
            _ if left == every_row(table) => self.all += 1,
            _ => self.some += 1,
        }
    }

    /// Fails unless each came up so many times.
    fn assert_all(&self, least: u32) {
        println!("tables by their rows left: {self:?}");
        let all = [self.none, self.some, self.all];
        assert!(all.iter().all(|&times| times >= least), "{self:?}");
    }
}

/// What a case says, as the model works it out.
fn worked(what: &'static str, table: &Table) -> StuckCase {
    let left = plan(table).left;
    let slack = |row| slack_in_set(table, left, row);
    let mut enough = rows_in_word(left);
    enough.retain(|&row| has_order(&without_row(table, row)));
    let first = ways(table)
        .into_iter()
        .filter_map(|way| way.taken.first().copied());
    StuckCase {
        what,
        table: *table,
        left,
        stuck: stuck_sets(table),
        slacks: rows_in_word(left).into_iter().map(slack).collect(),
        ways: ways(table).len(),
        first: first.fold(0, |word, row| word | bit(row)),
        placed: planners_way(table).taken,
        enough: word_of(&enough),
    }
}

/// Each case as it says; no two have the same name.
#[test]
fn stuck_sets_of_the_cases() {
    let mut names = HashSet::new();
    for case in cases() {
        let what = case.what;
        assert_eq!(check_table(&case.table), 0, "{what}");
        assert_eq!(worked(what, &case.table), case);
        let number = if case.left == 0 { 0 } else { 7 };
        for planned in [plan(&case.table), plain::plan(&case.table)] {
            assert_eq!(
                (planned.number, planned.left),
                (number, case.left),
                "{what}"
            );
        }
        assert_eq!(
            lowest_rows(&case.table, every_row(&case.table)),
            rows_in_word(case.first)
        );
        assert!(names.insert(what), "{what} twice");
    }
}

/// The case of this name.
fn named(what: &str) -> StuckCase {
    let mut cases = cases().into_iter();
    cases
        .find(|case| case.what == what)
        .expect("there is such a case")
}

/// What the cases are there for: rows left that are not all rows, ways that differ in the first
/// row, waits in and across a stuck set, and a smaller stuck set.
#[test]
fn kinds_of_cases() {
    let some_left = |case: &StuckCase| case.left != 0 && case.left != every_row(&case.table);
    assert!(cases()[..12].iter().all(some_left));
    let either = named("either of two rows may be taken first");
    let taken: Vec<Vec<u8>> = ways(&either.table)
        .into_iter()
        .map(|way| way.taken)
        .collect();
    assert_eq!(taken, [[3, 4], [4, 3]]);
    let by_wait = named("stuck because of a wait");
    assert_eq!(lowest_rows(&by_wait.table.without_waits(), 0b011), [1]);
    let across = named("a follower is stuck without the row that it follows");
    assert!(across.stuck.contains(&0b010) && waits_outside(&across.table, 0b010));
    let followed = named("a row left is followed by one that has its place");
    assert!(is_followed_outside(&followed.table, followed.left));
    let inside = named("a stuck set inside the rows left");
    assert_eq!(inside.stuck[1..], [0b0011, inside.left]);
    let part = named("a promised part is late below the row that it follows").table;
    let all_lo = Table {
        level: [LO; 64],
        ..part
    };
    let as_fast = Table {
        degraded: part.normal,
        ..part
    };
    let without = [
        part.without_promises(),
        part.without_waits(),
        part.with_loading(0),
    ];
    for other in without.into_iter().chain([all_lo, as_fast]) {
        assert_eq!(
            (check_table(&other), plan(&other).number),
            (0, 0),
            "{other:?}"
        );
    }
}

/// A row left that is cut alone may leave a table with an order or without one, with one cut
/// there may be none at all, and neither few slots short nor a follower say which (rule 26.10).
#[test]
fn a_row_left_cut_alone() {
    let inside = named("a stuck set inside the rows left");
    assert_eq!(inside.slacks, [-2, -2, -1]);
    assert!(has_order(&without_row(&inside.table, 1)));
    assert!(!has_order(&without_row(&inside.table, 3)));
    let follower = named("a follower is stuck without the row that it follows");
    assert!(!has_order(&without_row(&follower.table, 1)));
    assert!(has_order(&without_row(&follower.table, 2)));
    let by_wait = named("stuck because of a wait");
    assert!(has_order(&without_row(&by_wait.table, 1)));
    for what in ["three rows want one slot", "two stuck sets apart"] {
        assert_eq!(named(what).enough, 0);
    }
}

/// In random tables a row cut alone leaves an order exactly if it stands in every stuck set but
/// the empty one (rules 26.6, 26.7 and 26.10).
#[test]
fn rows_cut_alone() {
    let (mut helps, mut helps_not, mut outside) = (0, 0, 0);
    for table in tables(161, &[(3, 1_200), (4, 900), (5, 300)]) {
        let (left, sets) = (plan(&table).left, stuck_sets(&table));
        for row in all_rows(&table) {
            let in_each = sets[1..].iter().all(|&set| is_inside(bit(row), set));
            let is_enough = has_order(&without_row(&table, row));
            assert_eq!(is_enough, in_each, "{table:?} {row}");
            let is_left = is_inside(bit(row), left);
            helps += u32::from(is_left && is_enough);
            helps_not += u32::from(is_left && !is_enough);
            outside += u32::from(left != 0 && !is_left);
            assert!(left == 0 || is_left || !is_enough, "{table:?} {row}");
        }
    }
    println!("{helps} rows left help, {helps_not} do not, {outside} others");
    assert!(helps > 500 && helps_not > 500 && outside > 500);
}

/// No row of a set may stand lowest, with every arrangement of the set's table alone looked at:
/// its lowest row is followed there or late.
fn is_stuck_by_listing(alone: &Table) -> bool {
    let rows = all_rows(alone);
    every_arrangement(alone.n).iter().all(|numbers| {
        let lowest = numbers[alone.n as usize - 1];
        is_skipped(alone, &rows, lowest) || slack(alone, numbers, lowest) < 0
    })
}

/// Whether a set is stuck is seen from its table alone, and is so exactly if the planner's choice
/// for that leaves every row (rule 26.2). The set of no rows is stuck.
#[test]
fn seen_from_the_table_alone() {
    let (mut stuck, mut not_stuck, mut across) = (0, 0, 0);
    for table in tables(162, &[(2, 900), (3, 1_500), (4, 1_200), (5, 240)]) {
        assert!(is_stuck(&table, 0));
        for word in words(&table).skip(1) {
            let alone = table_alone(&table, word);
            let is_so = is_stuck(&table, word);
            assert_eq!(is_so, is_stuck_by_listing(&alone), "{table:?} {word}");
            assert_eq!(is_so, is_stuck(&alone, every_row(&alone)));
            assert_eq!(is_so, plan(&alone).left == every_row(&alone));
            stuck += u32::from(is_so);
            not_stuck += u32::from(!is_so);
            across += u32::from(is_so && waits_outside(&table, word));
        }
    }
    println!("{stuck} sets are stuck, {across} with a wait on a row outside, {not_stuck} are not");
    assert!(stuck > 1_000 && across > 50 && not_stuck > 1_000);
}

/// Which kinds of tables that leave some rows but not all came up.
#[derive(Default, Debug)]
struct Kinds {
    waits_inside: u32,
    followed_outside: u32,
    left_by_waits: u32,
    promised_parts: u32,
    loading: u32,
    both_levels: u32,
    two_speeds: u32,
    smaller_sets: u32,
    waits_out_of_a_smaller_set: u32,
}

impl Kinds {
    fn saw(&mut self, table: &Table, left: u64, sets: &[u64]) {
        let rows = rows_in_word(left);
        let has_level = |level| rows.iter().any(|&row| table.row(row).level == level);
        let smaller = |set: &&u64| **set != 0 && **set != left;
        let counts = [
            (&mut self.waits_inside, waits_inside(table, left)),
            (&mut self.followed_outside, is_followed_outside(table, left)),
            (
                &mut self.left_by_waits,
                plan(&table.without_waits()).left != left,
            ),
            (
                &mut self.promised_parts,
                rows.iter().any(|&row| table.row(row).promised > 0),
            ),
            (&mut self.loading, table.loading > 0),
            (&mut self.both_levels, has_level(LO) && has_level(HI)),
            (&mut self.two_speeds, table.normal > table.degraded),
            (&mut self.smaller_sets, sets.iter().any(|set| smaller(&set))),
            (
                &mut self.waits_out_of_a_smaller_set,
                sets.iter()
                    .filter(smaller)
                    .any(|&set| waits_outside(table, set)),
            ),
        ];
        for (count, is_so) in counts {
            *count += u32::from(is_so);
        }
    }

    /// Fails unless each kind came up so many times.
    fn assert_all(&self, least: u32) {
        println!("tables that leave some rows: {self:?}");
        let all = [
            self.waits_inside,
            self.followed_outside,
            self.left_by_waits,
            self.promised_parts,
            self.loading,
            self.both_levels,
            self.two_speeds,
            self.smaller_sets,
            self.waits_out_of_a_smaller_set,
        ];
        assert!(all.iter().all(|&times| times >= least), "{self:?}");
    }
}

/// The rows left by the planner's choice are a stuck set, every stuck set lies inside it, and it
/// is all rows that stand in some (rule 26.4). No row left follows one that is not (rule 21.3).
#[test]
fn the_largest_stuck_set() {
    let (mut left_by, mut kinds) = (Left::default(), Kinds::default());
    for table in tables(
        163,
        &[(2, 1_000), (3, 5_000), (4, 4_000), (5, 1_800), (6, 600)],
    ) {
        let (planned, sets) = (plan(&table), stuck_sets(&table));
        let left = planned.left;
        assert_eq!(planned.number, if left == 0 { 0 } else { 7 });
        assert!(sets.contains(&left), "{table:?}");
        assert!(sets.iter().all(|&set| is_inside(set, left)), "{table:?}");
        let union = sets.iter().fold(0, |rows, set| rows | set);
        assert_eq!(union, left, "{table:?}");
        assert!(!waits_outside(&table, left), "{table:?}");
        left_by.saw(&table, left);
        if left != 0 && left != every_row(&table) {
            kinds.saw(&table, left, &sets);
        }
    }
    left_by.assert_all(1_000);
    kinds.assert_all(100);
}

/// Every way of choosing leaves the same rows, and the planner's choice is one of the ways (rules
/// 26.3 and 26.5). Where no row is left the ways are the correct orders, the lowest place first.
#[test]
fn every_way_leaves_the_same_rows() {
    let mut left_by = Left::default();
    let (mut other_first, mut other_with_waits, mut most) = (0, 0, 0);
    for table in tables(164, &[(2, 600), (3, 3_000), (4, 2_400), (5, 900), (6, 180)]) {
        let (planned, all) = (plan(&table), ways(&table));
        let planners = planners_way(&table);
        assert!(all.contains(&planners), "{table:?}");
        assert!(all.iter().all(|way| way.left == planned.left), "{table:?}");
        let sequences: HashSet<&Vec<u8>> = all.iter().map(|way| &way.taken).collect();
        assert_eq!(sequences.len(), all.len());
        for way in &all {
            assert_is_way(&table, way);
        }
        if planned.left == 0 {
            assert_eq!(upwards(&planners), planned.order);
            let orders: HashSet<Order> = all.iter().map(upwards).collect();
            let listed: HashSet<Order> = correct_orders(&table).into_iter().collect();
            assert_eq!(orders, listed, "{table:?}");
        }
        left_by.saw(&table, planned.left);
        let first: HashSet<Option<&u8>> = all.iter().map(|way| way.taken.first()).collect();
        if planned.left != 0 && first.len() > 1 {
            other_first += 1;
            other_with_waits += u32::from(table != table.without_waits());
            most = most.max(all.len());
        }
    }
    println!("{other_first} tables that leave rows begin in several ways, {other_with_waits} of");
    println!("them with waits; {most} ways at most");
    left_by.assert_all(500);
    assert!(other_first > 400 && other_with_waits > 100 && most > 10);
}

/// The rows of a way that leaves none as an order.
fn upwards(way: &Way) -> Order {
    let mut rows = way.taken.clone();
    rows.reverse();
    order_of(&rows)
}

/// Each row that the way takes is in time and not followed below the rows not yet chosen, worked
/// in the whole table without waits; and no row that it leaves is (rule 26.3).
fn assert_is_way(table: &Table, way: &Way) {
    let whole = table.without_waits();
    let mut left = all_rows(table);
    let may_stand = |left: &[u8], row: u8| {
        let (mut places, rest): (Vec<u8>, Vec<u8>) = all_rows(table)
            .into_iter()
            .partition(|other| left.contains(other));
        places.retain(|&other| other != row);
        places.push(row);
        places.extend(rest);
        !is_skipped(table, left, row) && slack(&whole, &order_of(&places), row) >= 0
    };
    for &row in &way.taken {
        assert!(
            left.contains(&row) && may_stand(&left, row),
            "{table:?} {way:?}"
        );
        left.retain(|&other| other != row);
    }
    assert_eq!(word_of(&left), way.left);
    assert!(
        left.iter().all(|&row| !may_stand(&left, row)),
        "{table:?} {way:?}"
    );
}

/// A correct order exists, by listing all arrangements, exactly if no set of rows but the empty
/// one is stuck (rule 26.6).
#[test]
fn no_stuck_set_an_order() {
    let (mut with, mut without) = (0, 0);
    for table in tables(
        165,
        &[(1, 100), (2, 400), (3, 1_000), (4, 600), (5, 200), (6, 60)],
    ) {
        let has_one = has_order(&table);
        assert_eq!(has_one, stuck_sets(&table) == [0], "{table:?}");
        with += u32::from(has_one);
        without += u32::from(!has_one);
    }
    println!("{with} tables with an order, {without} without one");
    assert!(with > 500 && without > 500);
}

/// The same with correct orders by their definition, under every course of speed (rules 3.4 and
/// 26.6).
#[test]
fn an_order_for_every_course_of_speed() {
    let mut random = Random::seeded(166);
    let (mut with, mut without) = (0, 0);
    for round in 0..600 {
        let loading = random.between(0, 1);
        let table = loading_table_in(&mut random, 2 + round % 2, loading, TINY);
        let is_correct = |numbers: &Order| {
            check_order(&table, numbers) == 0 && correct_by_every_course(step, &table, numbers)
        };
        let has_one = every_arrangement(table.n).iter().any(is_correct);
        assert_eq!(has_one, stuck_sets(&table) == [0], "{table:?}");
        with += u32::from(has_one);
        without += u32::from(!has_one);
    }
    println!("{with} tables with an order, {without} without one");
    assert!(with > 50 && without > 50);
}

/// Rows of a table as a word in the numbers of the table of those that remain, which are
/// theirs by their places there.
fn in_hand_numbers(remain: u64, rows: u64) -> u64 {
    let places = (1..).zip(rows_in_word(remain));
    let asked = places.filter(|&(_, row)| is_inside(bit(row), rows));
    asked.map(|(place, _)| bit(place)).sum()
}

/// So many cuts of a table that leave just these rows: all but the last leave some others too.
fn cuts_to(random: &mut Random, table: &Table, rows: u64, steps: u32) -> Vec<u64> {
    let mut remain = every_row(table);
    let mut cuts = Vec::new();
    for step in 1..=steps {
        let others = if step == steps { 0 } else { random.word() };
        let leaves = rows | remain & others;
        cuts.push(in_hand_numbers(remain, leaves));
        remain = leaves;
    }
    cuts
}

/// The rows left by the planner's choice for a table in hand that has a row, in the numbers of
/// the first table.
fn left_in_hand(hand: &InHand) -> u64 {
    first_numbers(hand.remain, plan(&hand.table).left)
}

/// After cuts in the numbers of the table then in hand, the rows that remain are those of the
/// first table that no cut took away, and the table in hand is theirs alone (rule 26.7).
#[test]
fn what_cuts_leave() {
    let mut random = Random::seeded(167);
    let mut renumbered = [0; 4];
    for round in 0..3_000 {
        let rows = random.one_of(&[3, 4, 5, 6, 12, 40, 64]);
        let table = troubled(&mut random, rows);
        let steps = 1 + round % 3;
        let (mut remain, mut cuts) = (all_rows(&table), Vec::new());
        for _ in 0..steps {
            let any = random.word() | random.word();
            let count = remain.len() as u32;
            let word = any & u64::MAX.checked_shr(64 - count).unwrap_or(0);
            let left = (1..)
                .zip(&remain)
                .filter(|&(place, _)| is_inside(bit(place), word));
            remain = left.map(|(_, &row)| row).collect();
            cuts.push(word);
        }
        let hand = cut(&table, &cuts);
        assert_eq!(rows_in_word(hand.remain), remain, "{table:?} {cuts:?}");
        assert_eq!(
            hand.table,
            table_alone(&table, hand.remain),
            "{table:?} {cuts:?}"
        );
        let number = if remain.is_empty() { 3 } else { 0 };
        assert_eq!(check_table(&hand.table), number);
        let follows = &hand.table.follows[..remain.len()];
        for (&row, &followed) in remain.iter().zip(follows) {
            let before = table.row(row).follows;
            let kept = remain.iter().any(|&other| u32::from(other) == before);
            let now = if followed == 0 {
                0
            } else {
                remain[followed as usize - 1]
            };
            assert_eq!(u32::from(now), if kept { before } else { 0 });
            renumbered[steps] += u32::from(followed != 0 && followed != before);
        }
    }
    println!("waits under new numbers, by cuts: {renumbered:?}");
    assert!(renumbered[1..].iter().all(|&times| times > 300));
    let table = troubled(&mut random, 5);
    let untouched = InHand {
        table,
        remain: 0b11111,
    };
    assert_eq!(cut(&table, &[]), untouched);
    assert_eq!(cut(&table, &[0b11111]), untouched);
}

/// How often cuts took away all rows left, some of them with an order or without one then, or
/// none of them, and how often two lists of cuts differed elsewhere.
#[derive(Default, Debug)]
struct Cuts {
    all_gone: u32,
    some_gone_an_order: u32,
    some_gone_no_order: u32,
    none_gone: u32,
    nothing_was_left: u32,
    differed_elsewhere: u32,
}

impl Cuts {
    fn saw(&mut self, left: u64, remain: u64, left_then: u64) {
        match (left, remain & left) {
            (0, _) => self.nothing_was_left += 1,
            (_, 0) => self.all_gone += 1,
            (_, kept) if kept == left => self.none_gone += 1,
            _ if left_then == 0 => self.some_gone_an_order += 1,
            _ => self.some_gone_no_order += 1,
        }
    }

    /// Fails unless each came up so many times.
    fn assert_all(&self, least: u32) {
        println!("cuts: {self:?}");
        let all = [
            self.all_gone,
            self.some_gone_an_order,
            self.some_gone_no_order,
            self.none_gone,
            self.nothing_was_left,
            self.differed_elsewhere,
        ];
        assert!(all.iter().all(|&times| times >= least), "{self:?}");
    }
}

/// Rows of a table to keep: of the rows left none, some or all, and any of the others.
fn rows_to_keep(random: &mut Random, table: &Table, left: u64) -> u64 {
    let of_left = random.word();
    let of_left = random.one_of(&[0, of_left, u64::MAX]);
    every_row(table) & (left & of_left | !left & random.word())
}

/// Asserts what rule 26.7 says of a table in hand of which a row remains, and gives the rows left
/// for it in the numbers of the first table, of which these were left.
fn assert_cut(left: u64, hand: &InHand) -> u64 {
    let (planned, then) = (plan(&hand.table), left_in_hand(hand));
    assert!(is_inside(then, left & hand.remain), "{hand:?}");
    if hand.remain & left == 0 {
        assert!(has_order(&hand.table), "{hand:?}");
        assert_eq!(planned.number, 0);
    }
    if is_inside(left, hand.remain) {
        assert_eq!(then, left, "{hand:?}");
        assert_eq!(planned.number, if left == 0 { 0 } else { 7 });
        assert_eq!(has_order(&hand.table), left == 0);
    }
    then
}

/// Without the rows left there is an order. Cutting elsewhere never helps: the rows left then are
/// among those left before, depend only on which of these remain, and are all of them if they all
/// do (rule 26.7). They are all rows of stuck sets that remain whole.
#[test]
fn cuts_and_the_rows_left() {
    let mut random = Random::seeded(168);
    let mut seen = [Cuts::default(), Cuts::default(), Cuts::default()];
    for (round, table) in tables(169, &[(3, 900), (4, 900), (5, 450), (6, 120)])
        .iter()
        .enumerate()
    {
        let (left, sets) = (plan(table).left, stuck_sets(table));
        let steps = round % 3;
        for _ in 0..4 {
            let keep = rows_to_keep(&mut random, table, left);
            let other = keep & left | random.word() & every_row(table) & !left;
            if keep == 0 || other == 0 {
                continue;
            }
            let cuts = cuts_to(&mut random, table, keep, steps as u32 + 1);
            let hand = cut(table, &cuts);
            assert_eq!(hand.remain, keep, "{table:?} {cuts:?}");
            let then = assert_cut(left, &hand);
            let whole = sets.iter().filter(|&&set| is_inside(set, keep));
            assert_eq!(
                then,
                whole.fold(0, |rows, set| rows | set),
                "{table:?} {cuts:?}"
            );
            let other_steps = random.between(1, 3);
            let others = cuts_to(&mut random, table, other, other_steps);
            let other_hand = cut(table, &others);
            assert_eq!(
                assert_cut(left, &other_hand),
                then,
                "{table:?} {cuts:?} {others:?}"
            );
            seen[steps].saw(left, keep, then);
            seen[steps].differed_elsewhere += u32::from(left != 0 && keep != other);
        }
    }
    for by_steps in seen {
        by_steps.assert_all(50);
    }
}

/// A table of so many rows that holds the rows of another one as those of a word, with its
/// speeds and loading time, and any other rows. Rows outside the word may follow any row, those
/// of it that follow none there may follow rows outside.
fn holding(random: &mut Random, alone: &Table, word: u64, rows: u32) -> Table {
    let held = rows_in_word(word);
    let others = loading_table_in(random, rows, alone.loading, SHORT);
    let row_at = |row: u8| match held.iter().position(|&other| other == row) {
        None => Row {
            follows: 0,
            ..others.row(row)
        },
        Some(place) => {
            let job = alone.row(place as u8 + 1);
            let follows = match job.follows {
                0 => 0,
                followed => u32::from(held[followed as usize - 1]),
            };
            Row { follows, ..job }
        }
    };
    let jobs: Vec<Row> = all_rows(&others).into_iter().map(row_at).collect();
    let mut table = Table::of(alone.normal, alone.degraded, alone.loading, &jobs);
    for row in 2..=rows as u8 {
        let follows = wait(random, &table, row);
        let is_held = |number: u32| held.iter().any(|&other| u32::from(other) == number);
        if !is_held(u32::from(row)) || table.row(row).follows == 0 && !is_held(follows) {
            table.follows[row as usize - 1] = follows;
        }
    }
    table
}

/// So many of the first `rows` rows, any of them.
fn some_rows(random: &mut Random, count: u32, rows: u32) -> u64 {
    let all: Vec<u8> = (1..=rows as u8).collect();
    word_of(&random.shuffled(&all)[..count as usize])
}

/// A table that holds a set of rows with the table alone of a stuck set that is not empty has no
/// order, whatever its other rows are and however many are added (rule 26.8).
#[test]
fn changes_elsewhere() {
    let mut random = Random::seeded(170);
    let (mut replaced, mut added, mut smaller) = (0, 0, 0);
    let (mut out_of_it, mut into_it) = (0, 0);
    for table in tables(171, &[(2, 300), (3, 600), (4, 300), (5, 100)]) {
        let left = plan(&table).left;
        if left == 0 {
            continue;
        }
        let sets = stuck_sets(&table);
        let set = if random.once_in(2) {
            left
        } else {
            random.one_of(&sets[1..])
        };
        let alone = table_alone(&table, set);
        let rows = table.n + random.between(0, 2).min(6 - table.n);
        let word = match rows == table.n {
            true => set,
            false => some_rows(&mut random, alone.n, rows),
        };
        let changed = holding(&mut random, &alone, word, rows);
        assert_eq!(check_table(&changed), 0, "{changed:?}");
        assert_eq!(table_alone(&changed, word), alone, "{changed:?}");
        assert!(is_stuck(&changed, word));
        assert!(!has_order(&changed), "{changed:?}");
        let planned = plan(&changed);
        assert!(
            planned.number == 7 && is_inside(word, planned.left),
            "{changed:?}"
        );
        replaced += u32::from(rows == table.n && word != every_row(&table));
        added += u32::from(rows > table.n);
        smaller += u32::from(set != left);
        out_of_it += u32::from(waits_outside(&changed, word));
        into_it += u32::from(is_followed_outside(&changed, word));
    }
    println!("{replaced} with rows replaced, {added} with rows added, {smaller} sets that are not");
    println!("all rows left, waits out of the set in {out_of_it}, into it in {into_it}");
    let all = [replaced, added, smaller, out_of_it, into_it];
    assert!(all.iter().all(|&times| times > 40), "{all:?}");
}

/// The slack of a row in a set is its slack in the whole table without waits, with the others of
/// the set above it in any sequence and the rest below; and if no row of the set follows it, that
/// in the table of the set alone with its waits (rule 26.9).
#[test]
fn slacks_in_a_set() {
    let mut random = Random::seeded(172);
    let (mut unfollowed, mut broken, mut waits_matter) = (0, 0, 0);
    for table in tables(173, &[(3, 600), (4, 500), (5, 300), (6, 100)]) {
        let whole = table.without_waits();
        let word = 1 + random.word() % every_row(&table);
        let (held, alone) = (rows_in_word(word), table_alone(&table, word));
        for (place, &row) in (1..).zip(&held) {
            let in_set = slack_in_set(&table, word, row);
            let rest = rows_in_word(every_row(&table) & !word);
            let above = rows_in_word(word & !bit(row));
            for _ in 0..3 {
                let mut places = random.shuffled(&above);
                places.push(row);
                places.extend(random.shuffled(&rest));
                assert_eq!(
                    slack(&whole, &order_of(&places), row),
                    in_set,
                    "{table:?} {word}"
                );
            }
            if is_skipped(&table, &held, row) {
                waits_matter += u32::from(slack_alone(&table, word, row) != in_set);
                continue;
            }
            unfollowed += 1;
            let mut others = all_rows(&alone);
            others.retain(|&other| other != place);
            for mut places in arrangements(&others) {
                places.push(place);
                let numbers = order_of(&places);
                broken += u32::from(check_order(&alone, &numbers) != 0);
                assert_eq!(slack(&alone, &numbers, place), in_set, "{table:?} {word}");
            }
        }
    }
    println!("{unfollowed} rows that none follows, {broken} arrangements that break a wait,");
    println!("{waits_matter} followed rows whose slack would be another with waits kept");
    assert!(unfollowed > 1_000 && broken > 500 && waits_matter > 50);
}

/// Every row of a stuck set is followed by one of it or short of slots in it (rule 26.9).
#[test]
fn short_or_followed() {
    let (mut short, mut followed, mut both) = (0, 0, 0);
    for table in tables(174, &[(2, 900), (3, 1_800), (4, 1_200), (5, 300)]) {
        for set in stuck_sets(&table) {
            let rows = rows_in_word(set);
            for &row in &rows {
                let is_followed = is_skipped(&table, &rows, row);
                let is_short = slack_in_set(&table, set, row) < 0;
                assert!(is_followed || is_short, "{table:?} {set} {row}");
                short += u32::from(is_short && !is_followed);
                followed += u32::from(is_followed && !is_short);
                both += u32::from(is_followed && is_short);
            }
        }
    }
    println!("{short} rows are short, {followed} are followed, {both} are both");
    assert!(short > 1_000 && followed > 50 && both > 50);
}

/// A way of choosing that takes any row that it may.
fn random_way(random: &mut Random, table: &Table) -> Way {
    let (mut taken, mut left) = (Vec::new(), every_row(table));
    loop {
        let rows = lowest_rows(table, left);
        if rows.is_empty() {
            return Way { taken, left };
        }
        let row = random.one_of(&rows);
        taken.push(row);
        left &= !bit(row);
    }
}

/// Tables of up to 64 rows: random ways leave the rows left, which are stuck, cutting elsewhere
/// leaves them again, and without them there is an order (rules 26.4, 26.5 and 26.7).
#[test]
fn many_rows() {
    let mut random = Random::seeded(175);
    let (mut some_left, mut other_first) = (0, 0);
    for (rows, times) in [(12, 100), (30, 40), (64, 20)] {
        for _ in 0..times {
            let table = troubled(&mut random, rows);
            let planned = plan(&table);
            let left = planned.left;
            assert!(is_stuck(&table, left), "{table:?}");
            let planners = planners_way(&table);
            assert_eq!(planners.left, left, "{table:?}");
            let other = random_way(&mut random, &table);
            assert_eq!(other.left, left, "{table:?}");
            let outside = every_row(&table) & !left;
            some_left += u32::from(left != 0 && outside != 0);
            other_first += u32::from(left != 0 && other.taken.first() != planners.taken.first());
            if left != 0 {
                let keep = left | outside & random.word();
                let hand = cut(&table, &cuts_to(&mut random, &table, keep, 2));
                assert_eq!((hand.remain, left_in_hand(&hand)), (keep, left));
            }
            if outside != 0 {
                let hand = cut(&table, &cuts_to(&mut random, &table, outside, 3));
                assert_eq!((hand.remain, plan(&hand.table).number), (outside, 0));
            }
        }
    }
    println!("{some_left} tables leave some rows, {other_first} were begun with another row");
    assert!(some_left > 40 && other_first > 10);
}
