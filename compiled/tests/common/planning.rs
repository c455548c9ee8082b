//! The planner's answers: the library's against those of the model and of plain Rust.

use super::Tally;
use compiled::library;
use model::order::NO_ORDER;
use model::plan::{plan_and_trials, Counted, Plan};
use model::planners::{each_place, each_trial};
use model::table::Table;

/// Compares the library and both plain planners with the model; gives its number.
pub fn compare_all(table: &Table, tally: &mut Tally<u32>) -> u32 {
    let of_model = plan_and_trials(table);
    assert_eq!(by_both(table), of_model, "the plain planners: {table:?}");
    compare(table, &of_model.0, tally);
    of_model.0.number
}

/// Compares the library with both plain planners, where the model would take too long;
/// gives their number and trials.
pub fn compare_plain(table: &Table, tally: &mut Tally<u32>) -> (u32, u32) {
    let (expected, trials) = by_both(table);
    compare(table, &expected, tally);
    (expected.number, trials)
}

/// What both plain planners answer, and the trials that both count.
pub fn by_both(table: &Table) -> (Plan, u32) {
    let of_first = each_trial::plan_and_trials(table);
    assert_eq!(each_place::plan_and_trials(table), of_first, "{table:?}");
    assert_eq!(each_trial::plan(table), of_first.0, "{table:?}");
    assert_eq!(each_place::plan(table), of_first.0, "{table:?}");
    of_first
}

/// What is answered at a ceiling, in trials, to a table with this answer and this count: the
/// same where the count is not above the ceiling, else 19 with zeros and the ceiling (rules
/// 23.4, 23.5 and 23.7).
pub fn at_ceiling((plan, count): (Plan, u32), ceiling: u32) -> Counted {
    if count > ceiling {
        let plan = Plan::refused(19, 0);
        let trials = ceiling;
        return Counted { plan, trials };
    }
    let trials = count;
    Counted { plan, trials }
}

/// Compares the library with this answer.
pub fn compare(table: &Table, expected: &Plan, tally: &mut Tally<u32>) {
    let answer = library::plan(table);
    assert_eq!(answer, *expected, "{table:?}");
    assert!(answer.number == 0 || answer.order == NO_ORDER);
    assert!((answer.number == 7) == (answer.left != 0));
    tally.saw(answer.number);
}
