//! Reference model of the priority planner, for a processor that is blind to
//! its own speed.
//!
//! Everything here states a rule of docs/RULES.md, slot by slot, in the most
//! direct way, and cites its number. Nothing is made fast by theory: a worst finish is found by
//! working every slot up to it. Compiled code is compared with this model, so
//! a line that needs an argument to be believed does not belong here. The exceptions
//! are `plain` and `planners`, which find worst finishes by sweeps: the tests of the
//! compiled library compare them with the other modules, and none of those uses them.
//!
//! Units: clocks, releases, deadlines, loading times, needs, finishes, slacks and
//! closing slots are in slots; work and promised parts are in work units; speeds and
//! supplies are in work units per slot. Rows and places count from 1; row 0 means "no row".
//!
//! | module      | states                                                       |
//! |-------------|--------------------------------------------------------------|
//! | `table`     | rows, tables, need, allowance, checks 3, 4, 11, 5, 12 to 15  |
//! | `order`     | orders by value, check 6, every arrangement of some rows     |
//! | `run`       | the state of a run, the step by either rule, kept deadlines  |
//! | `calls`     | the two run calls on paper, with number 8                    |
//! | `record`    | the run record, check 9, one slot and forward on a record    |
//! | `plan`      | worst finish, promised moment, slack, choice at a ceiling    |
//! | `judge`     | the judge of orders                                          |
//! | `proposal`  | asking, committing, and days of run calls and commits        |
//! | `choices`   | correct orders counted, of a table and of each word of rows  |
//! | `stuck`     | stuck sets of rows, ways of choosing, cuts, slacks in a set  |
//! | `speeds`    | the least workable speeds, by a scan over all of the range   |
//! | `sheet`     | the sheet's fields, its reader and its writer                |
//! | `place`     | where a refused sheet is at fault                            |
//! | `report`    | the report: its figures, lines and totals                    |
//! | `sentences` | answers as English lines, their composer and their reader    |
//! | `program`   | the planning program from input bytes to output bytes        |
//! | `cases`     | cases worked out by hand, P1 to P4 among them                |
//! | `before`    | answers from before loading times, promises and waits        |
//! | `random`    | a fixed-seed generator of numbers, tables, days, answers     |
//! | `plain`     | the same answers by sweeps, for large tables and measures    |
//! | `planners`  | planning with a sweep for each trial, and for each place;    |
//! |             | choices with sweeps for each word                            |

pub mod before;
pub mod calls;
pub mod cases;
pub mod choices;
pub mod judge;
pub mod order;
pub mod place;
pub mod plain;
pub mod plan;
pub mod planners;
pub mod program;
pub mod proposal;
pub mod random;
pub mod record;
pub mod report;
pub mod run;
pub mod sentences;
pub mod sheet;
pub mod speeds;
pub mod stuck;
pub mod table;
