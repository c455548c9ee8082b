//! The compiled library seen from outside.
//!
//! | module    | holds                                                          |
//! |-----------|----------------------------------------------------------------|
//! | `raw`     | the library's C functions, and tables and records as its words |
//! | `library` | safe calls of them, which also look at the memory around them  |
//! | `sheets`  | tables on which the planner has little or much to do           |
//! | `stack`   | the most bytes of stack that each call takes                   |
//!
//! The reference is the package `model`, which works every slot. Its modules
//! `plain` and `planners`, which sweep as the library does, are tested against the
//! rest of it and stand in for it where it would take too long.

pub mod library;
pub mod raw;
pub mod sheets;
pub mod stack;
