//! With w = 0 in every row all calls of the library answer as the model did before rows
//! followed rows (rule 21.5), with r = 0 too as before rows had a promise (rule 20.2), and
//! with K = 0 too as before tables had a loading time, one slot and forward where there is
//! no late preview to drop (rule 17.1).

use compiled::library;
use model::before::{answers, Calls, TIMES};

#[test]
fn the_library_answers_as_before_loading_promises_and_waits() {
    let of_library = Calls {
        read: library::read,
        write: library::write,
        plan: library::plan,
        judge: library::judge,
        report: library::report,
        one_slot: library::one_slot,
        forward: library::forward,
        program: library::program,
        least: library::least,
    };
    for before in TIMES {
        assert_eq!(answers(&of_library, before), before.stored(), "{before:?}");
    }
}
