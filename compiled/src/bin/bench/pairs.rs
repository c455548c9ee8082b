//! Times calls that do the same in turns and prints their ratio.

use std::time::{Duration, Instant};

/// Batches of each call; the best of them counts.
const BATCHES: usize = 9;

/// How long a batch takes at least, unless one call alone takes longer.
const BATCH: Duration = Duration::from_millis(10);

/// Prints the head of the table.
pub fn print_head() {
    println!("{}", head());
}

fn head() -> String {
    format!(
        "{:<28}{:>5}{:>8}{:>16}{:>16}",
        "what", "rows", "ratio", "library", "plain Rust"
    )
}

/// Measures one pair on so many rows and prints its line.
pub fn measure(what: &str, rows: u32, library: &mut dyn FnMut(), plain: &mut dyn FnMut()) {
    println!("{}", line(what, rows, best([library, plain])));
}

fn line(what: &str, rows: u32, [of_library, of_plain]: [f64; 2]) -> String {
    format!(
        "{what:<28}{rows:>5}{:>8.2}{:>16}{:>16}",
        of_library / of_plain,
        in_words(of_library),
        in_words(of_plain)
    )
}

/// Prints the head of the table of calls that are measured against a part of them.
pub fn print_head_with_part(part: &str) {
    println!("{}{part:>16}{:>8}", head(), "ratio");
}

/// Measures one pair and a part of the library's call on so many rows, and prints
/// their line, with the ratio of the call to its part at the end.
pub fn measure_with_part(
    what: &str,
    rows: u32,
    library: &mut dyn FnMut(),
    plain: &mut dyn FnMut(),
    part: &mut dyn FnMut(),
) {
    let [of_library, of_plain, of_part] = best([library, plain, part]);
    println!(
        "{}{:>16}{:>8.2}",
        line(what, rows, [of_library, of_plain]),
        in_words(of_part),
        of_library / of_part
    );
}

/// Prints the head of the table of calls that are measured against two in plain Rust.
pub fn print_head_with_two(count: &str, first: &str, second: &str) {
    println!(
        "{:<28}{:>5}{count:>8}{:>16}{first:>16}{:>8}{second:>16}{:>8}",
        "what", "rows", "library", "ratio", "ratio"
    );
}

/// Measures a call and two in plain Rust that do the same on so many rows, and prints
/// their line, with this count and the ratios of the call to either.
pub fn measure_with_two(
    what: &str,
    [rows, count]: [u32; 2],
    library: &mut dyn FnMut(),
    first: &mut dyn FnMut(),
    second: &mut dyn FnMut(),
) {
    let [of_library, of_first, of_second] = best([library, first, second]);
    println!(
        "{what:<28}{rows:>5}{count:>8}{:>16}{:>16}{:>8.2}{:>16}{:>8.2}",
        in_words(of_library),
        in_words(of_first),
        of_library / of_first,
        in_words(of_second),
        of_library / of_second
    );
}

/// Prints the head of the table of calls that are measured at ceilings.
pub fn print_head_with_ceilings() {
    println!(
        "{:<28}{:>5}{:>9}{:>8}{:>8}{:>16}{:>16}{:>8}",
        "what", "rows", "ceiling", "trials", "number", "library", "no ceiling", "ratio"
    );
}

/// Measures a call at a ceiling and the one without, and prints their line, with the rows, the
/// ceiling, the trials made and the number, and the ratio of the first to the second.
pub fn measure_with_ceiling(
    what: &str,
    [rows, ceiling, trials, number]: [u32; 4],
    within: &mut dyn FnMut(),
    without: &mut dyn FnMut(),
) {
    let [of_within, of_without] = best([within, without]);
    println!(
        "{what:<28}{rows:>5}{ceiling:>9}{trials:>8}{number:>8}{:>16}{:>16}{:>8.2}",
        in_words(of_within),
        in_words(of_without),
        of_within / of_without
    );
}

/// Nanoseconds that each of these takes: the best of its batches, which take turns
/// with those of the others.
fn best<const COUNT: usize>(mut calls: [&mut dyn FnMut(); COUNT]) -> [f64; COUNT] {
    let in_batch: Vec<u32> = calls.iter_mut().map(|call| calls_in_batch(call)).collect();
    let mut best = [f64::INFINITY; COUNT];
    for _ in 0..BATCHES {
        for ((best, call), &count) in best.iter_mut().zip(&mut calls).zip(&in_batch) {
            *best = best.min(nanoseconds(call, count));
        }
    }
    best
}

/// How many calls fill a batch.
fn calls_in_batch(call: &mut dyn FnMut()) -> u32 {
    let mut calls = 1;
    loop {
        let start = Instant::now();
        repeat(call, calls);
        if start.elapsed() >= BATCH {
            return calls;
        }
        calls *= 2;
    }
}

/// Nanoseconds for one call, over this many.
fn nanoseconds(call: &mut dyn FnMut(), calls: u32) -> f64 {
    let start = Instant::now();
    repeat(call, calls);
    start.elapsed().as_nanos() as f64 / f64::from(calls)
}

fn repeat(call: &mut dyn FnMut(), calls: u32) {
    for _ in 0..calls {
        call();
    }
}

fn in_words(nanoseconds: f64) -> String {
    if nanoseconds < 1e3 {
        format!("{nanoseconds:.1} ns")
    } else if nanoseconds < 1e6 {
        format!("{:.2} us", nanoseconds / 1e3)
    } else {
        format!("{:.2} ms", nanoseconds / 1e6)
    }
}
