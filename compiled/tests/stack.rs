//! The stack of every call, against what the header says of it.

use compiled::stack::{peaks, to_state};
use std::fs;

/// A file of the repository.
fn text_of(name: &str) -> String {
    let path = format!("{}/../{name}", env!("CARGO_MANIFEST_DIR"));
    fs::read_to_string(path).expect("a file of the repository")
}

/// The figures in the header's comment: a line ` *     jb_read      1,234`.
fn stated() -> Vec<(String, usize)> {
    let header = text_of("c/jasminebrace.h");
    let figure = |line: &str| {
        let mut words = line.strip_prefix(" *     jb_")?.split_whitespace();
        let name = format!("jb_{}", words.next()?);
        let bytes = words.next()?.replace(',', "").parse().ok()?;
        words.next().is_none().then_some((name, bytes))
    };
    header.lines().filter_map(figure).collect()
}

/// A caller may rely on the figure, and it says no more than is needed: what
/// was measured is at most what is stated, and at most 512 bytes less.
#[test]
fn the_header_says_what_each_call_takes() {
    let (stated, measured) = (stated(), peaks());
    let names = |figures: &[(String, usize)]| -> Vec<String> {
        figures.iter().map(|(name, _)| name.clone()).collect()
    };
    let measured: Vec<(String, usize)> = measured
        .into_iter()
        .map(|(name, bytes)| (name.to_string(), bytes))
        .collect();
    for (name, took) in &measured {
        println!(
            "{name} took {took} bytes, to be stated: {}",
            to_state(*took)
        );
    }
    assert_eq!(names(&stated), names(&measured), "the header's comment");
    for ((name, said), (_, took)) in stated.iter().zip(&measured) {
        assert!(
            took <= said,
            "{name} took {took} bytes, the header says {said}"
        );
        assert!(
            said - took <= 512,
            "{name} took {took} bytes, the header says {said}"
        );
    }
}

/// The documents say the header's figures.
#[test]
fn the_documents_say_the_same() {
    let (readme, benchmarks) = (text_of("README.md"), text_of("docs/BENCHMARKS.md"));
    for (name, bytes) in stated() {
        let figure = if bytes < 1_000 {
            bytes.to_string()
        } else {
            format!("{},{:03}", bytes / 1_000, bytes % 1_000)
        };
        let cell = format!("| `{name}` | {figure} ");
        assert!(
            benchmarks.contains(&cell),
            "docs/BENCHMARKS.md lacks {cell}"
        );
        if ["jb_program", "jb_coming", "jb_slot"].contains(&name.as_str()) {
            assert!(
                readme.contains(&figure),
                "README.md lacks {name}'s {figure}"
            );
        }
    }
}
