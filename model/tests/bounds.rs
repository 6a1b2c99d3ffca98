//! The largest heap, the largest number and the length of a record are written in one place each; and nothing has the type or the
//! bounds that there were before request U12.

mod common;
use common::say;
use std::fs;
use std::path::{Path, PathBuf};

fn files(folder: &Path, found: &mut Vec<PathBuf>) {
    for entry in fs::read_dir(folder).unwrap() {
        let path = entry.unwrap().path();
        if path.is_dir() {
            files(&path, found);
        } else if path.extension().is_some_and(|ending| ending == "rs") {
            found.push(path);
        }
    }
}

/// The lines of the sources that have a word, as `file: line`, but for those of this file.
fn lines_with(has: impl Fn(&str) -> bool) -> Vec<String> {
    let root = Path::new(env!("CARGO_MANIFEST_DIR"));
    let mut found = Vec::new();
    files(&root.join("src"), &mut found);
    files(&root.join("tests"), &mut found);
    assert!(found.len() > 80);
    let mut lines = Vec::new();
    for path in found {
        let name = path.strip_prefix(root).unwrap().display().to_string();
        let text = fs::read_to_string(&path).unwrap();
        let with = text.lines().filter(|line| has(line));
        lines.extend(with.map(|line| format!("{name}: {}", line.trim())));
    }
    lines.retain(|line| !line.starts_with("tests/bounds.rs"));
    lines.sort();
    lines
}

/// Numbers as they are written: without the underscores.
fn has_number(line: &str, number: &str) -> bool {
    let line = line.replace('_', "");
    let mut words = line.split(|c: char| !c.is_ascii_alphanumeric());
    words.any(|word| word == number)
}

#[test]
fn one_place_for_each_bound() {
    for (name, due) in [
        ("type Ref =", "src/rules/heap.rs: pub type Ref = u32;"),
        (
            "const MAX_NUMBER:",
            "src/rules/heap.rs: pub const MAX_NUMBER: Ref = Ref::MAX;",
        ),
        (
            "const MAX_BLOCKS:",
            "src/rules/heap.rs: pub const MAX_BLOCKS: usize = 65_536;",
        ),
        (
            "const RECORD:",
            "src/history/record.rs: pub const RECORD: usize = 12;",
        ),
        (
            "const OLD_RECORD:",
            "src/history/old.rs: pub const OLD_RECORD: usize = 8;",
        ),
    ] {
        assert_eq!(lines_with(|line| line.contains(name)), [due]);
    }
    // Nothing is of 16 bits, and no constant is one of the bounds, old or new.
    let none: [String; 0] = [];
    assert_eq!(lines_with(|line| line.contains("u16")), none);
    let bounds = ["8192", "8193", "16384", "65535", "65536", "4294967295"];
    let constants = lines_with(|line| {
        line.contains("const ") && bounds.iter().any(|bound| has_number(line, bound))
    });
    // The heap of benches, the number of records, and the word for a test's largest number.
    let others: Vec<&String> = constants
        .iter()
        .filter(|line| !line.contains("_bench.rs: const") && !line.contains("bench.rs: const"))
        .collect();
    assert_eq!(
        others,
        [
            "src/history/run.rs: pub const MOST_RECORDS: u64 = 4_294_967_295;",
            "src/product/port/history.rs: const MAX_RECORDS: usize = 4_294_967_295;",
            "src/rules/heap.rs: pub const MAX_BLOCKS: usize = 65_536;",
            "tests/file_form.rs: const MOST: u64 = 4_294_967_295;",
        ]
    );
    // Neither is a remainder or a comparison.
    let operators = [
        "% 65", "> 65", "< 65", "<= 65", "> 8192", "<= 8192", "< 8192", "> 8193",
    ];
    let compared = lines_with(|line| {
        let line = line.replace('_', "");
        let bounded = bounds.iter().any(|bound| has_number(&line, bound));
        bounded && operators.iter().any(|operator| line.contains(operator))
    });
    for line in &compared {
        // The tests say what the documents say.
        assert!(line.starts_with("tests/"), "{line}");
    }
    say(&format!(
        "bounds in one place; {} lines of tests compare with one",
        compared.len()
    ));
}
