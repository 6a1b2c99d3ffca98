//! `model show`: what documents 01 and 02 name in P1 to P11 is shown, and whatever the program prints otherwise is
//! noticed.

mod common;
use common::say;
use model::lists::file::BUFFERS;
use model::lists::paper::{cases, Step};
use model::lists::vectors::paper_file;
use model::texts::expect::expect;
use model::texts::show::paper;

/// What the program must print for the paper cases.
fn printed() -> Vec<String> {
    let (text, _) = expect(&paper_file());
    text.lines().map(str::to_string).collect()
}

fn shown(lines: &[String]) -> (String, bool) {
    paper(&lines.join("\n"))
}

/// The lines of one case, without its heading.
fn lines_of<'a>(text: &'a str, name: &str) -> Vec<&'a str> {
    let heading = format!("{name}: ");
    let after = text.lines().skip_while(|line| !line.starts_with(&heading));
    after
        .skip(1)
        .take_while(|line| line.starts_with(' '))
        .collect()
}

#[test]
fn what_the_documents_name_is_shown() {
    let (text, same) = shown(&printed());
    assert!(same, "{text}");
    assert!(text.ends_with("\nall as the documents say\n"));
    for case in cases() {
        let lines = lines_of(&text, case.name);
        assert_eq!(lines.len(), case.steps.len(), "{}", case.name);
    }
    let has = |name: &str, words: &[&str]| {
        for word in words {
            let found = lines_of(&text, name)
                .iter()
                .any(|line| line.ends_with(word));
            assert!(found, "{name}: {word}");
        }
    };
    has(
        "P1",
        &[
            "block 0",
            "block 2",
            "block 4",
            "A = 119, B = 185",
            "size 3, count 1",
        ],
    );
    has("P2", &["refused 5", " 3, 7", "block 3"]);
    has("P3", &["block 0", "refused 5", "block 6"]);
    has("P4", &["freed: 0, stuck", "count 3", "freed: 1"]);
    has("P5", &["count 1", "freed: 1"]);
    has("P6", &["block 0, stuck", "freed: 0", "freed: 1"]);
    has("P7", &["count 1", "freed: 2"]);
    has("P8", &["freed: 3", "refused 7"]);
    has("P9", &["count 1", "count 2", "freed: 1"]);
    has("P10", &["block 0", "refused 3"]);
    has(
        "P11",
        &["A = 0, B = 254", "damage 1", "damage 2", "damage 3"],
    );
}

/// Whether each printed line is one that a case compares: a reply, or a map that the case reads.
fn compared() -> Vec<bool> {
    let mut compared = vec![false; BUFFERS];
    for case in cases() {
        for part in case.parts() {
            let calls = part.again.iter().chain(&part.steps);
            compared.extend(
                calls
                    .filter(|step| matches!(step, Step::Gives(..)))
                    .map(|_| true),
            );
            let last = part.steps.last();
            let reads_a = last.is_some_and(|step| step.reads_maps());
            let reads_b = matches!(last, Some(Step::Maps(..)));
            compared.extend([reads_a, reads_b]);
            compared.extend([false; BUFFERS - 2]);
        }
    }
    compared
}

#[test]
fn every_other_number_is_noticed() {
    let right = printed();
    let compared = compared();
    assert_eq!(right.len(), compared.len());
    let mut changes = 0;
    for (place, line) in right.iter().enumerate() {
        let count = line.split(' ').count();
        for wrong in (0..count).filter(|_| compared[place]) {
            let mut numbers: Vec<usize> =
                line.split(' ').map(|word| word.parse().unwrap()).collect();
            numbers[wrong] += 1;
            let words: Vec<String> = numbers.iter().map(usize::to_string).collect();
            let mut lines = right.clone();
            lines[place] = words.join(" ");
            let (text, same) = shown(&lines);
            assert!(!same, "line {place}, number {wrong}");
            assert_eq!(text.matches("DIFFERENT").count(), 2, "line {place}: {text}");
            changes += 1;
        }
    }
    say(&format!(
        "`model show` with each of {changes} numbers changed"
    ));
}

#[test]
fn lines_missing_or_left_over_are_noticed() {
    let right = printed();
    for length in 0..right.len() {
        assert!(!shown(&right[..length]).1, "{length} lines");
    }
    for place in 0..=right.len() {
        let mut lines = right.clone();
        lines.insert(place, "call 3: cut off".to_string());
        assert!(!shown(&lines).1, "a line before line {place}");
    }
}
