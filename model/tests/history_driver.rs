//! `model history check` with the model itself as the program, and with programs that are wrong.

mod common;
use common::say;
use model::history::driver::{check, check_widening, ways, Checked};
use model::history::vectors::{all_but_the_longest, old_histories, History};
use std::fs::{self, Permissions};
use std::os::unix::fs::PermissionsExt;
use std::path::PathBuf;

const MODEL: &str = env!("CARGO_BIN_EXE_model");

/// Some of the histories: short ones, one longer than a pipe holds, and one that is long.
fn some() -> Vec<History> {
    let all = all_but_the_longest();
    let longer = |length: usize| all.iter().find(move |history| history.bytes.len() > length);
    let short = all.iter().filter(|history| history.bytes.len() < 20_000);
    let long = longer(65_536).into_iter().chain(longer(1_048_576));
    short.step_by(14).chain(long).cloned().collect()
}

/// The runs of some histories.
fn runs(histories: &[History]) -> usize {
    let of_each = histories.iter().map(|history| ways(&history.bytes).len());
    of_each.sum()
}

fn checked(program: &[&str], histories: &[History]) -> Checked {
    check(program, histories).expect("the program starts")
}

#[test]
fn the_model_itself() {
    let histories = some();
    let checked = checked(&[MODEL, "history", "run"], &histories);
    assert_eq!(checked.differences, Vec::<String>::new());
    assert_eq!(checked.runs, runs(&histories));
    say(&format!("`model history run` in {} runs", checked.runs));
}

#[test]
fn wrong_programs() {
    let histories = some();
    // One that reads only the first 65,536 bytes, or what comes first through a pipe.
    let reads_once = format!("dd bs=65536 count=1 2>/dev/null | {MODEL} history run");
    let by_way = |differences: &[String], way: &str| {
        let found = differences.iter();
        found
            .filter(|line| line.contains(&format!(", {way}: ")))
            .count()
    };
    let found = checked(&["sh", "-c", &reads_once], &histories).differences;
    assert!(by_way(&found, "by file") > 0);
    assert!(by_way(&found, "in pieces of 1") > by_way(&found, "by file"));
    // One that prints no line end, one that prints more, one that copies, one that reads nothing, one that is killed.
    let no_end = format!("printf %s \"$({MODEL} history run)\"");
    let more = format!("{MODEL} history run; echo");
    for program in [&no_end, &more, "cat", "true", "kill -9 $$"] {
        let few = &histories[..5];
        let found = checked(&["sh", "-c", program], few).differences;
        assert_eq!(found.len(), runs(few), "{program}: {found:?}");
    }
    let lines = checked(&["true"], &histories[..2]).lines();
    let last = "\n2 histories, 12 runs, 12 of them different\n";
    assert!(lines.ends_with(last), "{lines}");
    // One that is right without reading: nothing is wrong with that.
    let refused: Vec<History> = all_but_the_longest()
        .into_iter()
        .filter(|history| history.name == "gives-4-behind-many")
        .collect();
    let says = "echo refused 4 at record 1200";
    let found = checked(&["sh", "-c", says], &refused).differences;
    assert_eq!(found, Vec::<String>::new());
    assert!(check(&["no such program"], &refused).is_err());
}

/// A shell script as a program without arguments.
struct Script(PathBuf);

impl Script {
    fn new(name: &str, text: &str) -> Script {
        let path = std::env::temp_dir().join(format!("{name}-{}", std::process::id()));
        fs::write(&path, format!("#!/bin/sh\n{text}\n")).unwrap();
        fs::set_permissions(&path, Permissions::from_mode(0o755)).unwrap();
        Script(path)
    }

    fn path(&self) -> &str {
        self.0.to_str().unwrap()
    }
}

impl Drop for Script {
    fn drop(&mut self) {
        let _ = fs::remove_file(&self.0);
    }
}

/// Some old histories, of every kind.
fn some_old() -> Vec<History> {
    let mut old = old_histories();
    old.retain(|history| history.bytes.len() < 100_000);
    old.into_iter().step_by(41).collect()
}

#[test]
fn widening_by_the_model_itself() {
    let report = Script::new("report", &format!("exec {MODEL} history run"));
    let widen = [MODEL, "history", "widen"];
    let old = some_old();
    let checked = check_widening(&widen, &[report.path()], &old).expect("the programs start");
    assert_eq!(checked.differences, Vec::<String>::new());
    assert_eq!(checked.runs, runs(&old) + 2 * old.len());
    say(&format!("`model history widen` in {} runs", checked.runs));
}

/// A program that copies, one that widens nothing but the first record, and a report that reads the old form.
#[test]
fn wrong_widening() {
    let report = Script::new("right-report", &format!("exec {MODEL} history run"));
    let old_report = Script::new("old-report", &format!("exec {MODEL} history old"));
    let old = some_old();
    let first = format!("head -c 8 | {MODEL} history widen");
    for (widen, report, least) in [
        (&["cat"][..], &report, 20),
        (&["sh", "-c", &first], &report, 20),
        (&[MODEL, "history", "widen"], &old_report, 20),
    ] {
        let checked = check_widening(widen, &[report.path()], &old).expect("they start");
        let count = checked.differences.len();
        assert!(count > least, "{widen:?}: {count}");
    }
}
