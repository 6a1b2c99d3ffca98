//! Lists of calls as text.

mod common;
use common::say;
use model::lists::families::{generate, FAMILIES};
use model::lists::random::Random;
use model::lists::vectors;
use model::texts::assembly::{assemble, words};

const HEAP: &str = "heap: 8 blocks, width 2, 4 roots\n";

/// The words behind the header.
fn entry(line: &str) -> Result<Vec<u64>, String> {
    let file = assemble(&format!("{HEAP}{line}\n"))?;
    let words = file[24..].chunks(8);
    Ok(words
        .map(|word| u64::from_le_bytes(word.try_into().unwrap()))
        .collect())
}

#[test]
fn each_line() {
    for (line, four) in [
        ("format", [0, 0, 0, 0]),
        ("check", [1, 0, 0, 0]),
        ("allocate 2 into root 3", [2, 2, 3, 0]),
        ("store 5 in root 3", [3, 3, 5, 0]),
        ("store 7 in cell 6 of the object at 5", [4, 5, 6, 7]),
        ("collect", [5, 0, 0, 0]),
        ("look at 4", [6, 4, 0, 0]),
        ("free blocks", [7, 0, 0, 0]),
        ("return, no root", [8, 0, 0, 0]),
        ("return, roots 0 2 63", [8, 5 + (1 << 63), 0, 0]),
        ("load 119 at 0 of a", [253, 0, 0, 119]),
        ("load 9 at 8 of waiting", [253, 5, 8, 9]),
        ("load 3 at 0 of sections", [253, 6, 0, 3]),
        ("allocate data 2 into root 3", [9, 2, 3, 0]),
        ("write number 7 in cell 6 of the data at 5", [10, 5, 6, 7]),
        ("read number in cell 6 of the data at 5", [11, 5, 6, 0]),
        ("words 10 5 6 4294967296", [10, 5, 6, 1 << 32]),
        ("load 9 at 8 of data", [253, 7, 8, 9]),
        ("open collection", [12, 0, 0, 0]),
        ("step collection 5", [13, 5, 0, 0]),
        ("step collection 18446744073709551615", [13, u64::MAX, 0, 0]),
        ("load 9 at 0 of marks", [253, 8, 0, 9]),
        ("load 1 at 8 of list", [253, 9, 8, 1]),
        ("load 9 at 8 of buffer 10", [253, 10, 8, 9]),
        ("lend 31 of cells", [254, 3, 31, 0]),
        ("lend 2 of sections", [254, 6, 2, 0]),
        ("lend 2 of data", [254, 7, 2, 0]),
        ("lend 8 of list", [254, 9, 8, 0]),
        ("new heap: 16 blocks, width 4, 1 roots", [255, 16, 4, 1]),
        ("words 2 3 4 5", [2, 3, 4, 5]),
        ("words 99 18446744073709551615 0 0", [99, u64::MAX, 0, 0]),
    ] {
        assert_eq!(entry(line), Ok(four.to_vec()), "{line}");
        let file = assemble(&format!("{HEAP}{line}\n")).unwrap();
        assert_eq!(words(&file), format!("{HEAP}{line}\n"));
    }
    // Spaces, comments, and commas or colons that are not there.
    assert_eq!(entry("  return   roots 0 2  # two").unwrap(), [8, 5, 0, 0]);
    assert_eq!(entry("").unwrap(), [0; 0]);
}

#[test]
fn what_is_wrong() {
    for (text, message) in [
        (
            "format\n",
            "line 1: a list begins with its heap, as `heap: 8 blocks, width 2, 4 roots`",
        ),
        (
            "# a comment\n\nheap: 8 blocks\n",
            "line 3: a list begins with its heap, as `heap: 8 blocks, width 2, 4 roots`",
        ),
        (
            "heap: 8 blocks, width 2, 4 roots\n\nallocate two into root 0 # no number\n",
            "line 3: no entry: allocate two into root 0",
        ),
        (
            "heap: 8 blocks, width 2, 4 roots\nreturn, roots 64\n",
            "line 2: no entry: return, roots 64",
        ),
        (
            "heap: 8 blocks, width 2, 4 roots\nload 1 at 0 of d\n",
            "line 2: no entry: load 1 at 0 of d",
        ),
        (
            "heap: 8 blocks, width 2, 4 roots\nbytes 1\nformat\n",
            "line 3: behind an entry that is cut off",
        ),
        (
            "bytes 1\nbytes 2\n",
            "line 2: bytes are the end of a list, and fewer than are missing",
        ),
        (
            "bytes 0 0 0 0 0 0 0 0 0 0 0 0 0 0 0 0 0 0 0 0 0 0 0 0\n",
            "line 1: bytes are the end of a list, and fewer than are missing",
        ),
        (
            "bytes 256\n",
            "line 1: a list begins with its heap, as `heap: 8 blocks, width 2, 4 roots`",
        ),
    ] {
        assert_eq!(assemble(text), Err(message.to_string()));
    }
}

#[test]
fn every_file_comes_back() {
    let mut files = vec![vectors::paper_file(), vectors::vectors(1), Vec::new()];
    for (family, _) in FAMILIES {
        files.push(generate(family, 5, 300).unwrap().file());
    }
    // Any bytes, of any length.
    let mut random = Random::new(1);
    for length in 0..200 {
        let any: Vec<u8> = (0..length).map(|_| random.word() as u8).collect();
        files.push(any);
        // Small words, so that there are calls among them.
        let small: Vec<u8> = (0..length)
            .map(|k| {
                if k % 8 == 0 {
                    random.below(13) as u8
                } else {
                    0
                }
            })
            .collect();
        files.push(small);
    }
    let mut said = 0;
    for file in &files {
        let text = words(file);
        assert_eq!(assemble(&text).as_ref(), Ok(file), "{text}");
        said += text
            .lines()
            .filter(|line| !line.starts_with("words") && !line.starts_with("bytes"))
            .count();
    }
    say(&format!(
        "{} lists as text and back, {said} lines in words",
        files.len()
    ));
}
