//! The file form: what is printed for good and bad files, and what the large file meets.

mod common;
use common::say;
use model::lists::families;
use model::lists::file::{bytes, BUFFERS, LENGTH, LOAD, NEW};
use model::lists::paper::cases;
use model::lists::vectors::{paper_file, vectors};
use model::texts::expect::expect;
use model::texts::trace;
use model::Call;

const EMPTY_8_2_4: &str = "0\n0\n0 0\n0 0 0 0 0 0 0 0 0 0 0 0 0 0 0 0 0 0 0 0 0 0 0 0 0 0 0 0 0 0 0 0\n0 0 0 0\n0 0 0 0 0 0 0 0\n0\n0\n0\n0 0 0 0 0 0 0 0 0\n";

/// The largest number that a cell holds.
const MOST: u64 = 4_294_967_295;

fn printed(header: [u64; 3], entries: &[[u64; 4]]) -> String {
    expect(&bytes(header, entries)).0
}

#[test]
fn headers() {
    for length in 0..24 {
        assert_eq!(
            expect(&bytes([8, 2, 4], &[])[..length]).0,
            "header: cut off\n"
        );
    }
    assert_eq!(printed([8, 2, 4], &[]), EMPTY_8_2_4);
    for header in [
        [65_537, 2, 4],
        [131_072, 2, 4],
        [8, 6, 4],
        [8, 2, 66],
        [u64::MAX, 0, 0],
    ] {
        assert_eq!(printed(header, &[[0; 4]]), "header: too large\n");
    }
    // Too large is said of a header alone; a bad one is a heap that refuses.
    assert_eq!(
        printed([0, 0, 0], &[[0; 4]]),
        "1 0 0\n\n\n\n\n\n\n0\n\n\n0\n"
    );
    assert_eq!(
        printed([8, 5, 1], &[[1, 0, 0, 0]]).lines().next(),
        Some("1 0 0")
    );
    assert_eq!(printed([12, 2, 1], &[[0; 4]]).lines().nth(3), Some("0 0 0"));
}

#[test]
fn entries() {
    let first = |words: [u64; 4]| {
        let out = printed([8, 2, 4], &[words]);
        out.strip_suffix(EMPTY_8_2_4).map(str::to_string)
    };
    assert_eq!(first([1, 0, 0, 0]).unwrap(), "2 1 0\n");
    assert_eq!(first([8, 0, 0, 0]).unwrap(), "2 1 0\n");
    // Calls 9 to 11 (U6). A number that no cell can hold is no call.
    for code in [9, 10, 11] {
        assert_eq!(first([code, 0, 0, MOST]).unwrap(), "2 1 0\n");
    }
    for v in [MOST + 1, MOST + 2, 1 << 48, u64::MAX] {
        let line = "call 0: number out of range\n";
        assert_eq!(first([10, 0, 0, v]).unwrap(), line);
    }
    // Calls 12 and 13 (U8).
    for code in [12, 13] {
        assert_eq!(first([code, u64::MAX, 0, 0]).unwrap(), "2 1 0\n");
    }
    assert_eq!(first([14, 0, 0, 0]).unwrap(), "call 0: unknown call 14\n");
    let line = "call 0: unknown call 252\n";
    assert_eq!(first([252, 0, 0, 0]).unwrap(), line);
    assert_eq!([LOAD, LENGTH, NEW], [253, 254, 255]);
    let most = u64::MAX;
    let line = "call 0: unknown call 18446744073709551615\n";
    assert_eq!(first([most, 0, 0, 0]).unwrap(), line);
    // The value of a store is a whole word: the call is made.
    assert_eq!(first([3, 0, most, 0]).unwrap(), "2 1 0\n");
    assert_eq!(first([4, 0, 0, most]).unwrap(), "2 1 0\n");
    let formatted = [Call::Format.words(), [3, 0, MOST + 1, 0], [3, 4, most, 0]];
    let out = printed([8, 2, 4], &formatted);
    assert!(out.starts_with("0 0 0\n8 0 0\n4 0 0\n0\n255\n"), "{out}");
    for load in [
        [0, 1, 0],
        [1, 0, 256],
        [2, 2, 0],
        [3, 32, 0],
        [3, 0, MOST + 1],
        [6, 1, 0],
        [6, 0, MOST + 1],
        [7, 1, 0],
        [7, 0, 256],
        [8, 1, 0],
        [8, 0, 256],
        [9, 9, 0],
        [9, 0, MOST + 1],
        [10, 0, 0],
    ] {
        let words = [LOAD, load[0], load[1], load[2]];
        assert_eq!(first(words).unwrap(), "call 0: load out of range\n");
    }
    for [buffer, length] in [
        [0, 8193],
        [1, 8193],
        [2, 40_961],
        [3, 262_145],
        [4, 66],
        [5, 65_537],
        [6, 257],
        [7, 8193],
        [8, 8193],
        [9, 65_538],
        [10, 0],
    ] {
        let words = [LENGTH, buffer, length, 0];
        assert_eq!(first(words).unwrap(), "call 0: length out of range\n");
    }
    assert_eq!(first([NEW, 65_537, 1, 1]).unwrap(), "call 0: too large\n");
    // A new heap: the old buffers are printed first.
    let out = printed([0, 0, 0], &[[NEW, 8, 2, 4], [1, 0, 0, 0]]);
    assert_eq!(out, format!("\n\n\n\n\n\n0\n\n\n0\n2 1 0\n{EMPTY_8_2_4}"));
    // Loads and lengths print nothing, count as entries, and what lies beyond a length is kept.
    let out = printed(
        [0, 0, 2],
        &[
            [LOAD, 4, 0, MOST],
            [LOAD, 4, 1, 7],
            [LENGTH, 4, 1, 0],
            [LOAD, 4, 1, 9],
            [LENGTH, 4, 4, 0],
            [LOAD, 4, 3, 5],
            [LENGTH, 0, 2, 0],
        ],
    );
    assert_eq!(
        out,
        "call 3: load out of range\n0 0\n\n\n\n4294967295 7 0 5\n\n0\n\n\n0\n"
    );
}

/// The list of sections is buffer 6, printed before the D-map: a number for each 256 blocks, one where there are fewer.
#[test]
fn the_list_of_sections() {
    for (blocks, length) in [
        (0, 1),
        (8, 1),
        (255, 1),
        (256, 1),
        (512, 2),
        (1000, 3),
        (8192, 32),
        (65_536, 256),
    ] {
        let out = printed([blocks, 1, 1], &[]);
        assert_eq!(out.lines().count(), BUFFERS);
        assert_eq!(out.lines().nth(6), Some(&*vec!["0"; length].join(" ")));
    }
    let entries = [
        [0; 4],
        [LOAD, 6, 1, MOST],
        [1, 0, 0, 0],
        [LENGTH, 6, 1, 0],
        [1, 0, 0, 0],
        [LENGTH, 6, 3, 0],
        [LOAD, 6, 2, 9],
    ];
    let out = printed([512, 1, 1], &entries);
    assert!(out.starts_with("0 0 0\n11 0 0\n1 0 0\n"), "{out}");
    assert_eq!(out.lines().nth(3 + 6), Some("256 4294967295 9"));
}

/// The D-map is buffer 7: a byte for each eight blocks.
#[test]
fn the_d_map() {
    for (blocks, length) in [(0, 0), (8, 1), (15, 1), (512, 64), (65_536, 8192)] {
        let out = printed([blocks, 1, 1], &[]);
        assert_eq!(out.lines().count(), BUFFERS);
        assert_eq!(out.lines().nth(7), Some(&*vec!["0"; length].join(" ")));
    }
    let entries = [
        [0; 4],
        [9, 2, 0, 0],
        [10, 0, 7, MOST],
        [11, 0, 7, 0],
        [4, 0, 0, 0],
        [LOAD, 7, 1, 128],
        [1, 0, 0, 0],
        [LENGTH, 7, 1, 0],
        [1, 0, 0, 0],
        [LENGTH, 7, 3, 0],
        [LOAD, 7, 2, 9],
    ];
    let out = printed([16, 2, 1], &entries);
    let due = "0 0 0\n0 0 0\n0 0 0\n0 4294967295 0\n12 0 0\n2 7 0\n1 0 0\n";
    assert!(out.starts_with(due), "{out}");
    assert_eq!(out.lines().nth(7 + 7), Some("1 128 9"));
}

/// The mark map is buffer 8, a byte for each eight blocks; the list is buffer 9, the last one, a number for each block and one more.
#[test]
fn the_mark_map_and_the_list() {
    for (blocks, length) in [(0, 0), (8, 1), (15, 1), (512, 64), (65_536, 8192)] {
        let out = printed([blocks, 1, 1], &[]);
        assert_eq!(out.lines().nth(8), Some(&*vec!["0"; length].join(" ")));
        let places = vec!["0"; blocks as usize + 1].join(" ");
        assert_eq!(out.lines().nth(9), Some(&*places));
    }
    let entries = [
        [0; 4],
        [13, 1, 0, 0],
        [2, 2, 0, 0],
        [12, 7, 7, 7],
        [5, 0, 0, 0],
        [13, 0, 7, 7],
        [LOAD, 9, 8, 2],
        [1, 0, 0, 0],
        [LOAD, 9, 8, 1],
        [LOAD, 8, 0, 3],
        [13, 5, 0, 0],
        [LOAD, 8, 0, 1],
        [LENGTH, 9, 8, 0],
        [1, 0, 0, 0],
        [LENGTH, 9, 11, 0],
        [LOAD, 9, 10, MOST],
        [LENGTH, 8, 0, 0],
        [1, 0, 0, 0],
    ];
    let out = printed([8, 2, 1], &entries);
    let due = "0 0 0\n14 0 0\n0 0 0\n0 0 0\n14 0 0\n0 0 0\n13 0 0\n13 0 0\n1 0 0\n1 0 0\n";
    assert!(out.starts_with(due), "{out}");
    assert_eq!(out.lines().nth(10 + 8), Some(""));
    assert_eq!(out.lines().last(), Some("1 0 0 0 0 0 0 0 1 0 4294967295"));
}

#[test]
fn cut_off() {
    let calls = [Call::Format, Call::Check, Call::FreeBlocks].map(Call::words);
    let whole = bytes([8, 2, 4], &calls);
    let mut cuts = 0;
    for length in 24..=whole.len() {
        let out = expect(&whole[..length]).0;
        let entries = (length - 24) / 32;
        let mut due: Vec<String> = ["0 0 0", "0 0 0", "0 8 0"][..entries]
            .iter()
            .map(|line| line.to_string())
            .collect();
        if (length - 24) % 32 != 0 {
            due.push(format!("call {entries}: cut off"));
            cuts += 1;
        }
        let lines: Vec<&str> = out.lines().collect();
        assert_eq!(lines.len(), due.len() + BUFFERS);
        assert_eq!(lines[..due.len()], due);
    }
    say(&format!("{cuts} files cut off inside a call"));
}

#[test]
fn the_large_file() {
    let file = vectors(1);
    assert_eq!(file, vectors(1));
    let (out, tally) = expect(&file);
    // No call answers 9 or 10.
    for number in (0..=8).chain(11..=17) {
        assert!(tally.numbers[number] >= 100, "{number}: {tally:?}");
    }
    for kind in [1, 2, 3, 4, 5, 7] {
        assert!(tally.kinds[kind] >= 30, "{kind}: {tally:?}");
    }
    assert_eq!(tally.kinds[6], 0);
    for line in [
        "cut off",
        "too large",
        "load out of range",
        "length out of range",
        "number out of range",
        "unknown call",
    ] {
        assert!(out.contains(line), "{line}");
    }
    assert!(file.len() < 4_950_000 && out.len() < 6_000_000);
    say(&format!(
        "the large file, {} bytes, printing {} bytes: {tally:?}",
        file.len(),
        out.len()
    ));
    let (_, paper) = expect(&paper_file());
    let parts: usize = cases().iter().map(|case| case.parts().len()).sum();
    assert_eq!(paper.heaps, 1 + parts);
    assert_eq!(paper.complaints, 0);
}

#[test]
fn seeds_make_the_same_again() {
    for (family, _) in families::FAMILIES {
        let file = |seed| families::generate(family, seed, 100).unwrap().file();
        assert_eq!(file(7), file(7));
        assert_ne!(file(7), file(8));
    }
    assert!(families::generate("none", 0, 1).is_none());
    let text = trace::trace(5, 50, 16, 3);
    assert_eq!(text.lines().count(), 52);
    assert!(text
        .lines()
        .skip(2)
        .all(|line| line.split('|').count() == 12));
    assert_eq!(text, trace::trace(5, 50, 16, 3));
    let text = trace::steps(5, 50);
    assert!(text.lines().all(|line| line.split('|').count() == 23));
}
