//! Widening (document 02, U12): record by record, a tail as it is, and the same line before and after.

mod common;
use common::{fresh, say};
use model::history::old::{narrowed, read_old, report_old, run_old, widened, OLD_RECORD};
use model::history::record::short::{allocate, clear, data, write_number};
use model::history::record::{bytes, RECORD};
use model::history::run::run;
use model::history::vectors::{all_but_the_longest, histories, old_histories, History};
use model::history::{report, Record, Run};
use model::lists::random::Random;
use model::rules::calls::apply_undamaged;
use model::rules::heap::MAX_NUMBER;
use std::collections::BTreeSet;

/// Byte by byte: the first four as they were, then the two of the cell and two zeros, the two of the size and two zeros.
fn by_bytes(old: &[u8]) -> Vec<u8> {
    let whole = old.len() / OLD_RECORD;
    let mut wide = vec![0; RECORD * whole];
    for (i, byte) in old[..OLD_RECORD * whole].iter().enumerate() {
        let (record, place) = (i / OLD_RECORD, i % OLD_RECORD);
        let to = if place < 6 { place } else { place + 2 };
        wide[RECORD * record + to] = *byte;
    }
    wide.extend(&old[OLD_RECORD * whole..]);
    wide
}

#[test]
fn record_by_record() {
    assert_eq!(widened(&[]), []);
    let old = [3, 2, 1, 9, 4, 5, 6, 7, 1, 0, 0];
    let due = [3, 2, 1, 9, 4, 5, 0, 0, 6, 7, 0, 0, 1, 0, 0];
    assert_eq!(widened(&old), due);
    let mut tails = BTreeSet::new();
    let all = old_histories();
    for History { name, bytes } in &all {
        let wide = widened(bytes);
        assert_eq!(wide, by_bytes(bytes), "{name}");
        // "a cut-off tail copied as it is"
        let tail = bytes.len() % OLD_RECORD;
        assert_eq!(wide.len(), bytes.len() / OLD_RECORD * RECORD + tail);
        assert!(wide.ends_with(&bytes[bytes.len() - tail..]));
        assert_eq!(narrowed(&wide).as_ref(), Some(bytes), "{name}");
        // In two pieces, the first of whole records.
        let cut = OLD_RECORD * (bytes.len() / OLD_RECORD / 2);
        assert_eq!(
            [widened(&bytes[..cut]), widened(&bytes[cut..])].concat(),
            wide
        );
        tails.insert(tail);
    }
    assert_eq!(tails.len(), OLD_RECORD);
    say(&format!(
        "{} old histories widened, with every tail",
        all.len()
    ));
}

/// "the widened one must print the line the old form gives on a heap of that size": of the program, and on other heaps.
#[test]
fn the_same_line() {
    let mut random = Random::new(12);
    let (mut lines, mut runs) = (BTreeSet::new(), 0);
    let all = old_histories();
    for History { name, bytes } in &all {
        let line = report_old(bytes);
        assert_eq!(report(&widened(bytes)), line, "{name}");
        lines.insert(line);
        if bytes.len() > 100_000 {
            continue;
        }
        for blocks in [8, 64, 8192] {
            let (width, roots) = (1 + random.below(4), 1 + random.below(64));
            let [mut one, mut other] = [0, 1].map(|_| fresh(blocks, width, roots));
            let before = run_old(blocks, width, &mut one, bytes);
            let act = &mut |memory: &mut _, call| apply_undamaged(blocks, width, memory, call);
            let after = run(blocks, &mut other, Run::default(), &widened(bytes), act);
            assert_eq!(after, before, "{name}");
            assert_eq!(one, other, "{name}");
            runs += 1;
        }
    }
    assert!(lines.len() > 100, "{}", lines.len());
    say(&format!(
        "{} old histories print the line of their widening, {} different ones; {runs} runs on other heaps",
        all.len(),
        lines.len()
    ));
}

/// Histories of one or two records, by hand.
#[test]
fn lines_by_hand() {
    let line = |old: &[u8]| (report_old(old), report(&widened(old)));
    let both = |text: &str| (text.to_string(), text.to_string());
    let of_8192 = [1, 0, 0, 0, 0, 0, 0, 32];
    assert_eq!(line(&of_8192), both("refused 3 at record 0\n"));
    let run = run_old(8192, 3, &mut fresh(8192, 3, 64), &of_8192);
    assert_eq!(run.line(), "1 8192 8192 0 8192 0\n");
    let of_4096 = [1, 0, 0, 0, 0, 0, 0, 16];
    assert_eq!(line(&of_4096), both("1 4096 4096 0 4096 0\n"));
    let twice = [of_4096, of_4096].concat();
    assert_eq!(line(&twice), both("refused 5 at record 1\n"));
    assert_eq!(line(&of_4096[..1]), both("refused 10 at record 0\n"));
    assert_eq!(line(&twice[..15]), both("refused 10 at record 1\n"));
    assert_eq!(
        (widened(&of_4096[..1]).len(), widened(&twice[..15]).len()),
        (1, 19)
    );
    assert_eq!(
        line(&[1, 0, 0, 0, 1, 0, 2, 0]),
        both("refused 9 at record 0\n")
    );
    assert_eq!(
        line(&[9, 0, 0, 0, 0, 0, 0, 0]),
        both("refused 9 at record 0\n")
    );
    let number = [[7, 0, 0, 0, 0, 0, 2, 0], [8, 0, 0, 0, 7, 0, 255, 255]].concat();
    assert_eq!(line(&number), both("1 2 2 0 2 0\n"));
    // What only the new form has room for.
    let wide = bytes(&[data(2, 0), write_number(MAX_NUMBER, 7, 0)]);
    assert_eq!(report(&wide), "1 2 2 0 2 0\n");
    assert_eq!(
        report(&bytes(&[allocate(MAX_NUMBER, 0)])),
        "refused 3 at record 0\n"
    );
    assert_eq!((narrowed(&wide), narrowed(&wide[..20])), (None, None));
    let clears = bytes(&[clear(0); 2]);
    for tail in 1..RECORD {
        let due = "refused 10 at record 1\n";
        assert_eq!(report(&clears[..RECORD + tail]), due);
    }
}

/// An old history that is not widened: its second record's operation stands in the first one's size field, and its size in the cell
/// field. So its first record stops the run with 9, or with 10 where it has no other, wherever the old form accepts that record.
#[test]
fn an_old_history_unwidened() {
    let mut met = [0; 2];
    for History { name, bytes } in old_histories() {
        let first = &bytes[..OLD_RECORD.min(bytes.len())];
        if first.len() < OLD_RECORD || report_old(first).starts_with("refused") {
            continue;
        }
        let number = if bytes.len() < RECORD { 10 } else { 9 };
        let due = format!("refused {number} at record 0\n");
        assert_eq!(report(&bytes), due, "{name}");
        met[number - 9] += 1;
    }
    assert!(met.iter().all(|count| *count >= 10), "{met:?}");
    say(&format!("old histories unwidened, by 9 and by 10: {met:?}"));
}

/// What a program that widens could do instead.
#[derive(Clone, Copy, Debug)]
enum Wrong {
    HighByteFirst,
    ZerosBeforeTheLowBytes,
    ZerosBehindBoth,
    TailDropped,
    TailPadded,
    TailWidened,
    FirstRecordOnly,
    NothingWidened,
    SignOfTheHighByte,
    UnknownOperationsDropped,
    StopsAtAnUnknownOperation,
    UnusedByteCleared,
}

fn wrongly(wrong: Wrong, old: &[u8]) -> Vec<u8> {
    let (records, tail) = old.as_chunks::<OLD_RECORD>();
    let mut wide = Vec::new();
    for (k, record) in records.iter().enumerate() {
        let [o, d, s, u, c0, c1, z0, z1] = *record;
        let known = (1..=8).contains(&o);
        let sign = |high: u8| if high > 127 { 255 } else { 0 };
        wide.extend(match wrong {
            Wrong::HighByteFirst => [o, d, s, u, c1, c0, 0, 0, z1, z0, 0, 0],
            Wrong::ZerosBeforeTheLowBytes => [o, d, s, u, 0, 0, c0, c1, 0, 0, z0, z1],
            Wrong::ZerosBehindBoth => [o, d, s, u, c0, c1, z0, z1, 0, 0, 0, 0],
            Wrong::SignOfTheHighByte => {
                let (c, z) = (sign(c1), sign(z1));
                [o, d, s, u, c0, c1, c, c, z0, z1, z, z]
            }
            Wrong::UnusedByteCleared => [o, d, s, 0, c0, c1, 0, 0, z0, z1, 0, 0],
            Wrong::FirstRecordOnly if k > 0 => {
                wide.extend(record);
                continue;
            }
            Wrong::NothingWidened => {
                wide.extend(record);
                continue;
            }
            Wrong::UnknownOperationsDropped if !known => continue,
            Wrong::StopsAtAnUnknownOperation if !known => return wide,
            _ => read_old(*record).bytes(),
        });
    }
    match wrong {
        Wrong::TailDropped => {}
        Wrong::TailPadded if !tail.is_empty() => {
            wide.extend(tail);
            wide.resize(wide.len() + RECORD - tail.len(), 0);
        }
        Wrong::TailWidened if !tail.is_empty() => {
            let mut last = [0; OLD_RECORD];
            last[..tail.len()].copy_from_slice(tail);
            wide.extend(read_old(last).bytes());
        }
        _ => wide.extend(tail),
    }
    wide
}

#[test]
fn wrong_widenings_are_told_apart() {
    let all = old_histories();
    for wrong in [
        Wrong::HighByteFirst,
        Wrong::ZerosBeforeTheLowBytes,
        Wrong::ZerosBehindBoth,
        Wrong::TailDropped,
        Wrong::TailPadded,
        Wrong::TailWidened,
        Wrong::FirstRecordOnly,
        Wrong::NothingWidened,
        Wrong::SignOfTheHighByte,
        Wrong::UnknownOperationsDropped,
        Wrong::StopsAtAnUnknownOperation,
        Wrong::UnusedByteCleared,
    ] {
        let other_bytes =
            |history: &&History| wrongly(wrong, &history.bytes) != widened(&history.bytes);
        let differ: Vec<&History> = all.iter().filter(other_bytes).collect();
        // And the line shows it, but for what is behind the first record that stops a run.
        let other_line = |history: &&&History| {
            let short = history.bytes.len() < 10_000;
            short && report(&wrongly(wrong, &history.bytes)) != report_old(&history.bytes)
        };
        let lines = differ.iter().filter(other_line).count();
        // Of a number no line tells more than that it was written.
        let is_told = lines > 0 || matches!(wrong, Wrong::SignOfTheHighByte);
        assert!(differ.len() > 10 && is_told, "{wrong:?}");
        say(&format!(
            "wrong widening, {wrong:?}: {} of {} histories differ, {lines} short ones by their line",
            differ.len(),
            all.len()
        ));
    }
}

/// Every history of the program `report` that an old one could have been is the widening of that one.
#[test]
fn what_has_an_old_form() {
    let mut count = [0; 2];
    for History { name, bytes } in all_but_the_longest() {
        let old = narrowed(&bytes);
        count[usize::from(old.is_some())] += 1;
        if let Some(old) = old {
            assert_eq!(widened(&old), bytes, "{name}");
        }
    }
    assert!(count[0] > 10 && count[1] > 300, "{count:?}");
    let [.., longest, _] = &histories()[..] else {
        panic!("no histories");
    };
    let records = longest.bytes.as_chunks::<RECORD>().0;
    let wide = records
        .iter()
        .filter(|bytes| Record::from_bytes(**bytes).size > 65_535);
    assert!(wide.count() > 100, "numbers of more than 16 bits");
}
