//! The fuzz with the model itself, and with wrong heaps, in the library's place.

mod common;
use common::say;
use model::history::run::run_records;
use model::history::Run;
use model::product::compare::Library;
use model::product::fuzz::fuzz;
use model::product::met::{
    sizes, Met, AROUND, BY_SIZE, CALLS, KINDS, NUMBERS, READINGS, STOPS, TOO_MANY_BLOCKS,
};
use model::rules::copies::{copy, Sizes};
use model::rules::mark_claims::ILL;
use model::rules::outputs::{reason, shape};
use model::rules::reasons::{read_reason, Reading};
use model::rules::replay::{make_calls, replay};
use model::{apply, Call, Memory, Reply};
use std::sync::OnceLock;

/// A run of no seconds: the pairs of maps and the lists that are always the same.
fn met_always() -> &'static Met {
    static MET: OnceLock<Met> = OnceLock::new();
    MET.get_or_init(|| {
        let (met, difference) = fuzz(0, 1, MODEL);
        assert_eq!(difference, None);
        met
    })
}

/// The model in the library's place.
const MODEL: Library = Library {
    apply,
    replay,
    make_calls,
    run_records,
    reason,
    shape,
    read_reason,
    copy,
};

#[test]
fn what_can_be_met_is_met_whatever_the_seed() {
    let met = met_always();
    assert_eq!(met.unmet(), Vec::<String>::new());
    // And no call answers a number that it doesn't have.
    for (code, (name, numbers)) in CALLS.into_iter().enumerate() {
        for number in (0..NUMBERS).filter(|number| !numbers.contains(number)) {
            assert_eq!(met.numbers[code][number], 0, "{name}, number {number}");
        }
        assert_eq!(met.too_many_blocks[code], 4, "{name}, at each width");
    }
    say(&format!(
        "the fuzz against the model itself:\n{}",
        met.lines()
    ));
}

/// Each count in turn is 0, and is named.
#[test]
fn what_was_not_met_is_named() {
    let met = met_always();
    let mut named = 0;
    let mut without = |leave_out: &dyn Fn(&mut Met), what: String| {
        let mut less = met.clone();
        leave_out(&mut less);
        assert_eq!(less.unmet(), [what]);
        named += 1;
    };
    for (code, (name, numbers)) in CALLS.into_iter().enumerate() {
        for number in numbers {
            let what = format!("{name}, number {number}");
            without(&|met| met.numbers[code][*number] = 0, what);
        }
        if numbers.contains(&2) {
            for kind in KINDS {
                let what = format!("{name}, damage {kind}");
                without(&|met| met.kinds[code][kind] = 0, what);
            }
        }
        let what = format!("{name}, 131072 blocks");
        without(&|met| met.too_many_blocks[code] = 0, what);
    }
    for number in [0, 1, 10, 9, 18] {
        let what = format!("replay, number {number}");
        without(&|met| met.replay_numbers[number] = 0, what);
    }
    for number in [0, 1, 2, 11, 13, 10, 9, 18] {
        let what = format!("a list of calls, number {number}");
        without(&|met| met.batch_numbers[number] = 0, what);
    }
    for kind in KINDS {
        let what = format!("a list of calls, damage {kind}");
        without(&|met| met.batch_kinds[kind] = 0, what);
    }
    without(
        &|met| met.batched_with_one_open = 0,
        "a list of calls with one open".to_string(),
    );
    for number in [0, 1, 2, 11, 13, 19] {
        let what = format!("run, number {number}");
        without(&|met| met.run_numbers[number] = 0, what);
    }
    for number in STOPS {
        let what = format!("run, stopped by {number}");
        without(&|met| met.stops[number] = 0, what);
    }
    for (size, blocks) in sizes().enumerate() {
        for (k, what) in BY_SIZE.into_iter().enumerate() {
            let what = format!("{what} on {blocks} blocks");
            without(&|met| met.by_size[size][k] = 0, what);
        }
    }
    without(
        &|met| met.pairs_of_maps -= 1,
        "every pair of maps".to_string(),
    );
    without(
        &|met| met.maps_with_figures -= 1,
        "every map with figures".to_string(),
    );
    without(
        &|met| met.maps_with_data -= 1,
        "every map with data".to_string(),
    );
    for (clause, what) in ILL.into_iter().enumerate() {
        for (k, number) in [11, 13].into_iter().enumerate() {
            let what = format!("{what}, refused {number}");
            without(&|met| met.ill_marked[clause][k] = 0, what);
        }
    }
    without(
        &|met| met.marks_with_lists -= 1,
        "every mark map with lists".to_string(),
    );
    for (which, name) in ["reason", "shape"].into_iter().enumerate() {
        for (k, what) in AROUND.into_iter().enumerate() {
            let what = format!("{name}, an output {what}");
            without(&|met| met.around[which][k] = 0, what);
        }
    }
    without(
        &|met| met.most_links -= 1,
        "reason, the most links".to_string(),
    );
    without(&|met| met.no_root = 0, "reason, no root".to_string());
    for (kind, what) in READINGS.into_iter().enumerate() {
        let what = format!("reading, {what}");
        without(&|met| met.readings[kind] = 0, what);
    }
    without(
        &|met| met.full_with_one_open = 0,
        "run, stopped by 5 with one open".to_string(),
    );
    without(
        &|met| met.with_one_open = 0,
        "a collection open in half of the calls, but in 0 %".to_string(),
    );
    assert_eq!(Met::default().unmet().len(), named);
}

fn wrong_apply(blocks: usize, width: usize, memory: &mut Memory, call: Call) -> Reply {
    let mut reply = apply(blocks, width, memory, call);
    if (reply.number, blocks) == (1, TOO_MANY_BLOCKS) && call == Call::Collect {
        reply.value = 1;
    }
    reply
}

fn wrong_replay(
    blocks: usize,
    width: usize,
    memory: &mut Memory,
    words: &[u64],
    replies: &mut [u64],
) -> Reply {
    let reply = replay(blocks, width, memory, words, replies);
    if let (18, Some(last)) = (reply.number, replies.last_mut()) {
        *last = 0;
    }
    reply
}

/// Keeps what stands in the waiting list where no call of the list writes it.
fn uncleared(
    blocks: usize,
    width: usize,
    memory: &mut Memory,
    words: &[u64],
    replies: &mut [u64],
) -> Reply {
    let waiting = memory.waiting.clone();
    let reply = make_calls(blocks, width, memory, words, replies);
    if (reply.number, reply.value) == (0, 0) {
        memory.waiting = waiting;
    }
    reply
}

/// Looks at the list before the heap.
fn list_first(
    blocks: usize,
    width: usize,
    memory: &mut Memory,
    words: &[u64],
    replies: &mut [u64],
) -> Reply {
    let listed = replay(
        blocks,
        width,
        &mut memory.clone(),
        words,
        &mut replies.to_vec(),
    );
    match listed.number {
        0 => make_calls(blocks, width, memory, words, replies),
        _ => listed,
    }
}

#[test]
fn wrong_lists_of_calls_are_found() {
    for make_calls in [uncleared, list_first] {
        let list_only = Library {
            make_calls,
            ..MODEL
        };
        let (_, found) = fuzz(0, 1, list_only);
        let text = found.expect("a list of calls that is made otherwise");
        assert!(
            text.starts_with("a difference: a list of calls of"),
            "{text}"
        );
    }
}

/// Answers the run that was handed in where the list of sections is untrue.
fn wrong_run(
    blocks: usize,
    width: usize,
    memory: &mut Memory,
    so_far: Run,
    piece: &[u8],
) -> (Reply, Run) {
    let (reply, run) = run_records(blocks, width, memory, so_far, piece);
    match reply.number {
        11 => (reply, so_far),
        _ => (reply, run),
    }
}

#[test]
fn a_difference_is_found_and_cut_down() {
    let apply_only = Library {
        apply: wrong_apply,
        ..MODEL
    };
    let (_, found) = fuzz(0, 1, apply_only);
    let text = found.expect("a wrong value in a refusal on 131,072 blocks");
    assert!(text.starts_with("a difference: 131072 blocks"), "{text}");
    assert_eq!(text.matches("collect").count(), 1, "{text}");
    let replay_only = Library {
        replay: wrong_replay,
        ..MODEL
    };
    let (_, found) = fuzz(0, 1, replay_only);
    let text = found.expect("a word written in a refused replay");
    assert!(text.starts_with("a difference: a replay of "), "{text}");
    let run_only = Library {
        run_records: wrong_run,
        ..MODEL
    };
    let (_, found) = fuzz(0, 1, run_only);
    let text = found.expect("a run that isn't all 0 in a refusal");
    assert!(
        text.starts_with("a difference: a run of records, "),
        "{text}"
    );
}

/// One byte too few is enough for it, where nothing is written.
fn short_reason(
    blocks: usize,
    width: usize,
    memory: &Memory,
    a: usize,
    output: &mut [u8],
) -> Reply {
    let mut longer = output.to_vec();
    longer.push(0);
    let reply = reason(blocks, width, memory, a, &mut longer);
    if reply.number == 0 && reply.value == longer.len() {
        return reply;
    }
    reason(blocks, width, memory, a, output)
}

/// Writes what fits before it says 16.
fn fitting_shape(blocks: usize, width: usize, memory: &Memory, output: &mut [u32]) -> Reply {
    let reply = shape(blocks, width, memory, output);
    if let (16, Some(first)) = (reply.number, output.first_mut()) {
        *first = memory.roots.len() as u32;
    }
    reply
}

/// Takes numbers with leading zeros.
fn lenient_reading(text: &[u8], cells: &mut [u32]) -> Reading {
    let plain = String::from_utf8_lossy(text).replace(" 0", " ");
    match read_reason(text, cells) {
        Reading { kind: 0, .. } => read_reason(plain.as_bytes(), cells),
        reading => reading,
    }
}

/// A copy that keeps what stood in the waiting list of the second heap.
fn unsettled_copy(first: Sizes, memory: &Memory, second: Sizes, into: &mut Memory) -> Reply {
    let waiting = into.waiting.clone();
    let reply = copy(first, memory, second, into);
    into.waiting = waiting;
    reply
}

#[test]
fn wrong_copies_are_found() {
    let copy_only = Library {
        copy: unsettled_copy,
        ..MODEL
    };
    let (_, found) = fuzz(0, 1, copy_only);
    let text = found.expect("a waiting list that is not 0");
    assert!(text.starts_with("a difference: a copy into"), "{text}");
}

#[test]
fn wrong_outputs_are_found() {
    let reason_only = Library {
        reason: short_reason,
        ..MODEL
    };
    let (_, found) = fuzz(0, 1, reason_only);
    let text = found.expect("an output that is one byte too short");
    assert!(text.contains("reason of"), "{text}");
    let shape_only = Library {
        shape: fitting_shape,
        ..MODEL
    };
    let (_, found) = fuzz(0, 1, shape_only);
    let text = found.expect("a number written in a refusal");
    assert!(text.contains("shape into"), "{text}");
    let reading_only = Library {
        read_reason: lenient_reading,
        ..MODEL
    };
    let (_, found) = fuzz(0, 1, reading_only);
    let text = found.expect("a leading zero");
    assert!(text.starts_with("a difference: a text read back"), "{text}");
}
