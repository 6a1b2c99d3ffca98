//! "A list of calls in one slice, run from a formatted heap", and one on a heap as it stands. Document 01 has no such calls: the rules
//! quoted here are those of docs/DECISIONS.md.

use crate::lists::file::Entry;
use crate::rules::answers::{accepted, format, refused, refused_first, Reply};
use crate::rules::calls::{apply, Call};
use crate::rules::heap::{misshapen, Memory};

/// Formats, then carries out the calls, four words each, and writes their replies, three words each. The value
/// is the number of calls.
///
/// "Nothing is written in any refusal. Behind the replies, nothing is written either."
pub fn replay(
    blocks: usize,
    width: usize,
    memory: &mut Memory,
    words: &[u64],
    replies: &mut [u64],
) -> Reply {
    // "1 as in format"
    if misshapen(blocks, width, memory) {
        return refused(1);
    }
    let calls = match calls_listed(words, replies.len()) {
        Ok(calls) => calls,
        Err(number) => return refused(number),
    };
    format(blocks, memory);
    make_all(blocks, width, memory, &calls, replies)
}

/// Carries out the calls on the heap as it stands: each as it is by itself, with all of its tests.
///
/// "Its refusals are those of the check, with the damage kind, and then those of a replay's list: 1, 2, 11, 13, 10, 9, 18."
pub fn make_calls(
    blocks: usize,
    width: usize,
    memory: &mut Memory,
    words: &[u64],
    replies: &mut [u64],
) -> Reply {
    if let Some(reply) = refused_first(blocks, width, memory, Call::Check) {
        return reply;
    }
    let calls = match calls_listed(words, replies.len()) {
        Ok(calls) => calls,
        Err(number) => return refused(number),
    };
    // "Accepted, the waiting list is left all 0, also where the list is empty."
    memory.waiting.fill(0);
    make_all(blocks, width, memory, &calls, replies)
}

/// The calls of a list, or the number that it is refused with.
fn calls_listed(words: &[u64], room: usize) -> Result<Vec<Call>, usize> {
    // "10 where the list ends inside a call"
    if !words.len().is_multiple_of(4) {
        return Err(10);
    }
    // "9 where an entry is no call (an unknown code)": since U6 also a number write whose number no cell can hold.
    let calls = calls_in(words).ok_or(9_usize)?;
    // "18 where the list of replies is too short for all of them"
    if room < 3 * calls.len() {
        return Err(18);
    }
    Ok(calls)
}

/// Carries out the calls and writes their replies.
fn make_all(
    blocks: usize,
    width: usize,
    memory: &mut Memory,
    calls: &[Call],
    replies: &mut [u64],
) -> Reply {
    for (i, call) in calls.iter().enumerate() {
        let reply = apply(blocks, width, memory, *call);
        let numbers = [reply.number, reply.value, reply.second];
        replies[3 * i..3 * i + 3].copy_from_slice(&numbers.map(|number| number as u64));
    }
    accepted(calls.len())
}

/// The calls that the words stand for; none where four of them are no call.
fn calls_in(words: &[u64]) -> Option<Vec<Call>> {
    words
        .chunks(4)
        .map(|four| Entry::from_words([four[0], four[1], four[2], four[3]]).call())
        .collect()
}
