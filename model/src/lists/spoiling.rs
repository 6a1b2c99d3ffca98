//! Replays to be made of a list of calls, lists to be made on a heap as it stands, and ways to spoil them.

use crate::lists::file::{Bench, Entry, BUFFERS};
use crate::lists::random::Random;
use crate::lists::runs::spoil_heap;
use crate::lists::wrong_families::{wrong_length, BAD_SHAPES};
use crate::rules::answers::Reply;
use crate::rules::heap::{Memory, Ref, MAX_BLOCKS, MAX_NUMBER};

/// What a list of calls is lent: a heap, the words of the list, and a list for the replies.
#[derive(Clone, Debug)]
pub struct Lent {
    pub bench: Bench,
    pub words: Vec<u64>,
    pub replies: Vec<u64>,
}

/// What makes a list of calls: the model's `replay` or `make_calls`, or another.
pub type Replay = fn(usize, usize, &mut Memory, &[u64], &mut [u64]) -> Reply;

impl Lent {
    /// Makes the calls by the given function.
    pub fn replay(&mut self, replay: Replay) -> Reply {
        let Bench {
            blocks,
            width,
            memory,
            ..
        } = &mut self.bench;
        replay(*blocks, *width, memory, &self.words, &mut self.replies)
    }
}

/// A replay of calls on a heap of a shape, with anything in the heap, in the list of replies and in words that
/// aren't looked at. The same seed spoils a shorter list in the same ways.
pub fn some_replay(seed: u64, shape: [u64; 3], calls: &[[u64; 4]], spoilt: bool) -> Lent {
    let mut random = Random::new(seed);
    let mut rubbish = Random::new(random.word());
    let behind = random.below(5);
    let mut lent = Lent {
        bench: Bench::of_any_size(shape),
        words: calls.concat(),
        replies: vec![0; 3 * calls.len() + behind],
    };
    fill_unnamed(&mut rubbish, &mut lent.words);
    if spoilt {
        spoil(&mut random, &mut lent);
    }
    fill(&mut rubbish, &mut lent.bench.memory);
    lent.replies.fill_with(|| rubbish.word());
    lent
}

/// A list of calls on a heap as it stands, with anything in the waiting list; some on one that is damaged, or spoilt as a replay is.
/// The same seed spoils a shorter list in the same ways.
pub fn some_batch(seed: u64, bench: &Bench, calls: &[[u64; 4]]) -> Lent {
    let mut random = Random::new(seed);
    let mut rubbish = Random::new(random.word());
    let behind = random.below(5);
    let mut lent = Lent {
        bench: bench.clone(),
        words: calls.concat(),
        replies: vec![0; 3 * calls.len() + behind],
    };
    fill_unnamed(&mut rubbish, &mut lent.words);
    if random.percent(40) {
        spoil_heap(&mut random, &mut lent.bench);
    }
    if random.percent(30) {
        spoil(&mut random, &mut lent);
    }
    let waiting = &mut lent.bench.memory.waiting;
    waiting.fill_with(|| rubbish.word() as Ref);
    lent.replies.fill_with(|| rubbish.word());
    lent
}

/// Anything in the words that a call doesn't name: those that don't change what the call is.
fn fill_unnamed(random: &mut Random, words: &mut [u64]) {
    for call in words.chunks_mut(4) {
        let meant = Entry::from_words([call[0], call[1], call[2], call[3]]);
        for place in 1..4 {
            let before = std::mem::replace(&mut call[place], random.word());
            if Entry::from_words([call[0], call[1], call[2], call[3]]) != meant {
                call[place] = before;
            }
        }
    }
}

/// Anything in every buffer.
fn fill(random: &mut Random, memory: &mut Memory) {
    for map in [
        &mut memory.a,
        &mut memory.b,
        &mut memory.counts,
        &mut memory.data,
        &mut memory.marks,
    ] {
        map.fill_with(|| random.word() as u8);
    }
    for list in [
        &mut memory.cells,
        &mut memory.roots,
        &mut memory.waiting,
        &mut memory.sections,
        &mut memory.list,
    ] {
        list.fill_with(|| random.word() as Ref);
    }
}

/// Spoils what is lent in one way or several.
fn spoil(random: &mut Random, lent: &mut Lent) {
    // Cut off last: the others go by whole calls.
    let ways = [wrong_shape, no_call, short_replies, cut_off];
    let chosen = random.below(ways.len());
    for (k, way) in ways.into_iter().enumerate() {
        if k == chosen || random.percent(25) {
            way(random, lent);
        }
    }
}

/// A buffer of another length, or numbers that no heap has, with buffers that fit them or not.
fn wrong_shape(random: &mut Random, lent: &mut Lent) {
    let bench = &mut lent.bench;
    match random.below(4) {
        0 => {
            let buffer = random.below(BUFFERS) as u64;
            let length = wrong_length(random, bench.length(buffer));
            bench.set_length(buffer, length as u64);
        }
        1 => *bench = Bench::of_any_size(random.pick(&BAD_SHAPES)),
        2 => bench.blocks = random.pick(&[0, 4, 12, 2 * MAX_BLOCKS, usize::MAX]),
        _ => bench.width = random.pick(&[0, 5, 64, usize::MAX]),
    }
}

/// An unknown code in place of one of the calls, or a number write whose number no cell can hold.
fn no_call(random: &mut Random, lent: &mut Lent) {
    let unknown = [
        14,
        15,
        252,
        253,
        254,
        255,
        256,
        258,
        268,
        269,
        1 << 32,
        u64::MAX,
    ];
    let most = u64::from(MAX_NUMBER);
    let wide = [most + 1, most + 2, 1 << 48, u64::MAX];
    let words = match random.below(3) {
        0 => [10, 0, 0, random.pick(&wide)],
        _ => [random.pick(&unknown), 0, 0, 0],
    };
    let calls = lent.words.len() / 4;
    if calls > 0 {
        let place = 4 * random.below(calls);
        lent.words[place..place + 4].copy_from_slice(&words);
    }
}

/// Fewer words for the replies than there are replies.
fn short_replies(random: &mut Random, lent: &mut Lent) {
    let due = lent.words.len() / 4 * 3;
    let missing = match random.below(3) {
        0 => due,
        _ => 1 + random.below(4),
    };
    lent.replies.truncate(due.saturating_sub(missing));
}

/// One to three words too many, or too few.
fn cut_off(random: &mut Random, lent: &mut Lent) {
    let odd = 1 + random.below(3);
    if random.percent(50) {
        lent.words.extend(vec![0; odd]);
    } else {
        lent.words.truncate(lent.words.len().saturating_sub(odd));
    }
}

/// A sentence (U11) made into another text, which seldom is a sentence, too.
pub fn spoilt_sentence(sentence: &[u8], random: &mut Random) -> Vec<u8> {
    let mut text = sentence.to_vec();
    let place = random.below(text.len());
    let bytes = b" 0123456789\n\tcrbn-+";
    let words: [&[u8]; 8] = [
        b"root ",
        b" cell 0",
        b" block 7",
        b"no ",
        b"0",
        b"4294967295",
        b"4294967296",
        b"18446744073709551617",
    ];
    match random.below(9) {
        0 => text[place] = random.pick(bytes),
        1 => text.insert(place, random.pick(bytes)),
        2 => {
            text.remove(place);
        }
        3 => text.truncate(place),
        4 => text.push(random.pick(bytes)),
        5 => text[place] = random.word() as u8,
        // Something in front of a word, or in place of a number: often a sentence again.
        6..=7 => {
            let spaces = (0..text.len()).filter(|k| text[*k] == b' ');
            let spaces: Vec<usize> = spaces.collect();
            let space = random.pick(&spaces);
            let add = random.pick(&words);
            let end = (space + 1..text.len()).find(|k| !text[*k].is_ascii_digit());
            let end = end.unwrap_or(text.len());
            let at = if add[0].is_ascii_digit() {
                space + 1
            } else {
                space
            };
            let end = if random.percent(50) { end.max(at) } else { at };
            text.splice(at..end, add.iter().copied());
        }
        _ => text.extend(sentence),
    }
    text
}
