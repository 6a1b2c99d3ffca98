//! Histories about the heap: what is let go, forced collections, stuck counts, long chains, figures, sections, and lengths.
//!
//! Many end by asking for the whole heap. That is accepted at once where everything was let go, after a forced collection
//! where something was garbage, and refused 5 where a root still leads to something.

use super::Shelf;
use crate::history::record::short::{allocate, clear, copy, read, write, COLLECT};
use crate::history::record::{bytes, Operation, RECORD};
use crate::history::run::BLOCKS;
use crate::rules::heap::Ref;

const EVERYTHING: Operation = Operation::Allocate {
    size: BLOCKS as Ref,
    d: 63,
};

pub fn histories(shelf: &mut Shelf) {
    empty_roots(shelf);
    letting_go(shelf);
    forced_collections(shelf);
    stuck(shelf);
    at_once(shelf);
    figures(shelf);
    sections(shelf);
    lengths(shelf);
}

/// An object that names itself in cell 0: let go, it stays until a collection.
fn cycle(size: Ref, d: u8) -> [Operation; 2] {
    [allocate(size, d), write(d, 0, d)]
}

/// "elsewhere an empty root is copied or written as 0"
fn empty_roots(shelf: &mut Shelf) {
    let copied = [allocate(5, 0), copy(1, 0), EVERYTHING];
    shelf.operations("prints-2-4101-4096-0-4096-0-empty-copied", &copied);
    let written = [
        allocate(5, 0),
        allocate(3, 1),
        write(1, 19, 0),
        clear(1),
        write(2, 19, 0),
        clear(0),
        EVERYTHING,
    ];
    shelf.operations("prints-3-4104-4096-0-4096-0-empty-written", &written);
    let read_into = [
        allocate(5, 0),
        allocate(3, 1),
        read(19, 0, 1),
        clear(0),
        EVERYTHING,
    ];
    shelf.operations("prints-3-4104-4096-0-4096-0-empty-cell-read", &read_into);
    let nothing = [copy(0, 0), copy(0, 1), clear(0), clear(63), COLLECT];
    shelf.operations("prints-0-0-0-1-0-0-nothing-there", &nothing);
}

/// Copies, writes and reads count; clears and what is overwritten let go.
fn letting_go(shelf: &mut Shelf) {
    let copied = [allocate(5, 0), copy(0, 1), clear(0)];
    let still_held = [&copied[..], &[EVERYTHING]].concat();
    shelf.operations("gives-5-held-by-a-copy", &still_held);
    let cleared = [&copied[..], &[clear(1), EVERYTHING]].concat();
    shelf.operations("prints-2-4101-4096-0-4096-0-copies-cleared", &cleared);
    // A read counts as a copy does.
    let read_out = [
        allocate(2, 0),
        allocate(3, 1),
        write(1, 7, 0),
        read(7, 0, 2),
        clear(1),
        clear(0),
    ];
    let still_held = [&read_out[..], &[EVERYTHING]].concat();
    shelf.operations("gives-5-held-by-a-read", &still_held);
    let cleared = [&read_out[..], &[clear(2), EVERYTHING]].concat();
    shelf.operations("prints-3-4101-4096-0-4096-0-reads-cleared", &cleared);
    // The owner of the written cell is freed by the write: d's own object, held by its own cell alone.
    let owner = [
        allocate(2, 0),
        allocate(2, 1),
        write(1, 0, 0),
        write(0, 0, 1),
        clear(1),
        read(0, 0, 2),
        clear(0),
        write(3, 0, 2),
        clear(2),
        EVERYTHING,
    ];
    shelf.operations("prints-3-4100-4096-0-4096-0-owner", &owner);
    let both_ways = [
        allocate(2, 0),
        allocate(2, 1),
        write(1, 0, 0),
        write(0, 0, 1),
    ];
    let garbage = [&both_ways[..], &[clear(0), clear(1), EVERYTHING]].concat();
    shelf.operations("prints-3-4100-4096-1-4096-0-cycle", &garbage);
    let collected = [&both_ways[..], &[clear(0), clear(1), COLLECT, EVERYTHING]].concat();
    shelf.operations("prints-3-4100-4096-1-4096-0-cycle-collected", &collected);
    // A new object lets go of what its root held, after the search.
    let over = [allocate(2048, 0), allocate(2048, 0), allocate(2048, 1)];
    shelf.operations("prints-3-6144-2048-0-4096-0-over-the-old-one", &over);
    let same_root = [allocate(4096, 0), allocate(4096, 0)];
    shelf.operations("gives-5-over-the-old-one", &same_root);
}

/// "When allocation gives 5 the run collects and tries once more."
fn forced_collections(shelf: &mut Shelf) {
    let halves = [cycle(2048, 0), cycle(2048, 1)].concat();
    let garbage = [&halves[..], &[clear(0)]].concat();
    let helps = [&garbage[..], &[allocate(2048, 2)]].concat();
    shelf.operations("prints-3-6144-2048-1-4096-0-forced-helps", &helps);
    // The object in root 1 becomes garbage by the first of the two.
    let in_a_row = [&garbage[..], &[allocate(2048, 1), allocate(2048, 2)]].concat();
    shelf.operations("prints-4-8192-2048-2-4096-0-two-in-a-row", &in_a_row);
    let thrice = [&in_a_row[..], &[allocate(2048, 3)]].concat();
    shelf.operations("gives-5-third-in-a-row", &thrice);
    let no_help = [&halves[..], &[allocate(1, 2)]].concat();
    shelf.operations("gives-5-forced-is-no-help", &no_help);
    let too_little = [&garbage[..], &[allocate(2049, 2)]].concat();
    shelf.operations("gives-5-forced-is-too-little", &too_little);
    let then_fits = [&garbage[..], &[COLLECT, allocate(2048, 2)]].concat();
    shelf.operations("prints-3-6144-2048-1-4096-0-recorded-helps", &then_fits);
    let recorded_too = [&helps[..], &[COLLECT, clear(1), COLLECT]].concat();
    shelf.operations(
        "prints-3-6144-2048-3-4096-0-forced-and-recorded",
        &recorded_too,
    );
    // 4,095 blocks are free, but not the one chunk of 4,096.
    let no_chunk = [
        allocate(2048, 0),
        allocate(1, 1),
        clear(0),
        allocate(2049, 2),
    ];
    shelf.operations("gives-5-no-chunk", &no_chunk);
    let rest_of_a_chunk = [allocate(2049, 0), allocate(2048, 1)];
    shelf.operations("gives-5-rest-of-a-chunk", &rest_of_a_chunk);
    let smaller = [allocate(2049, 0), allocate(1024, 1), allocate(512, 2)];
    shelf.operations("prints-3-3585-2049-0-3585-0-rest-of-a-chunk", &smaller);
    // Only 5 is tried again.
    let not_for_3 = [&garbage[..], &[allocate(4097, 2)]].concat();
    shelf.operations("gives-3-no-collection", &not_for_3);
    let not_for_4 = [&garbage[..], &[allocate(2048, 64)]].concat();
    shelf.operations("gives-4-no-collection", &not_for_4);
    // The most in use is lower after the forced collection than before it.
    let falls = [&cycle(3000, 0)[..], &[clear(0), allocate(4000, 1)]].concat();
    shelf.operations("prints-2-7000-4000-1-4000-0-falls", &falls);
}

/// "A count at capacity is stuck", the capacity being 7: only a collection frees what it held.
fn stuck(shelf: &mut Shelf) {
    for references in [5, 6, 7, 8, 9] {
        let mut history = vec![allocate(1, 0)];
        history.extend((1..references).map(|d| copy(0, d)));
        history.extend((0..references).map(clear));
        // One forced collection, and one moment, where it is stuck.
        let is_stuck = usize::from(references >= 7);
        let figures = format!("2-4097-4096-{is_stuck}-4096-{is_stuck}");
        history.push(EVERYTHING);
        let name = format!("prints-{figures}-with-{references}-references");
        shelf.operations(name, &history);
    }
    // By cells as by roots.
    let mut by_cells = vec![allocate(2, 0), allocate(3, 1)];
    by_cells.extend((0..6).map(|c| write(1, c, 0)));
    by_cells.extend([clear(1), clear(0), EVERYTHING]);
    shelf.operations("prints-3-4101-4096-1-4096-1-stuck-by-cells", &by_cells);
    // A collection counts anew, and then the last reference frees it.
    let mut counted_anew = vec![allocate(1, 0)];
    counted_anew.extend((1..10).map(|d| copy(0, d)));
    counted_anew.extend((2..10).map(clear));
    counted_anew.push(COLLECT);
    counted_anew.extend([clear(0), clear(1), EVERYTHING]);
    shelf.operations("prints-2-4097-4096-1-4096-1-counted-anew", &counted_anew);
    // Document 02, U2: the value present is no further reference.
    let mut over_itself = vec![allocate(1, 0), copy(0, 1), write(0, 2, 0)];
    over_itself.extend([copy(0, 1), copy(0, 0), write(1, 2, 1), read(2, 0, 1)].repeat(3));
    over_itself.extend([write(5, 2, 0), clear(0), clear(1), EVERYTHING]);
    shelf.operations("prints-2-4097-4096-0-4096-0-over-itself", &over_itself);
    // U5: moments are counted, not objects: after a collection, recorded or forced, an object can become stuck again.
    let copies: Vec<Operation> = (1..7).map(|d| copy(0, d)).collect();
    let clears: Vec<Operation> = (1..7).map(clear).collect();
    let stick = [&[allocate(1, 0)], &copies[..]].concat();
    shelf.operations("prints-1-1-1-0-1-1-stuck", &stick);
    let more = [
        &stick[..],
        &[copy(0, 7), copy(0, 8), write(0, 0, 0), copy(0, 0)],
    ]
    .concat();
    shelf.operations("prints-1-1-1-0-1-1-more-than-stuck", &more);
    let again = [&stick[..], &clears, &[COLLECT], &copies].concat();
    shelf.operations("prints-1-1-1-1-1-2-stuck-again", &again);
    let not_again = [&stick[..], &[COLLECT], &copies].concat();
    shelf.operations("prints-1-1-1-1-1-1-stuck-through-a-collection", &not_again);
    let no_room = [&cycle(2048, 10)[..], &[clear(10), allocate(2048, 11)]].concat();
    let forced = [&stick[..], &clears, &no_room, &copies].concat();
    shelf.operations(
        "prints-3-4097-2048-1-2049-2-stuck-again-after-a-forced-one",
        &forced,
    );
    // Stuck garbage fills the heap: the forced collection frees all of it.
    let mut full = Vec::new();
    for _ in 0..8 {
        full.push(allocate(512, 0));
        full.extend((1..8).map(|d| copy(0, d)));
        full.extend((0..8).map(clear));
    }
    let one_more = [&full[..], &[allocate(1, 0)]].concat();
    shelf.operations("prints-9-4097-512-1-4096-8-stuck-garbage", &one_more);
    let all_of_it = [&full[..], &[EVERYTHING]].concat();
    shelf.operations("prints-9-8192-4096-1-4096-8-stuck-garbage", &all_of_it);
}

/// Much is let go by one record.
fn at_once(shelf: &mut Shelf) {
    // Each names the one before it; the last one is in roots 0 and 1.
    let mut chain = vec![allocate(1, 0)];
    for _ in 1..4095 {
        chain.extend([allocate(1, 1), write(0, 3, 1), copy(1, 0)]);
    }
    chain.push(clear(1));
    let cleared = [&chain[..], &[clear(0), EVERYTHING]].concat();
    shelf.operations("prints-4096-8191-4096-0-4096-0-chain", &cleared);
    let by_allocation = [&chain[..], &[allocate(1, 0), clear(0), EVERYTHING]].concat();
    shelf.operations(
        "prints-4097-8192-4096-0-4096-0-chain-by-allocation",
        &by_allocation,
    );
    let by_collection = [&chain[..], &[write(0, 0, 0), clear(0), EVERYTHING]].concat();
    shelf.operations(
        "prints-4096-8191-4096-1-4096-0-chain-by-collection",
        &by_collection,
    );
    // One object names all others.
    let mut star = vec![allocate(1024, 0)];
    for c in 0..3072 {
        star.extend([allocate(1, 1), write(1, c, 0)]);
    }
    let cleared = [&star[..], &[clear(1), clear(0), EVERYTHING]].concat();
    shelf.operations("prints-3074-8192-4096-0-4096-0-star", &cleared);
}

/// Figures that can be taken for one another, or by the chunk, or inside a record.
fn figures(shelf: &mut Shelf) {
    let not_the_last = [allocate(3, 0), allocate(7, 1), allocate(5, 2)];
    shelf.operations("prints-3-15-7-0-15-0-largest-in-the-middle", &not_the_last);
    let not_refused = [allocate(3, 0), allocate(4096, 1)];
    shelf.operations("gives-5-largest-is-accepted", &not_refused);
    let fell = [allocate(100, 0), clear(0), allocate(60, 0)];
    shelf.operations("prints-2-160-100-0-100-0-most-in-the-middle", &fell);
    // 4,000 are in use inside the last record, and never after one.
    let inside = [allocate(2000, 0), allocate(2000, 0)];
    shelf.operations("prints-2-4000-2000-0-2000-0-most-after-a-record", &inside);
    let collects = [COLLECT; 5];
    shelf.operations("prints-0-0-0-5-0-0-collections", &collects);
    let by_the_block = [allocate(5, 0), allocate(9, 1), allocate(1025, 2)];
    shelf.operations("prints-3-1039-1025-0-1039-0-by-the-block", &by_the_block);
    let mut many = [allocate(4096, 0), clear(0)].repeat(600);
    shelf.operations("prints-600-2457600-4096-0-4096-0-many", &many);
    many.push(clear(64));
    shelf.operations("gives-4-behind-many", &many);
}

/// Where objects lie among the sections of 256 blocks (U4): what is asked for next has no other place.
fn sections(shelf: &mut Shelf) {
    let fill: Vec<Operation> = (0..16).map(|d| allocate(256, d)).collect();
    let neighbours = [&fill[..], &[clear(5), clear(6)]].concat();
    let no_chunk = [&neighbours[..], &[allocate(257, 40)]].concat();
    shelf.operations("gives-5-neighbours-are-no-chunk", &no_chunk);
    let one_each = [&neighbours[..], &[allocate(256, 40), allocate(200, 41)]].concat();
    shelf.operations("prints-18-4552-256-0-4096-0-one-section-each", &one_each);
    let both = [&fill[..], &[clear(6), clear(7), allocate(257, 40)]].concat();
    shelf.operations("prints-17-4353-257-0-4096-0-two-sections", &both);
    // 0 to 299; 512; 384; 320; then 0 again, and all that is left but for a few blocks.
    let across = [
        allocate(300, 0),
        allocate(200, 1),
        allocate(128, 2),
        allocate(64, 3),
        clear(0),
        allocate(256, 4),
        allocate(2048, 6),
        allocate(1024, 7),
        allocate(256, 8),
        allocate(32, 9),
    ];
    shelf.operations("prints-9-4308-2048-0-4008-0-across-a-border", &across);
    // All but the last block, that one, and one more.
    let halves = (0..12).map(|d| allocate(2048 >> d, d));
    let last: Vec<Operation> = halves.chain([allocate(1, 12)]).collect();
    shelf.operations("prints-13-4096-2048-0-4096-0-the-last-block", &last);
    let one_more = [&last[..], &[allocate(1, 13)]].concat();
    shelf.operations("gives-5-behind-the-last-block", &one_more);
}

/// Files about as long as a piece that a program reads at once: of 64 KiB, which ends inside a record, and of as many whole records as
/// a mebibyte has.
fn lengths(shelf: &mut Shelf) {
    let clears = |count| bytes(&vec![clear(0); count]);
    let at = |count: usize, behind: &[u8]| [&clears(count), behind].concat();
    let short = (1 << 16) / RECORD;
    let long = (1 << 20) / RECORD;
    for count in [short, short + 1, long, 2 * long] {
        let length = RECORD * count;
        shelf.add(format!("prints-0-0-0-0-0-0-{length}-bytes"), clears(count));
    }
    for count in [
        short - 1,
        short,
        short + 1,
        2 * short,
        long - 1,
        long,
        long + 1,
    ] {
        let file = at(count, &clear(64).record().bytes());
        shelf.add(format!("gives-4-at-{count}"), file);
    }
    let example = bytes(&[allocate(2, 0), allocate(1, 1), allocate(3, 2)]);
    for count in [
        511,
        512,
        short - 2,
        short - 1,
        short,
        long - 2,
        long - 1,
        long,
    ] {
        let file = at(count, &example);
        shelf.add(format!("prints-3-6-3-0-6-0-behind-{count}"), file);
    }
    let unknown = [255; RECORD - 1];
    for tail in 1..RECORD {
        for count in [512, short, long] {
            let file = at(count, &unknown[..tail]);
            shelf.add(format!("gives-10-{count}-and-{tail}"), file);
        }
    }
    for (count, tail) in [(long - 1, 1), (long - 1, 8), (long - 1, 11), (long + 1, 4)] {
        let file = at(count, &unknown[..tail]);
        shelf.add(format!("gives-10-{count}-and-{tail}"), file);
    }
}
