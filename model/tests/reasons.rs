//! The reason an object is kept (U11), by hand, and its claims on random lists.

mod common;
use common::{fresh, say};
use model::lists::families::{generate, FAMILIES};
use model::lists::file::{Bench, Entry};
use model::lists::output_vectors::chain as chain_of;
use model::lists::random::Random;
use model::lists::spoiling::spoilt_sentence;
use model::rules::answers::refused_first;
use model::rules::calls::short::{allocate, cell, data, root, write_number, OPEN};
use model::rules::output_claims::{broken_output, Asked};
use model::rules::outputs::{reason, shape};
use model::rules::reasons::{read, read_reason, sentence, Chain, Reading};
use model::{apply, Call, Memory};

/// A heap of eight blocks, width 2, four roots, after these calls, each accepted.
fn heap(calls: &[Call]) -> Memory {
    let mut memory = fresh(8, 2, 4);
    for call in calls {
        assert_eq!(apply(8, 2, &mut memory, *call).number, 0, "{call:?}");
    }
    memory
}

/// The sentence for an object of such a heap.
fn said(memory: &Memory, at: usize) -> String {
    let mut output = [0; 200];
    let reply = reason(8, 2, memory, at, &mut output);
    assert_eq!((reply.number, reply.second), (0, 0));
    assert!(output[reply.value..].iter().all(|byte| *byte == 0));
    String::from_utf8(output[..reply.value].to_vec()).unwrap()
}

#[test]
fn the_documents_sentences() {
    let calls = [
        allocate(2, 0),
        allocate(1, 1),
        allocate(3, 2),
        cell(2, 2, 5),
        root(2, 0),
    ];
    let mut memory = heap(&calls);
    assert_eq!(said(&memory, 4), "root 1 cell 2 block 4\n");
    assert_eq!(said(&memory, 0), "root 0 block 0\n");
    // A count of its own cell keeps it, and no root.
    for call in [cell(4, 11, 5), cell(2, 2, 0)] {
        assert_eq!(apply(8, 2, &mut memory, call).number, 0);
    }
    assert_eq!(said(&memory, 4), "no root reaches block 4\n");
}

#[test]
fn fewest_links_then_the_lowest_root_then_the_lowest_cell() {
    let four = [
        allocate(1, 0),
        allocate(1, 1),
        allocate(1, 2),
        allocate(1, 3),
    ];
    let with = |calls: &[Call]| heap(&[&four[..], calls].concat());
    // Root 3 is higher, but has no link.
    let memory = with(&[cell(0, 0, 4)]);
    assert_eq!(said(&memory, 3), "root 3 block 3\n");
    // Of two roots that name it the lower; of two over one link each, the lower root, whatever the cells.
    let memory = with(&[root(1, 4)]);
    assert_eq!(said(&memory, 3), "root 1 block 3\n");
    let memory = with(&[cell(0, 3, 4), cell(1, 0, 4), root(3, 0)]);
    assert_eq!(said(&memory, 3), "root 0 cell 3 block 3\n");
    // The first difference decides, not the last cell.
    let links = [cell(0, 0, 2), cell(0, 1, 3), cell(1, 3, 4), cell(2, 0, 4)];
    let memory = with(&[&links[..], &[root(1, 0), root(2, 0), root(3, 0)]].concat());
    assert_eq!(said(&memory, 3), "root 0 cell 0 cell 3 block 3\n");
}

#[test]
fn numbers_in_data_are_no_links() {
    let memory = heap(&[
        data(1, 0),
        allocate(1, 1),
        write_number(0, 0, 2),
        cell(1, 0, 2),
        root(1, 0),
    ]);
    assert_eq!(said(&memory, 1), "no root reaches block 1\n");
    // But data is kept as other objects are.
    let memory = heap(&[allocate(1, 0), data(1, 1), cell(0, 2, 2), root(1, 0)]);
    assert_eq!(said(&memory, 1), "root 0 cell 2 block 1\n");
}

#[test]
fn the_longest_chain_has_one_link_less_than_blocks() {
    let mut memory = fresh(8, 2, 1);
    for call in chain_of(8) {
        assert_eq!(apply(8, 2, &mut memory, call).number, 0, "{call:?}");
    }
    let due = "root 0 cell 1 cell 0 cell 2 cell 1 cell 0 cell 2 cell 1 block 0\n";
    assert_eq!(said(&memory, 0), due);
}

/// 15 writes nothing, "not even what would fit"; 0 is too short; and every length from the sentence's on is accepted.
#[test]
fn outputs_of_every_length() {
    let memory = heap(&[allocate(1, 0), allocate(1, 1), cell(0, 2, 2), root(1, 0)]);
    let due = b"root 0 cell 2 block 1\n";
    for length in 0..=due.len() + 3 {
        let mut output = vec![7; length];
        let reply = reason(8, 2, &memory, 1, &mut output);
        if length < due.len() {
            assert_eq!((reply.number, reply.value, reply.second), (15, 0, 0));
            assert_eq!(output, vec![7; length]);
        } else {
            assert_eq!((reply.number, reply.value, reply.second), (0, due.len(), 0));
            assert_eq!(output[..due.len()], due[..]);
            assert!(output[due.len()..].iter().all(|byte| *byte == 7));
        }
    }
}

/// "1, 2, 11, 13, 6, 15", each with all that come behind it.
#[test]
fn refusals_in_order() {
    let mut memory = heap(&[allocate(2, 0)]);
    let number = |memory: &Memory, at: usize, length: usize| {
        let mut output = vec![7; length];
        let reply = reason(8, 2, memory, at, &mut output);
        assert_eq!(output, vec![7; length]);
        reply.number
    };
    assert_eq!(number(&memory, 0, 0), 15);
    for at in [1, 2, 7, 8, 65_536, usize::MAX] {
        assert_eq!(number(&memory, at, 0), 6);
        assert_eq!(number(&memory, at, 60), 6);
    }
    memory.marks[0] = 2;
    assert_eq!(number(&memory, 1, 0), 13);
    memory.sections[0] = 3;
    assert_eq!(number(&memory, 1, 0), 11);
    memory.data[0] = 2;
    assert_eq!(number(&memory, 1, 0), 2);
    assert_eq!(reason(8, 2, &memory, 1, &mut []).value, 7);
    memory.list.pop();
    assert_eq!(number(&memory, 1, 0), 1);
}

#[test]
fn a_collection_may_be_open() {
    let mut memory = heap(&[
        allocate(1, 0),
        allocate(1, 1),
        cell(0, 1, 2),
        root(1, 0),
        OPEN,
    ]);
    assert_eq!(said(&memory, 1), "root 0 cell 1 block 1\n");
    assert_eq!(
        apply(8, 2, &mut memory, Call::StepCollection { budget: 1 }).value,
        1
    );
    assert_eq!(said(&memory, 1), "root 0 cell 1 block 1\n");
}

#[test]
fn the_reader_takes_sentences_alone() {
    for right in [
        "root 0 block 0\n",
        "root 63 cell 0 cell 32767 block 8191\n",
        "no root reaches block 10\n",
        "root 4294967295 block 4294967295\n",
    ] {
        let said = read(right.as_bytes()).expect(right);
        assert_eq!(sentence(said.chain.as_ref(), said.block), right);
    }
    for wrong in [
        "",
        "\n",
        "root 0 block 0",
        "root 0 block 0\n\n",
        "root 0 block 0 \n",
        " root 0 block 0\n",
        "root 0  block 0\n",
        "root 0\tblock 0\n",
        "root 01 block 0\n",
        "root 00 block 0\n",
        "root 0 block 07\n",
        "root 0 cell 00 block 7\n",
        "root 0 cell block 7\n",
        "root 0 cell 1cell 2 block 7\n",
        "root 0 cell 1 2 block 7\n",
        "root block 7\n",
        "root 0 block\n",
        "root 0 block \n",
        "root 0 block +7\n",
        "root -0 block 7\n",
        "Root 0 block 7\n",
        "root 0 block 7\r\n",
        "root 4294967296 block 7\n",
        "root 0 block 18446744073709551617\n",
        "no root reaches block\n",
        "no root reaches block 01\n",
        "no root reaches  block 1\n",
        "no root reaches cell 1 block 1\n",
        "no root 0 reaches block 1\n",
        "root 0 block 0\nroot 0 block 0\n",
        "block 0\n",
    ] {
        assert_eq!(read(wrong.as_bytes()), None, "{wrong:?}");
    }
}

#[test]
fn a_reading_writes_all_cells_or_none() {
    let text = b"root 3 cell 0 cell 12 block 5\n";
    for room in 0..5 {
        let mut cells = vec![9; room];
        let kind = if room < 2 { 3 } else { 1 };
        let due = Reading {
            kind,
            root: 3,
            links: 2,
            block: 5,
        };
        assert_eq!(read_reason(text, &mut cells), due);
        let mut left = vec![9; room];
        if room >= 2 {
            left[..2].copy_from_slice(&[0, 12]);
        }
        assert_eq!(cells, left);
    }
    let none = read_reason(b"no root reaches block 5\n", &mut []);
    assert_eq!((none.kind, none.root, none.links, none.block), (2, 0, 0, 5));
    assert_eq!(read_reason(b"no root", &mut []), Reading::default());
}

/// "Each sentence can be read back in only one way": what is read is what was said, and what is read from any other text is said by
/// that text alone.
#[test]
fn one_way_to_read_a_sentence_back() {
    let mut random = Random::new(1);
    let (mut sentences, mut spoilt, mut still) = (0, 0, 0);
    for _ in 0..20_000 {
        let most = random.pick(&[1, 10, 100, 100_000]);
        let block = random.below(most);
        let cells: Vec<usize> = (0..random.below(5)).map(|_| random.below(most)).collect();
        let root = random.below(64);
        let chain = random.percent(80).then_some(Chain { root, cells });
        let text = sentence(chain.as_ref(), block).into_bytes();
        let said = read(&text).expect("a sentence");
        assert_eq!((said.chain, said.block), (chain, block));
        sentences += 1;
        let text = spoilt_sentence(&text, &mut random);
        spoilt += 1;
        if let Some(said) = read(&text) {
            assert_eq!(sentence(said.chain.as_ref(), said.block).into_bytes(), text);
            still += 1;
        }
    }
    say(&format!(
        "{sentences} sentences read back, {spoilt} spoilt texts of which {still} are sentences"
    ));
}

/// The claims of reasons and shapes on what calls leave, in lists of every family.
#[test]
fn claims_on_random_lists() {
    let mut asked = Asked::default();
    for (family, _) in FAMILIES {
        for seed in 0..12 {
            let desk = generate(family, seed, 80).unwrap();
            let mut bench = Bench::of_any_size(desk.header);
            for (k, words) in desk.entries.iter().enumerate() {
                bench.carry_out(Entry::from_words(*words), apply);
                let Bench {
                    blocks,
                    width,
                    memory,
                    ..
                } = &bench;
                if k % 4 != 0 || *blocks > 64 {
                    continue;
                }
                match refused_first(*blocks, *width, memory, Call::Check) {
                    // And the outputs are refused as the check is.
                    Some(reply) => {
                        assert_eq!(reason(*blocks, *width, memory, 0, &mut [0; 99]), reply);
                        assert_eq!(shape(*blocks, *width, memory, &mut [0; 99]), reply);
                    }
                    None => {
                        let broken = broken_output(*blocks, *width, memory, &mut asked);
                        assert_eq!(broken, None, "{memory:?}");
                    }
                }
            }
        }
    }
    assert!(asked.unreached > 1_000 && asked.longest > 4, "{asked:?}");
    assert!(50 * asked.too_many < asked.sentences, "{asked:?}");
    say(&format!("claims of reasons and shapes: {asked:?}"));
}
