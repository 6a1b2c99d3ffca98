//! The reason an object is kept (request U11) and equal shape (request U13): 8 blocks, width 2 and 4 roots unless said.

mod common;
use common::{block, freed, lend, lists, refusal, show};
use huwekapo::lent::{self, Reading, Reply};
use huwekapo::{read_reason, Heap, Reason, Refusal};

/// An object for each size, in the root of its place.
fn heap(sizes: &[usize]) -> Heap {
    let mut heap = Heap::new(8, 2, 4).expect("a good shape");
    for (r, n) in sizes.iter().enumerate() {
        heap.allocate(*n, r).expect("room");
    }
    heap
}

fn link(heap: &mut Heap, at: usize, j: usize, to: usize) {
    assert_eq!(heap.store_cell(at, j, 1 + to).map(freed), Ok(0));
}

/// Root 1 names the object of 2 blocks at 0, whose cell 5 names that at 2, whose cell 1 names data at 4. Root 2 names that at 3.
fn chain() -> Heap {
    let mut heap = heap(&[2, 1, 1]);
    assert_eq!(heap.allocate_data(1, 3).map(block), Ok(4));
    link(&mut heap, 0, 5, 2);
    link(&mut heap, 2, 1, 4);
    assert_eq!(heap.write_number(4, 0, 1), Ok(()));
    assert_eq!(heap.store_root(1, 1).map(freed), Ok(0));
    assert_eq!(heap.return_roots(0b1001), Ok(0));
    heap
}

#[test]
fn chains() {
    let heap = chain();
    for (at, sentence) in [
        (0, "root 1 block 0\n"),
        (2, "root 1 cell 5 block 2\n"),
        (3, "root 2 block 3\n"),
        (4, "root 1 cell 5 cell 1 block 4\n"),
    ] {
        assert_eq!(heap.reason(at).as_deref(), Ok(sentence));
    }
    for at in [1, 5, 8, usize::MAX] {
        assert_eq!(heap.reason(at), Err(Refusal::NoObject));
    }
}

/// "Where there is no chain": on a cycle of garbage, and where data alone looks like a reference.
#[test]
fn no_chain() {
    let mut heap = chain();
    link(&mut heap, 3, 0, 3);
    assert_eq!(heap.store_root(2, 0).map(freed), Ok(0));
    assert_eq!(heap.reason(3).as_deref(), Ok("no root reaches block 3\n"));
    assert_eq!(heap.write_number(4, 1, 4), Ok(()));
    assert_eq!(heap.reason(3).as_deref(), Ok("no root reaches block 3\n"));
    assert_eq!(heap.check(), Ok(()));
}

/// "The chain has the fewest links; among those the lowest root, then the lowest cell at the first difference."
#[test]
fn the_best_chain() {
    // Two ways from root 0 to block 3, one shorter from root 2.
    let mut heap = heap(&[1, 1, 1, 1]);
    link(&mut heap, 0, 0, 1);
    link(&mut heap, 0, 2, 2);
    link(&mut heap, 1, 3, 3);
    link(&mut heap, 2, 0, 3);
    assert_eq!(heap.store_root(3, 0).map(freed), Ok(0));
    assert_eq!(heap.reason(3).as_deref(), Ok("root 1 cell 3 block 3\n"));
    assert_eq!(heap.store_root(1, 0).map(freed), Ok(0));
    assert_eq!(heap.reason(3).as_deref(), Ok("root 2 cell 0 block 3\n"));
    assert_eq!(heap.store_root(2, 0).map(freed), Ok(0));
    assert_eq!(
        heap.reason(3).as_deref(),
        Ok("root 0 cell 0 cell 3 block 3\n")
    );
}

fn reply(value: usize) -> Reply {
    Reply {
        number: 0,
        value,
        second: 0,
    }
}

/// 15 and 16, of every room from none to two more than is needed; later places keep their values, and no buffer is written.
#[test]
fn rooms() {
    let buffers = {
        let mut buffers = chain().into_buffers();
        buffers.waiting.fill(99);
        assert_eq!(lent::open_collection(lend(8, 2, &mut buffers)), reply(0));
        buffers
    };
    let before = lists(&buffers);
    let sentence = b"root 1 cell 5 cell 1 block 4\n";
    for room in 0..=sentence.len() + 2 {
        let mut output = vec![7; room];
        let answer = lent::reason(show(8, 2, &buffers), 4, &mut output);
        if room < sentence.len() {
            assert_eq!((answer, output), (refusal(15), vec![7; room]));
        } else {
            assert_eq!(answer, reply(sentence.len()));
            assert_eq!(output[..sentence.len()], sentence[..]);
            assert!(output[sentence.len()..].iter().all(|byte| *byte == 7));
        }
    }
    // Number 6 comes before 15.
    assert_eq!(lent::reason(show(8, 2, &buffers), 1, &mut []), refusal(6));
    let shape = chain().shape().expect("a good heap");
    for room in 0..=shape.len() + 2 {
        let mut output = vec![7; room];
        let answer = lent::shape(show(8, 2, &buffers), &mut output);
        if room < shape.len() {
            assert_eq!((answer, output), (refusal(16), vec![7; room]));
        } else {
            assert_eq!(answer, reply(shape.len()));
            assert_eq!(output[..shape.len()], shape[..]);
            assert!(output[shape.len()..].iter().all(|number| *number == 7));
        }
    }
    assert_eq!(lists(&buffers), before);
}

/// "First comes the number of roots, then each root's object number or 0; then, for each object, size, D bit and cells".
#[test]
fn a_shape() {
    assert_eq!(heap(&[]).shape(), Ok(vec![4, 0, 0, 0, 0]));
    let mut due = vec![4, 0, 1, 2, 0];
    due.extend([2, 0, 0, 0, 0, 0, 0, 3, 0, 0]);
    due.extend([1, 0, 0, 0, 0, 0]);
    due.extend([1, 0, 0, 4, 0, 0]);
    due.extend([1, 1, 1, 0, 0, 0]);
    assert_eq!(chain().shape(), Ok(due));
}

/// Equal wherever objects lie, and whatever is garbage, at any size and width; not where data or an order differs.
#[test]
fn equal_shapes() {
    let shape = chain().shape();
    let mut other = Heap::new(1024, 4, 4).expect("a good shape");
    let data = other.allocate_data(1, 0).map(block).expect("room");
    assert_eq!(other.write_number(data, 0, 1), Ok(()));
    let middle = other.allocate(1, 2).map(block).expect("room");
    let first = other.allocate(2, 1).map(block).expect("room");
    link(&mut other, middle, 1, data);
    link(&mut other, first, 5, middle);
    assert_eq!(other.store_root(0, 0).map(freed), Ok(0));
    assert_eq!(other.allocate(1, 2).map(|_| ()), Ok(()));
    assert_eq!(other.shape(), shape);
    assert_eq!(other.write_number(data, 0, 2), Ok(()));
    assert_ne!(other.shape(), shape);
    assert_eq!(other.write_number(data, 0, 1), Ok(()));
    assert_eq!(other.store_root(3, 1 + first).map(freed), Ok(0));
    assert_ne!(other.shape(), shape);
}

#[test]
fn read_back() {
    let kept = |root, cells: &[u32], block| {
        Some(Reason::Kept {
            root,
            cells: cells.to_vec(),
            block,
        })
    };
    let unreached = |block| Some(Reason::Unreached { block });
    for (text, reason) in [
        ("root 1 cell 2 block 4\n", kept(1, &[2], 4)),
        ("root 0 block 0\n", kept(0, &[], 0)),
        (
            "root 63 cell 0 cell 32767 block 8191\n",
            kept(63, &[0, 32_767], 8191),
        ),
        (
            "root 4294967295 block 4294967295\n",
            kept(u32::MAX, &[], u32::MAX),
        ),
        ("no root reaches block 4\n", unreached(4)),
    ] {
        assert_eq!(read_reason(text), reason);
        assert_eq!(
            reason.map(|reason| reason.to_string()).as_deref(),
            Some(text)
        );
        // No part of a sentence is one, nor one with more behind it.
        for end in 0..text.len() {
            assert_eq!(read_reason(&text[..end]), None);
        }
        assert_eq!(read_reason(&format!("{text}\n")), None);
        assert_eq!(read_reason(&format!(" {text}")), None);
    }
    for text in [
        "root 01 block 4\n",
        "root 1  block 4\n",
        "root 1 cell block 4\n",
        "root 1 cell 2 block 00\n",
        "root 4294967296 block 4\n",
        "root -1 block 4\n",
        "Root 1 block 4\n",
        "root 1 block 4 cell 2\n",
        "no root reaches block 04\n",
        "no root reaches block \n",
    ] {
        assert_eq!(read_reason(text), None, "{text:?}");
    }
}

/// Without room for its cells nothing of a chain is written.
#[test]
fn room_for_cells() {
    let text = b"root 1 cell 2 cell 3 block 4\n";
    let reading = |kind| Reading {
        kind,
        root: 1,
        links: 2,
        block: 4,
    };
    for (room, kind, due) in [
        (0, 3, vec![]),
        (1, 3, vec![9]),
        (2, 1, vec![2, 3]),
        (3, 1, vec![2, 3, 9]),
    ] {
        let mut cells = vec![9; room];
        assert_eq!(lent::read_reason(text, &mut cells), reading(kind));
        assert_eq!(cells, due);
    }
}
