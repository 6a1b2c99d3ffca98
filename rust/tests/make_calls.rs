//! A list of calls on a heap as it stands: what each answers and leaves is what it does by itself, on an undamaged heap with a
//! collection open or none; and each refusal, in order, with nothing written.

mod common;
use common::{block, freed, lend, lent_to_calls};
use huwekapo::lent::{make_calls, Reply};
use huwekapo::{Buffers, Damage, Heap, Look, Refusal};

/// On the heap of `lent_to_calls`: an object into root 1, which names that at block 0; the data in root 2 let go of; a block that
/// is none; a wrong code's argument is no code.
const LIST: [[u64; 4]; 6] = [
    [2, 2, 1, 99],
    [4, 4, 0, 1],
    [8, 4, 0, 0],
    [6, 1, 0, 0],
    [6, 0, 0, 0],
    [7, 99, 99, 99],
];

fn reply(number: usize, value: usize) -> Reply {
    Reply {
        number,
        value,
        second: 0,
    }
}

/// What a list is refused with. Nothing is written.
fn refused(blocks: usize, given: &Buffers, calls: &[u64], room: usize) -> Reply {
    let mut buffers = given.clone();
    let mut replies = vec![7; room];
    let reply = make_calls(lend(blocks, 2, &mut buffers), calls, &mut replies);
    assert_ne!(reply.number, 0);
    assert_eq!(&buffers, given);
    assert_eq!(buffers.waiting, given.waiting);
    assert_eq!(replies, vec![7; room]);
    reply
}

#[test]
fn as_one_by_one() {
    for blocks in [8, 512] {
        for open in [false, true] {
            let mut buffers = lent_to_calls(blocks, open);
            let mut heap = Heap::from_buffers(blocks, 2, buffers.clone());
            let mut replies = [7; 20];
            let made = make_calls(
                lend(blocks, 2, &mut buffers),
                LIST.as_flattened(),
                &mut replies,
            );
            assert_eq!(made, reply(0, 6));
            assert_eq!(buffers.waiting, vec![0; blocks]);

            assert_eq!(heap.allocate(2, 1).map(block), Ok(4));
            assert_eq!(heap.store_cell(4, 0, 1).map(freed), Ok(0));
            assert_eq!(heap.return_roots(4), Ok(1));
            assert_eq!(heap.look(1), Err(Refusal::NoObject));
            assert_eq!(heap.look(0), Ok(Look { size: 1, count: 2 }));
            let left = heap.free_blocks().expect("an undamaged heap") as u64;
            assert_eq!(left, blocks as u64 - 4);
            assert_eq!(heap.buffers(), &buffers);
            assert_eq!(replies[..9], [0, 4, 0, 0, 0, 0, 0, 1, 0]);
            assert_eq!(replies[9..], [6, 0, 0, 0, 1, 2, 0, left, 0, 7, 7]);
        }
    }
}

/// Two lists, one behind the other, are one; and what a list left is what the next finds.
#[test]
fn in_two_parts() {
    let mut whole = Heap::from_buffers(8, 2, lent_to_calls(8, true));
    let mut parts = whole.clone();
    let (mut first, mut rest, mut all) = ([0; 9], [0; 9], [0; 18]);
    assert_eq!(whole.make_calls(LIST.as_flattened(), &mut all), Ok(6));
    let (front, behind) = LIST.split_at(3);
    assert_eq!(parts.make_calls(front.as_flattened(), &mut first), Ok(3));
    assert_eq!(parts.make_calls(behind.as_flattened(), &mut rest), Ok(3));
    assert_eq!(parts, whole);
    assert_eq!([first, rest].as_flattened(), all);
}

/// An empty list clears the waiting list, and changes nothing else.
#[test]
fn an_empty_list() {
    for open in [false, true] {
        let given = lent_to_calls(8, open);
        let mut buffers = given.clone();
        let mut replies = [7; 2];
        let made = make_calls(lend(8, 2, &mut buffers), &[], &mut replies);
        assert_eq!(made, reply(0, 0));
        assert_eq!(replies, [7; 2]);
        assert_eq!(buffers, given);
        assert_eq!(buffers.waiting, [0; 8]);
    }
}

/// A format in the list empties the heap, and the list goes on.
#[test]
fn a_format_in_a_list() {
    let mut heap = Heap::from_buffers(8, 2, lent_to_calls(8, true));
    let calls = [[12, 0, 0, 0], [0, 0, 0, 0], [7, 0, 0, 0], [2, 3, 3, 0]];
    let mut replies = [7; 12];
    assert_eq!(heap.make_calls(calls.as_flattened(), &mut replies), Ok(4));
    assert_eq!(replies, [14, 0, 0, 0, 0, 0, 0, 8, 0, 0, 0, 0]);
    let mut due = Heap::new(8, 2, 4).expect("a good shape");
    assert_eq!(due.allocate(3, 3).map(block), Ok(0));
    assert_eq!(heap, due);
}

/// The check's refusals, with the damage kind, before those of the list.
#[test]
fn refusals_in_order() {
    let mut buffers = lent_to_calls(8, false);
    let list = LIST.as_flattened();
    for room in [0, 17] {
        assert_eq!(refused(8, &buffers, list, room), reply(18, 0));
    }
    for code in [14, 256, u64::MAX] {
        assert_eq!(refused(8, &buffers, &[code, 0, 0, 0], 0), reply(9, 0));
    }
    let wide = [10, 1, 0, 1 << 32];
    assert_eq!(refused(8, &buffers, &wide, 3), reply(9, 0));
    assert_eq!(refused(8, &buffers, &[14, 0, 0, 0, 0], 0), reply(10, 0));
    buffers.marks[0] = 1;
    assert_eq!(refused(8, &buffers, &[14], 0), reply(13, 0));
    buffers.sections[0] += 1;
    assert_eq!(refused(8, &buffers, &[14], 0), reply(11, 0));
    buffers.cells[0] = 99;
    assert_eq!(refused(8, &buffers, &[14], 0), reply(2, 4));
    buffers.b[0] = 0;
    assert_eq!(refused(8, &buffers, &[14], 0), reply(2, 1));
    assert_eq!(refused(16, &buffers, &[14], 0), reply(1, 0));
    let mut heap = Heap::from_buffers(8, 2, buffers);
    let refusal = Refusal::Damaged(Damage::EndOnFree);
    assert_eq!(heap.make_calls(&[], &mut []), Err(refusal));
}
