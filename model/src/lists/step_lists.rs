//! The family of steps (U8): collections opened on heaps with garbage, stepped with stores, births and releases between the steps,
//! and closed; and marks that are wrong.

use crate::lists::damaging::{some_damage, WRONG_MARKS};
use crate::lists::generate::Desk;
use crate::lists::wrong_families::damage_and_mend;
use crate::rules::calls::Call;

pub fn steps(desk: &mut Desk, count: usize) {
    let end = desk.entries.len() + count;
    desk.call(Call::Format);
    while desk.entries.len() < end {
        for _ in 0..4 + desk.random.below(12) {
            let call = tangling_call(desk);
            desk.call(call);
        }
        // All of it garbage: stores go on within it.
        if desk.random.percent(25) {
            let chosen = (1 << desk.roots().min(63)) - 1;
            desk.call(Call::ReturnRoots { chosen });
        }
        desk.call(Call::OpenCollection);
        if desk.random.percent(30) {
            let call = desk.some_return();
            desk.call(call);
        }
        let mut rounds = desk.random.below(20);
        while desk.is_open() && rounds > 0 {
            for _ in 0..desk.random.below(4) {
                let call = tangling_call(desk);
                desk.call(call);
            }
            if desk.random.percent(15) {
                damage_and_mend(desk, WRONG_MARKS);
            }
            if desk.random.percent(15) {
                let place = desk.random.below(desk.blocks());
                desk.load_rubbish(place);
            }
            let call = desk.some_collecting();
            desk.call(call);
            rounds -= 1;
        }
        if desk.random.percent(15) {
            damage_and_mend(desk, WRONG_MARKS);
        }
        if desk.random.percent(6) {
            for (buffer, index, value) in some_damage(&mut desk.random, &desk.bench, WRONG_MARKS) {
                desk.load(buffer, index, value);
            }
            desk.call(Call::Format);
        }
        if desk.is_open() && desk.random.percent(60) {
            let budget = desk.blocks();
            desk.call(Call::StepCollection { budget });
        }
        if desk.random.percent(30) {
            desk.call(Call::Collect);
        }
    }
}

/// Objects that name each other, of which most are let go again.
fn tangling_call(desk: &mut Desk) -> Call {
    match desk.random.below(20) {
        0..=6 => {
            let (n, r) = (1 + desk.random.below(2), desk.some_root());
            desk.allocation(n, r)
        }
        7..=13 => desk.some_cell_store(15),
        14..=16 => desk.some_root_store(60),
        17 => desk.some_return(),
        18 => desk.some_number_write(),
        _ => desk.some_look(),
    }
}
