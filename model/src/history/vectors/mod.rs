//! Some 580 histories that the program `report` is tested with. What must be printed for each is `report`'s line.
//!
//! A name that begins `gives-N` says, from the documents, that the run stops with N at the last record, whole or cut off;
//! one that begins `prints-A-B-C-D-E-F` has the line.

mod at_random;
mod by_heap;
mod by_number;
mod by_record;
mod old_form;

use super::record::{bytes, Operation};

pub use at_random::mixed;
pub use old_form::old_histories;

#[derive(Clone, Debug)]
pub struct History {
    pub name: String,
    pub bytes: Vec<u8>,
}

/// The histories, as they are written.
#[derive(Default)]
struct Shelf {
    histories: Vec<History>,
}

impl Shelf {
    fn add(&mut self, name: impl Into<String>, bytes: Vec<u8>) {
        let name = name.into();
        self.histories.push(History { name, bytes });
    }

    fn operations(&mut self, name: impl Into<String>, operations: &[Operation]) {
        self.add(name, bytes(operations));
    }
}

/// All of them, always the same.
pub fn histories() -> Vec<History> {
    let mut shelf = Shelf {
        histories: all_but_the_longest(),
    };
    at_random::longest(&mut shelf);
    shelf.histories
}

/// All but two of 200,000 records, which take the model some seconds.
pub fn all_but_the_longest() -> Vec<History> {
    let mut shelf = Shelf::default();
    by_record::histories(&mut shelf);
    by_heap::histories(&mut shelf);
    by_number::histories(&mut shelf);
    at_random::histories(&mut shelf);
    shelf.histories
}
