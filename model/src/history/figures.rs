//! The six figures of a run.

use crate::rules::answers::Reply;
use crate::rules::calls::Call;

/// "The report is one line of five figures: accepted allocations, blocks allocated in all, largest accepted size, full
/// collections forced or recorded, most blocks in use after any record"; U5: "U1's line gains a sixth figure, the number of
/// such moments"
#[derive(Clone, Copy, Debug, Default, PartialEq, Eq)]
pub struct Figures {
    pub allocations: u64,
    pub blocks: u64,
    pub largest: u64,
    pub collections: u64,
    pub most_in_use: u64,
    pub became_stuck: u64,
}

impl Figures {
    /// Counts a call as it was made. Blocks are those of the object, not of the chunk.
    pub fn call(&mut self, call: Call, reply: Reply) {
        match call {
            _ if reply.number != 0 => {}
            // U6: "allocate data into d as 1 does"
            Call::Allocate { n, .. } | Call::AllocateData { n, .. } => {
                self.allocations += 1;
                self.blocks += n as u64;
                self.largest = self.largest.max(n as u64);
            }
            Call::Collect => self.collections += 1,
            _ => {}
        }
        // "Every store and allocation passes the fact on"
        let tells = matches!(
            call,
            Call::Allocate { .. }
                | Call::AllocateData { .. }
                | Call::StoreRoot { .. }
                | Call::StoreCell { .. }
        );
        if reply.number == 0 && tells && reply.second == 1 {
            self.became_stuck += 1;
        }
    }

    /// "most blocks in use after any record"
    pub fn after_record(&mut self, in_use: usize) {
        self.most_in_use = self.most_in_use.max(in_use as u64);
    }

    /// In the order of the line.
    pub fn in_order(&self) -> [u64; 6] {
        [
            self.allocations,
            self.blocks,
            self.largest,
            self.collections,
            self.most_in_use,
            self.became_stuck,
        ]
    }
}
