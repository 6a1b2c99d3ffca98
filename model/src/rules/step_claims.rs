//! The three claims of document 02, U8, about whole lists: "Three things hold in every list of calls as in demand 3." They are
//! followed call by call, so that they are checked in every prefix. The first, "Nothing reachable is ever freed", is demand 3's own
//! (claims.rs).

use crate::rules::answers::Reply;
use crate::rules::calls::Call;
use crate::rules::claims::{led_to, led_to_from, objects, written_in, Object};
use crate::rules::heap::{Memory, Ref};
use crate::rules::mark_claims::{open, touched};
use std::collections::BTreeSet;

/// The collection that is open, as far as a list has come.
#[derive(Clone, Debug, PartialEq, Eq, Hash)]
pub struct Opened {
    /// "the objects present at the opening"
    pub present: usize,
    /// "The steps from open to close"
    pub steps: usize,
    /// The objects that a root led to at the opening, or that an owner, old or new object of a later store was or led to before that
    /// store let anything go. Of these some may be left at the close; of others none.
    pub may_stay: BTreeSet<Object>,
}

/// Where the list stands after one more call; or what this call broke.
pub fn follow(
    blocks: usize,
    so_far: Option<Opened>,
    before: &Memory,
    call: Call,
    reply: Reply,
    after: &Memory,
) -> Result<Option<Opened>, String> {
    if reply.number != 0 {
        return Ok(so_far);
    }
    match (call, so_far) {
        (Call::OpenCollection, _) => Ok(Some(Opened {
            present: objects(blocks, before).len(),
            steps: 0,
            may_stay: led_to(blocks, before),
        })),
        // An opening that a format ends has no close.
        (Call::Format, _) | (_, None) => Ok(None),
        (Call::StepCollection { .. }, Some(mut opened)) => {
            opened.steps += reply.value;
            if opened.steps > opened.present {
                return Err(format!(
                    "{} steps, and {} objects were present at the opening",
                    opened.steps, opened.present
                ));
            }
            if open(blocks, after) {
                return Ok(Some(opened));
            }
            match objects(blocks, after).difference(&opened.may_stay).next() {
                Some(left) => Err(format!("object {left:?} is not gone at the close")),
                None => Ok(None),
            }
        }
        (_, Some(mut opened)) => {
            let written = written_in(before, call, reply);
            let touched: Vec<Ref> = touched(before, call, &written)
                .into_iter()
                .map(|first| (1 + first) as Ref)
                .collect();
            opened
                .may_stay
                .extend(led_to_from(blocks, &written, &touched));
            // What is freed here is no longer there; another object may be born in its place.
            let stand = objects(blocks, after);
            opened.may_stay.retain(|object| stand.contains(object));
            opened
                .may_stay
                .extend(call.allocates().map(|n| (reply.value, n)));
            Ok(Some(opened))
        }
    }
}
