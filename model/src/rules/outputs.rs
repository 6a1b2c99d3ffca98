//! The calls that write nothing but an output that is lent with them: the reason (U11) and the shape (U13). Both keep the waiting
//! list, and are allowed with a collection open.

use crate::rules::answers::{accepted, refused, refused_first, Reply};
use crate::rules::calls::Call;
use crate::rules::heap::{is_first_block, Memory};
use crate::rules::reasons::{chain, sentence};
use crate::rules::shapes;

/// What a call has to write, or its refusal before the output is looked at.
pub type Due<T> = Result<Vec<T>, Reply>;

/// "for the object at a block". Before the output: the check's refusals, and 6.
pub fn due_reason(blocks: usize, width: usize, memory: &Memory, a: usize) -> Due<u8> {
    if let Some(reply) = refused_first(blocks, width, memory, Call::Check) {
        return Err(reply);
    }
    if !is_first_block(blocks, memory, a) {
        return Err(refused(6));
    }
    let chain = chain(blocks, memory, a);
    Ok(sentence(chain.as_ref(), a).into_bytes())
}

/// Before the output: "the check's refusals".
pub fn due_shape(blocks: usize, width: usize, memory: &Memory) -> Due<u32> {
    match refused_first(blocks, width, memory, Call::Check) {
        Some(reply) => Err(reply),
        None => Ok(shapes::shape(blocks, memory)),
    }
}

/// "The value is the length in bytes; later bytes of the output keep their values." "The value is how many numbers were written; later
/// ones keep theirs." What is too short is refused, and "a refusal ... changes no buffer": not even what would fit is written.
pub fn write_due<T: Copy>(due: &Due<T>, too_short: usize, output: &mut [T]) -> Reply {
    match due {
        Err(reply) => *reply,
        Ok(list) if output.len() < list.len() => refused(too_short),
        Ok(list) => {
            output[..list.len()].copy_from_slice(list);
            accepted(list.len())
        }
    }
}

/// "15, the lent output is shorter than the sentence, after 6."
pub const SHORT_REASON: usize = 15;

/// "16, the lent list is too short, after the check's refusals."
pub const SHORT_SHAPE: usize = 16;

/// The reason why the object at block a is kept.
pub fn reason(blocks: usize, width: usize, memory: &Memory, a: usize, output: &mut [u8]) -> Reply {
    let due = due_reason(blocks, width, memory, a);
    write_due(&due, SHORT_REASON, output)
}

/// The shape of what the roots reach.
pub fn shape(blocks: usize, width: usize, memory: &Memory, output: &mut [u32]) -> Reply {
    let due = due_shape(blocks, width, memory);
    write_due(&due, SHORT_SHAPE, output)
}
