//! The library linked into this program, called through the crate that the node uses.
use hostpath::READING;

use crate::batch::{guarded, put_reply, Batch, Returned, GUARD, HEAD};
use crate::call::{Call, Function};
use crate::dispatch;

#[derive(Default)]
pub struct Library {
    /// The book that calls are lent, between its guards.
    book: Vec<u8>,
}

impl Library {
    /// The replies to the calls of a batch, one behind the other.
    pub fn replies(&mut self, batch: &Batch) -> Vec<u8> {
        let mut replies = Vec::with_capacity(batch.expected().len());
        for (call, room) in batch.calls() {
            let head = replies.len();
            let lent = put_reply(&mut replies, Returned::default(), room);
            let returned = answer(&call, &mut self.book, &mut replies[lent..lent + room]);
            let told = replies[head..head + HEAD].iter_mut().zip(returned.bytes());
            told.for_each(|(to, byte)| *to = byte);
            if call.function.has_book() {
                replies.extend_from_slice(&self.book);
            }
        }
        replies
    }
}

/// Makes a call, on a book between its guards where it is lent one.
pub fn answer(call: &Call, book: &mut Vec<u8>, out: &mut [u8]) -> Returned {
    if call.function == Function::BookLend {
        *book = guarded(call.texts[0]);
    }
    let end = book.len().saturating_sub(GUARD);
    let lent = book.get_mut(GUARD..end).unwrap_or_default();
    let mut returned = dispatch::make(call, lent, out);
    // the call says only that it has written, and no place; how much is known
    if call.function.reads() && returned.refusal == 0 {
        returned.numbers[0] = READING as u64;
    }
    returned
}
