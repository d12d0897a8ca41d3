//! One call for a whole round. 02, No. 5: "A call should accept a list of up to 64 changes (new, set or delete) within the
//! caller's open operation."

use crate::calls::Call;
use crate::changes::{delete, new, open_operation, set};
use crate::store::{Refusal, Store};

/// "kind (1 new, 2 set, 3 delete)"
pub const NEW: u32 = 1;
pub const SET: u32 = 2;
pub const DELETE: u32 = 3;

/// "up to 64 changes"
pub const MOST_CHANGES: usize = 64;

/// "It returns how many were accepted and that refusal, if there was one." The refusal is 0 where there was none.
#[derive(Clone, Copy, PartialEq, Eq, Debug)]
pub struct Outcome {
    pub accepted: u32,
    pub refusal: Refusal,
}

impl Outcome {
    /// The low and the high half of a 64-bit number.
    pub fn number(self) -> u64 {
        u64::from(self.refusal) << 32 | u64::from(self.accepted)
    }

    pub fn of(number: u64) -> Outcome {
        Outcome { accepted: number as u32, refusal: (number >> 32) as u32 }
    }

    /// "The call as a whole counts as declining only when it refuses with none accepted"
    pub fn declines_with(self) -> Refusal {
        if self.accepted == 0 {
            self.refusal
        } else {
            0
        }
    }
}

/// "It must equal the same calls made one by one up to the first that declines". "An empty list is accepted with 0."
pub fn batch(store: &mut Store, thread: u32, list: &[u32]) -> Outcome {
    let words = match words_of_a_change(store, thread, list) {
        Ok(words) => words,
        Err(refusal) => return Outcome { accepted: 0, refusal },
    };
    let mut accepted = 0;
    for change in list.chunks(words) {
        if let Err(refusal) = one_change(store, thread, change) {
            return Outcome { accepted, refusal };
        }
        accepted += 1;
    }
    Outcome { accepted, refusal: 0 }
}

/// "1, 2, 5 and 7 come first, for an empty list too; then 8 for a list longer than 64 or not of whole changes, before any
/// change is tried". "Each change is W + 1 words".
fn words_of_a_change(store: &Store, thread: u32, list: &[u32]) -> Result<usize, Refusal> {
    let (entry, _) = open_operation(store, thread)?;
    let words = entry.sizes.words + 1;
    if list.len() % words != 0 || list.len() / words > MOST_CHANGES {
        return Err(8);
    }
    Ok(words)
}

/// "kind (1 new, 2 set, 3 delete), key and V value words, which delete ignores"; "an unknown kind of change gives 8 in its
/// turn".
fn one_change(store: &mut Store, thread: u32, change: &[u32]) -> Result<(), Refusal> {
    let (kind, key, value) = (change[0], change[1], &change[2..]);
    match kind {
        NEW => new(store, thread, key, value),
        SET => set(store, thread, key, value),
        DELETE => delete(store, thread, key),
        _ => Err(8),
    }
}

/// The call that does the same as one change of a list alone; none for an unknown kind.
pub fn call_alone(thread: u32, change: &[u32]) -> Option<Call> {
    let (key, value) = (change[1], change[2..].to_vec());
    match change[0] {
        NEW => Some(Call::New { thread, key, value }),
        SET => Some(Call::Set { thread, key, value }),
        DELETE => Some(Call::Delete { thread, key }),
        _ => None,
    }
}
