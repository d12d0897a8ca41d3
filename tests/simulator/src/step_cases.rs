//! What an advance call did far up a board: were some sort rare, a comparison would say little about the walks that pass
//! over many slots at once.

use crate::calls::Call;
use crate::image::CLOCK;
use crate::store::{Entry, Store};
use crate::transient::{PHASE, PLACE_SLOT};

/// How often an advance call met each sort.
#[derive(Clone, Copy, Default, Debug)]
pub struct StepCases {
    /// A slot freed that is sixteen or more past the place, and one of the last slots, which are fewer than sixteen.
    pub freed_far: u64,
    pub freed_last: u64,
    /// Contents stored of a slot in a later word of the list than the place, and of one in the last word, which has fewer
    /// than 32 slots.
    pub word_passed: u64,
    pub last_word: u64,
    /// A list emptied in which a bit was set that is no slot's.
    pub no_slots_bits: u64,
}

impl StepCases {
    /// Notes a call that left this store.
    pub fn note(&mut self, before: &Store, call: &Call, after: &Store) {
        let (Call::Advance, Ok(entry)) = (call, before.enter()) else { return };
        if before == after {
            return;
        }
        let place = |store: &Store| (store.transient[PHASE], store.transient[PLACE_SLOT] as usize);
        let ((phase, slot), slots) = (place(before), entry.sizes.slots);
        let from = |wanted: u32| if phase == wanted { slot } else { 0 };
        match place(after) {
            _ if after.working[CLOCK] != entry.clock => self.no_slots_bits += u64::from(strange_bits(before, &entry)),
            (3, stored) => {
                self.word_passed += u64::from(stored / 32 > from(2) / 32);
                self.last_word += u64::from(slots % 32 != 0 && slots > 32 && stored / 32 == slots / 32);
            }
            (_, _) if (2..=4).contains(&phase) => {}
            (next, next_slot) => {
                let freed = if next == 1 { next_slot - 1 } else { slots - 1 };
                self.freed_far += u64::from(freed >= from(1) + 16);
                self.freed_last += u64::from(freed >= from(1) + (slots - from(1)) / 16 * 16 && freed >= from(1) + 16);
            }
        }
    }

    /// Every sort came up so often.
    pub fn are_at_least(self, least: u64) -> bool {
        let StepCases { freed_far, freed_last, word_passed, last_word, no_slots_bits } = self;
        [freed_far, freed_last, word_passed, last_word, no_slots_bits].iter().all(|&seen| seen >= least)
    }
}

/// Bits of the list that the next tick empties, past those of the slots.
fn strange_bits(store: &Store, entry: &Entry) -> bool {
    let list = &store.transient[entry.layout.waiting(entry.clock - 1)];
    (entry.sizes.slots..32 * list.len()).any(|bit| list[bit / 32] & 1 << (bit % 32) != 0)
}

impl std::fmt::Display for StepCases {
    fn fmt(&self, text: &mut std::fmt::Formatter) -> std::fmt::Result {
        let StepCases { freed_far, freed_last, word_passed, last_word, no_slots_bits } = self;
        write!(text, "advances that freed a slot far up {freed_far}, or one of the last {freed_last}, ")?;
        write!(text, "stored one of a later word {word_passed}, or of a short last one {last_word}, ")?;
        write!(text, "emptied a list of bits that are no slot's {no_slots_bits}")
    }
}
