//! The layout of the notes: 70 + T + 3N words. They say their N; T is what their length leaves.

use crate::image::LARGEST;
use std::ops::Range;

/// N, "the last slot taken", "the next uid", the next order number (02, No. 3), and the place of an advance: phase and
/// slot.
pub const NOTED_SLOTS: usize = 0;
pub const LAST_TAKEN: usize = 1;
pub const NEXT_UID: usize = 2;
pub const NEXT_ORDER: usize = 3;
pub const PHASE: usize = 4;
pub const PLACE_SLOT: usize = 5;
/// The waiting lists: a bit for each slot, the lowest bit of a word first. A list has room for 1,024 slots.
const LISTS: usize = 6;
const LIST_WORDS: usize = 32;
const PREFIX: usize = LISTS + 2 * LIST_WORDS;

/// Where things stand in the notes of a board of so many slots and threads.
#[derive(Clone, Copy, PartialEq, Eq, Debug)]
pub struct Layout {
    pub slots: usize,
    pub threads: usize,
}

impl Layout {
    /// "T threads (1 to 16)"
    pub fn new(slots: usize, threads: usize) -> Option<Layout> {
        (1..=16).contains(&threads).then_some(Layout { slots, threads })
    }

    pub fn of(length: usize, slots: usize) -> Option<Layout> {
        Layout::new(slots, length.checked_sub(PREFIX + 3 * slots)?)
    }

    pub fn words(self) -> usize {
        PREFIX + self.threads + 3 * self.slots
    }

    pub fn open(self, thread: usize) -> usize {
        PREFIX + thread
    }

    pub fn retired(self, slot: usize) -> usize {
        PREFIX + self.threads + slot
    }

    /// The waiting list of an epoch, which is the clock or one below it.
    pub fn waiting(self, epoch: u32) -> Range<usize> {
        let start = LISTS + if epoch % 2 == 0 { 0 } else { LIST_WORDS };
        start..start + LIST_WORDS
    }

    /// The word of the index that leads to the first slot of a bucket (02, No. 6).
    pub fn bucket(self, bucket: usize) -> usize {
        PREFIX + self.threads + self.slots + bucket
    }

    /// The word of the index that leads on from a slot.
    pub fn link(self, slot: usize) -> usize {
        PREFIX + self.threads + 2 * self.slots + slot
    }

    /// All words of the index.
    pub fn index(self) -> Range<usize> {
        self.bucket(0)..self.words()
    }

    /// "Nothing is open, retired, waiting or underway", the search begins at slot 0, and the index holds no slot.
    pub fn blank(self, next_uid: u32, next_order: u32) -> Vec<u32> {
        let mut transient = vec![0; self.words()];
        transient[NOTED_SLOTS] = self.slots as u32;
        transient[LAST_TAKEN] = self.slots as u32 - 1;
        transient[NEXT_UID] = next_uid;
        transient[NEXT_ORDER] = next_order;
        transient
    }

    /// "the images or notes differ in sizes; a note naming a slot not below N, or a next uid outside 1 to 4,000,000,001"
    /// 02, No. 3: "1 and 12 judge the next order number as the next uid"
    pub fn fits(self, transient: &[u32]) -> bool {
        let names_slot = |word: u32| (word as usize) < self.slots;
        transient[NOTED_SLOTS] as usize == self.slots
            && names_slot(transient[LAST_TAKEN])
            && names_slot(transient[PLACE_SLOT])
            && (1..=LARGEST + 1).contains(&transient[NEXT_UID])
            && (1..=LARGEST + 1).contains(&transient[NEXT_ORDER])
    }
}
