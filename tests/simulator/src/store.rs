//! The store: two images and the notes, and the check that every call but fresh and recover begins with.

use crate::image::{clock_in_range, Header, Sizes, CLOCK};
use crate::transient::{Layout, PHASE};

/// The number of a row in the table of refusals.
pub type Refusal = u32;

#[derive(Clone, PartialEq, Eq, Debug, Default)]
pub struct Store {
    pub working: Vec<u32>,
    pub persistent: Vec<u32>,
    pub transient: Vec<u32>,
}

/// What the check found: the sizes, and the clock both images hold.
#[derive(Clone, Copy)]
pub struct Entry {
    pub sizes: Sizes,
    pub layout: Layout,
    pub clock: u32,
}

impl Store {
    pub fn slices(&mut self) -> [&mut Vec<u32>; 3] {
        [&mut self.working, &mut self.persistent, &mut self.transient]
    }

    /// Refusals 1 and 2.
    pub fn enter(&self) -> Result<Entry, Refusal> {
        let sizes = Sizes::of(&self.working).ok_or(1u32)?;
        if Sizes::of(&self.persistent) != Some(sizes) {
            return Err(1);
        }
        let layout = Layout::of(self.transient.len(), sizes.slots).ok_or(1u32)?;
        if !layout.fits(&self.transient) {
            return Err(1);
        }
        let clock = self.working[CLOCK];
        if !clock_in_range(clock) || self.persistent[CLOCK] != clock {
            return Err(2);
        }
        let entry = Entry { sizes, layout, clock };
        let legal = |open: u32| open == 0 || open == clock || open == clock - 1;
        if (0..layout.threads).any(|thread| !legal(entry.open(self, thread))) {
            return Err(2);
        }
        Ok(entry)
    }
}

impl Entry {
    pub fn slots(&self) -> std::ops::Range<usize> {
        0..self.sizes.slots
    }

    pub fn header(&self, store: &Store, slot: usize) -> Header {
        self.sizes.header(&store.working, slot)
    }

    /// The open epoch of a thread, 0 for none.
    pub fn open(&self, store: &Store, thread: usize) -> u32 {
        store.transient[self.layout.open(thread)]
    }

    pub fn any_open(&self, store: &Store, wanted: impl Fn(u32) -> bool) -> bool {
        (0..self.layout.threads).any(|thread| wanted(self.open(store, thread)))
    }

    pub fn retired(&self, store: &Store, slot: usize) -> u32 {
        store.transient[self.layout.retired(slot)]
    }

    /// "A payload is live when its kind is 1 or 2 and it is not retired."
    pub fn is_live(&self, store: &Store, slot: usize) -> bool {
        self.header(store, slot).is_payload() && self.retired(store, slot) == 0
    }

    pub fn join_waiting(&self, store: &mut Store, epoch: u32, slot: usize) {
        store.transient[self.layout.waiting(epoch)][slot / 32] |= 1 << (slot % 32);
    }

    pub fn is_waiting(&self, store: &Store, epoch: u32, slot: usize) -> bool {
        store.transient[self.layout.waiting(epoch)][slot / 32] & 1 << (slot % 32) != 0
    }

    pub fn advance_is_underway(&self, store: &Store) -> bool {
        (1..=4).contains(&store.transient[PHASE])
    }
}
