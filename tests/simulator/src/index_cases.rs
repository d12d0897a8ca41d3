//! What became of the index (02, No. 6): were some sort rare, a comparison would say little about it.

use crate::calls::{refusal_of, Call, DONE};
use crate::image::job;
use crate::index::{bucket, chain};
use crate::store::{Entry, Store};

/// Where a slot stood on its chain: alone on it, first of several, between two, or last.
#[derive(Clone, Copy, Default, Debug)]
pub struct Stood {
    pub alone: u64,
    pub first: u64,
    pub between: u64,
    pub last: u64,
}

impl Stood {
    fn note(&mut self, chain: &[usize], slot: usize) {
        let place = chain.iter().position(|&held| held == slot);
        match place {
            Some(0) if chain.len() == 1 => self.alone += 1,
            Some(0) => self.first += 1,
            Some(place) if place + 1 < chain.len() => self.between += 1,
            Some(_) => self.last += 1,
            None => {}
        }
    }

    fn each(self) -> [u64; 4] {
        [self.alone, self.first, self.between, self.last]
    }
}

/// How often a slot joined and left in each way, a read met another job or an older version before its own, and a recovery
/// put several slots on one chain.
#[derive(Clone, Copy, Default, Debug)]
pub struct IndexCases {
    pub joined: Stood,
    pub left: Stood,
    pub past_another: u64,
    pub past_a_version: u64,
    pub rebuilt: u64,
}

impl IndexCases {
    /// Notes a call on a store whose index was right, that got this reply and left the second store.
    pub fn note(&mut self, before: &Store, call: &Call, reply: u64, after: &Store) {
        if refusal_of(call, reply) != 0 {
            return;
        }
        let Ok(entry) = after.enter() else { return };
        match call {
            Call::Read { key, .. } => self.note_read(after, &entry, *key, reply),
            Call::Recover if reply == DONE => {
                self.rebuilt +=
                    u64::from(entry.slots().any(|at| chain(&after.transient, entry.layout, at).count() > 1));
            }
            Call::New { .. } | Call::Set { .. } | Call::Delete { .. } => self.note_change(before, &entry, after),
            Call::Append { .. } | Call::Take { .. } | Call::Advance => self.note_change(before, &entry, after),
            _ => {}
        }
    }

    fn note_change(&mut self, before: &Store, entry: &Entry, after: &Store) {
        for slot in entry.slots() {
            let chain_in = |store: &Store| -> Vec<usize> {
                let at = bucket(entry.sizes.slots, entry.sizes.name(&store.working, slot));
                chain(&store.transient, entry.layout, at).collect()
            };
            match [before, after].map(|store| entry.header(store, slot).is_filled()) {
                [false, true] => self.joined.note(&chain_in(after), slot),
                [true, false] => self.left.note(&chain_in(before), slot),
                _ => {}
            }
        }
    }

    fn note_read(&mut self, store: &Store, entry: &Entry, key: u32, reply: u64) {
        let at = bucket(entry.sizes.slots, job(key));
        let is_found = |slot: &usize| entry.sizes.value_part(*slot).start as u64 == reply;
        let passed: Vec<usize> = chain(&store.transient, entry.layout, at).take_while(|slot| !is_found(slot)).collect();
        let is_version = |slot: &usize| entry.sizes.name(&store.working, *slot) == job(key);
        self.past_a_version += u64::from(passed.iter().any(is_version));
        self.past_another += u64::from(!passed.iter().all(is_version));
    }

    pub fn are_at_least(self, least: u64) -> bool {
        let others = [self.past_another, self.past_a_version, self.rebuilt];
        [&self.joined.each()[..], &self.left.each(), &others].concat().iter().all(|&seen| seen >= least)
    }
}

impl std::fmt::Display for IndexCases {
    fn fmt(&self, text: &mut std::fmt::Formatter) -> std::fmt::Result {
        let IndexCases { joined, left, past_another, past_a_version, rebuilt } = self;
        write!(text, "index: slots alone, first, between and last on a chain joined {:?} and left ", joined.each())?;
        write!(text, "{:?}, reads past another job {past_another} and past an older version ", left.each())?;
        write!(text, "{past_a_version}, rebuilt with several on a chain {rebuilt}")
    }
}
