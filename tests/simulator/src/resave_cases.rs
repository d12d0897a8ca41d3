//! What a set of the value that a job has came to (02, No. 8): were some sort rare, a comparison would say little about it.

use crate::batch::{call_alone, Outcome};
use crate::calls::{simulate, Call};
use crate::changes::{live_slot, open_operation};
use crate::image::{job, Sizes};
use crate::store::Store;

/// How often a set of an older version met each sort.
#[derive(Clone, Copy, Default, Debug)]
pub struct ResaveCases {
    /// The same value, accepted with no slot free and with one, and of these on boards of 2 to 4 slots; and within lists,
    /// which are not among these.
    pub none_free: u64,
    pub one_free: u64,
    pub small_boards: u64,
    pub in_lists: u64,
    /// 13 where only the last word differs, and where only the first of several does.
    pub last_word: u64,
    pub first_word: u64,
    /// The same value with two slots free: it takes one.
    pub took_a_slot: u64,
}

impl ResaveCases {
    /// Notes a call that got this reply on this store.
    pub fn note(&mut self, store: &Store, call: &Call, reply: u64) {
        match call {
            Call::Set { thread, key, value } => self.note_set(store, *thread, *key, value, reply),
            Call::Batch { thread, list } => self.note_list(store, *thread, list, Outcome::of(reply)),
            _ => {}
        }
    }

    fn note_set(&mut self, store: &Store, thread: u32, key: u32, value: &[u32], reply: u64) {
        let Ok((entry, epoch)) = open_operation(store, thread) else { return };
        let Some(slot) = live_slot(store, &entry, job(key)) else { return };
        let present = entry.sizes.value(&store.working, slot);
        if entry.header(store, slot).epoch == epoch || present.len() != value.len() {
            return;
        }
        let free = entry.slots().filter(|&slot| !entry.header(store, slot).is_filled()).count();
        let differing: Vec<usize> = (0..value.len()).filter(|&word| value[word] != present[word]).collect();
        let last = value.len() - 1;
        match (reply, free) {
            (0, _) if !differing.is_empty() => {}
            (0, 0) => self.none_free += 1,
            (0, 1) => self.one_free += 1,
            (0, _) => self.took_a_slot += 1,
            (13, _) => {
                self.last_word += u64::from(differing == [last]);
                self.first_word += u64::from(differing == [0] && last > 0);
            }
            _ => {}
        }
        self.small_boards += u64::from(reply == 0 && differing.is_empty() && free < 2 && entry.sizes.slots <= 4);
    }

    /// The sets among the changes that were accepted.
    fn note_list(&mut self, store: &Store, thread: u32, list: &[u32], outcome: Outcome) {
        let Some(sizes) = Sizes::of(&store.working) else { return };
        let mut store = store.clone();
        let mut alone = ResaveCases::default();
        for change in list.chunks_exact(sizes.words + 1).take(outcome.accepted as usize) {
            let Some(call) = call_alone(thread, change) else { return };
            alone.note(&store, &call, 0);
            simulate(&mut store, &call);
        }
        self.in_lists += alone.none_free + alone.one_free;
    }

    /// Every sort came up so often.
    pub fn are_at_least(self, least: u64) -> bool {
        let ResaveCases { none_free, one_free, small_boards, in_lists, last_word, first_word, took_a_slot } = self;
        let accepted = [none_free, one_free, small_boards, in_lists];
        accepted.iter().chain(&[last_word, first_word, took_a_slot]).all(|&seen| seen >= least)
    }
}

impl std::fmt::Display for ResaveCases {
    fn fmt(&self, text: &mut std::fmt::Formatter) -> std::fmt::Result {
        let ResaveCases { none_free, one_free, small_boards, in_lists, last_word, first_word, took_a_slot } = self;
        write!(
            text,
            "the same value again: with no slot free {none_free}, with one {one_free}, of these on 2 to 4 slots "
        )?;
        write!(
            text,
            "{small_boards}, within lists {in_lists}, taking a slot {took_a_slot}, 13 by the last word alone "
        )?;
        write!(text, "{last_word} and by the first {first_word}")
    }
}
