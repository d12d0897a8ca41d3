//! What lists of changes (02, No. 5) came to: were some sort rare, a comparison would say little about it.

use crate::batch::{Outcome, DELETE, MOST_CHANGES, NEW, SET};
use crate::calls::{Call, Refusals};
use crate::image::Sizes;
use crate::store::Store;
use std::collections::HashSet;

/// The refusals that come before the list is looked at, and those that can end a list.
const FIRST: [usize; 4] = [1, 2, 5, 7];
const ENDS: [usize; 6] = [8, 9, 10, 11, 12, 13];

/// How often a list came to each sort.
#[derive(Clone, Default, Debug)]
pub struct BatchCases {
    /// Lists accepted whole: the empty one, one of 64 changes, any other. Of these, those that change one job twice.
    pub empty: u64,
    pub of_64: u64,
    pub whole: u64,
    pub one_job_twice: u64,
    /// Refused before the list is looked at: the empty one, by number, and one that 8 would refuse next.
    pub empty_refused: Refusals,
    pub before_8: u64,
    /// 8 before any change: by length, by more than 64 changes.
    pub half_a_change: u64,
    pub too_many: u64,
    /// 8 of a change: by its kind, the kind known and the key 0.
    pub unknown_kind: u64,
    pub key_0: u64,
    /// Ended by the first change, by one in the middle, and by the last of several, by number.
    pub at_first: Refusals,
    pub in_the_middle: Refusals,
    pub at_last: Refusals,
}

impl BatchCases {
    /// Notes a call that got this reply on this store.
    pub fn note(&mut self, store: &Store, call: &Call, reply: u64) {
        let Call::Batch { list, .. } = call else { return };
        let Outcome { accepted, refusal } = Outcome::of(reply);
        let (accepted, refusal) = (accepted as usize, refusal as usize);
        if list.is_empty() {
            self.empty += u64::from(refusal == 0);
            self.empty_refused[refusal] += u64::from(refusal != 0);
            return;
        }
        let Some(sizes) = Sizes::of(&store.working) else { return };
        let words = sizes.words + 1;
        let changes: Vec<&[u32]> = list.chunks(words).collect();
        let (is_whole, is_short) = (list.len() % words == 0, changes.len() <= MOST_CHANGES);
        if FIRST.contains(&refusal) {
            self.before_8 += u64::from(!is_whole || !is_short);
        } else if !is_whole {
            self.half_a_change += 1;
        } else if !is_short {
            self.too_many += 1;
        } else if refusal == 0 {
            self.note_whole(&changes);
        } else {
            self.note_ended(&changes, accepted, refusal);
        }
    }

    fn note_whole(&mut self, changes: &[&[u32]]) {
        self.of_64 += u64::from(changes.len() == MOST_CHANGES);
        self.whole += u64::from(changes.len() < MOST_CHANGES);
        let jobs: HashSet<u32> = changes.iter().map(|change| change[1]).collect();
        self.one_job_twice += u64::from(jobs.len() < changes.len());
    }

    fn note_ended(&mut self, changes: &[&[u32]], accepted: usize, refusal: usize) {
        let is_known = [NEW, SET, DELETE].contains(&changes[accepted][0]);
        self.unknown_kind += u64::from(!is_known);
        self.key_0 += u64::from(is_known && changes[accepted][1] == 0);
        if accepted == 0 {
            self.at_first[refusal] += 1;
        } else if accepted + 1 < changes.len() {
            self.in_the_middle[refusal] += 1;
        } else {
            self.at_last[refusal] += 1;
        }
    }

    /// Every sort came up so often.
    pub fn are_at_least(&self, least: u64) -> bool {
        let empty = FIRST.map(|refusal| self.empty_refused[refusal]);
        let ended = [&self.at_first, &self.in_the_middle].map(|seen| ENDS.map(|refusal| seen[refusal])).concat();
        self.of_runs_are_at_least(least) && empty.iter().chain(&ended).all(|&seen| seen >= least)
    }

    /// Every sort that is not rare in runs, as 9 and 12 are and as 1 and 2 cannot be.
    pub fn of_runs_are_at_least(&self, least: u64) -> bool {
        let accepted = [self.empty, self.of_64, self.whole, self.one_job_twice];
        let refused = [self.before_8, self.half_a_change, self.too_many, self.unknown_kind, self.key_0];
        let ended = [8, 10, 11, 13].map(|refusal| self.in_the_middle[refusal]);
        let totals = [&self.at_first, &self.at_last].map(|seen| seen.iter().sum());
        [&accepted[..], &refused, &ended, &totals].concat().iter().all(|&seen| seen >= least)
    }
}

impl std::fmt::Display for BatchCases {
    fn fmt(&self, text: &mut std::fmt::Formatter) -> std::fmt::Result {
        let BatchCases { empty, of_64, whole, one_job_twice, half_a_change, too_many, unknown_kind, key_0, .. } = self;
        write!(text, "batches: accepted whole {whole}, of 64 changes {of_64}, empty {empty}, changing one job twice ")?;
        write!(text, "{one_job_twice}, 8 for half a change {half_a_change}, too many {too_many}, an unknown kind ")?;
        write!(text, "{unknown_kind} and key 0 {key_0}, the empty list refused ")?;
        write_numbered(text, FIRST, &self.empty_refused)?;
        write!(text, " and one that 8 would refuse next {}, ended at the first change ", self.before_8)?;
        write_numbered(text, ENDS, &self.at_first)?;
        write!(text, ", in the middle ")?;
        write_numbered(text, ENDS, &self.in_the_middle)?;
        write!(text, ", at the last ")?;
        write_numbered(text, ENDS, &self.at_last)
    }
}

/// How often each of these refusals came up: its number, and after a colon how often.
fn write_numbered<const COUNT: usize>(
    text: &mut std::fmt::Formatter,
    refusals: [usize; COUNT],
    seen: &Refusals,
) -> std::fmt::Result {
    let numbered = refusals.map(|refusal| format!("{refusal}: {}", seen[refusal]));
    write!(text, "({})", numbered.join(", "))
}
