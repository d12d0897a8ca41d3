//! Random lists of changes (02, No. 5): of every length, and most of them sensible for the store at hand.

use crate::batch::{call_alone, DELETE, MOST_CHANGES, NEW, SET};
use crate::calls::simulate;
use crate::changes::open_operation;
use crate::generator::{any_key, value_to_set};
use crate::image::{Sizes, JOBS, LARGEST};
use crate::random::Random;
use crate::store::Store;
use crate::transient::NEXT_UID;

/// So many changes are tried for one that is accepted.
const TRIES: usize = 6;

/// How the changes of a list are chosen: each so that it is accepted after those before it, anyhow, all of them new jobs,
/// or all of one job.
#[derive(Clone, Copy)]
enum Sort {
    Fitting,
    Any,
    Filling,
    OneJob(u32),
}

/// The list under way: the store as the changes so far leave it, and who makes them.
struct Maker<'a> {
    random: &'a mut Random,
    store: Store,
    thread: u32,
    epoch: u32,
    keys: u32,
    words: usize,
}

/// A list for the thread, where so many keys are in play.
pub fn any_list(random: &mut Random, store: &Store, thread: u32, keys: u32) -> Vec<u32> {
    let epoch = open_operation(store, thread).map_or(0, |(_, epoch)| epoch);
    if random.chance(if epoch == 0 { 40 } else { 5 }) {
        return Vec::new();
    }
    let words = Sizes::of(&store.working).map_or(3, |sizes| sizes.words + 1);
    let mut maker = Maker { random, store: store.clone(), thread, epoch, keys, words };
    let mut list = maker.list();
    if maker.random.chance(10) {
        maker.wrong_length(&mut list);
    }
    list
}

/// One change, a few, many, and the numbers at both sides of the limit.
fn any_count(random: &mut Random) -> usize {
    match random.below(20) {
        0..=2 => 1,
        3..=12 => 2 + random.below(7),
        13 | 14 => 9 + random.below(54),
        15 => MOST_CHANGES - 1,
        16..=18 => MOST_CHANGES,
        _ => random.pick(&[MOST_CHANGES + 1, MOST_CHANGES + 1, MOST_CHANGES + 2, 2 * MOST_CHANGES]),
    }
}

impl Maker<'_> {
    /// Whole changes; in some lists one of them is spoilt, and those after it are as if it were not.
    fn list(&mut self) -> Vec<u32> {
        let count = any_count(self.random);
        let sort = match self.random.below(20) {
            0..=11 => Sort::Fitting,
            12..=14 => Sort::Any,
            15 | 16 => Sort::Filling,
            _ => Sort::OneJob(any_key(self.random, &self.store, self.store.enter().ok(), self.keys, true)),
        };
        let can_get_9_or_12 = self.newer_key().is_some() || self.store.transient.get(NEXT_UID) == Some(&(LARGEST + 1));
        let percent = if can_get_9_or_12 { 90 } else { 40 };
        let spoilt = if self.random.chance(percent) { self.place(count) } else { count };
        let mut list = Vec::new();
        for number in 0..count {
            let change = self.change(sort);
            list.extend(if number == spoilt { self.spoilt(change.clone()) } else { change.clone() });
            self.make(&change);
        }
        list
    }

    /// The first of so many changes, the last, or, most often, one in the middle.
    fn place(&mut self, count: usize) -> usize {
        let middle = if count > 2 { 1 + self.random.below(count - 2) } else { 0 };
        self.random.pick(&[0, middle, middle, count - 1])
    }

    fn change(&mut self, sort: Sort) -> Vec<u32> {
        match sort {
            Sort::Fitting => self.fitting(),
            Sort::Any => self.any(),
            Sort::Filling => self.fresh(),
            Sort::OneJob(key) => self.next_of(key),
        }
    }

    fn any(&mut self) -> Vec<u32> {
        let kind = self.random.pick(&[NEW, SET, DELETE]);
        let key = any_key(self.random, &self.store, self.store.enter().ok(), self.keys, kind != NEW);
        self.with_value(kind, key)
    }

    /// A change that is accepted, if one is found.
    fn fitting(&mut self) -> Vec<u32> {
        let tries = if self.epoch == 0 { 1 } else { TRIES };
        let mut change = self.any();
        for _ in 1..tries {
            if self.is_accepted(&change) {
                break;
            }
            change = self.any();
        }
        change
    }

    /// A new job of a key that is hardly in play.
    fn fresh(&mut self) -> Vec<u32> {
        let key = self.random.word();
        self.with_value(NEW, key)
    }

    /// New where there is no such job, else set or delete.
    fn next_of(&mut self, key: u32) -> Vec<u32> {
        let made = self.with_value(NEW, key);
        let kind = if self.is_accepted(&made) { NEW } else { self.random.pick(&[SET, DELETE]) };
        self.with_value(kind, key)
    }

    /// Any value words, for a delete too; of a set now and then those that the job has.
    fn with_value(&mut self, kind: u32, key: u32) -> Vec<u32> {
        let junk = self.random.junk(self.words - 2);
        let held =
            if kind == SET { value_to_set(self.random, &self.store, self.store.enter().ok(), key) } else { Vec::new() };
        [vec![kind, key], if held.len() == junk.len() { held } else { junk }].concat()
    }

    fn is_accepted(&self, change: &[u32]) -> bool {
        call_alone(self.thread, change).is_some_and(|call| simulate(&mut self.store.clone(), &call) == 0)
    }

    fn make(&mut self, change: &[u32]) {
        if let Some(call) = call_alone(self.thread, change) {
            simulate(&mut self.store, &call);
        }
    }

    /// A change that is likely to be refused: of an unknown kind, of key 0, of a job that is there or is not, of one that
    /// a later epoch has changed, or a new job.
    fn spoilt(&mut self, mut change: Vec<u32>) -> Vec<u32> {
        match (self.random.below(8), self.newer_key()) {
            (0..=5, Some(key)) => change[1] = key,
            (0 | 1, _) => change[0] = self.random.pick(&[0, 4, 4, 5, 1 << 31, u32::MAX]),
            (2 | 3, _) => change[0] = if change[0] == NEW { self.random.pick(&[SET, DELETE]) } else { NEW },
            (4, _) => change[1] = 0,
            _ => change = self.fresh(),
        }
        if self.random.chance(5) {
            change[1] = 0;
        }
        change
    }

    /// The key of a job with a label above the operation's epoch.
    fn newer_key(&mut self) -> Option<u32> {
        let entry = self.store.enter().ok()?;
        let is_newer = |slot: &usize| {
            let header = entry.header(&self.store, *slot);
            header.is_filled() && header.board == JOBS && header.epoch > self.epoch
        };
        let newer: Vec<usize> = entry.slots().filter(is_newer).collect();
        (!newer.is_empty()).then(|| entry.sizes.key(&self.store.working, self.random.pick(&newer)))
    }

    /// Takes off a part of the last change, or leaves a part of another over.
    fn wrong_length(&mut self, list: &mut Vec<u32>) {
        let part = 1 + self.random.below(self.words - 1);
        if self.random.chance(50) {
            list.truncate(list.len() - part);
        } else {
            list.extend(self.random.junk(part));
        }
    }
}
