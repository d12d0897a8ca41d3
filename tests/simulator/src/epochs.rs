//! Advance, sync and the word written back.

use crate::changes::leave_index;
use crate::image::{Header, CLOCK, LARGEST, PREFIX};
use crate::store::{Entry, Refusal, Store};
use crate::transient::{PHASE, PLACE_SLOT};

#[derive(Clone, Copy, PartialEq, Eq, Debug)]
pub enum Step {
    WentOn,
    Ticked,
}

const NONE: u32 = 0;
const RECLAIMING: u32 = 1;
const CONTENTS: u32 = 2;
const HEADER: u32 = 3;
const TICK: u32 = 4;

/// "One advance call stores one lasting line."
pub fn advance(store: &mut Store) -> Result<Step, Refusal> {
    let entry = store.enter()?;
    let underway = entry.advance_is_underway(store);
    if !underway && entry.any_open(store, |epoch| epoch == entry.clock - 1) {
        return Err(14);
    }
    if entry.clock == LARGEST {
        return Err(15);
    }
    if !underway {
        set_place(store, RECLAIMING, 0);
    }
    Ok(step(store, &entry))
}

/// "Sync equals advance calls repeated until two ticks have happened (one underway counts), and reports
/// done with the number of lines stored."
pub fn sync(store: &mut Store) -> Result<u64, Refusal> {
    let entry = store.enter()?;
    if entry.any_open(store, |epoch| epoch != 0) {
        return Err(14);
    }
    if entry.clock > LARGEST - 2 {
        return Err(15);
    }
    let mut lines = 0;
    let mut ticks = 0;
    while ticks < 2 {
        lines += 1;
        if advance(store)? == Step::Ticked {
            ticks += 1;
        }
    }
    Ok(lines)
}

/// 02, No. 4: "the memory may copy single words on its own; the call for this now takes the word's position in the image,
/// from 0", and "16 is now given for a word outside the marks and contents".
pub fn write_back(store: &mut Store, position: usize) -> Result<(), Refusal> {
    let entry = store.enter()?;
    if !(PREFIX..entry.sizes.image_words()).contains(&position) {
        return Err(16);
    }
    store.persistent[position] = store.working[position];
    Ok(())
}

/// One lasting line, at the first of the three stages that has one left.
fn step(store: &mut Store, entry: &Entry) -> Step {
    if store.transient[PHASE] == RECLAIMING {
        if let Some(slot) = from_place(store, entry, |slot| is_reclaimable(store, entry, slot)) {
            reclaim(store, entry, slot);
            pass(store, entry, slot, RECLAIMING, CONTENTS);
            return Step::WentOn;
        }
        set_place(store, CONTENTS, 0);
    }
    if store.transient[PHASE] == CONTENTS {
        if let Some(slot) = from_place(store, entry, |slot| entry.is_waiting(store, entry.clock - 1, slot)) {
            store_contents(store, entry, slot);
            set_place(store, HEADER, slot);
            return Step::WentOn;
        }
        set_place(store, TICK, 0);
    }
    if store.transient[PHASE] == HEADER {
        let slot = store.transient[PLACE_SLOT] as usize;
        store_header(store, entry, slot);
        pass(store, entry, slot, CONTENTS, TICK);
        return Step::WentOn;
    }
    tick(store, entry);
    Step::Ticked
}

fn set_place(store: &mut Store, phase: u32, slot: usize) {
    store.transient[PHASE] = phase;
    store.transient[PLACE_SLOT] = slot as u32;
}

/// The place after a step: the slot after this one, or past the last slot the next phase at slot 0.
fn pass(store: &mut Store, entry: &Entry, slot: usize, phase: u32, next_phase: u32) {
    if slot + 1 < entry.sizes.slots {
        set_place(store, phase, slot + 1);
    } else {
        set_place(store, next_phase, 0);
    }
}

fn from_place(store: &Store, entry: &Entry, wanted: impl Fn(usize) -> bool) -> Option<usize> {
    (store.transient[PLACE_SLOT] as usize..entry.sizes.slots).find(|&slot| wanted(slot))
}

/// "each payload retired in c − 2 and each DELETE labelled c − 3"
fn is_reclaimable(store: &Store, entry: &Entry, slot: usize) -> bool {
    let header = entry.header(store, slot);
    let retired = u64::from(entry.retired(store, slot));
    let clock = u64::from(entry.clock);
    let retired_payload = header.is_payload() && retired != 0 && retired + 2 == clock;
    retired_payload || (header.is_delete() && u64::from(header.epoch) + 3 == clock)
}

/// "becomes free in both images"; 02, No. 4: "A call that changes both images changes working first."
fn reclaim(store: &mut Store, entry: &Entry, slot: usize) {
    leave_index(store, entry, slot);
    entry.sizes.set_header(&mut store.working, slot, Header::FREE);
    entry.sizes.set_header(&mut store.persistent, slot, Header::FREE);
    store.transient[entry.layout.retired(slot)] = 0;
}

fn store_contents(store: &mut Store, entry: &Entry, slot: usize) {
    let line = entry.sizes.contents_line(slot);
    store.persistent[line.clone()].copy_from_slice(&store.working[line]);
}

fn store_header(store: &mut Store, entry: &Entry, slot: usize) {
    let line = entry.sizes.header_line(slot);
    store.persistent[line.clone()].copy_from_slice(&store.working[line]);
}

/// "The clock becomes c + 1 in both images and that list is emptied."
fn tick(store: &mut Store, entry: &Entry) {
    store.working[CLOCK] = entry.clock + 1;
    store.persistent[CLOCK] = entry.clock + 1;
    store.transient[entry.layout.waiting(entry.clock - 1)].fill(0);
    set_place(store, NONE, 0);
}
