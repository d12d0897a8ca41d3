//! Format and the calls on jobs.

use crate::image::{job, Header, Name, Sizes, ALLOC, CLOCK, DELETE, FIRST_CLOCK, JOBS, LARGEST, UPDATE};
use crate::index;
use crate::store::{Entry, Refusal, Store};
use crate::transient::{Layout, LAST_TAKEN, NEXT_UID};

/// "A fresh store has clock 2, every other word after word 1 zero, next uid 1"
/// 02, No. 3: the first order number is 1.
pub fn format(store: &mut Store, slots: u32, words: u32) -> Result<(), Refusal> {
    let sizes = Sizes::new(slots, words).ok_or(1u32)?;
    let layout = Layout::of(store.transient.len(), sizes.slots).ok_or(1u32)?;
    let length = sizes.image_words();
    if store.working.len() != length || store.persistent.len() != length {
        return Err(1);
    }
    let mut image = vec![0; length];
    image[0] = slots;
    image[1] = words;
    image[CLOCK] = FIRST_CLOCK;
    *store = Store { working: image.clone(), persistent: image, transient: layout.blank(1, 1) };
    Ok(())
}

/// "Begin opens an operation in the clock's epoch"
pub fn begin(store: &mut Store, thread: u32) -> Result<(), Refusal> {
    let entry = store.enter()?;
    let thread = existing_thread(&entry, thread)?;
    if entry.open(store, thread) != 0 {
        return Err(6);
    }
    store.transient[entry.layout.open(thread)] = entry.clock;
    Ok(())
}

/// "end closes it"
pub fn end(store: &mut Store, thread: u32) -> Result<(), Refusal> {
    let entry = store.enter()?;
    let thread = existing_thread(&entry, thread)?;
    if entry.open(store, thread) == 0 {
        return Err(7);
    }
    store.transient[entry.layout.open(thread)] = 0;
    Ok(())
}

/// "New takes a free slot: ALLOC, label e, the next uid." It stands on the board of jobs.
pub fn new(store: &mut Store, thread: u32, key: u32, value: &[u32]) -> Result<(), Refusal> {
    let (entry, epoch) = open_operation(store, thread)?;
    judge_key(&entry, key, Some(value))?;
    judge_newer(store, &entry, epoch, job(key))?;
    if live_slot(store, &entry, job(key)).is_some() {
        return Err(11);
    }
    let uid = store.transient[NEXT_UID];
    if uid > LARGEST {
        return Err(12);
    }
    let slot = free_slot(store, &entry, 2)?;
    store.transient[NEXT_UID] = uid + 1;
    fill(store, &entry, slot, Header { kind: ALLOC, epoch, uid, board: JOBS }, key, value);
    Ok(())
}

/// "Set on a payload labelled e rewrites the value in its slot. On an older one it takes a free slot
/// for an UPDATE (label e, same uid and key) and retires the old one in e."
/// 02, No. 2: "A new version and a DELETE carry their payload's board."
/// 02, No. 8: "A set that would give 13 is now accepted when the new value equals the present one. It then changes no
/// image and no note."
pub fn set(store: &mut Store, thread: u32, key: u32, value: &[u32]) -> Result<(), Refusal> {
    let (entry, epoch) = open_operation(store, thread)?;
    judge_key(&entry, key, Some(value))?;
    judge_newer(store, &entry, epoch, job(key))?;
    let old = live_slot(store, &entry, job(key)).ok_or(10u32)?;
    let header = entry.header(store, old);
    if header.epoch == epoch {
        entry.sizes.set_contents(&mut store.working, old, key, value);
        entry.join_waiting(store, epoch, old);
        return Ok(());
    }
    let slot = match free_slot(store, &entry, 2) {
        Err(13) if store.working[entry.sizes.value_part(old)] == *value => return Ok(()),
        slot => slot?,
    };
    fill(store, &entry, slot, Header { kind: UPDATE, epoch, ..header }, key, value);
    store.transient[entry.layout.retired(old)] = epoch;
    Ok(())
}

pub fn delete(store: &mut Store, thread: u32, key: u32) -> Result<(), Refusal> {
    let (entry, epoch) = open_operation(store, thread)?;
    judge_key(&entry, key, None)?;
    judge_newer(store, &entry, epoch, job(key))?;
    let old = live_slot(store, &entry, job(key)).ok_or(10u32)?;
    remove(store, &entry, epoch, old)
}

/// The rules of delete, for the live payload of a slot.
pub fn remove(store: &mut Store, entry: &Entry, epoch: u32, old: usize) -> Result<(), Refusal> {
    let header = entry.header(store, old);
    let anti = Header { kind: DELETE, epoch, ..header };
    if header.epoch == epoch {
        // "Delete of an ALLOC labelled e frees the working slot at once. An UPDATE labelled e becomes
        // DELETE in its own slot, contents kept."
        let is_freed = header.kind == ALLOC;
        if is_freed {
            leave_index(store, entry, old);
        }
        entry.sizes.set_header(&mut store.working, old, if is_freed { Header::FREE } else { anti });
        entry.join_waiting(store, epoch, old);
        return Ok(());
    }
    // "For an older payload a free slot takes a DELETE (label e, same uid and key, value words 0),
    // and the payload is retired in e."
    let slot = free_slot(store, entry, 1)?;
    let key = entry.sizes.key(&store.working, old);
    fill(store, entry, slot, anti, key, &vec![0; entry.sizes.value_words()]);
    store.transient[entry.layout.retired(old)] = epoch;
    Ok(())
}

/// "Read shows the live job's value as a part of the working image." The answer is the part's first place.
pub fn read(store: &Store, thread: u32, key: u32) -> Result<usize, Refusal> {
    let entry = store.enter()?;
    let thread = existing_thread(&entry, thread)?;
    judge_key(&entry, key, None)?;
    let epoch = entry.open(store, thread);
    if epoch != 0 {
        judge_newer(store, &entry, epoch, job(key))?;
    }
    let slot = live_slot(store, &entry, job(key)).ok_or(10u32)?;
    Ok(entry.sizes.value_part(slot).start)
}

/// Refusal 5.
pub fn existing_thread(entry: &Entry, thread: u32) -> Result<usize, Refusal> {
    let thread = thread as usize;
    if thread < entry.layout.threads {
        Ok(thread)
    } else {
        Err(5)
    }
}

/// Refusals 1, 2, 5 and 7, and the caller's open epoch.
pub fn open_operation(store: &Store, thread: u32) -> Result<(Entry, u32), Refusal> {
    let entry = store.enter()?;
    let thread = existing_thread(&entry, thread)?;
    match entry.open(store, thread) {
        0 => Err(7),
        epoch => Ok((entry, epoch)),
    }
}

/// Refusal 8: "key 0; for new and set, value length not V"
fn judge_key(entry: &Entry, key: u32, value: Option<&[u32]>) -> Result<(), Refusal> {
    let wrong_length = value.is_some_and(|value| value.len() != entry.sizes.value_words());
    if key == 0 || wrong_length {
        Err(8)
    } else {
        Ok(())
    }
}

/// Refusal 9: "a filled slot with this key is labelled above e"
/// 02, No. 2: "the newer-label check and recovery's equal-key check look within one board"
fn judge_newer(store: &Store, entry: &Entry, epoch: u32, name: Name) -> Result<(), Refusal> {
    let newer = |slot: usize| {
        let header = entry.header(store, slot);
        header.is_filled() && header.epoch > epoch && entry.sizes.name(&store.working, slot) == name
    };
    if entry.slots().any(newer) {
        Err(9)
    } else {
        Ok(())
    }
}

/// "of several live slots with one key, the lowest"
pub fn live_slot(store: &Store, entry: &Entry, name: Name) -> Option<usize> {
    entry.slots().find(|&slot| entry.is_live(store, slot) && entry.sizes.name(&store.working, slot) == name)
}

/// "The free slot taken is the first met going up from the slot after the last one taken, round past the end".
/// Refusal 13 when fewer than `needed` are free.
pub fn free_slot(store: &Store, entry: &Entry, needed: usize) -> Result<usize, Refusal> {
    let is_free = |slot: &usize| !entry.header(store, *slot).is_filled();
    if entry.slots().filter(is_free).count() < needed {
        return Err(13);
    }
    let after_last = store.transient[LAST_TAKEN] as usize + 1;
    (after_last..entry.sizes.slots).chain(0..after_last).find(is_free).ok_or(13)
}

/// A free slot is taken.
pub fn fill(store: &mut Store, entry: &Entry, slot: usize, header: Header, key: u32, value: &[u32]) {
    entry.sizes.set_header(&mut store.working, slot, header);
    entry.sizes.set_contents(&mut store.working, slot, key, value);
    store.transient[entry.layout.retired(slot)] = 0;
    store.transient[LAST_TAKEN] = slot as u32;
    entry.join_waiting(store, header.epoch, slot);
    index::insert(&mut store.transient, entry.layout, (header.board, key), slot);
}

/// A slot that is about to be freed.
pub fn leave_index(store: &mut Store, entry: &Entry, slot: usize) {
    let name = entry.sizes.name(&store.working, slot);
    index::remove(&mut store.transient, entry.layout, name, slot);
}
