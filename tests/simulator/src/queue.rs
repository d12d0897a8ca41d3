//! The hand-over queue. 02, No. 3: "append at the back, take the front, look at the front". An order number is the key
//! of an entry, and slots, uids and waiting lists are those of the jobs.

use crate::changes::{existing_thread, fill, free_slot, open_operation, remove};
use crate::image::{Header, ALLOC, LARGEST, QUEUE};
use crate::store::{Entry, Refusal, Store};
use crate::transient::{NEXT_ORDER, NEXT_UID};

/// "The key is an order number given by the store and returned by append, 1 first and one more at each append".
/// "Append needs two free slots", and gives 8 "for the value length".
pub fn append(store: &mut Store, thread: u32, value: &[u32]) -> Result<u32, Refusal> {
    let (entry, epoch) = open_operation(store, thread)?;
    if value.len() != entry.sizes.value_words() {
        return Err(8);
    }
    judge_newer(store, &entry, epoch)?;
    let [uid, order] = [NEXT_UID, NEXT_ORDER].map(|note| store.transient[note]);
    if uid > LARGEST || order > LARGEST {
        return Err(12);
    }
    let slot = free_slot(store, &entry, 2)?;
    fill(store, &entry, slot, Header { kind: ALLOC, epoch, uid, board: QUEUE }, order, value);
    store.transient[NEXT_UID] = uid + 1;
    store.transient[NEXT_ORDER] = order + 1;
    Ok(order)
}

/// "take follows the rules of delete", on the front.
pub fn take(store: &mut Store, thread: u32) -> Result<(), Refusal> {
    let (entry, epoch) = open_operation(store, thread)?;
    judge_newer(store, &entry, epoch)?;
    let slot = front(store, &entry).ok_or(17u32)?;
    remove(store, &entry, epoch, slot)
}

/// Look follows "those of read": it needs no open operation. The answer is where the front's value starts in working.
pub fn look(store: &Store, thread: u32) -> Result<usize, Refusal> {
    let entry = store.enter()?;
    let thread = existing_thread(&entry, thread)?;
    let epoch = entry.open(store, thread);
    if epoch != 0 {
        judge_newer(store, &entry, epoch)?;
    }
    let slot = front(store, &entry).ok_or(17u32)?;
    Ok(entry.sizes.value_part(slot).start)
}

/// "with an operation open, all three give 9 if any filled board 2 slot is labelled above its epoch"
fn judge_newer(store: &Store, entry: &Entry, epoch: u32) -> Result<(), Refusal> {
    let newer = |header: Header| header.is_filled() && header.board == QUEUE && header.epoch > epoch;
    if entry.slots().any(|slot| newer(entry.header(store, slot))) {
        Err(9)
    } else {
        Ok(())
    }
}

/// "the front is the live entry with the smallest" order number; of several with one number the lowest slot.
pub fn front(store: &Store, entry: &Entry) -> Option<usize> {
    let is_entry = |slot: &usize| entry.is_live(store, *slot) && entry.header(store, *slot).board == QUEUE;
    entry.slots().filter(is_entry).min_by_key(|&slot| (entry.sizes.key(&store.working, slot), slot))
}
