//! Recovery, and what it takes an image to mean.

use crate::image::{clock_in_range, Header, Name, Sizes, CLOCK, LARGEST, QUEUE};
use crate::index;
use crate::store::{Refusal, Store};
use crate::transient::Layout;
use std::collections::BTreeMap;

#[derive(Clone, Copy, PartialEq, Eq, Debug)]
pub enum Progress {
    WentOn,
    Done,
}

/// Values by name, jobs and queue entries. 02, No. 2: "The guarantee after a cut is read per board"
pub type Entries = BTreeMap<Name, Vec<u32>>;

/// An image that recovery accepts.
pub struct Accepted {
    pub sizes: Sizes,
    pub clock: u32,
    pub survivors: Vec<usize>,
}

/// Refusals 1 to 4, judged on the image alone. Versions are equal whatever their boards, names within one board.
pub fn judge(image: &[u32]) -> Result<Accepted, Refusal> {
    let sizes = Sizes::of(image).ok_or(1u32)?;
    let clock = image[CLOCK];
    if !clock_in_range(clock) {
        return Err(2);
    }
    let headers = sizes.headers(image);
    if headers.iter().any(|header| !header.is_proper(clock)) {
        return Err(3);
    }
    let survivors = survivors(&headers, clock);
    let names: Vec<Name> = survivors.iter().map(|&slot| sizes.name(image, slot)).collect();
    if names.iter().any(|&name| !is_proper(name)) {
        return Err(3);
    }
    let kept = headers.iter().filter(|header| header.is_kept(clock));
    let versions = kept.map(|header| (header.uid, header.epoch)).collect();
    if has_equals(versions) || has_equals(names) {
        return Err(4);
    }
    Ok(Accepted { sizes, clock, survivors })
}

/// "a survivor with key 0" is refused. 02, No. 3: "condition 3 [..] covers a board 2 survivor with key above
/// 4,000,000,000"
fn is_proper((board, key): Name) -> bool {
    key != 0 && (board != QUEUE || key <= LARGEST)
}

/// "Of kept slots with one uid the largest label wins; a winner of kind 1 or 2 survives." In slot order.
fn survivors(headers: &[Header], clock: u32) -> Vec<usize> {
    let mut largest = BTreeMap::new();
    for header in headers.iter().filter(|header| header.is_kept(clock)) {
        let label = largest.entry(header.uid).or_insert(header.epoch);
        *label = header.epoch.max(*label);
    }
    let wins = |header: Header| header.is_kept(clock) && header.epoch == largest[&header.uid];
    (0..headers.len()).filter(|&slot| wins(headers[slot]) && headers[slot].is_payload()).collect()
}

fn has_equals<T: Ord>(mut items: Vec<T>) -> bool {
    items.sort();
    items.windows(2).any(|pair| pair[0] == pair[1])
}

/// "each call checks, frees the next such mark, leaves working and notes alone and replies "went on". The call
/// that finds none to free replies "done"; only there does working become a copy and are the notes set."
/// 02, No. 6: the index "is rebuilt by recovery"
pub fn recover(store: &mut Store) -> Result<Progress, Refusal> {
    let sizes = Sizes::of(&store.persistent).ok_or(1u32)?;
    let layout = Layout::of(store.transient.len(), sizes.slots).ok_or(1u32)?;
    if store.working.len() != store.persistent.len() {
        return Err(1);
    }
    let accepted = judge(&store.persistent)?;
    if let Some(slot) = next_to_free(&store.persistent, &accepted) {
        sizes.set_header(&mut store.persistent, slot, Header::FREE);
        return Ok(Progress::WentOn);
    }
    store.working = store.persistent.clone();
    let next_order = next_order(&surviving_entries(&store.persistent)?);
    store.transient = layout.blank(next_uid(&store.persistent, &accepted), next_order);
    index::rebuild(&mut store.transient, layout, sizes, &store.working);
    Ok(Progress::Done)
}

/// "first, in slot order, every filled slot that neither survives nor is a kept DELETE; then, in slot order,
/// the kept DELETEs"
/// 02, No. 4: "Recovery's first pass zeroes what is left of such marks too."
fn next_to_free(image: &[u32], accepted: &Accepted) -> Option<usize> {
    let headers = accepted.sizes.headers(image);
    let is_kept_delete = |slot: usize| headers[slot].is_delete() && headers[slot].is_kept(accepted.clock);
    let survives = |slot: usize| accepted.survivors.binary_search(&slot).is_ok();
    let is_stale = |slot: usize| headers[slot].is_filled() && !survives(slot) && !is_kept_delete(slot);
    let is_first_pass = |slot: usize| is_stale(slot) || headers[slot].is_remains();
    let mut first_pass = 0..headers.len();
    let mut second_pass = 0..headers.len();
    first_pass.find(|&slot| is_first_pass(slot)).or_else(|| second_pass.find(|&slot| is_kept_delete(slot)))
}

/// "The next uid is one more than the largest surviving uid, 1 if none."
fn next_uid(image: &[u32], accepted: &Accepted) -> u32 {
    let uids = accepted.survivors.iter().map(|&slot| accepted.sizes.header(image, slot).uid);
    uids.max().unwrap_or(0) + 1
}

/// 02, No. 3: "After recovery it continues one above the largest surviving order number, from 1 if none."
pub fn next_order(entries: &Entries) -> u32 {
    let orders = entries.keys().filter(|(board, _)| *board == QUEUE).map(|&(_, order)| order);
    orders.max().unwrap_or(0) + 1
}

/// The survivors of an image: "the same keys, each once, the same value words".
pub fn surviving_entries(image: &[u32]) -> Result<Entries, Refusal> {
    let accepted = judge(image)?;
    let entry = |&slot: &usize| (accepted.sizes.name(image, slot), accepted.sizes.value(image, slot));
    Ok(accepted.survivors.iter().map(entry).collect())
}
