//! The index in the notes. 02, No. 6: "Please keep a hashed index in the notes, beside the images, covering all filled slots
//! by board and key." No call of the simulator looks anything up in it: all of them walk the table. It is kept beside them,
//! word by word as the library has it.
//!
//! A name has one of N buckets, and the slots of a bucket stand on a chain that goes up in slot order. A word of it, the
//! bucket's or the link of a slot, is one more than the slot that it leads to; one that leads to no slot further up ends the
//! chain, so every walk ends, whatever the words are.

use crate::image::{Name, Sizes};
use crate::store::{Entry, Store};
use crate::transient::Layout;

/// The bucket of a name, one of so many.
pub fn bucket(buckets: usize, (board, key): Name) -> usize {
    let low_word = |wide: u64| wide % (1 << 32);
    let mixed = low_word(u64::from(key) * 23_208_431 + u64::from(board) * 2_246_822_519);
    let spread = low_word((mixed + mixed / 8192) * 2_654_435_769);
    (spread * buckets as u64 / (1 << 32)) as usize
}

/// The slots on the chain of a bucket, which are ever higher ones.
pub fn chain(notes: &[u32], layout: Layout, bucket: usize) -> impl Iterator<Item = usize> + '_ {
    let led_to = move |at: usize, least: usize| {
        let link = notes[at] as usize;
        (link > least && link <= layout.slots).then(|| link - 1)
    };
    std::iter::successors(led_to(layout.bucket(bucket), 0), move |&slot| led_to(layout.link(slot), slot + 1))
}

/// Where the word stands that leads past the slots below this one.
fn place(notes: &[u32], layout: Layout, name: Name, slot: usize) -> usize {
    let first = layout.bucket(bucket(layout.slots, name));
    (0..slot).fold(first, |at, below| if notes[at] as usize == below + 1 { layout.link(below) } else { at })
}

/// A slot joins the chain of its name.
pub fn insert(notes: &mut [u32], layout: Layout, name: Name, slot: usize) {
    let at = place(notes, layout, name, slot);
    notes[layout.link(slot)] = notes[at];
    notes[at] = slot as u32 + 1;
}

/// A slot leaves the chain of its name. Its own link stays as it is.
pub fn remove(notes: &mut [u32], layout: Layout, name: Name, slot: usize) {
    let at = place(notes, layout, name, slot);
    let next = notes[layout.link(slot)];
    notes[at] = if next as usize > slot + 1 { next } else { 0 };
}

/// Each filled slot of working joins, the highest first.
pub fn rebuild(notes: &mut [u32], layout: Layout, sizes: Sizes, working: &[u32]) {
    for slot in (0..sizes.slots).rev().filter(|&slot| sizes.header(working, slot).is_filled()) {
        insert(notes, layout, sizes.name(working, slot), slot);
    }
}

/// An index for what was put into working by hand, where the store is not refused at entry.
pub fn anew(store: &mut Store) {
    let Ok(Entry { sizes, layout, .. }) = store.enter() else { return };
    store.transient[layout.index()].fill(0);
    rebuild(&mut store.transient, layout, sizes, &store.working);
}

/// "it holds each filled slot under its board and key, and no other slot". A chain has no slot twice.
pub fn is_right(store: &Store) -> bool {
    let Some(sizes) = Sizes::of(&store.working) else { return false };
    let Some(layout) = Layout::of(store.transient.len(), sizes.slots) else { return false };
    let is_filled = |slot: usize| sizes.header(&store.working, slot).is_filled();
    let belongs =
        |slot: usize, at: usize| is_filled(slot) && bucket(sizes.slots, sizes.name(&store.working, slot)) == at;
    let mut held = 0;
    for at in 0..sizes.slots {
        for slot in chain(&store.transient, layout, at) {
            if !belongs(slot, at) {
                return false;
            }
            held += 1;
        }
    }
    held == (0..sizes.slots).filter(|&slot| is_filled(slot)).count()
}
