//! Indexes that were not left by a run: right ones in which odd words are left over, and many that are wrong.

use crate::damage::edge_word;
use crate::image::Sizes;
use crate::index::{chain, rebuild};
use crate::random::Random;
use crate::store::{Entry, Store};
use crate::transient::Layout;

/// Gives a store that passes the check at entry an index that is right for its working image. In half of the stores the
/// words that no slot needs are odd: not 0 where a chain ends, and anything in the link of a free slot.
pub fn right_index(random: &mut Random, store: &mut Store) {
    let Ok(Entry { sizes, layout, .. }) = store.enter() else { return };
    store.transient[layout.index()].fill(0);
    let is_odd = random.chance(50);
    if is_odd {
        odd_words(random, store, layout);
    }
    rebuild(&mut store.transient, layout, sizes, &store.working);
    if is_odd {
        odd_ends(random, store, sizes, layout);
    }
}

/// No bucket leads to a slot, and links to anything.
fn odd_words(random: &mut Random, store: &mut Store, layout: Layout) {
    let slots = layout.slots as u32;
    for slot in 0..layout.slots {
        let past_the_slots = random.word().max(slots + 1);
        store.transient[layout.bucket(slot)] = random.pick(&[0, slots + 1, u32::MAX, past_the_slots]);
        store.transient[layout.link(slot)] = any_link(random, layout);
    }
}

/// Half of the chains end in a link back, or in one of a slot to itself.
fn odd_ends(random: &mut Random, store: &mut Store, sizes: Sizes, layout: Layout) {
    for bucket in 0..sizes.slots {
        let last = chain(&store.transient, layout, bucket).last();
        if let Some(slot) = last.filter(|_| random.chance(50)) {
            store.transient[layout.link(slot)] = random.between(0, slot as u32 + 1);
        }
    }
}

/// A word that leads to some slot or, now and then, to none.
fn any_link(random: &mut Random, layout: Layout) -> u32 {
    let slots = layout.slots as u32;
    if random.chance(80) {
        random.between(1, slots)
    } else {
        edge_word(random, slots)
    }
}

/// Damages the index of a store that passes the check at entry, and nothing else.
pub fn damage_index(random: &mut Random, store: &mut Store) {
    let Ok(Entry { layout, .. }) = store.enter() else { return };
    let notes = &mut store.transient;
    let slots = layout.slots as u32;
    match random.below(12) {
        // Any words, and one word everywhere.
        0 => {
            let junk = random.junk(layout.index().len());
            notes[layout.index()].copy_from_slice(&junk);
        }
        1 => notes[layout.index()].fill(random.pick(&[0, 0, 1, slots, slots + 1, u32::MAX])),
        // A few words replaced; each one more, or less; each bucket's exchanged with the next one's.
        2 => {
            for _ in 0..random.between(1, 4) {
                let place = layout.index().start + random.below(layout.index().len());
                notes[place] = edge_word(random, notes[place]);
            }
        }
        3 => {
            let step = random.pick(&[1, u32::MAX]);
            notes[layout.index()].iter_mut().for_each(|word| *word = word.wrapping_add(step));
        }
        4 => notes[layout.bucket(0)..layout.link(0)].rotate_left(1),
        // Chains without their first slot, or without any.
        5..=7 => {
            for bucket in 0..layout.slots {
                let second = chain(notes, layout, bucket).nth(1).map_or(0, |slot| slot as u32 + 1);
                let first = notes[layout.bucket(bucket)];
                notes[layout.bucket(bucket)] = random.pick(&[0, first, second, second]);
            }
        }
        // Links of slots to themselves, links back, rings, and one chain of all slots from every bucket.
        sort => {
            for slot in 0..slots {
                let links = [slot + 1, random.between(0, slot), any_link(random, layout), slot + 2];
                notes[layout.link(slot as usize)] = links[sort - 8];
            }
            if sort == 11 || random.chance(50) {
                let first = if sort == 11 { 1 } else { any_link(random, layout) };
                notes[layout.bucket(0)..layout.link(0)].fill(first);
            }
        }
    }
}
