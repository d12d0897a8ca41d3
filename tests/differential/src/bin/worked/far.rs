//! Slots far up a board, on the library: an advance finds each that waits or is due, and no other.

use super::{make, sized};
use simulator::calls::{Call, TICKED, WENT_ON};
use simulator::image::{ALLOC, CLOCK, DELETE, HEADER_WORDS, JOBS, PREFIX};
use simulator::index;
use simulator::store::{Entry, Store};
use simulator::transient::{PHASE, PLACE_SLOT};

pub const CASES: [fn() -> usize; 2] = [slots_that_wait, slots_that_are_due];

const NOW: u32 = 6;

/// Slots at the ends of the board, of sixteen slots and of a word of a list.
fn ends(slots: u32) -> impl Iterator<Item = usize> {
    [0, 15, 16, 31, 32, 33, slots as usize - 1].into_iter().filter(move |&slot| slot < slots as usize)
}

fn at_clock_six(slots: u32) -> (Store, Entry) {
    let mut store = sized(slots, 2, 1);
    (store.working[CLOCK], store.persistent[CLOCK]) = (NOW, NOW);
    let entry = store.enter().expect("the sizes are in range");
    (store, entry)
}

/// "In slot order, each slot of the waiting list of c − 1": one slot, and bits past the last one, which are no slot's.
fn slots_that_wait() -> usize {
    let mut calls = 0;
    for slots in [2, 16, 31, 32, 33, 64, 65, 1000, 1024] {
        for slot in ends(slots) {
            let (mut store, entry) = at_clock_six(slots);
            let list = entry.layout.waiting(NOW - 1);
            for bit in (slot..=slot).chain(slots as usize..1024) {
                store.transient[list.start + bit / 32] |= 1 << (bit % 32);
            }
            calls += make(&mut store, &[(Call::Advance, WENT_ON)]);
            assert_eq!([store.transient[PHASE], store.transient[PLACE_SLOT]], [3, slot as u32], "of {slots}");
            calls += make(&mut store, &[(Call::Advance, WENT_ON), (Call::Advance, TICKED)]);
            assert_eq!(store.transient[list], [0; 32], "of {slots}");
        }
    }
    calls
}

/// "each payload retired in c − 2 and each DELETE labelled c − 3", and none of an epoch before or after.
fn slots_that_are_due() -> usize {
    let mut calls = 0;
    for slots in [2, 15, 16, 17, 31, 32, 33, 48, 1000, 1024] {
        for slot in ends(slots) {
            for (kind, epoch, retired, due) in [
                (DELETE, NOW - 3, 0, true),
                (DELETE, NOW - 2, 0, false),
                (DELETE, NOW - 4, 0, false),
                (ALLOC, 2, NOW - 2, true),
                (ALLOC, 2, NOW - 1, false),
                (ALLOC, 2, NOW - 3, false),
                (ALLOC, 2, 0, false),
            ] {
                let (mut store, entry) = at_clock_six(slots);
                let mark = PREFIX + HEADER_WORDS * slot..PREFIX + HEADER_WORDS * (slot + 1);
                for image in [&mut store.working, &mut store.persistent] {
                    image[mark.clone()].copy_from_slice(&[kind, epoch, 7, JOBS]);
                }
                store.transient[entry.layout.retired(slot)] = retired;
                index::anew(&mut store);
                if due {
                    calls += make(&mut store, &[(Call::Advance, WENT_ON)]);
                }
                calls += make(&mut store, &[(Call::Advance, TICKED)]);
                let freed = [&store.working, &store.persistent].map(|image| image[mark.clone()] == [0; HEADER_WORDS]);
                assert_eq!(freed, [due; 2], "{kind} {epoch} retired in {retired} in slot {slot} of {slots}");
            }
        }
    }
    calls
}
