//! Re-saving the same value on a full board (02, No. 8): "A set that would give 13 is now accepted when the new value equals
//! the present one. It then changes no image and no note."

mod common;

use common::{delete, fresh, make, mark, new, tick, BEGIN, END};
use simulator::batch::{Outcome, DELETE, NEW, SET};
use simulator::calls::{simulate, Call, DONE};
use simulator::generator::unformatted;
use simulator::image::{Header, Sizes, ALLOC, CLOCK, JOBS};
use simulator::random::Random;
use simulator::store::Store;
use simulator::trace::{replay, simulated, Counts, Event, Trace};

fn set(thread: u32, key: u32, value: &[u32]) -> Call {
    Call::Set { thread, key, value: value.to_vec() }
}

/// What recover leaves of a board with a job in every slot: keys 1, 2 and so on, each with the value words 10 times its
/// key and on. An operation of thread 0 is open.
fn recovered_full(slots: u32, words: u32) -> Store {
    let mut store = unformatted(&mut Random::new(1), slots, words, 2);
    let sizes = Sizes::new(slots, words).expect("the sizes are in range");
    store.persistent.fill(0);
    store.persistent[..=CLOCK].copy_from_slice(&[slots, words, 9]);
    for key in 1..=slots {
        let slot = key as usize - 1;
        sizes.set_header(&mut store.persistent, slot, Header { kind: ALLOC, epoch: 3, uid: key, board: JOBS });
        sizes.set_contents(&mut store.persistent, slot, key, &value_of(key, words));
    }
    assert_eq!(simulate(&mut store, &Call::Recover), DONE);
    make(&mut store, &[BEGIN]);
    store
}

fn value_of(key: u32, words: u32) -> Vec<u32> {
    (0..words - 1).map(|word| 10 * key + word).collect()
}

/// The call is accepted and changes no word.
fn changes_nothing(store: &Store, call: &Call) {
    let mut after = store.clone();
    assert_eq!(simulate(&mut after, call), 0, "{call:?}");
    assert_eq!(after, *store, "{call:?}");
}

fn refuses(store: &Store, call: &Call, refusal: u64) {
    let mut after = store.clone();
    assert_eq!(simulate(&mut after, call), refusal, "{call:?}");
    assert_eq!(after, *store, "{call:?}");
}

/// A full board recovered with N survivors: new, set and delete give 13, and so does a value that differs in any one word.
#[test]
fn on_a_full_board_the_same_value_is_accepted() {
    for (slots, words) in [(2, 2), (3, 2), (4, 5), (5, 9), (1024, 3)] {
        let store = recovered_full(slots, words);
        refuses(&store, &Call::New { thread: 0, key: slots + 1, value: value_of(1, words) }, 13);
        for key in [1, 2, slots] {
            changes_nothing(&store, &set(0, key, &value_of(key, words)));
            refuses(&store, &delete(0, key), 13);
            for word in 0..words as usize - 1 {
                let mut value = value_of(key, words);
                value[word] += 1;
                refuses(&store, &set(0, key, &value), 13);
            }
        }
    }
}

/// The lower refusals come first.
#[test]
fn what_is_wrong_otherwise_is_said_first() {
    let store = recovered_full(3, 3);
    refuses(&store, &set(2, 1, &[10, 11]), 5);
    refuses(&store, &set(1, 1, &[10, 11]), 7);
    refuses(&store, &set(0, 0, &[10, 11]), 8);
    refuses(&store, &set(0, 1, &[10]), 8);
    refuses(&store, &set(0, 1, &[10, 11, 0]), 8);
    refuses(&store, &set(0, 4, &[10, 11]), 10);
}

/// "Set ... needs two free slots when it takes one": with two free the same value takes one as today, with one it does not.
#[test]
fn with_room_the_same_value_takes_a_slot() {
    let mut store = fresh(4, 2);
    make(&mut store, &[BEGIN, new(0, 1), new(0, 2), END]);
    tick(&mut store);
    make(&mut store, &[BEGIN]);
    let [mut same, mut other] = [store.clone(), store.clone()];
    make(&mut same, &[set(0, 1, &[1])]);
    make(&mut other, &[set(0, 1, &[7])]);
    let sizes = Sizes::of(&same.working).expect("a store has sizes");
    let slot = (0..4).find(|&slot| mark(&same.working, slot) != mark(&store.working, slot)).expect("it takes a slot");
    same.working[sizes.value_part(slot).start] = 7;
    assert_eq!(same, other);
    // Three slots are filled now: job 2 is older and has no room, job 1 is of this epoch and needs none.
    refuses(&other, &set(0, 2, &[3]), 13);
    changes_nothing(&other, &set(0, 2, &[2]));
    make(&mut other, &[set(0, 1, &[8]), delete(0, 2)]);
}

/// A job that a later epoch has changed gives 9, whatever its value.
#[test]
fn a_newer_version_is_seen_first() {
    let mut store = fresh(4, 2);
    make(&mut store, &[BEGIN, new(0, 1), END]);
    tick(&mut store);
    make(&mut store, &[BEGIN]);
    tick(&mut store);
    let later = [Call::Begin { thread: 1 }, set(1, 1, &[1]), new(1, 2)];
    make(&mut store, &later);
    refuses(&store, &set(0, 1, &[1]), 9);
    changes_nothing(&store, &set(1, 1, &[1]));
}

/// In a list it counts as accepted, and the next change is tried.
#[test]
fn a_list_goes_on_after_it() {
    let store = recovered_full(3, 2);
    let list = |changes: &[[u32; 3]]| Call::Batch { thread: 0, list: changes.concat() };
    let ends = |changes: &[[u32; 3]]| Outcome::of(simulate(&mut store.clone(), &list(changes)));
    assert_eq!(ends(&[[SET, 1, 10], [SET, 2, 20], [SET, 3, 30]]), Outcome { accepted: 3, refusal: 0 });
    assert_eq!(ends(&[[SET, 1, 10], [SET, 2, 21], [SET, 3, 30]]), Outcome { accepted: 1, refusal: 13 });
    assert_eq!(ends(&[[SET, 1, 10], [DELETE, 2, 20]]), Outcome { accepted: 1, refusal: 13 });
    assert_eq!(ends(&[[SET, 1, 10], [SET, 1, 10], [NEW, 4, 40]]), Outcome { accepted: 2, refusal: 13 });
    let mut after = store.clone();
    simulate(&mut after, &list(&[[SET, 1, 10], [SET, 2, 20]]));
    assert_eq!(after, store);
}

/// "For the guarantee after a cut it counts as an accepted change.": a cut after each lasting store of what follows.
#[test]
fn after_a_cut_the_value_is_there() {
    let start = {
        let mut store = recovered_full(3, 2);
        make(&mut store, &[END]);
        store
    };
    let calls = [vec![BEGIN, set(0, 1, &[10]), set(0, 3, &[30]), END], vec![Call::Advance; 40]].concat();
    let trace = Trace { start, events: calls.into_iter().map(Event::Call).collect() };
    let mut counts = Counts::default();
    replay(&trace, &mut simulated, &mut counts).expect("each recovery has each value");
    assert_eq!((counts.resave_cases.none_free, counts.refusals[13]), (2, 0));
    assert!(counts.crashes >= 40);
}
