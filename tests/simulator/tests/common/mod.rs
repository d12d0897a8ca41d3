//! Short words for runs on a small board with one value word a job.

use simulator::calls::{simulate, Call, TICKED, WENT_ON};
use simulator::generator::unformatted;
use simulator::image::Sizes;
use simulator::random::Random;
use simulator::store::Store;

pub const BEGIN: Call = Call::Begin { thread: 0 };
pub const END: Call = Call::End { thread: 0 };

pub fn new(thread: u32, key: u32) -> Call {
    Call::New { thread, key, value: vec![key] }
}

pub fn delete(thread: u32, key: u32) -> Call {
    Call::Delete { thread, key }
}

/// A slot's mark: kind, label, uid, board.
pub fn mark(image: &[u32], slot: usize) -> &[u32] {
    let sizes = Sizes::of(image).expect("an image fits its sizes");
    &image[sizes.header_line(slot)]
}

pub fn fresh(slots: u32, threads: u32) -> Store {
    let mut store = unformatted(&mut Random::new(1), slots, 2, threads);
    make(&mut store, &[Call::Format { slots, words: 2 }]);
    store
}

/// Makes the calls, which have to be accepted.
pub fn make(store: &mut Store, calls: &[Call]) {
    for call in calls {
        assert_eq!(simulate(store, call), 0, "{call:?}");
    }
}

/// Advance calls up to a tick.
pub fn tick(store: &mut Store) {
    loop {
        match simulate(store, &Call::Advance) {
            TICKED => return,
            reply => assert_eq!(reply, WENT_ON),
        }
    }
}
