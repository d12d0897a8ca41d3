//! Memory that stores word by word, on the library: what is left of a mark counts as free, everywhere, and recovery
//! zeroes it.

use super::{delete, make, mark, mark_written_back, new, read, set, sized, BEGIN, END};
use differential::library::{answers, any, compare};
use simulator::calls::{refused, Call, DONE, TICKED, WENT_ON};
use simulator::image::{ALLOC, CLOCK, DELETE, HEADER_WORDS, JOBS, LARGEST, PREFIX, QUEUE, UPDATE};
use simulator::index;
use simulator::lister::bytes_of;
use simulator::random::Random;
use simulator::store::Store;
use simulator::torn::torn_images;
use simulator::transient::{Layout, LAST_TAKEN};

pub const CASES: [fn() -> usize; 9] = [
    positions_of_words,
    remains_are_zeroed_one_by_one,
    marks_out_of_range,
    one_first_pass_for_both,
    calls_on_remains,
    queue_calls_on_remains,
    remains_that_are_not_due,
    remains_come_back_to_life_where_they_are_left,
    cuts_within_each_store,
];

type Mark = [u32; HEADER_WORDS];

fn set_mark(image: &mut [u32], slot: usize, mark: Mark) {
    let start = PREFIX + HEADER_WORDS * slot;
    image[start..start + HEADER_WORDS].copy_from_slice(&mark);
}

/// The mark with these of its words 0, a bit each.
fn without(mark: Mark, zeros: usize) -> Mark {
    [0, 1, 2, 3].map(|place: usize| if zeros >> place & 1 == 1 { 0 } else { mark[place] })
}

/// An image of four slots with two words of contents at this clock, job 5 in slot 0, to be recovered.
fn crashed(clock: u32, marks: &[(usize, Mark)]) -> Store {
    let mut store = sized(4, 2, 1);
    store.persistent[CLOCK] = clock;
    store.persistent[PREFIX + HEADER_WORDS * 4..].copy_from_slice(&[5, 50, 6, 60, 7, 70, 8, 80]);
    set_mark(&mut store.persistent, 0, [ALLOC, 3, 2, JOBS]);
    for &(slot, mark) in marks {
        set_mark(&mut store.persistent, slot, mark);
    }
    store
}

/// "16 is now given for a word outside the marks and contents"
fn positions_of_words() -> usize {
    let mut store = sized(3, 2, 1);
    let length = store.working.len();
    let mut calls = 0;
    for (position, word) in store.working.iter_mut().enumerate().skip(PREFIX) {
        *word = 100 + position as u32;
    }
    for outside in [0, 1, 2, length, length + 1, (1 << 32) + 3, usize::MAX] {
        calls += make(&mut store, &[(Call::WriteBack { position: outside }, 16)]);
    }
    for inside in [3, 6, 7, length - 1] {
        let mut wanted = store.persistent.clone();
        wanted[inside] = store.working[inside];
        calls += make(&mut store, &[(Call::WriteBack { position: inside }, 0)]);
        assert_eq!(store.persistent, wanted, "word {inside}");
    }
    calls
}

/// 1 3 7 0 and 0 3 7 1 at clock 6, and what else can be left of 1 3 7 1.
fn remains_are_zeroed_one_by_one() -> usize {
    let mut calls = 0;
    for zeros in 1..15 {
        let remains = without([ALLOC, 3, 7, JOBS], zeros);
        let mut store = crashed(6, &[(1, remains), (3, [0, 3, 7, JOBS])]);
        assert_eq!(answers(&bytes_of(&store.persistent)), [6, 1], "{remains:?}");
        calls += make(&mut store, &[(Call::Recover, WENT_ON)]);
        assert_eq!([1, 3].map(|slot| mark(&store.persistent, slot)), [[0; 4], [0, 3, 7, JOBS]], "{remains:?}");
        calls += make(&mut store, &[(Call::Recover, WENT_ON), (Call::Recover, DONE)]);
        assert_eq!([0, 1, 3].map(|slot| mark(&store.working, slot)), [[ALLOC, 3, 2, JOBS], [0; 4], [0; 4]]);
    }
    calls
}

/// "of marks, condition 3 rejects only those of four nonzero words, one out of range": 4 3 7 1 and not 4 3 7 0.
fn marks_out_of_range() -> usize {
    let mut calls = 0;
    for whole in [[4, 3, 7, 1], [1, 1, 7, 1], [1, 7, 7, 1], [1, 3, LARGEST + 1, 1], [1, 3, 7, 3], [u32::MAX; 4]] {
        for zeros in 0..15 {
            let mut store = crashed(6, &[(2, without(whole, zeros))]);
            let (answer, reply) = if zeros == 0 { ([refused(3); 2], refused(3)) } else { ([6, 1], WENT_ON) };
            assert_eq!(answers(&bytes_of(&store.persistent)), answer, "{whole:?} without {zeros:b}");
            calls += make(&mut store, &[(Call::Recover, reply)]);
        }
    }
    calls
}

/// In slot order stale marks and remains, and the kept DELETE after them.
fn one_first_pass_for_both() -> usize {
    let mut calls = 0;
    let [remains, stale] = [[DELETE, 4, 0, JOBS], [UPDATE, 5, 2, JOBS]];
    for (first, second) in [(remains, stale), (stale, remains), (remains, remains)] {
        let mut store = crashed(6, &[(0, [DELETE, 4, 2, JOBS]), (1, first), (2, second), (3, [ALLOC, 3, 2, JOBS])]);
        for freed in [1, 2, 3, 0] {
            let mut wanted = store.persistent.clone();
            set_mark(&mut wanted, freed, [0; 4]);
            calls += make(&mut store, &[(Call::Recover, WENT_ON)]);
            assert_eq!(store.persistent, wanted, "slot {freed}");
        }
        calls += make(&mut store, &[(Call::Recover, DONE)]);
    }
    calls
}

/// No job, no label that holds a call up, and a slot to be taken: kind 4 too. Slot 1 has job 9 of epoch 2 or, in the
/// second part, of one above the operation's.
fn calls_on_remains() -> usize {
    let mut calls = 0;
    for (whole, refusal) in [([ALLOC, 2, 2, JOBS], 0), ([DELETE, 9, 2, JOBS], 9), ([4, 2, 2, JOBS], 10)] {
        for zeros in 0..15 {
            let mut store = sized(4, 2, 2);
            calls += make(&mut store, &[(BEGIN, 0), (new(8, &[5]), 0), (new(9, &[5]), 0)]);
            set_mark(&mut store.working, 1, without(whole, zeros));
            index::anew(&mut store);
            store.transient[LAST_TAKEN] = 0;
            let refusal = if zeros == 0 { refusal } else { 10 };
            calls += make(&mut store.clone(), &[(set(9, &[6]), refusal)]);
            if refusal == 10 {
                let idle_read = (Call::Read { thread: 1, key: 9 }, refused(10));
                calls += make(&mut store, &[(read(9), refused(10)), idle_read, (delete(9), 10), (new(9, &[7]), 0)]);
                assert_eq!(mark(&store.working, 1), [ALLOC, 2, 3, JOBS], "{whole:?} without {zeros:b}");
                calls += make(&mut store, &[(new(7, &[7]), 0), (new(6, &[7]), 13)]);
            }
        }
    }
    calls
}

/// No front, and no label that holds a call of the queue up. Slot 1 looks like an entry of epoch 2, or like one of an epoch
/// above the operation's.
fn queue_calls_on_remains() -> usize {
    let mut calls = 0;
    let [append, take, look] =
        [Call::Append { thread: 0, value: vec![7] }, Call::Take { thread: 0 }, Call::Look { thread: 0 }];
    for (whole, refusal) in [([ALLOC, 2, 2, QUEUE], 0), ([DELETE, 9, 2, QUEUE], 9), ([4, 2, 2, QUEUE], 17)] {
        for zeros in 0..15 {
            let mut store = sized(4, 2, 1);
            calls += make(&mut store, &[(BEGIN, 0), (new(8, &[5]), 0), (new(9, &[5]), 0)]);
            set_mark(&mut store.working, 1, without(whole, zeros));
            index::anew(&mut store);
            store.transient[LAST_TAKEN] = 0;
            let refusal = if zeros == 0 { refusal } else { 17 };
            calls += make(&mut store.clone(), &[(take.clone(), refusal)]);
            let given = if refusal == 9 { refused(9) } else { 1 };
            if refusal == 17 {
                calls += make(&mut store, &[(look.clone(), refused(17)), (append.clone(), given)]);
                assert_eq!(mark(&store.working, 1), [ALLOC, 2, 3, QUEUE], "{whole:?} without {zeros:b}");
            } else {
                calls += make(&mut store, &[(append.clone(), given)]);
            }
        }
    }
    calls
}

/// Only whole marks are due: of a payload retired in 4, of a DELETE of epoch 3, and of what looks at clock 3 like a DELETE
/// of epoch 0.
fn remains_that_are_not_due() -> usize {
    let mut calls = 0;
    for (whole, clock) in [([UPDATE, 2, 2, QUEUE], 6), ([DELETE, 3, 2, JOBS], 6), ([DELETE, 0, 2, JOBS], 3)] {
        for zeros in 0..15 {
            let mut store = sized(4, 2, 1);
            (store.working[CLOCK], store.persistent[CLOCK]) = (clock, clock);
            let torn = without(whole, zeros);
            set_mark(&mut store.working, 1, torn);
            index::anew(&mut store);
            let retired = Layout::new(4, 1).expect("one thread").retired(1);
            store.transient[retired] = if whole[0] == UPDATE { 4 } else { 0 };
            let (reply, left) = if torn.contains(&0) { (TICKED, torn) } else { (WENT_ON, [0; 4]) };
            calls += make(&mut store, &[(Call::Advance, reply)]);
            assert_eq!(mark(&store.working, 1), left);
        }
    }
    calls
}

/// Were 1 3 7 0 left at clock 6, the next new would take the slot, the memory would copy its board word, and 1 3 7 1 would
/// stand there whole and kept. As recovery zeroes it, the board word stands alone.
fn remains_come_back_to_life_where_they_are_left() -> usize {
    let remains = [ALLOC, 3, 7, 0];
    let mut store = crashed(6, &[(1, remains)]);
    let mut calls = make(&mut store, &[(Call::Recover, WENT_ON), (Call::Recover, DONE)]);
    let mut left = store.clone();
    set_mark(&mut left.working, 1, remains);
    set_mark(&mut left.persistent, 1, remains);
    for (mut store, found, jobs) in [(store, [0, 0, 0, JOBS], 1), (left, [1, 3, 7, 1], 2)] {
        let board_word = Call::WriteBack { position: PREFIX + HEADER_WORDS + 3 };
        calls += make(&mut store, &[(BEGIN, 0), (new(9, &[9]), 0), (board_word, 0)]);
        assert_eq!([mark(&store.working, 1), mark(&store.persistent, 1)], [[ALLOC, 6, 3, JOBS], found]);
        assert_eq!(answers(&bytes_of(&store.persistent)), [6, jobs]);
    }
    calls
}

/// Each store of a run with a new, a set and a delete, and each of the recoveries, in every mix: the server counts the
/// same jobs as before the store, up to "done".
fn cuts_within_each_store() -> usize {
    let mut store = sized(6, 2, 1);
    let mut random = Random::new(4);
    let mut calls = make(&mut store, &[(BEGIN, 0), (new(8, &[5]), 0), (new(9, &[6]), 0), (END, 0), (Call::Sync, 6)]);
    calls += make(&mut store, &[(BEGIN, 0), (new(7, &[1]), 0), (set(8, &[2]), 0), (delete(9), 0), (END, 0)]);
    calls += mark_written_back(&mut store, 3);
    let mut images = 0;
    while store.working[CLOCK] < 9 {
        let before = store.persistent.clone();
        step(&mut store, &Call::Advance);
        let jobs = answers(&bytes_of(&before))[1];
        let mut torn = torn_images(&before, &store.persistent, &mut random);
        while let Some(persistent) = torn.pop() {
            images += 1;
            assert_eq!(answers(&bytes_of(&persistent))[1], jobs, "{persistent:?}");
            let mut crashed = Store { working: random.junk(before.len()), persistent, transient: random.junk(89) };
            let found = crashed.persistent.clone();
            if step(&mut crashed, &Call::Recover) == WENT_ON && images < 400 {
                torn.extend(torn_images(&found, &crashed.persistent, &mut random));
                torn.push(crashed.persistent);
            }
        }
    }
    assert!(images >= 300, "{images} images");
    calls + images
}

/// An advance or recover call, which is not refused.
fn step(store: &mut Store, call: &Call) -> u64 {
    let reply = compare(store, call, any).unwrap_or_else(|what| panic!("{what}"));
    assert!(reply <= 1, "{call:?} on {store:?}");
    reply
}
