//! The hand-over queue on the library: first in, first out, and what a cut leaves of it.

use super::{delete, make, mark, new, sized, stray, value_place, BEGIN, END};
use differential::library::{answers, any, compare};
use simulator::calls::{refused, Call, DONE, TICKED, WENT_ON};
use simulator::image::{Sizes, ALLOC, DELETE, JOBS, LARGEST, QUEUE, UPDATE};
use simulator::index;
use simulator::lister::bytes_of;
use simulator::store::Store;
use simulator::transient::{Layout, NEXT_ORDER, NEXT_UID};

pub const CASES: [fn() -> usize; 9] = [
    first_in_first_out,
    two_entries_of_one_number,
    a_newer_take_holds_an_older_operation_up,
    order_numbers_go_on_after_recovery,
    marks_that_queue_calls_leave,
    a_full_and_an_empty_queue,
    last_numbers,
    one_key_on_both_boards,
    recoveries_of_order_numbers,
];

const TAKE: (Call, u64) = (Call::Take { thread: 0 }, 0);

fn append(thread: u32, value: u32, reply: u64) -> (Call, u64) {
    (Call::Append { thread, value: vec![value] }, reply)
}

/// A look that gives this slot's value, and the second call that says why not.
fn front_is(slots: usize, thread: u32, slot: usize) -> [(Call, u64); 2] {
    [(Call::Look { thread }, value_place(slots, 2, slot)), (Call::LookRefusal { thread }, 0)]
}

fn no_front(thread: u32, refusal: u32) -> [(Call, u64); 2] {
    [(Call::Look { thread }, refused(refusal)), (Call::LookRefusal { thread }, u64::from(refusal))]
}

fn fresh(slots: u32, threads: u32) -> Store {
    let mut store = sized(slots, 2, threads);
    make(&mut store, &[(Call::Format { slots, words: 2 }, 0)]);
    store
}

/// Advance calls up to a clock.
fn advance_to(store: &mut Store, clock: u32) -> usize {
    let mut calls = 0;
    while store.working[2] < clock {
        compare(store, &Call::Advance, any).unwrap_or_else(|what| panic!("{what}"));
        calls += 1;
    }
    calls
}

/// Recover calls on a copy up to "done".
fn recovered(store: &Store) -> Store {
    let mut store = store.clone();
    while compare(&mut store, &Call::Recover, any).unwrap_or_else(|what| panic!("{what}")) == WENT_ON {}
    store
}

fn first_in_first_out() -> usize {
    let mut store = fresh(4, 1);
    let mut calls = make(&mut store, &[(BEGIN, 0), (new(5, &[1]), 0), (new(6, &[1]), 0), append(0, 70, 1)]);
    calls += make(&mut store, &[(delete(5), 0), (delete(6), 0), append(0, 71, 2), append(0, 72, 3)]);
    for slot in [2, 3, 0] {
        calls += make(&mut store, &front_is(4, 0, slot)) + make(&mut store, &[TAKE]);
    }
    calls + make(&mut store, &no_front(0, 17)) + make(&mut store, &[(TAKE.0, 17)])
}

/// Of two with the smallest number, as only damage has it, the lower slot is the front.
fn two_entries_of_one_number() -> usize {
    let mut store = fresh(4, 1);
    let sizes = Sizes::of(&store.working).expect("a fresh store has its sizes");
    let calls = make(&mut store, &[(BEGIN, 0), append(0, 70, 1), append(0, 71, 2), append(0, 72, 3)]);
    store.working[sizes.contents_line(0).start] = 2;
    index::anew(&mut store);
    let calls = calls + make(&mut store, &front_is(4, 0, 0)) + make(&mut store, &[TAKE]);
    calls + make(&mut store, &front_is(4, 0, 1)) + make(&mut store, &[TAKE]) + make(&mut store, &front_is(4, 0, 2))
}

/// Entries 1 and 2 of epoch 2, A open in epoch 4; B in epoch 5 takes 1. A gets 9: had it got 2, a cut at clock 6 would
/// show entry 1, without 2.
fn a_newer_take_holds_an_older_operation_up() -> usize {
    let mut store = fresh(8, 2);
    let (begin_b, take_b, end_b) = (Call::Begin { thread: 1 }, Call::Take { thread: 1 }, Call::End { thread: 1 });
    let mut calls = make(&mut store, &[(BEGIN, 0), append(0, 70, 1), append(0, 71, 2), (END, 0)]);
    calls += advance_to(&mut store, 4) + make(&mut store, &[(BEGIN, 0), (Call::Advance, TICKED)]);
    calls += make(&mut store, &[(begin_b, 0), (take_b, 0)]) + make(&mut store, &front_is(8, 1, 1));
    calls += make(&mut store, &[(TAKE.0, 9), append(0, 72, refused(9))]) + make(&mut store, &no_front(0, 9));
    calls += make(&mut store, &[(end_b, 0), (END, 0)]) + make(&mut store, &front_is(8, 0, 1));
    for (clock, front) in [(6, 0), (7, 1)] {
        calls += advance_to(&mut store, clock) + make(&mut recovered(&store), &front_is(8, 0, front));
    }
    calls
}

/// "After recovery it continues one above the largest surviving order number, from 1 if none."
fn order_numbers_go_on_after_recovery() -> usize {
    let mut store = fresh(8, 1);
    let mut calls = make(&mut store, &[(BEGIN, 0), append(0, 70, 1), append(0, 71, 2), (END, 0), (Call::Sync, 6)]);
    calls += make(&mut store, &[(BEGIN, 0), append(0, 72, 3), (END, 0)]);
    calls += make(&mut recovered(&store), &[(BEGIN, 0), append(0, 73, 3)]);
    calls += make(&mut store, &[(BEGIN, 0), TAKE, TAKE, append(0, 74, 4), (END, 0), (Call::Sync, 10)]);
    calls += make(&mut recovered(&store), &[(BEGIN, 0), append(0, 75, 5)]);
    calls += make(&mut store, &[(BEGIN, 0), TAKE, TAKE, (END, 0)]) + advance_to(&mut store, 8);
    calls + make(&mut recovered(&store), &[(BEGIN, 0), append(0, 76, 1)])
}

/// "take follows the rules of delete": freed at once, covered by a DELETE, or turned into one, as only damage has it.
fn marks_that_queue_calls_leave() -> usize {
    let mut store = fresh(6, 1);
    let sizes = Sizes::of(&store.working).expect("a fresh store has its sizes");
    let mut calls = make(&mut store, &[(BEGIN, 0), (new(9, &[5]), 0), append(0, 70, 1), append(0, 71, 2)]);
    assert_eq!(mark(&store.working, 1), [ALLOC, 2, 2, QUEUE]);
    assert_eq!(store.working[sizes.contents_line(1)], [1, 70]);
    calls += make(&mut store, &[TAKE, (END, 0), (Call::Sync, 8), (BEGIN, 0), TAKE]);
    assert_eq!([1, 3].map(|slot| mark(&store.working, slot)), [[0; 4], [DELETE, 4, 3, QUEUE]]);
    assert_eq!(store.working[sizes.contents_line(3)], [2, 0]);
    assert_eq!(store.transient[Layout::new(6, 1).expect("one thread").retired(2)], 4);
    calls += make(&mut store, &[append(0, 72, 3)]);
    store.working[sizes.header_line(4).start] = UPDATE;
    calls += make(&mut store, &[TAKE]);
    assert_eq!(mark(&store.working, 4), [DELETE, 4, 4, QUEUE]);
    assert_eq!(store.working[sizes.contents_line(4)], [3, 72]);
    calls
}

/// "Append needs two free slots", a take one where it needs any; a refused append uses no number.
fn a_full_and_an_empty_queue() -> usize {
    let mut store = fresh(3, 2);
    let mut calls = make(&mut store, &no_front(0, 17)) + make(&mut store, &no_front(2, 5));
    calls += make(&mut store, &[(TAKE.0, 7), append(0, 70, refused(7)), (BEGIN, 0), (TAKE.0, 17)]);
    calls += make(&mut store, &[(Call::Append { thread: 0, value: vec![1, 2] }, refused(8))]);
    calls += make(&mut store, &[append(0, 70, 1), append(0, 71, 2), append(0, 72, refused(13)), (new(9, &[1]), 13)]);
    calls += make(&mut store, &[TAKE, append(0, 73, 3), (END, 0), (Call::Advance, TICKED)]);
    calls + make(&mut store, &[(BEGIN, 0), TAKE, (TAKE.0, 13)]) + make(&mut store, &front_is(3, 0, 2))
}

/// "append gives 12, and 1 and 12 judge the next order number as the next uid": new looks at the uid alone.
fn last_numbers() -> usize {
    let mut store = fresh(8, 1);
    let mut calls = make(&mut store, &[(BEGIN, 0)]);
    store.transient[NEXT_ORDER] = LARGEST;
    calls += make(&mut store, &[append(0, 70, u64::from(LARGEST)), append(0, 71, refused(12)), (new(9, &[1]), 0)]);
    store.transient[NEXT_ORDER] = 7;
    store.transient[NEXT_UID] = LARGEST + 1;
    calls += make(&mut store, &[append(0, 71, refused(12)), (new(8, &[1]), 12)]);
    for out_of_range in [0, LARGEST + 2, u32::MAX] {
        store.transient[NEXT_ORDER] = out_of_range;
        calls += super::each_declines_with_1(&mut store, &[6]);
    }
    calls
}

/// Job calls do not see the queue, nor queue calls the jobs.
fn one_key_on_both_boards() -> usize {
    let mut store = fresh(8, 1);
    let mut calls = make(&mut store, &[(BEGIN, 0), append(0, 70, 1), (delete(1), 10), (new(1, &[5]), 0)]);
    calls += make(&mut store, &front_is(8, 0, 0)) + make(&mut store, &[TAKE, (new(1, &[5]), 11)]);
    calls += make(&mut store, &no_front(0, 17));
    for board in [0, 3, u32::MAX] {
        let mut elsewhere = store.clone();
        stray(&mut elsewhere, 1, board);
        calls += make(&mut elsewhere, &no_front(0, 17));
    }
    stray(&mut store, 1, QUEUE);
    calls + make(&mut store, &front_is(8, 0, 1)) + make(&mut store, &[(new(1, &[5]), 0)])
}

/// "condition 3 [..] covers a board 2 survivor with key above 4,000,000,000", and 01 a survivor with key 0; a key of jobs
/// may be equal, or above.
fn recoveries_of_order_numbers() -> usize {
    let mut calls = 0;
    for (board, key, reply) in [
        (QUEUE, 0, refused(3)),
        (QUEUE, 1, DONE),
        (QUEUE, 3, DONE),
        (QUEUE, LARGEST, DONE),
        (QUEUE, LARGEST + 1, refused(3)),
        (QUEUE, u32::MAX, refused(3)),
        (JOBS, 3, refused(4)),
        (JOBS, u32::MAX, DONE),
    ] {
        let mut store = sized(2, 2, 1);
        store.persistent = vec![2, 2, 9, ALLOC, 5, 1, JOBS, UPDATE, 6, 2, board, 3, 30, key, 40];
        let jobs = 1 + u64::from(board == JOBS);
        let wanted = if reply == DONE { [9, jobs] } else { [reply; 2] };
        assert_eq!(answers(&bytes_of(&store.persistent)), wanted, "key {key} on board {board}");
        calls += make(&mut store, &[(Call::Recover, reply)]);
        if reply == DONE {
            let next_order = if board == QUEUE { key + 1 } else { 1 };
            assert_eq!(store.transient[NEXT_ORDER], next_order, "after key {key} on board {board}");
        }
    }
    calls
}
