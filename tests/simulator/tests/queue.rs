//! The hand-over queue (02, No. 3): first in, first out, and what a crash leaves of it.

mod common;

use common::{delete, fresh, make, mark, new, tick, BEGIN, END};
use simulator::calls::{refusal_of, refused, simulate, Call, DONE, WENT_ON};
use simulator::image::{Sizes, ALLOC, DELETE, JOBS, LARGEST, QUEUE, UPDATE};
use simulator::lister::{bytes_of, listing, survivors_answer};
use simulator::recovery::surviving_entries;
use simulator::reference::Reference;
use simulator::store::Store;
use simulator::stored::{image_with, on_board, queued};
use simulator::transient::{Layout, NEXT_ORDER, NEXT_UID};

const TAKE: Call = Call::Take { thread: 0 };
const LOOK: Call = Call::Look { thread: 0 };

fn append(thread: u32, value: u32) -> Call {
    Call::Append { thread, value: vec![value] }
}

/// Appends these values in an operation of thread 0, which have to get these order numbers.
fn appended(store: &mut Store, values: &[u32], orders: &[u64]) {
    make(store, &[BEGIN]);
    let given: Vec<u64> = values.iter().map(|&value| simulate(store, &append(0, value))).collect();
    assert_eq!(given, orders);
    make(store, &[END]);
}

/// The order number and the value that a thread sees at the front, or the refusal.
fn front(store: &Store, thread: u32) -> Result<[u32; 2], u32> {
    let mut looked = store.clone();
    let call = Call::Look { thread };
    let reply = simulate(&mut looked, &call);
    assert_eq!(&looked, store, "a look changes nothing");
    let refusal = simulate(&mut looked, &Call::LookRefusal { thread }) as u32;
    assert_eq!(refusal, refusal_of(&call, reply));
    match refusal {
        0 => Ok([store.working[reply as usize - 1], store.working[reply as usize]]),
        refusal => Err(refusal),
    }
}

/// The store after a crash now and a whole recovery.
fn recovered(store: &Store) -> Store {
    let mut crashed = store.clone();
    while simulate(&mut crashed, &Call::Recover) == WENT_ON {}
    crashed
}

/// The order numbers that a crash now leaves.
fn orders_after_crash(store: &Store) -> Vec<u32> {
    let entries = surviving_entries(&recovered(store).working).unwrap();
    entries.keys().filter(|(board, _)| *board == QUEUE).map(|&(_, order)| order).collect()
}

#[test]
fn entries_leave_in_the_order_in_which_they_came() {
    let mut store = fresh(8, 1);
    appended(&mut store, &[70, 71, 72], &[1, 2, 3]);
    make(&mut store, &[BEGIN]);
    for (order, value) in [(1, 70), (2, 71), (3, 72)] {
        assert_eq!(front(&store, 0), Ok([order, value]));
        make(&mut store, &[TAKE]);
    }
    assert_eq!((front(&store, 0), simulate(&mut store, &TAKE)), (Err(17), 17));
}

/// The front is found by its number: here the smallest stands in a slot above the others.
#[test]
fn the_front_has_the_smallest_number_not_the_lowest_slot() {
    let mut store = fresh(4, 1);
    make(&mut store, &[BEGIN, new(0, 5), new(0, 6)]);
    assert_eq!(simulate(&mut store, &append(0, 70)), 1);
    make(&mut store, &[delete(0, 5), delete(0, 6)]);
    assert_eq!(simulate(&mut store, &append(0, 71)), 2);
    assert_eq!(simulate(&mut store, &append(0, 72)), 3);
    let orders = [0, 2, 3].map(|slot| Sizes::of(&store.working).unwrap().key(&store.working, slot));
    assert_eq!((orders, front(&store, 0)), ([3, 1, 2], Ok([1, 70])));
}

#[test]
fn of_two_entries_with_one_number_the_lower_slot_is_the_front() {
    let mut store = fresh(4, 1);
    appended(&mut store, &[70, 71], &[1, 2]);
    let sizes = Sizes::of(&store.working).unwrap();
    let first = sizes.contents_line(0).start;
    store.working[first] = 2;
    assert_eq!(front(&store, 0), Ok([2, 70]));
    make(&mut store, &[BEGIN, TAKE]);
    assert_eq!([0, 1].map(|slot| mark(&store.working, slot)[0]), [0, ALLOC]);
}

/// Entries 1 and 2 of epoch 2, A open in epoch 4; B in epoch 5 takes 1. Were A given 2, a crash at clock 6, where B's
/// take is absent and A's present, would show entry 1 without 2.
#[test]
fn an_older_operation_gets_9_after_a_newer_one_has_taken() {
    let mut store = fresh(8, 2);
    appended(&mut store, &[70, 71], &[1, 2]);
    tick(&mut store);
    tick(&mut store);
    make(&mut store, &[BEGIN]);
    tick(&mut store);
    make(&mut store, &[Call::Begin { thread: 1 }, Call::Take { thread: 1 }]);
    assert_eq!(front(&store, 1), Ok([2, 71]));
    let before = store.clone();
    assert_eq!((simulate(&mut store, &TAKE), simulate(&mut store, &append(0, 72))), (9, refused(9)));
    assert_eq!((front(&store, 0), &store), (Err(9), &before));
    make(&mut store, &[Call::End { thread: 1 }, END]);
    assert_eq!(front(&store, 0), Ok([2, 71]), "without an operation look gives no 9");
    tick(&mut store);
    assert_eq!((store.persistent[2], orders_after_crash(&store)), (6, vec![1, 2]));
    tick(&mut store);
    assert_eq!(orders_after_crash(&store), [2]);
}

/// The same with the rule broken, as the plain board sees it: A's take of entry 2 is present at clock 6 and B's of entry 1
/// is not, so the first of the queue was not the one that went.
#[test]
fn the_plain_board_notices_a_take_out_of_turn() {
    let mut store = fresh(8, 2);
    appended(&mut store, &[70, 71], &[1, 2]);
    assert_eq!(simulate(&mut store, &Call::Sync), 6);
    let mut reference = Reference::of(&store).unwrap();
    reference.began(0);
    reference.ticked();
    reference.began(1);
    reference.took(1, 1);
    reference.took(0, 2);
    let [at_6, at_7] = [6, 7].map(|clock| reference.entries_after_crash(clock));
    assert!(at_6.is_err_and(|what| what.contains("entry 2")));
    assert!(at_7.unwrap().is_empty());
}

/// By an append of a later epoch too, and by a DELETE or a retired entry when no live one is left.
#[test]
fn any_newer_slot_of_the_queue_gives_9() {
    let mut store = fresh(8, 2);
    make(&mut store, &[BEGIN]);
    tick(&mut store);
    make(&mut store, &[Call::Begin { thread: 1 }]);
    assert_eq!(front(&store, 0), Err(17));
    assert_eq!(simulate(&mut store, &append(1, 70)), 1);
    assert_eq!((front(&store, 0), front(&store, 1)), (Err(9), Ok([1, 70])));
    let retired = Layout::new(8, 2).unwrap().retired(0);
    let mut without_a_live_one = store.clone();
    without_a_live_one.transient[retired] = 3;
    assert_eq!((front(&without_a_live_one, 0), front(&without_a_live_one, 1)), (Err(9), Err(17)));
    for board in [0, JOBS, 3] {
        let mut elsewhere = store.clone();
        elsewhere.working = on_board(store.working.clone(), 0, board);
        assert_eq!(front(&elsewhere, 0), Err(17), "board {board}");
    }
}

#[test]
fn order_numbers_go_on_above_the_largest_that_survives() {
    let mut store = fresh(8, 1);
    appended(&mut store, &[70, 71, 72], &[1, 2, 3]);
    assert_eq!(simulate(&mut store, &Call::Sync), 8);
    appended(&mut store, &[73], &[4]);
    let mut after = recovered(&store);
    assert_eq!((after.transient[NEXT_ORDER], orders_after_crash(&after)), (4, vec![1, 2, 3]));
    appended(&mut after, &[74], &[4]);
    make(&mut store, &[BEGIN, TAKE, TAKE, TAKE, TAKE, END]);
    appended(&mut store, &[75], &[5]);
    assert_eq!(simulate(&mut store, &Call::Sync), 2 + 2 * 5);
    assert_eq!(recovered(&store).transient[NEXT_ORDER], 6);
    make(&mut store, &[BEGIN, TAKE, END]);
    simulate(&mut store, &Call::Sync);
    assert_eq!(recovered(&store).transient[NEXT_ORDER], 1, "from 1 if none");
}

#[test]
fn jobs_do_not_raise_the_next_order_number() {
    let image = queued(image_with(4, 2, 9, &[(ALLOC, 5, 6, 30), (UPDATE, 6, 7, 4), (ALLOC, 8, 8, 5)]), &[1, 2]);
    let mut store = Store { working: vec![1; image.len()], persistent: image, transient: vec![1; 83] };
    assert_eq!([(); 2].map(|()| simulate(&mut store, &Call::Recover)), [WENT_ON, DONE]);
    assert_eq!(store.transient[..6], [4, 3, 8, 5, 0, 0]);
}

#[test]
fn an_append_needs_two_free_slots_and_a_refused_one_uses_no_number() {
    let mut store = fresh(3, 1);
    make(&mut store, &[BEGIN, new(0, 9)]);
    assert_eq!(simulate(&mut store, &append(0, 70)), 1);
    let before = store.clone();
    assert_eq!((simulate(&mut store, &append(0, 71)), simulate(&mut store, &new(0, 8))), (refused(13), 13));
    assert_eq!(store, before);
    make(&mut store, &[delete(0, 9)]);
    assert_eq!(simulate(&mut store, &append(0, 71)), 2);
}

/// One free slot is enough for a take, and without one it gives 13; a take of what the operation itself appended needs
/// none.
#[test]
fn a_full_board_can_be_taken_from() {
    let mut store = fresh(3, 1);
    appended(&mut store, &[70, 71], &[1, 2]);
    tick(&mut store);
    make(&mut store, &[BEGIN, TAKE]);
    assert_eq!(mark(&store.working, 2), [DELETE, 3, 1, QUEUE]);
    assert_eq!((front(&store, 0), simulate(&mut store, &TAKE)), (Ok([2, 71]), 13));
    let mut own = fresh(2, 1);
    make(&mut own, &[BEGIN]);
    assert_eq!(simulate(&mut own, &append(0, 70)), 1);
    assert_eq!(simulate(&mut own, &append(0, 71)), refused(13));
    make(&mut own, &[TAKE]);
    assert_eq!(mark(&own.working, 0), [0; 4]);
}

/// "take follows the rules of delete": freed at once, covered by a DELETE, or turned into one.
#[test]
fn the_marks_that_append_and_take_leave() {
    let mut store = fresh(6, 1);
    make(&mut store, &[BEGIN, new(0, 9)]);
    assert_eq!([70, 71].map(|value| simulate(&mut store, &append(0, value))), [1, 2]);
    assert_eq!(mark(&store.working, 1), [ALLOC, 2, 2, QUEUE]);
    make(&mut store, &[TAKE, END]);
    assert_eq!(mark(&store.working, 1), [0; 4], "freed at once");
    assert_eq!(simulate(&mut store, &Call::Sync), 2 + 2 * 3, "the slot freed at once is stored too");
    make(&mut store, &[BEGIN, TAKE]);
    let sizes = Sizes::of(&store.working).unwrap();
    assert_eq!(mark(&store.working, 3), [DELETE, 4, 3, QUEUE], "covers its entry");
    assert_eq!(store.working[sizes.contents_line(3)], [2, 0]);
    assert_eq!(simulate(&mut store, &append(0, 72)), 3);
    let turned = sizes.header_line(4).start;
    store.working[turned] = UPDATE;
    make(&mut store, &[TAKE]);
    assert_eq!(mark(&store.working, 4), [DELETE, 4, 4, QUEUE], "turned in its own slot");
    assert_eq!(store.working[sizes.contents_line(4)], [3, 72]);
}

/// "append gives 12, and 1 and 12 judge the next order number as the next uid"; new looks at the uid alone.
#[test]
fn the_last_order_number_and_the_last_uid() {
    let mut store = fresh(8, 1);
    make(&mut store, &[BEGIN]);
    store.transient[NEXT_ORDER] = LARGEST;
    assert_eq!(simulate(&mut store, &append(0, 70)), u64::from(LARGEST));
    assert_eq!(simulate(&mut store, &append(0, 71)), refused(12));
    make(&mut store, &[new(0, 9)]);
    store.transient[NEXT_ORDER] = 7;
    store.transient[NEXT_UID] = LARGEST + 1;
    assert_eq!((simulate(&mut store, &append(0, 71)), simulate(&mut store, &new(0, 8))), (refused(12), 12));
    for out_of_range in [0, LARGEST + 2, u32::MAX] {
        store.transient[NEXT_ORDER] = out_of_range;
        assert_eq!((simulate(&mut store, &append(0, 71)), front(&store, 0)), (refused(1), Err(1)));
        assert_eq!([END, new(0, 8), TAKE].map(|call| simulate(&mut store, &call)), [1; 3]);
    }
}

#[test]
fn refusals_come_in_their_order() {
    let mut store = fresh(2, 2);
    assert_eq!((front(&store, 2), front(&store, 1)), (Err(5), Err(17)));
    let short = |thread| Call::Append { thread, value: Vec::new() };
    assert_eq!([short(2), short(0)].map(|call| simulate(&mut store, &call)), [refused(5), refused(7)]);
    assert_eq!([2, 0].map(|thread| simulate(&mut store, &Call::Take { thread })), [5, 7]);
    make(&mut store, &[BEGIN]);
    tick(&mut store);
    make(&mut store, &[Call::Begin { thread: 1 }]);
    assert_eq!(simulate(&mut store, &append(1, 70)), 1);
    store.transient[NEXT_ORDER] = LARGEST + 1;
    assert_eq!([short(0), append(0, 7)].map(|call| simulate(&mut store, &call)), [refused(8), refused(9)]);
    assert_eq!([short(1), append(1, 7)].map(|call| simulate(&mut store, &call)), [refused(8), refused(12)]);
    store.transient[NEXT_ORDER] = 2;
    assert_eq!(simulate(&mut store, &append(1, 7)), refused(13));
}

/// Job calls do not see the queue, nor the queue jobs: a job and an entry share the key 1.
#[test]
fn a_job_and_an_entry_may_have_one_key() {
    let mut store = fresh(8, 1);
    appended(&mut store, &[70], &[1]);
    make(&mut store, &[BEGIN]);
    assert_eq!(simulate(&mut store, &delete(0, 1)), 10);
    make(&mut store, &[new(0, 1), delete(0, 1), new(0, 1)]);
    assert_eq!(front(&store, 0), Ok([1, 70]));
    make(&mut store, &[TAKE]);
    assert_eq!((simulate(&mut store, &new(0, 1)), simulate(&mut store, &LOOK)), (11, refused(17)));
}

#[test]
fn the_lister_shows_both_boards_and_the_server_counts_jobs() {
    let filled = [(ALLOC, 5, 1, 3), (ALLOC, 5, 2, 1), (ALLOC, 6, 3, 2), (DELETE, 7, 3, 2)];
    let bytes = bytes_of(&queued(image_with(5, 3, 8, &filled), &[1, 2, 3]));
    assert_eq!(listing(&bytes), "clock 8 survivors 3\n0 3 3000 3001\n1 1 1000 1001 queue\n2 2 2000 2001 queue\n");
    assert_eq!(survivors_answer(&bytes), 1);
}
