//! The cases that 01 works out, what the board word changes (02, No. 2), the queue (02, No. 3), and memory that stores word
//! by word (02, No. 4), and slots far up a board, on the library.
//! Usage: worked

mod far;
mod queue;
mod remains;

use differential::library::{answers, any, compare, lengths};
use simulator::batch::{Outcome, NEW};
use simulator::calls::{line_written_back, refused, Call, DONE, TICKED, WENT_ON};
use simulator::image::{ALLOC, DELETE, HEADER_WORDS, JOBS, PREFIX, QUEUE, UPDATE};
use simulator::index;
use simulator::lister::bytes_of;
use simulator::store::Store;

const BEGIN: Call = Call::Begin { thread: 0 };
const END: Call = Call::End { thread: 0 };

/// The board's place in a mark.
const BOARD: usize = 3;

fn main() {
    let cases: [fn() -> usize; 12] = [
        sizes_out_of_range,
        notes_of_other_sizes,
        marks_of_three_words,
        notes_without_an_index,
        a_board_of_two,
        lines_of_a_sync,
        lines_of_a_quiet_sync,
        marks_that_job_calls_leave,
        a_key_on_another_board,
        a_newer_label_on_another_board,
        a_slot_on_another_board,
        recoveries_of_other_boards,
    ];
    let cases: Vec<fn() -> usize> =
        cases.into_iter().chain(queue::CASES).chain(remains::CASES).chain(far::CASES).collect();
    let calls: usize = cases.iter().map(|case| case()).sum();
    println!("{} cases, {calls} calls", cases.len());
}

/// "N 1, N 1,025, W 1, W 10, T 0 and T 17 decline with 1."
fn sizes_out_of_range() -> usize {
    let mut calls = 0;
    for (slots, words, threads) in [(1, 2, 1), (1025, 2, 1), (2, 1, 1), (2, 10, 1), (2, 2, 0), (2, 2, 17)] {
        assert!(lengths(slots, words, threads).contains(&0), "lengths for {slots}, {words}, {threads}");
        let mut store = sized(slots, words, threads);
        calls += make(&mut store, &[(Call::Format { slots, words }, 1), (Call::Recover, refused(1))]);
        calls += each_declines_with_1(&mut store, &vec![0; words as usize - 1]);
    }
    calls
}

/// "the images or notes differ in sizes": a store with the notes of another N and T, as format left them and as a first
/// job left them. They are as long as its own: N 3, T 4 and N 4, T 1 have 83 words both.
fn notes_of_other_sizes() -> usize {
    let pairs = [((3, 4), (4, 1)), ((4, 1), (3, 4)), ((1024, 1), (1023, 4)), ((2, 16), (7, 1))];
    let mut calls = 0;
    for ((slots, threads), (other_slots, other_threads)) in pairs {
        let [mut own, mut other] = [sized(slots, 2, threads), sized(other_slots, 2, other_threads)];
        calls += make(&mut own, &[(Call::Format { slots, words: 2 }, 0), (BEGIN, 0), (new(9, &[5]), 0)]);
        calls += make(&mut other, &[(Call::Format { slots: other_slots, words: 2 }, 0)]);
        calls += declined_notes(&own, &other);
        calls += make(&mut other, &[(BEGIN, 0), (new(9, &[5]), 0), (END, 0)]);
        calls += declined_notes(&own, &other);
    }
    calls
}

/// Format and recover fill the notes, which are the store's own then.
fn declined_notes(own: &Store, other: &Store) -> usize {
    assert_eq!(own.transient.len(), other.transient.len());
    let mut store = Store { transient: other.transient.clone(), ..own.clone() };
    let [slots, words] = [store.working[0], store.working[1]];
    each_declines_with_1(&mut store, &[6])
        + make(&mut store.clone(), &[(Call::Format { slots, words }, 0), (BEGIN, 0)])
        + make(&mut store, &[(Call::Recover, DONE), (BEGIN, 0)])
}

/// Every call but format and recover declines with 1 and changes nothing.
fn each_declines_with_1(store: &mut Store, value: &[u32]) -> usize {
    let before = store.clone();
    let declined = Outcome { accepted: 0, refusal: 1 };
    let calls = [
        (BEGIN, 1),
        (END, 1),
        (new(8, value), 1),
        (set(9, value), 1),
        (delete(9), 1),
        (Call::Batch { thread: 0, list: vec![] }, declined.number()),
        (Call::Batch { thread: 0, list: [&[NEW, 8], value].concat() }, declined.number()),
        (read(9), refused(1)),
        (read_refusal(9), 1),
        (Call::Append { thread: 0, value: value.to_vec() }, refused(1)),
        (Call::Take { thread: 0 }, 1),
        (Call::Look { thread: 0 }, refused(1)),
        (Call::LookRefusal { thread: 0 }, 1),
        (Call::Advance, refused(1)),
        (Call::Sync, refused(1)),
        (Call::WriteBack { position: 0 }, 1),
    ];
    let made = make(store, &calls);
    assert_eq!(*store, before, "a refusal changes nothing");
    made
}

/// Images of N 4, W 2 with marks of three words, as the old format left them, and notes of that N: no call takes them.
fn marks_of_three_words() -> usize {
    let old_header_words = 3;
    let mut store = sized(4, 2, 1);
    for image in [&mut store.working, &mut store.persistent] {
        image.truncate(PREFIX + (old_header_words + 2) * 4);
    }
    let bytes = bytes_of(&store.persistent);
    assert_eq!(answers(&bytes), [refused(1); 2], "the questions");
    make(&mut store, &[(Call::Format { slots: 4, words: 2 }, 1), (Call::Recover, refused(1))])
        + each_declines_with_1(&mut store, &[6])
}

/// Notes of 70 + T + N words, all but the index: no call takes them.
fn notes_without_an_index() -> usize {
    let mut calls = 0;
    for (slots, threads) in [(2, 4), (8, 2), (16, 4), (1024, 16)] {
        let mut store = sized(slots, 2, threads);
        store.transient.truncate((70 + threads + slots) as usize);
        calls += make(&mut store, &[(Call::Format { slots, words: 2 }, 1), (Call::Recover, refused(1))]);
        calls += each_declines_with_1(&mut store, &[6]);
    }
    calls
}

/// "N 2, one job: a second new gives 13; deleting the first in a later epoch succeeds."
fn a_board_of_two() -> usize {
    let mut store = sized(2, 2, 1);
    let in_epoch_2 = [
        (Call::Format { slots: 2, words: 2 }, 0),
        (BEGIN, 0),
        (new(9, &[5]), 0),
        (read(9), value_place(2, 2, 0)),
        (new(8, &[6]), 13),
        (END, 0),
    ];
    let in_epoch_3 =
        [(BEGIN, 0), (set(9, &[7]), 13), (delete(9), 0), (read(9), refused(10)), (read_refusal(9), 10), (END, 0)];
    let tick = [(Call::Advance, TICKED)];
    make(&mut store, &in_epoch_2) + make(&mut store, &tick) + make(&mut store, &in_epoch_3)
}

/// "Fresh, one job made in epoch 2 and ended: sync stores 4 lines." They are the clock, the job's contents and
/// header, and the clock again; the same by advance calls.
fn lines_of_a_sync() -> usize {
    let mut store = sized(8, 3, 2);
    let job = [(Call::Format { slots: 8, words: 3 }, 0), (BEGIN, 0), (new(9, &[5, 6]), 0), (END, 0)];
    let calls = make(&mut store, &job);
    let mut by_steps = store.clone();
    let steps = [(Call::Advance, TICKED), (Call::Advance, WENT_ON), (Call::Advance, WENT_ON), (Call::Advance, TICKED)];
    let calls = calls + make(&mut store, &[(Call::Sync, 4)]) + make(&mut by_steps, &steps);
    assert_eq!(store, by_steps, "a sync and its advance calls");
    calls + make(&mut store, &[(Call::Recover, 1), (read(9), value_place(8, 3, 0))])
}

/// Where nothing changed, a sync stores the clock twice.
fn lines_of_a_quiet_sync() -> usize {
    let mut store = sized(8, 3, 2);
    make(&mut store, &[(Call::Format { slots: 8, words: 3 }, 0), (Call::Sync, 2), (Call::Sync, 2)])
}

const OTHER_BOARDS: [u32; 3] = [QUEUE, 3, u32::MAX];

/// "A new version and a DELETE carry their payload's board", and "A free mark is now four zeros".
fn marks_that_job_calls_leave() -> usize {
    let mut store = sized(8, 2, 1);
    let format = (Call::Format { slots: 8, words: 2 }, 0);
    let in_epoch_2 = [format, (BEGIN, 0), (new(5, &[1]), 0), (new(6, &[1]), 0), (new(7, &[1]), 0), (delete(7), 0)];
    let in_epoch_3 = [(END, 0), (Call::Advance, TICKED), (BEGIN, 0), (set(5, &[2]), 0), (delete(6), 0)];
    let mut calls = make(&mut store, &in_epoch_2);
    assert_eq!([1, 2].map(|slot| mark(&store.working, slot)), [[ALLOC, 2, 2, JOBS], [0; 4]]);
    calls += make(&mut store, &in_epoch_3);
    assert_eq!([3, 4].map(|slot| mark(&store.working, slot)), [[UPDATE, 3, 1, JOBS], [DELETE, 3, 2, JOBS]]);
    calls += make(&mut store, &[(delete(5), 0), (END, 0)]);
    assert_eq!(mark(&store.working, 3), [DELETE, 3, 1, JOBS]);
    calls
}

/// A live slot that damage has put on another board is no job: read, set and delete give 10, and new is accepted.
/// Thread 1 has no operation open.
fn a_key_on_another_board() -> usize {
    let idle_read = Call::Read { thread: 1, key: 9 };
    let mut calls = 0;
    for board in OTHER_BOARDS {
        let mut store = sized(4, 2, 2);
        let job = [(Call::Format { slots: 4, words: 2 }, 0), (BEGIN, 0), (new(9, &[5]), 0), (new(9, &[5]), 11)];
        calls += make(&mut store, &job) + make(&mut store, &[(idle_read.clone(), value_place(4, 2, 0))]);
        stray(&mut store, 0, board);
        let no_job = [(read(9), refused(10)), (read_refusal(9), 10), (set(9, &[6]), 10), (delete(9), 10)];
        calls += make(&mut store, &no_job) + make(&mut store, &[(idle_read.clone(), refused(10)), (new(9, &[7]), 0)]);
        assert_eq!([0, 1].map(|slot| mark(&store.working, slot)), [[ALLOC, 2, 1, board], [ALLOC, 2, 2, JOBS]]);
        let beside_it = [read(9), idle_read.clone()].map(|read| (read, value_place(4, 2, 1)));
        calls +=
            make(&mut store, &beside_it) + make(&mut store, &[(new(9, &[8]), 11), (set(9, &[8]), 0), (delete(9), 0)]);
    }
    calls
}

/// A label above the caller's epoch on another board is no 9: "the newer-label check" looks "within one board".
fn a_newer_label_on_another_board() -> usize {
    let mut calls = 0;
    for board in OTHER_BOARDS {
        let mut store = sized(4, 2, 2);
        let newer = Call::New { thread: 1, key: 9, value: vec![5] };
        let made = [(Call::Format { slots: 4, words: 2 }, 0), (BEGIN, 0), (Call::Advance, TICKED)];
        calls += make(&mut store, &made) + make(&mut store, &[(Call::Begin { thread: 1 }, 0), (newer, 0)]);
        let each = |reply: u64| {
            [(read(9), refused(reply as u32)), (read_refusal(9), reply), (set(9, &[6]), reply), (delete(9), reply)]
        };
        calls += make(&mut store, &each(9)) + make(&mut store, &[(new(9, &[6]), 9)]);
        stray(&mut store, 0, board);
        calls += make(&mut store, &each(10)) + make(&mut store, &[(new(9, &[6]), 0)]);
        assert_eq!(mark(&store.working, 1), [ALLOC, 2, 2, JOBS]);
    }
    calls
}

/// It takes up its slot, is written back with its four words, and is freed like any other.
fn a_slot_on_another_board() -> usize {
    let mut calls = 0;
    for board in OTHER_BOARDS {
        let mut store = sized(3, 2, 1);
        let two = [(Call::Format { slots: 3, words: 2 }, 0), (BEGIN, 0), (new(8, &[5]), 0), (new(9, &[5]), 0)];
        calls += make(&mut store, &two);
        stray(&mut store, 0, board);
        calls += make(&mut store, &[(new(8, &[6]), 13), (END, 0)]) + mark_written_back(&mut store, 0);
        assert_eq!(mark(&store.persistent, 0), [ALLOC, 2, 1, board]);
        calls += make(&mut store, &[(Call::Advance, TICKED), (BEGIN, 0), (delete(9), 0), (END, 0)]);
        stray(&mut store, 1, board);
        stray(&mut store, 2, board);
        while store.working[2] < 7 {
            compare(&mut store, &Call::Advance, any).unwrap_or_else(|what| panic!("{what}"));
            calls += 1;
        }
        for image in [&store.working, &store.persistent] {
            let marks = [0, 1, 2].map(|slot| mark(image, slot));
            assert_eq!(marks, [[ALLOC, 2, 1, board], [0; 4], [0; 4]], "an image after the DELETE is freed");
        }
    }
    calls
}

/// 02, No. 3: "condition 3 admits boards 1 and 2": of each mark of an image that is in order else. The first of them
/// survives, and the server counts it where it is a job. A free one may have any board, and so may one with board 0.
fn recoveries_of_other_boards() -> usize {
    let in_order = [3, 2, 9, ALLOC, 5, 1, JOBS, UPDATE, 8, 2, JOBS, 0, 0, 0, 0, 3, 30, 4, 40, 5, 50];
    let mut calls = 0;
    for slot in 0..3 {
        for board in [0, JOBS, QUEUE, 3, u32::MAX] {
            let mut store = sized(3, 2, 1);
            store.persistent = in_order.to_vec();
            let is_free = mark(&store.persistent, slot) == [0; HEADER_WORDS];
            let is_in_order = is_free || [0, JOBS, QUEUE].contains(&board);
            set_board(&mut store.persistent, slot, board);
            let jobs = u64::from(mark(&store.persistent, 0)[BOARD] == JOBS);
            let wanted = if is_in_order { [9, jobs] } else { [refused(3); 2] };
            assert_eq!(answers(&bytes_of(&store.persistent)), wanted, "slot {slot} on board {board}");
            calls += make(&mut store, &[(Call::Recover, if is_in_order { WENT_ON } else { refused(3) })]);
        }
    }
    calls
}

/// Where the value of a slot starts in an image of these sizes.
fn value_place(slots: usize, words: usize, slot: usize) -> u64 {
    (PREFIX + HEADER_WORDS * slots + words * slot + 1) as u64
}

fn mark(image: &[u32], slot: usize) -> [u32; HEADER_WORDS] {
    let start = PREFIX + HEADER_WORDS * slot;
    image[start..start + HEADER_WORDS].try_into().expect("a mark has its words")
}

/// The memory copies a mark by itself, word by word.
fn mark_written_back(store: &mut Store, slot: usize) -> usize {
    let start = PREFIX + HEADER_WORDS * slot;
    let words = line_written_back(start..start + HEADER_WORDS);
    make(store, &words.into_iter().map(|word| (word, 0)).collect::<Vec<_>>())
}

/// Moves a slot of working to another board, which only damage does, and in the index to its new name.
fn stray(store: &mut Store, slot: usize, board: u32) {
    set_board(&mut store.working, slot, board);
    index::anew(store);
}

fn set_board(image: &mut [u32], slot: usize, board: u32) {
    image[PREFIX + HEADER_WORDS * slot + BOARD] = board;
}

/// Makes the calls and holds the replies of library and simulator to those that 01 names.
fn make(store: &mut Store, calls: &[(Call, u64)]) -> usize {
    for (call, wanted) in calls {
        let reply = compare(store, call, any).unwrap_or_else(|what| panic!("{what}"));
        assert_eq!(reply, *wanted, "{call:?} on {store:?}");
    }
    calls.len()
}

/// A store whose lengths and size words are these, in range or not, else as format leaves it.
fn sized(slots: u32, words: u32, threads: u32) -> Store {
    let mut image = vec![0; PREFIX + (HEADER_WORDS + words as usize) * slots as usize];
    image[..3].copy_from_slice(&[slots, words, 2]);
    let mut transient = vec![0; (70 + threads + 3 * slots) as usize];
    transient[..4].copy_from_slice(&[slots, slots - 1, 1, 1]);
    Store { working: image.clone(), persistent: image, transient }
}

fn new(key: u32, value: &[u32]) -> Call {
    Call::New { thread: 0, key, value: value.to_vec() }
}

fn set(key: u32, value: &[u32]) -> Call {
    Call::Set { thread: 0, key, value: value.to_vec() }
}

fn delete(key: u32) -> Call {
    Call::Delete { thread: 0, key }
}

fn read(key: u32) -> Call {
    Call::Read { thread: 0, key }
}

fn read_refusal(key: u32) -> Call {
    Call::ReadRefusal { thread: 0, key }
}
