//! The cases under "Contracts and cases", the lister's example, and what the board word changes (02, No. 2).

mod common;

use common::{delete, fresh, make, mark, new, tick, BEGIN, END};
use simulator::batch::NEW;
use simulator::calls::{image_words, line_written_back, refusal_of, refused, simulate, transient_words};
use simulator::calls::{Call, DONE, WENT_ON};
use simulator::headcount::{figures, head_count};
use simulator::image::{Header, Sizes, ALLOC, DELETE, HEADER_WORDS, JOBS, PREFIX, QUEUE, UPDATE};
use simulator::index::bucket;
use simulator::lister::{bytes_of, clock_answer, listing, survivors_answer};
use simulator::recovery::judge;
use simulator::store::Store;
use simulator::stored::{image_with, on_board, stored_images, EXAMPLE, OLD_EXAMPLE};
use simulator::transient::Layout;

#[test]
fn a_slot_is_kept_from_label_plus_two_on() {
    let kept = |epoch, clock| Header { kind: ALLOC, epoch, uid: 1, board: JOBS }.is_kept(clock);
    assert!(kept(5, 7) && !kept(6, 7) && !kept(2, 3) && kept(2, 4));
}

#[test]
fn lengths_are_exact() {
    assert_eq!([image_words(2, 2), image_words(1024, 9)], [15, 13_315]);
    assert_eq!([image_words(1, 2), image_words(1025, 2), image_words(2, 1), image_words(2, 10)], [0; 4]);
    assert_eq!([transient_words(2, 1), transient_words(1024, 16)], [77, 3158]);
    assert_eq!([transient_words(2, 0), transient_words(2, 17), transient_words(1, 1)], [0; 3]);
}

#[test]
fn a_payload_retired_in_4_is_freed_by_the_advance_from_6_and_its_delete_by_that_from_7() {
    let mut store = fresh(4, 1);
    make(&mut store, &[BEGIN, new(0, 9), END]);
    tick(&mut store);
    tick(&mut store);
    make(&mut store, &[BEGIN, delete(0, 9), END]);
    tick(&mut store);
    tick(&mut store);
    let (payload, anti, free) = ([ALLOC, 2, 1, JOBS], [DELETE, 4, 1, JOBS], [0; 4]);
    let finds = |store: &Store, clock, marks: [[u32; HEADER_WORDS]; 2]| {
        let found = [0, 1].map(|slot| mark(&store.persistent, slot));
        assert_eq!((store.persistent[2], found[0], found[1]), (clock, &marks[0][..], &marks[1][..]));
    };
    finds(&store, 6, [payload, anti]);
    tick(&mut store);
    finds(&store, 7, [free, anti]);
    tick(&mut store);
    finds(&store, 8, [free, free]);
}

#[test]
fn an_alloc_survives_until_its_delete_is_kept() {
    let survivors = |clock| judge(&image_with(2, 2, clock, &[(ALLOC, 5, 1, 3), (DELETE, 7, 1, 3)])).unwrap().survivors;
    assert_eq!(survivors(8), [0]);
    assert!(survivors(9).is_empty());
}

#[test]
fn sizes_out_of_range_decline_with_1() {
    for (slots, words, threads) in [(1, 2, 1), (1025, 2, 1), (2, 1, 1), (2, 10, 1), (2, 2, 0), (2, 2, 17)] {
        let image = PREFIX + (HEADER_WORDS + words as usize) * slots as usize;
        let notes = (70 + threads + 3 * slots) as usize;
        let mut store = Store { working: vec![0; image], persistent: vec![0; image], transient: vec![0; notes] };
        for head in [&mut store.working, &mut store.persistent] {
            head[..3].copy_from_slice(&[slots, words, 2]);
        }
        store.transient[..4].copy_from_slice(&[slots, slots - 1, 1, 1]);
        let before = store.clone();
        assert_eq!(simulate(&mut store, &Call::Format { slots, words }), 1);
        assert_eq!(simulate(&mut store, &Call::Recover), refused(1));
        assert_eq!(simulate(&mut store, &BEGIN), 1);
        assert_eq!(store, before);
    }
}

/// The notes of N 3, T 4 and of N 4, T 1 have 83 words both. They decline as format left them, and as a first job did.
#[test]
fn notes_of_other_sizes_decline_with_1() {
    for ((slots, threads), (other_slots, other_threads)) in [((3, 4), (4, 1)), ((4, 1), (3, 4))] {
        let mut store = fresh(slots, threads);
        make(&mut store, &[BEGIN, new(0, 9)]);
        let mut other = fresh(other_slots, other_threads);
        declines_the_notes(&store, &other);
        make(&mut other, &[BEGIN, new(0, 9), END]);
        declines_the_notes(&store, &other);
    }
}

/// Every call but format and recover declines with 1 and changes nothing; these two make the notes the store's own.
fn declines_the_notes(store: &Store, other: &Store) {
    let before = Store { transient: other.transient.clone(), ..store.clone() };
    assert_eq!((store.transient.len(), before.transient.len()), (83, 83));
    declines_with_1(&before);
    let [mut formatted, mut recovered] = [before.clone(), before];
    make(&mut formatted, &[Call::Format { slots: store.working[0], words: 2 }, BEGIN]);
    assert_eq!(simulate(&mut recovered, &Call::Recover), DONE);
    make(&mut recovered, &[BEGIN]);
}

/// Every call but format and recover.
fn declines_with_1(before: &Store) {
    let calls = [
        BEGIN,
        END,
        new(0, 8),
        set(0, 9),
        delete(0, 9),
        Call::Batch { thread: 0, list: vec![] },
        Call::Batch { thread: 0, list: vec![NEW, 8, 8] },
        Call::Read { thread: 0, key: 9 },
        Call::ReadRefusal { thread: 0, key: 9 },
        Call::Append { thread: 0, value: vec![5] },
        Call::Take { thread: 0 },
        Call::Look { thread: 0 },
        Call::LookRefusal { thread: 0 },
        Call::Advance,
        Call::Sync,
        Call::WriteBack { position: 3 },
    ];
    for call in calls {
        let mut after = before.clone();
        let reply = simulate(&mut after, &call);
        assert_eq!((refusal_of(&call, reply), &after), (1, before), "{call:?}");
    }
}

/// 70 + T + N words: all but the index (02, No. 6).
#[test]
fn notes_without_an_index_decline_with_1() {
    for (slots, threads) in [(2, 4), (8, 2), (1024, 16)] {
        let mut store = fresh(slots, threads);
        store.transient.truncate((70 + threads + slots) as usize);
        declines_with_1(&store);
        for call in [Call::Recover, Call::Format { slots, words: 2 }] {
            let mut after = store.clone();
            let reply = simulate(&mut after, &call);
            assert_eq!((refusal_of(&call, reply), &after), (1, &store), "{call:?}");
        }
    }
}

#[test]
fn a_sync_after_one_fresh_job_stores_4_lines() {
    let mut store = fresh(2, 1);
    make(&mut store, &[BEGIN, new(0, 9), END]);
    assert_eq!(simulate(&mut store, &Call::Sync), 4);
    assert_eq!(store.persistent, [2, 2, 4, 1, 2, 1, 1, 0, 0, 0, 0, 9, 9, 0, 0]);
}

#[test]
fn a_board_of_2_with_one_job_is_full_and_can_be_emptied() {
    let mut store = fresh(2, 1);
    make(&mut store, &[BEGIN, new(0, 9)]);
    assert_eq!(simulate(&mut store, &new(0, 8)), 13);
    make(&mut store, &[END]);
    tick(&mut store);
    make(&mut store, &[BEGIN]);
    assert_eq!(simulate(&mut store, &Call::Set { thread: 0, key: 9, value: vec![1] }), 13);
    make(&mut store, &[delete(0, 9), END]);
    assert_eq!(simulate(&mut store, &Call::Read { thread: 0, key: 9 }), refused(10));
}

#[test]
fn recovery_sets_the_next_uid_and_begins_at_slot_0() {
    let image = image_with(3, 2, 9, &[(ALLOC, 5, 6, 3), (UPDATE, 8, 7, 4)]);
    let mut store = Store { working: vec![1; image.len()], persistent: image, transient: vec![1; 80] };
    assert_eq!(simulate(&mut store, &Call::Recover), WENT_ON);
    assert_eq!((store.working[0], &store.transient[..]), (1, &[1; 80][..]));
    assert_eq!(simulate(&mut store, &Call::Recover), DONE);
    assert_eq!(store.working, store.persistent);
    let survivor = Layout::new(3, 1).unwrap().bucket(bucket(3, (JOBS, 3)));
    let wanted = |place| [3, 2, 7, 1].get(place).copied().unwrap_or(u32::from(place == survivor));
    assert_eq!(store.transient, (0..80).map(wanted).collect::<Vec<u32>>());
}

#[test]
fn the_lister_prints_the_example() {
    let bytes = bytes_of(&EXAMPLE);
    assert_eq!(listing(&bytes), "clock 7 survivors 1\n0 10 100\n");
    assert_eq!((clock_answer(&bytes), survivors_answer(&bytes)), (7, 1));
    assert_eq!(listing(&bytes[..59]), "refused 1\n");
    assert_eq!(clock_answer(&[]), 4_294_967_297);
}

#[test]
fn each_stored_image_is_refused_as_its_name_says() {
    let first_words: Vec<(String, String)> = stored_images()
        .into_iter()
        .map(|(name, bytes)| (name, listing(&bytes).lines().next().unwrap().to_string()))
        .collect();
    let count = |line: &str| first_words.iter().filter(|(_, first)| first == line).count();
    let counts = ["refused 1", "refused 2", "refused 3", "refused 4"].map(count);
    assert_eq!((counts, first_words.len()), ([19, 4, 23, 9], 97), "{first_words:#?}");
}

#[test]
fn the_head_count_of_the_worked_image() {
    let bytes = bytes_of(&EXAMPLE);
    assert_eq!(head_count(&bytes), "free 0 surviving 1 kept 0 new 1 total 2\n");
    assert_eq!(head_count(&bytes[..59]), "refused 1\n");
}

#[test]
fn losing_versions_and_kept_deletes_are_kept() {
    let filled =
        [(ALLOC, 5, 1, 3), (UPDATE, 6, 1, 3), (ALLOC, 4, 2, 4), (DELETE, 7, 2, 4), (ALLOC, 8, 3, 5), (UPDATE, 9, 1, 3)];
    let counted = head_count(&bytes_of(&image_with(8, 2, 9, &filled)));
    assert_eq!(counted, "free 2 surviving 1 kept 3 new 2 total 8\n");
}

#[test]
fn a_figure_is_no_rest_of_the_others() {
    let torn = Header { kind: 0, epoch: 5, uid: 0, board: 0 };
    let too_high = Header { kind: 4, epoch: 5, uid: 1, board: JOBS };
    let board_alone = Header { board: JOBS, ..Header::FREE };
    assert_eq!(figures(&[torn, too_high, board_alone, Header::FREE], 9, &[]), [3, 0, 0, 0]);
}

/// Moves a slot of working to another board, as only damage does.
fn stray(store: &mut Store, slot: usize, board: u32) {
    store.working = on_board(store.working.clone(), slot, board);
}

const OTHER_BOARDS: [u32; 3] = [QUEUE, 3, u32::MAX];

fn set(thread: u32, key: u32) -> Call {
    Call::Set { thread, key, value: vec![key + 1] }
}

/// What read, its refusal, set and delete reply for this key, as refusals.
fn refusals_of_a_look(store: &Store, thread: u32, key: u32) -> [u32; 4] {
    let calls = [Call::Read { thread, key }, Call::ReadRefusal { thread, key }, set(thread, key), delete(thread, key)];
    calls.map(|call| refusal_of(&call, simulate(&mut store.clone(), &call)))
}

#[test]
fn every_mark_that_a_job_call_leaves_has_its_board() {
    let mut store = fresh(8, 1);
    make(&mut store, &[BEGIN, new(0, 5), new(0, 6), new(0, 7), delete(0, 7), END]);
    assert_eq!(mark(&store.working, 1), [ALLOC, 2, 2, JOBS]);
    assert_eq!(mark(&store.working, 2), [0; 4], "freed at once");
    tick(&mut store);
    make(&mut store, &[BEGIN, set(0, 5), delete(0, 6), END]);
    assert_eq!(mark(&store.working, 3), [UPDATE, 3, 1, JOBS], "a new version");
    assert_eq!(mark(&store.working, 4), [DELETE, 3, 2, JOBS], "covers its payload");
    make(&mut store, &[BEGIN, delete(0, 5), END]);
    assert_eq!(mark(&store.working, 3), [DELETE, 3, 1, JOBS], "turned in its own slot");
}

#[test]
fn a_key_on_another_board_is_no_job() {
    for board in OTHER_BOARDS {
        let mut store = fresh(4, 2);
        make(&mut store, &[BEGIN, new(0, 9)]);
        assert_eq!(simulate(&mut store.clone(), &new(0, 9)), 11);
        stray(&mut store, 0, board);
        assert_eq!(refusals_of_a_look(&store, 0, 9), [10; 4], "board {board}");
        assert_eq!(refusals_of_a_look(&store, 1, 9), [10, 10, 7, 7], "board {board}, no operation open");
        make(&mut store, &[new(0, 9)]);
        let marks = [0, 1].map(|slot| mark(&store.working, slot));
        assert_eq!(marks, [[ALLOC, 2, 1, board], [ALLOC, 2, 2, JOBS]]);
        assert_eq!(refusals_of_a_look(&store, 0, 9), [0; 4], "the job beside it");
    }
}

#[test]
fn a_newer_label_on_another_board_does_not_hold_a_job_up() {
    for board in OTHER_BOARDS {
        let mut store = fresh(4, 2);
        make(&mut store, &[BEGIN]);
        tick(&mut store);
        make(&mut store, &[Call::Begin { thread: 1 }, new(1, 9)]);
        assert_eq!(refusals_of_a_look(&store, 0, 9), [9; 4]);
        assert_eq!(simulate(&mut store.clone(), &new(0, 9)), 9);
        stray(&mut store, 0, board);
        assert_eq!(refusals_of_a_look(&store, 0, 9), [10; 4], "board {board}");
        make(&mut store, &[new(0, 9)]);
        assert_eq!(mark(&store.working, 1), [ALLOC, 2, 2, JOBS]);
    }
}

#[test]
fn a_slot_on_another_board_is_taken_up_written_back_and_reclaimed() {
    for board in OTHER_BOARDS {
        let mut store = fresh(3, 1);
        make(&mut store, &[BEGIN, new(0, 8), new(0, 9)]);
        stray(&mut store, 0, board);
        assert_eq!(simulate(&mut store, &new(0, 8)), 13, "board {board}");
        make(&mut store, &[END]);
        let sizes = Sizes::of(&store.working).unwrap();
        make(&mut store, &line_written_back(sizes.header_line(0)));
        assert_eq!(mark(&store.persistent, 0), [ALLOC, 2, 1, board], "all four words are written back");
        tick(&mut store);
        make(&mut store, &[BEGIN, delete(0, 9), END]);
        assert_eq!(mark(&store.working, 2), [DELETE, 3, 2, JOBS]);
        stray(&mut store, 1, board);
        stray(&mut store, 2, board);
        for _ in 0..4 {
            tick(&mut store);
        }
        for image in [&store.working, &store.persistent] {
            let marks = [0, 1, 2].map(|slot| mark(image, slot));
            assert_eq!((image[2], marks), (7, [&[ALLOC, 2, 1, board][..], &[0; 4], &[0; 4]]), "board {board}");
        }
    }
}

/// An image says its N and W, so one of the old layout never has the length that these want.
#[test]
fn an_image_of_three_word_marks_declines_with_1() {
    let old = OLD_EXAMPLE.to_vec();
    let notes = fresh(2, 1).transient;
    let before = Store { working: old.clone(), persistent: old, transient: notes };
    declines_with_1(&before);
    for call in [Call::Recover, Call::Format { slots: 2, words: 2 }] {
        let mut after = before.clone();
        let reply = simulate(&mut after, &call);
        assert_eq!((refusal_of(&call, reply), &after), (1, &before), "{call:?}");
    }
    let bytes = bytes_of(&before.persistent);
    assert_eq!([clock_answer(&bytes), survivors_answer(&bytes)], [refused(1); 2]);
    assert_eq!([listing(&bytes), head_count(&bytes)], ["refused 1\n"; 2]);
}

#[test]
fn recovery_declines_another_board_with_3_where_all_else_is_in_order() {
    let jobs = image_with(3, 2, 9, &[(ALLOC, 5, 1, 3), (DELETE, 8, 2, 4)]);
    assert_eq!(judge(&jobs).unwrap().survivors, [0]);
    let refusal = |slot, board| judge(&on_board(jobs.clone(), slot, board)).err();
    for board in [3, u32::MAX] {
        assert_eq!([0, 1, 2].map(|slot| refusal(slot, board)), [Some(3), Some(3), None], "board {board}");
    }
    for board in [0, JOBS, QUEUE] {
        assert_eq!([0, 1, 2].map(|slot| refusal(slot, board)), [None; 3], "board {board}");
    }
}
