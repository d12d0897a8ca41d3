//! Memory that stores word by word (02, No. 4): what is left of a mark counts as free, everywhere, and recovery zeroes it.

mod common;

use common::{delete, fresh, make, mark, new, tick, BEGIN, END};
use simulator::calls::{line_written_back, refusal_of, simulate, Call, DONE, TICKED, WENT_ON};
use simulator::damage::{acceptable_image, any_image};
use simulator::generator::{calls_of, unformatted, Mix};
use simulator::headcount::head_count;
use simulator::image::{job, Header, Sizes, ALLOC, CLOCK, DELETE, HEADER_WORDS, JOBS, LARGEST, QUEUE, UPDATE};
use simulator::lister::{bytes_of, clock_answer, listing, survivors_answer};
use simulator::random::Random;
use simulator::recovery::{judge, surviving_entries};
use simulator::remains::RecoveriesOfRemains;
use simulator::store::Store;
use simulator::stored::{image_with, with_mark};
use simulator::torn::{any_mix, has_remains, line_between, torn_images, Line};
use simulator::trace::{replay, simulated, Counts, Trace};
use simulator::transient::{Layout, LAST_TAKEN};

type Mark = [u32; HEADER_WORDS];

/// One, two or three words of a kept ALLOC are left, and of a mark out of range.
const REMAINS: [Mark; 10] = [
    [ALLOC, 3, 7, 0],
    [0, 3, 7, JOBS],
    [ALLOC, 0, 7, JOBS],
    [ALLOC, 3, 0, JOBS],
    [ALLOC, 0, 0, 0],
    [0, 3, 0, 0],
    [0, 0, 7, 0],
    [0, 0, 0, JOBS],
    [4, 3, 7, 0],
    [u32::MAX, 0, u32::MAX, u32::MAX],
];

/// A store to be recovered, with junk in working and notes.
fn crashed(image: Vec<u32>) -> Store {
    let notes = Layout::new(image[0].min(1024) as usize, 1).unwrap().words();
    Store { working: vec![5; image.len()], persistent: image, transient: vec![5; notes] }
}

/// Replies of recover calls up to the first that does not go on.
fn recovered(store: &mut Store) -> Vec<u64> {
    let mut replies = vec![simulate(store, &Call::Recover)];
    while replies.last() == Some(&WENT_ON) {
        replies.push(simulate(store, &Call::Recover));
    }
    replies
}

#[test]
fn remains_are_free_and_recovery_zeroes_each_by_one_call() {
    for remains in REMAINS {
        let image = with_mark(image_with(4, 2, 6, &[(ALLOC, 3, 2, 5), (0, 0, 0, 8)]), 1, remains);
        let image = with_mark(image, 3, [0, 3, 7, JOBS]);
        let bytes = bytes_of(&image);
        assert_eq!(listing(&bytes), "clock 6 survivors 1\n0 5 5000\n", "{remains:?}");
        assert_eq!(head_count(&bytes), "free 3 surviving 1 kept 0 new 0 total 4\n", "{remains:?}");
        assert_eq!([clock_answer(&bytes), survivors_answer(&bytes)], [6, 1], "{remains:?}");
        let mut store = crashed(image);
        assert_eq!(simulate(&mut store, &Call::Recover), WENT_ON);
        assert_eq!([1, 3].map(|slot| mark(&store.persistent, slot)), [[0; 4], [0, 3, 7, JOBS]], "{remains:?}");
        assert_eq!(recovered(&mut store), [WENT_ON, DONE]);
        assert_eq!([0, 1, 3].map(|slot| mark(&store.working, slot)), [[ALLOC, 3, 2, JOBS], [0; 4], [0; 4]]);
    }
}

/// "of marks, condition 3 rejects only those of four nonzero words, one out of range"
#[test]
fn condition_3_rejects_whole_marks_alone() {
    let judged = |mark: Mark| judge(&with_mark(image_with(2, 2, 6, &[(ALLOC, 3, 2, 5)]), 1, mark)).map(|_| ());
    let out_of_range = [[4, 3, 7, 1], [1, 1, 7, 1], [1, 7, 7, 1], [1, 3, LARGEST + 1, 1], [1, 3, 7, 3], [u32::MAX; 4]];
    for whole in out_of_range {
        assert_eq!(judged(whole), Err(3), "{whole:?}");
        for zeros in 1..16 {
            let word = |place: usize| if zeros >> place & 1 == 1 { 0 } else { whole[place] };
            assert_eq!(judged([0, 1, 2, 3].map(word)), Ok(()), "{whole:?} without {zeros:b}");
        }
    }
}

/// "Recovery's first pass zeroes what is left of such marks too": one pass over both, in slot order, then the DELETEs.
#[test]
fn the_first_pass_goes_in_slot_order_over_stale_marks_and_remains() {
    let filled = [(DELETE, 6, 2, 4), (UPDATE, 8, 1, 3), (0, 0, 0, 9), (ALLOC, 5, 2, 4), (ALLOC, 5, 1, 3), (0, 0, 0, 9)];
    let image = with_mark(with_mark(image_with(6, 2, 9, &filled), 2, [ALLOC, 5, 3, 0]), 5, [0, 0, 2, JOBS]);
    let mut store = crashed(image);
    for freed in [1, 2, 3, 5, 0] {
        let before = store.clone();
        assert_eq!(simulate(&mut store, &Call::Recover), WENT_ON);
        let changed = (0..6).find(|&slot| mark(&store.persistent, slot) != mark(&before.persistent, slot));
        assert_eq!((changed, mark(&store.persistent, freed)), (Some(freed), &[0; 4][..]));
        assert_eq!((&store.working, &store.transient), (&before.working, &before.transient));
    }
    assert_eq!((simulate(&mut store, &Call::Recover), mark(&store.working, 4)), (DONE, &[ALLOC, 5, 1, JOBS][..]));
}

/// 16 for a word outside the marks and contents, after 1 and 2.
#[test]
fn a_word_is_written_back_by_its_position() {
    let mut store = fresh(3, 1);
    make(&mut store, &[BEGIN, new(0, 9), new(0, 8), delete(0, 8), END]);
    let length = store.working.len();
    store.working[length - 1] = 77;
    for outside in [0, 1, 2, length, length + 1, (1 << 32) + 3, usize::MAX] {
        let mut after = store.clone();
        assert_eq!((simulate(&mut after, &Call::WriteBack { position: outside }), &after), (16, &store), "{outside}");
    }
    for inside in [3, 6, 15, length - 1] {
        let mut wanted = store.clone();
        wanted.persistent[inside] = store.working[inside];
        assert_ne!(store, wanted, "{inside}");
        let mut after = store.clone();
        assert_eq!((simulate(&mut after, &Call::WriteBack { position: inside }), after), (0, wanted), "{inside}");
    }
    store.persistent[CLOCK] = 3;
    assert_eq!(simulate(&mut store, &Call::WriteBack { position: 0 }), 2);
    store.transient.pop();
    assert_eq!(simulate(&mut store, &Call::WriteBack { position: 0 }), 1);
}

/// A store of four slots at clock 4, jobs 8 and 9 of epoch 2 in the first two.
fn two_jobs() -> Store {
    let mut store = fresh(4, 2);
    make(&mut store, &[BEGIN, new(0, 8), new(0, 9), END]);
    tick(&mut store);
    tick(&mut store);
    store
}

/// Leaves these words of a slot's mark in working, as only damage does.
fn damage(store: &mut Store, slot: usize, mark: Mark) {
    store.working = with_mark(std::mem::take(&mut store.working), slot, mark);
}

#[test]
fn calls_take_remains_as_free() {
    for remains in [[ALLOC, 2, 2, 0], [0, 2, 2, JOBS], [ALLOC, 0, 2, JOBS], [ALLOC, 2, 0, JOBS], [4, 2, 2, JOBS]] {
        let mut store = two_jobs();
        damage(&mut store, 1, remains);
        make(&mut store, &[BEGIN]);
        let look = [Call::Read { thread: 0, key: 9 }, delete(0, 9), Call::Set { thread: 0, key: 9, value: vec![1] }];
        for call in look {
            assert_eq!(refusal_of(&call, simulate(&mut store, &call)), 10, "{remains:?} {call:?}");
        }
        store.transient[LAST_TAKEN] = 0;
        make(&mut store, &[new(0, 9), new(0, 7)]);
        assert_eq!([1, 2].map(|slot| mark(&store.working, slot)), [[ALLOC, 4, 3, JOBS], [ALLOC, 4, 4, JOBS]]);
        assert_eq!(simulate(&mut store, &new(0, 6)), 13, "{remains:?}: one slot is left, and new needs two");
    }
}

/// A label above the operation's epoch is no 9 where the mark has a zero word, for jobs and for the queue.
#[test]
fn a_newer_label_in_remains_does_not_hold_a_call_up() {
    for (board, refusal) in [(JOBS, 10), (QUEUE, 17)] {
        let look = if board == JOBS { Call::Read { thread: 0, key: 9 } } else { Call::Look { thread: 0 } };
        let refusal_of_look = |store: &Store| refusal_of(&look, simulate(&mut store.clone(), &look));
        let mut store = two_jobs();
        make(&mut store, &[BEGIN]);
        for kind in [ALLOC, UPDATE, DELETE] {
            damage(&mut store, 1, [kind, 5, 2, board]);
            assert_eq!(refusal_of_look(&store), 9);
            for remains in [[kind, 5, 0, board], [0, 5, 2, board], [kind, 5, 2, 0]] {
                damage(&mut store, 1, remains);
                assert_eq!(refusal_of_look(&store), refusal, "{remains:?}");
            }
        }
    }
}

/// Of payloads retired two epochs ago and DELETEs of three ago only whole marks are due; the others stay as they are. At
/// clock 3 a DELETE of label 0 looks due.
#[test]
fn remains_are_not_due() {
    for (whole, clock) in [([ALLOC, 2, 2, JOBS], 6), ([DELETE, 3, 2, JOBS], 6), ([DELETE, 0, 2, JOBS], 3)] {
        for zeros in 0..15 {
            let mut store = fresh(4, 1);
            (store.working[CLOCK], store.persistent[CLOCK]) = (clock, clock);
            let word = |place: usize| if zeros >> place & 1 == 1 { 0 } else { whole[place] };
            let torn = [0, 1, 2, 3].map(word);
            damage(&mut store, 1, torn);
            store.transient[Layout::new(4, 1).unwrap().retired(1)] = if whole[0] == ALLOC { 4 } else { 0 };
            let (reply, left) = if torn.contains(&0) { (TICKED, torn) } else { (WENT_ON, [0; 4]) };
            assert_eq!((simulate(&mut store, &Call::Advance), mark(&store.working, 1)), (reply, &left[..]), "{torn:?}");
        }
    }
}

/// An advance stores a waiting slot's four words as working has them, whatever they are.
#[test]
fn a_header_line_is_stored_as_it_stands() {
    for remains in REMAINS {
        let mut store = fresh(3, 1);
        make(&mut store, &[BEGIN, new(0, 9), END]);
        damage(&mut store, 0, remains);
        assert_eq!(simulate(&mut store, &Call::Sync), 4);
        assert_eq!(mark(&store.persistent, 0), remains);
    }
}

/// At clock 6 a cut leaves 1 3 7 0 of a mark whose job was never whole. A recovery that left it so would give the slot to
/// the next new; the memory copies that mark's board word, and 1 3 7 1 stands there whole and kept.
#[test]
fn remains_that_recovery_left_would_come_back_to_life() {
    let image = with_mark(image_with(3, 2, 6, &[(0, 0, 0, 9), (ALLOC, 3, 2, 5)]), 0, [ALLOC, 3, 7, 0]);
    let board_word = Call::WriteBack { position: 6 };
    let names_after_a_crash = |store: &Store| {
        let mut store = crashed(store.persistent.clone());
        recovered(&mut store);
        surviving_entries(&store.working).unwrap().into_keys().collect::<Vec<_>>()
    };
    let mut store = crashed(image);
    assert_eq!(recovered(&mut store), [WENT_ON, DONE]);
    let mut left = store.clone();
    for image in [&mut left.working, &mut left.persistent] {
        *image = with_mark(image.clone(), 0, [ALLOC, 3, 7, 0]);
    }
    for store in [&mut store, &mut left] {
        make(store, &[BEGIN, new(0, 4)]);
        assert_eq!(mark(&store.working, 0), [ALLOC, 6, 3, JOBS]);
        make(store, std::slice::from_ref(&board_word));
    }
    assert_eq!((mark(&store.persistent, 0), names_after_a_crash(&store)), (&[0, 0, 0, JOBS][..], vec![job(5)]));
    assert_eq!((mark(&left.persistent, 0), names_after_a_crash(&left)), (&[1, 3, 7, 1][..], vec![job(5), job(9)]));
}

/// The same in random runs: from stores in which a recovery left the remains, some crash does not leave the reference
/// map; from the same stores without them every crash does.
#[test]
fn runs_from_left_remains_go_wrong() {
    let (mut runs, mut wrong) = (0, 0);
    for seed in 0..1500 {
        let mut random = Random::new(seed);
        let sizes = Sizes::new(random.between(2, 6), 2).unwrap();
        let mut store = unformatted(&mut random, sizes.slots as u32, 2, 2);
        store.persistent = acceptable_image(&mut random, sizes, 6, sizes.slots / 2);
        let found = store.persistent.clone();
        if !has_remains(&found) {
            continue;
        }
        recovered(&mut store);
        let mut left = store.clone();
        for slot in (0..sizes.slots).filter(|&slot| sizes.header(&found, slot).is_remains()) {
            sizes.set_header(&mut left.working, slot, sizes.header(&found, slot));
            sizes.set_header(&mut left.persistent, slot, sizes.header(&found, slot));
        }
        let events = calls_of(&mut random, &mut store.clone(), Mix { advances: 40, batches: 4, keys: 6 }, 60);
        let fails =
            |start: Store| replay(&Trace { start, events: events.clone() }, &mut simulated, &mut Counts::default());
        fails(store).unwrap_or_else(|what| panic!("seed {seed}: {what}"));
        runs += 1;
        wrong += u32::from(fails(left).is_err_and(|what| what.contains("the crash at clock")));
    }
    println!("{runs} runs from seeds 0 to 1499, {wrong} go wrong where remains are left");
    assert!(runs >= 300 && wrong >= 20);
}

/// A cut within the store of a header, of contents and of a header that recovery frees, in every mix, by hand.
#[test]
fn a_cut_within_a_store_keeps_what_is_kept() {
    let mut store = two_jobs();
    make(&mut store, &[BEGIN, Call::Set { thread: 0, key: 8, value: vec![1] }, delete(0, 9), END]);
    let mut tried = 0;
    for _ in 0..40 {
        let before = store.persistent.clone();
        simulate(&mut store, &Call::Advance);
        let kept = surviving_entries(&before).unwrap();
        for torn in torn_images(&before, &store.persistent, &mut Random::new(1)) {
            let mut crashed = crashed(torn);
            recovered(&mut crashed);
            assert_eq!(surviving_entries(&crashed.working).as_ref(), Ok(&kept));
            tried += 1;
        }
    }
    assert!(tried >= 40, "{tried}");
}

#[test]
fn a_torn_store_is_every_mix_of_few_words_and_some_of_many() {
    let sizes = Sizes::new(2, 9).unwrap();
    let mut random = Random::new(3);
    let before = image_with(2, 9, 6, &[]);
    let mut header = before.clone();
    sizes.set_header(&mut header, 1, Header { kind: 1, epoch: 2, uid: 3, board: 1 });
    let mut contents = before.clone();
    sizes.set_contents(&mut contents, 1, 5, &[1; 8]);
    let mut torn = torn_images(&before, &header, &mut random);
    assert_eq!(torn.len(), 14);
    assert!(torn.iter().all(|image| has_remains(image) && *image != before && *image != header));
    torn.sort();
    torn.dedup();
    assert_eq!(torn.len(), 14, "all are different");
    let torn = torn_images(&before, &contents, &mut random);
    assert!(torn.len() == 12 && torn.iter().all(|image| *image != before && *image != contents));
    let lines = [&header, &contents, &before].map(|after| line_between(sizes, &before, after));
    assert_eq!(lines, [Ok(Some(Line::Header)), Ok(Some(Line::Contents)), Ok(None)]);
    assert!(line_between(sizes, &header, &contents).is_err());
    let mixes: Vec<Vec<u32>> = (0..400).map(|_| any_mix(&before, &header, &mut random)).collect();
    assert!(
        mixes.contains(&before) && mixes.contains(&header) && torn_images(&before, &before, &mut random).is_empty()
    );
}

/// How many marks there were of each sort, and how many images.
#[derive(Default, Debug)]
struct Seen {
    zero_words: [u32; HEADER_WORDS],
    above_3: u32,
    accepted: u32,
}

#[test]
fn no_sort_of_remains_is_rare_in_random_images() {
    let mut random = Random::new(12);
    let (mut seen, mut recoveries) = (Seen::default(), RecoveriesOfRemains::default());
    for _ in 0..20_000 {
        let sizes = Sizes::new(random.between(2, 8), random.between(2, 4)).unwrap();
        let mut store = crashed(any_image(&mut random, sizes));
        for header in Sizes::of(&store.persistent).map_or(Vec::new(), |sizes| sizes.headers(&store.persistent)) {
            if header.is_remains() {
                seen.zero_words[header.words().iter().filter(|&&word| word == 0).count()] += 1;
                seen.above_3 += u32::from(header.kind > DELETE);
            }
        }
        seen.accepted += u32::from(has_remains(&store.persistent) && judge(&store.persistent).is_ok());
        loop {
            let before = store.persistent.clone();
            let reply = simulate(&mut store, &Call::Recover);
            recoveries.note(&before, &store.persistent);
            if reply != WENT_ON {
                break;
            }
        }
    }
    println!("seed 12, 20000 images, {seen:?}, {recoveries}");
    let marks = [&seen.zero_words[1..], &[seen.above_3, seen.accepted]].concat();
    assert!(marks.iter().all(|&times| times >= 500), "{seen:?}");
    assert!(recoveries.are_at_least(100), "{recoveries}");
}

/// A mark that the memory copies word by word is whole with the last of them, in whatever order.
#[test]
fn a_mark_written_back_is_free_until_its_last_word() {
    let mut store = fresh(2, 1);
    make(&mut store, &[BEGIN, new(0, 9), END]);
    let mut words = line_written_back(3..7);
    for _ in 0..4 {
        let mut store = store.clone();
        for (number, word) in words.iter().enumerate() {
            make(&mut store, std::slice::from_ref(word));
            let free = if number < 3 { 2 } else { 1 };
            let counted = head_count(&bytes_of(&store.persistent));
            assert_eq!(counted, format!("free {free} surviving 0 kept 0 new {} total 2\n", 2 - free));
        }
        words.rotate_left(1);
    }
}
