//! The index in the notes (02, No. 6): each way to change it worked out, and random runs in which it stays right.

mod common;

use common::{delete, fresh, make, mark, new, tick, BEGIN, END};
use simulator::calls::{simulate, Call, DONE, WENT_ON};
use simulator::damage::{damaged_store, wild_store};
use simulator::generator::{any_call, start, Mix};
use simulator::image::{Sizes, ALLOC, DELETE, JOBS, QUEUE, UPDATE};
use simulator::index::{anew, bucket, chain, insert, is_right, remove};
use simulator::index_cases::IndexCases;
use simulator::index_damage::damage_index;
use simulator::random::Random;
use simulator::store::Store;
use simulator::stored::{image_with, queued, with_mark};
use simulator::transient::Layout;

/// The words of the index on a board of four slots: buckets, then links.
fn index(store: &Store) -> [u32; 8] {
    let layout = Layout::of(store.transient.len(), 4).unwrap();
    store.transient[layout.index()].try_into().unwrap()
}

#[test]
fn names_have_these_buckets() {
    assert_eq!(
        [1, 2, 3, 4, 5, 6, 7, 8, 9, 10, 11].map(|key| bucket(4, (JOBS, key))),
        [1, 1, 2, 2, 2, 3, 3, 3, 3, 0, 0]
    );
    assert_eq!([1, 2, 3, 4, 5, 6].map(|key| bucket(4, (QUEUE, key))), [3, 0, 0, 0, 1, 3]);
    assert_eq!([1, 2, 9, 12].map(|key| bucket(1024, (JOBS, key))), [433, 506, 1016, 844]);
    assert_eq!(bucket(1024, (u32::MAX, u32::MAX)), 780, "no product wraps");
    assert_eq!(
        [(0, 0), (JOBS, 0), (JOBS, u32::MAX), (QUEUE, 4_000_000_000)].map(|name| bucket(1024, name)),
        [0, 361, 288, 873]
    );
}

#[test]
fn the_notes_end_in_buckets_and_links() {
    let layout = Layout::new(4, 2).unwrap();
    assert_eq!((layout.bucket(0), layout.link(0), layout.words()), (76, 80, 84));
    assert_eq!((layout.retired(3), layout.bucket(3), layout.link(3), layout.index()), (75, 79, 83, 76..84));
}

/// Jobs 6 to 9 and entry 1 have bucket 3, job 10 has bucket 0.
#[test]
fn slots_join_and_leave_chains() {
    let mut store = fresh(4, 1);
    let mut after = |call: Call, wanted: [u32; 8]| {
        simulate(&mut store, &call);
        assert_eq!(index(&store), wanted, "{call:?}");
        assert!(is_right(&store), "{call:?}");
    };
    after(BEGIN, [0; 8]);
    after(new(0, 6), [0, 0, 0, 1, 0, 0, 0, 0]);
    after(new(0, 7), [0, 0, 0, 1, 2, 0, 0, 0]);
    after(new(0, 10), [3, 0, 0, 1, 2, 0, 0, 0]);
    after(delete(0, 6), [3, 0, 0, 2, 2, 0, 0, 0]);
    after(new(0, 8), [3, 0, 0, 2, 2, 4, 0, 0]);
    after(delete(0, 8), [3, 0, 0, 2, 2, 0, 0, 0]);
    after(new(0, 9), [3, 0, 0, 1, 2, 0, 0, 0]);
    after(delete(0, 7), [3, 0, 0, 1, 0, 0, 0, 0]);
    after(Call::Append { thread: 0, value: vec![5] }, [3, 0, 0, 1, 2, 0, 0, 0]);
    after(Call::Take { thread: 0 }, [3, 0, 0, 1, 0, 0, 0, 0]);
    after(END, [3, 0, 0, 1, 0, 0, 0, 0]);
}

/// A set and a delete in place change no word of it; a new version joins, and what is due leaves.
#[test]
fn versions_join_and_what_is_reclaimed_leaves() {
    let mut store = fresh(4, 1);
    make(&mut store, &[BEGIN, new(0, 9), Call::Set { thread: 0, key: 9, value: vec![1] }, END]);
    assert_eq!(index(&store), [0, 0, 0, 1, 0, 0, 0, 0]);
    tick(&mut store);
    make(&mut store, &[BEGIN, Call::Set { thread: 0, key: 9, value: vec![2] }]);
    assert_eq!(index(&store), [0, 0, 0, 1, 2, 0, 0, 0], "both versions");
    make(&mut store, &[delete(0, 9), new(0, 10), END]);
    assert_eq!((mark(&store.working, 1)[0], index(&store)), (DELETE, [3, 0, 0, 1, 2, 0, 0, 0]), "in its own slot");
    tick(&mut store);
    make(&mut store, &[BEGIN, delete(0, 10), END]);
    assert_eq!(index(&store), [3, 0, 0, 1, 2, 0, 4, 0], "the DELETE of an older job joins");
    tick(&mut store);
    assert_eq!((store.working[2], index(&store)), (5, [3, 0, 0, 1, 2, 0, 4, 0]));
    tick(&mut store);
    assert_eq!(index(&store), [3, 0, 0, 2, 2, 0, 4, 0], "retired in 3, freed by the advance from 5");
    tick(&mut store);
    assert_eq!(index(&store), [4, 0, 0, 0, 2, 0, 4, 0], "the DELETE of 3 and the job retired in 4");
    tick(&mut store);
    assert_eq!(index(&store), [0, 0, 0, 0, 2, 0, 4, 0], "the DELETE of 4");
}

#[test]
fn recovery_rebuilds_it_and_format_empties_it() {
    let filled = [(ALLOC, 5, 4, 9), (UPDATE, 6, 5, 10), (ALLOC, 4, 6, 6), (ALLOC, 3, 7, 1)];
    let image = queued(image_with(4, 2, 9, &filled), &[3]);
    let notes = Layout::new(4, 1).unwrap().words();
    let mut store = Store { working: vec![7; image.len()], persistent: image.clone(), transient: vec![7; notes] };
    assert_eq!(simulate(&mut store, &Call::Recover), DONE);
    assert_eq!(index(&store), [2, 0, 0, 1, 3, 0, 4, 0]);
    assert!(is_right(&store));
    store = Store { working: vec![7; image.len()], persistent: with_mark(image, 0, [DELETE, 5, 4, JOBS]), ..store };
    let before = store.clone();
    assert_eq!(simulate(&mut store, &Call::Recover), WENT_ON);
    assert_eq!(store.transient, before.transient, "a recover call that goes on leaves it alone");
    assert_eq!(simulate(&mut store, &Call::Recover), DONE);
    assert_eq!(index(&store), [2, 0, 0, 3, 0, 0, 4, 0]);
    make(&mut store, &[Call::Format { slots: 4, words: 2 }]);
    assert_eq!(index(&store), [0; 8]);
}

/// What ends a chain: 0, a word above N, a link back and a link of a slot to itself. A ring is none.
#[test]
fn every_walk_ends() {
    let layout = Layout::new(4, 1).unwrap();
    let slots = |words: [u32; 8]| {
        let notes = [&vec![0; layout.index().start][..], &words].concat();
        chain(&notes, layout, 0).collect::<Vec<usize>>()
    };
    assert_eq!(slots([1, 0, 0, 0, 3, 0, 4, 0]), [0, 2, 3]);
    for end in [0, 1, 2, 3, 5, u32::MAX] {
        assert_eq!(slots([1, 0, 0, 0, 3, 4, end, 0]), [0, 2], "{end}");
    }
    for none in [0, 5, u32::MAX] {
        assert!(slots([none, 2, 3, 4, 2, 3, 4, 1]).is_empty(), "{none}");
    }
}

/// By the words, whatever they are: slot 2 on the chain of job 9 (bucket 3), where slot 0 may stand before it.
#[test]
fn a_damaged_index_is_changed_by_its_words() {
    let layout = Layout::new(4, 1).unwrap();
    let changed = |change: fn(&mut [u32], Layout), words: [u32; 8]| {
        let mut notes = [&vec![0; layout.index().start][..], &words].concat();
        change(&mut notes, layout);
        <[u32; 8]>::try_from(&notes[layout.index()]).unwrap()
    };
    let joins = |notes: &mut [u32], layout: Layout| insert(notes, layout, (JOBS, 9), 2);
    let leaves = |notes: &mut [u32], layout: Layout| remove(notes, layout, (JOBS, 9), 2);
    assert_eq!(changed(joins, [9, 9, 9, 9, 9, 9, 9, 9]), [9, 9, 9, 3, 9, 9, 9, 9]);
    assert_eq!(changed(joins, [0, 0, 0, 1, 1, 0, 0, 0]), [0, 0, 0, 1, 3, 0, 1, 0], "a link of slot 0 to itself");
    assert_eq!(changed(joins, [0, 0, 0, 3, 0, 0, 4, 0]), [0, 0, 0, 3, 0, 0, 3, 0], "it stands there already");
    assert_eq!(changed(leaves, [0, 0, 0, 1, 0, 0, 4, 0]), [0, 0, 0, 1, 4, 0, 4, 0], "it does not stand there");
    assert_eq!(changed(leaves, [0, 0, 0, 3, 0, 0, 2, 0]), [0, 0, 0, 0, 0, 0, 2, 0], "its link leads back");
    assert_eq!(changed(leaves, [0, 0, 0, 3, 0, 0, 9, 0]), [0, 0, 0, 9, 0, 0, 9, 0], "its link is above N");
}

#[test]
fn a_wrong_index_is_told_from_a_right_one() {
    let mut store = fresh(4, 1);
    make(&mut store, &[BEGIN, new(0, 6), new(0, 10), new(0, 7)]);
    assert_eq!(index(&store), [2, 0, 0, 1, 3, 0, 0, 0]);
    let layout = Layout::new(4, 1).unwrap();
    let with = |place: usize, word: u32| {
        let mut other = store.clone();
        other.transient[layout.index().start + place] = word;
        is_right(&other)
    };
    assert!(is_right(&store) && with(0, 2) && with(5, 1) && with(6, 3) && with(6, 9) && with(7, 4) && with(1, 9));
    for (place, word) in [(0, 0), (0, 4), (0, 1), (3, 0), (3, 3), (4, 0), (4, 4), (5, 3), (6, 4), (1, 1), (2, 4)] {
        assert!(!with(place, word), "word {place} of the index {word}");
    }
    let mut freed = store.clone();
    let sizes = Sizes::of(&store.working).unwrap();
    freed.working[sizes.header_line(1).start] = 0;
    let mut renamed = store.clone();
    renamed.working[sizes.contents_line(1).start] = 6;
    assert!(!is_right(&freed) && !is_right(&renamed));
}

#[test]
fn it_is_right_after_every_call_of_a_run() {
    let mut random = Random::new(6);
    let mut cases = IndexCases::default();
    let mut calls = 0;
    for run in 0..10_000 {
        let most = random.pick(&[4, 8, 16, 40]);
        let slots = random.between(2, most);
        let mut store = start(&mut random, slots);
        let mix = Mix { advances: random.pick(&[15, 45, 65]), batches: 4, keys: random.between(2, slots + 2) };
        assert!(is_right(&store), "run {run}, start {store:?}");
        for _ in 0..100 {
            let call = if random.chance(2) { Call::Recover } else { any_call(&mut random, &store, mix) };
            let before = store.clone();
            let reply = simulate(&mut store, &call);
            calls += 1;
            cases.note(&before, &call, reply, &store);
            if call == Call::Recover && reply == WENT_ON {
                while simulate(&mut store, &call) == WENT_ON {}
            }
            assert!(is_right(&store), "run {run}: {call:?} on {before:?}");
        }
    }
    println!("seed 6, {calls} calls, {cases}");
    assert!(cases.are_at_least(200), "too few of some sort: {cases}");
}

/// A store that passes the check at entry has a right index; with the index damaged it has a wrong one, and nothing else
/// differs.
#[test]
fn random_stores_have_a_right_index_until_it_is_damaged() {
    let mut random = Random::new(8);
    let (mut entered, mut odd, mut wrong) = (0, 0, 0);
    for _ in 0..20_000 {
        let slots = random.between(2, 9);
        let store = if random.chance(50) {
            wild_store(&mut random, slots)
        } else {
            let run = start(&mut random, slots);
            damaged_store(&mut random, &run)
        };
        let Ok(entry) = store.enter() else { continue };
        assert!(is_right(&store), "{store:?}");
        let mut rebuilt = store.clone();
        anew(&mut rebuilt);
        assert!(is_right(&rebuilt), "{rebuilt:?}");
        let mut damaged = store.clone();
        damage_index(&mut random, &mut damaged);
        entered += 1;
        odd += u32::from(rebuilt != store);
        wrong += u32::from(!is_right(&damaged));
        damaged.transient.truncate(entry.layout.index().start);
        let before_the_index = store.transient[..entry.layout.index().start].to_vec();
        assert_eq!(damaged, Store { transient: before_the_index, ..store });
    }
    println!("seed 8, {entered} stores, {odd} with odd words left over, {wrong} with a damaged index");
    assert!(entered >= 10_000 && odd >= 4000 && wrong >= 7000, "{entered} entered, {odd} odd, {wrong} wrong");
}
