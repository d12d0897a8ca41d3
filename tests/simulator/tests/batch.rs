//! One call for a whole round (02, No. 5): it equals its changes made one by one up to the first that declines.

mod common;

use common::{delete, fresh, make, mark, new, tick, BEGIN, END};
use simulator::batch::{Outcome, DELETE, NEW, SET};
use simulator::batch_cases::BatchCases;
use simulator::calls::{refusal_of, simulate, Call, WENT_ON};
use simulator::damage::{damaged_store, wild_store};
use simulator::generator::{any_call, start, Mix};
use simulator::image::{job, ALLOC, JOBS, LARGEST};
use simulator::lists::any_list;
use simulator::random::Random;
use simulator::recovery::surviving_entries;
use simulator::store::Store;
use simulator::trace::{replay, simulated, Counts, Event, Trace};
use simulator::transient::NEXT_UID;

/// The words of a change: kind, key and, with W 2, one value word.
type Change = [u32; 3];

fn batch(thread: u32, changes: &[Change]) -> Call {
    Call::Batch { thread, list: changes.concat() }
}

/// What a list of thread 0 comes to: how many changes are accepted, and the refusal that ends it.
fn outcome(store: &mut Store, changes: &[Change]) -> (u32, u32) {
    outcome_of(store, &batch(0, changes))
}

fn outcome_of(store: &mut Store, call: &Call) -> (u32, u32) {
    let Outcome { accepted, refusal } = Outcome::of(simulate(store, call));
    (accepted, refusal)
}

/// So many new jobs, from this key on.
fn news(first: u32, count: u32) -> Vec<Change> {
    (first..first + count).map(|key| [NEW, key, key]).collect()
}

/// A board of 8 slots with job 5 of an older epoch and an operation of thread 0 open.
fn with_job_5() -> Store {
    let mut store = fresh(8, 2);
    make(&mut store, &[BEGIN, new(0, 5), END]);
    tick(&mut store);
    make(&mut store, &[BEGIN]);
    store
}

/// The list ends so, and leaves what these calls leave.
fn leaves(store: &Store, changes: &[Change], wanted: (u32, u32), calls: &[Call]) {
    let [mut by_list, mut by_calls] = [store.clone(), store.clone()];
    assert_eq!(outcome(&mut by_list, changes), wanted, "{changes:?}");
    make(&mut by_calls, calls);
    assert_eq!(by_list, by_calls, "{changes:?}");
}

/// The list is refused with none accepted, and changes nothing.
fn declines(store: &Store, call: &Call, refusal: u32) {
    let mut after = store.clone();
    let reply = simulate(&mut after, call);
    assert_eq!((Outcome::of(reply), refusal_of(call, reply)), (Outcome { accepted: 0, refusal }, refusal), "{call:?}");
    assert_eq!(after, *store, "{call:?}");
}

#[test]
fn a_list_equals_its_calls() {
    let set = Call::Set { thread: 0, key: 5, value: vec![50] };
    let store = with_job_5();
    leaves(&store, &[[NEW, 6, 6], [SET, 5, 50], [NEW, 7, 7]], (3, 0), &[new(0, 6), set.clone(), new(0, 7)]);
    leaves(&store, &[[DELETE, 5, 1]], (1, 0), &[delete(0, 5)]);
    leaves(&store, &[[SET, 5, 50], [SET, 5, 50]], (2, 0), &[set.clone(), set]);
}

/// "how many were accepted and that refusal": the low and the high half of the number. "The call as a whole counts as
/// declining only when it refuses with none accepted".
#[test]
fn the_number_has_both_halves() {
    let ended = batch(0, &[[NEW, 6, 6], [NEW, 7, 7], [NEW, 7, 7], [NEW, 8, 8]]);
    let declined = batch(0, &[[SET, 6, 6], [NEW, 7, 7]]);
    let whole = batch(0, &[[NEW, 6, 6], [NEW, 7, 7]]);
    let replies = [&ended, &declined, &whole].map(|call| simulate(&mut with_job_5(), call));
    assert_eq!(replies, [11 * 4_294_967_296 + 2, 10 * 4_294_967_296, 2]);
    assert_eq!(
        [refusal_of(&ended, replies[0]), refusal_of(&declined, replies[1]), refusal_of(&whole, replies[2])],
        [0, 10, 0]
    );
}

#[test]
fn an_empty_list_is_accepted_with_0() {
    let store = with_job_5();
    leaves(&store, &[], (0, 0), &[]);
    assert_eq!(simulate(&mut store.clone(), &batch(0, &[])), 0);
}

/// "1, 2, 5 and 7 come first, for an empty list too": also before the 8 of a list that is too long, not of whole changes or
/// begins with an unknown kind.
#[test]
fn the_store_and_the_thread_are_judged_first() {
    let lists = [vec![], news(6, 65).concat(), vec![NEW, 6], vec![4, 0, 0], vec![NEW, 6, 6]];
    for list in lists {
        let of = |thread: u32| Call::Batch { thread, list: list.clone() };
        let open = with_job_5();
        let mut shorter = open.clone();
        shorter.working.pop();
        declines(&shorter, &of(0), 1);
        let mut later = open.clone();
        later.working[2] += 1;
        declines(&later, &of(0), 2);
        declines(&open, &of(2), 5);
        declines(&open, &of(u32::MAX), 5);
        declines(&open, &of(1), 7);
    }
}

/// "then 8 for a list longer than 64 or not of whole changes, before any change is tried": the first change would be
/// accepted, or refused with 11.
#[test]
fn a_list_of_a_wrong_length_declines_with_8() {
    let mut store = fresh(100, 1);
    make(&mut store, &[BEGIN, new(0, 5)]);
    for first in [6, 5] {
        let list = news(first, 66).concat();
        for length in [1, 2, 4, 5, 64 * 3 - 1, 64 * 3 + 1, 64 * 3 + 2, 65 * 3, 65 * 3 + 1, 66 * 3] {
            declines(&store, &Call::Batch { thread: 0, list: list[..length].to_vec() }, 8);
        }
    }
    for count in [1, 63, 64] {
        let changes = news(6, count);
        let calls: Vec<Call> = (6..6 + count).map(|key| new(0, key)).collect();
        leaves(&store, &changes, (count, 0), &calls);
    }
    assert_eq!(outcome(&mut store, &news(6, 64)), (64, 0));
}

/// A change is W + 1 words whatever W is: three words are a change with W 2 and half of one with W 5.
#[test]
fn the_length_of_a_change_goes_by_w() {
    for words in [2, 5, 9] {
        let mut store = simulator::generator::unformatted(&mut Random::new(1), 4, words, 1);
        make(&mut store, &[Call::Format { slots: 4, words }, BEGIN]);
        for length in 1..=words as usize {
            declines(&store, &Call::Batch { thread: 0, list: vec![NEW; length] }, 8);
        }
        let list = vec![NEW; words as usize + 1];
        assert_eq!(outcome_of(&mut store, &Call::Batch { thread: 0, list }), (1, 0));
    }
}

/// "an unknown kind of change gives 8 in its turn", whatever its key: 0, one that is there, one that is not, one that a later
/// epoch has changed.
#[test]
fn an_unknown_kind_gives_8_in_its_turn() {
    let mut store = with_job_5();
    tick(&mut store);
    make(&mut store, &[Call::Begin { thread: 1 }, new(1, 9)]);
    for kind in [0, 4, 5, 1 << 31, u32::MAX] {
        for key in [0, 5, 6, 9] {
            declines(&store, &batch(0, &[[kind, key, 1], [NEW, 7, 7]]), 8);
            leaves(&store, &[[NEW, 7, 7], [kind, key, 1], [NEW, 8, 8]], (1, 8), &[new(0, 7)]);
            leaves(&store, &[[NEW, 7, 7], [NEW, 8, 8], [kind, key, 1]], (2, 8), &[new(0, 7), new(0, 8)]);
        }
        leaves(&store, &[[NEW, 5, 5], [kind, 6, 1]], (0, 11), &[]);
    }
}

#[test]
fn key_0_gives_8_in_its_turn() {
    for kind in [NEW, SET, DELETE] {
        declines(&with_job_5(), &batch(0, &[[kind, 0, 1], [NEW, 7, 7]]), 8);
        leaves(&with_job_5(), &[[NEW, 7, 7], [kind, 0, 1], [NEW, 8, 8]], (1, 8), &[new(0, 7)]);
    }
}

/// The refusals of a change are those of its own call; what was accepted stands, and nothing after it is tried.
#[test]
fn a_list_ends_at_its_first_refusal() {
    let store = with_job_5();
    let ended_by = |change: Change, refusal: u32| {
        declines(&store, &batch(0, &[change, [NEW, 7, 7]]), refusal);
        leaves(&store, &[[NEW, 6, 6], change, [NEW, 7, 7]], (1, refusal), &[new(0, 6)]);
        leaves(&store, &[[NEW, 6, 6], [NEW, 8, 8], change], (2, refusal), &[new(0, 6), new(0, 8)]);
    };
    ended_by([SET, 9, 1], 10);
    ended_by([DELETE, 9, 1], 10);
    ended_by([NEW, 5, 1], 11);
}

#[test]
fn a_list_ends_where_a_later_epoch_has_changed_the_job() {
    let mut store = with_job_5();
    tick(&mut store);
    make(&mut store, &[Call::Begin { thread: 1 }, delete(1, 5)]);
    for kind in [NEW, SET, DELETE] {
        declines(&store, &batch(0, &[[kind, 5, 1], [NEW, 6, 6]]), 9);
        leaves(&store, &[[NEW, 6, 6], [kind, 5, 1], [NEW, 7, 7]], (1, 9), &[new(0, 6)]);
    }
}

#[test]
fn a_list_ends_where_no_uid_is_left() {
    let mut store = with_job_5();
    store.transient[NEXT_UID] = LARGEST;
    leaves(&store, &[[NEW, 6, 6], [NEW, 7, 7], [DELETE, 5, 5]], (1, 12), &[new(0, 6)]);
    leaves(&store, &[[NEW, 6, 6], [DELETE, 5, 5], [NEW, 7, 7]], (2, 12), &[new(0, 6), delete(0, 5)]);
}

/// Of 8 slots one has job 5, and a new job needs two free ones: six can be made. Then a delete of the older job still goes.
#[test]
fn a_list_ends_where_the_board_is_full() {
    let six: Vec<Call> = (11..17).map(|key| new(0, key)).collect();
    leaves(&with_job_5(), &news(11, 20), (6, 13), &six);
    let mut store = with_job_5();
    assert_eq!(outcome(&mut store, &news(11, 6)), (6, 0));
    declines(&store, &batch(0, &news(17, 2)), 13);
    leaves(&store, &[[SET, 5, 1], [DELETE, 5, 1]], (0, 13), &[]);
    leaves(&store, &[[DELETE, 5, 1], [NEW, 17, 17]], (1, 13), &[delete(0, 5)]);
}

/// Each change finds what those before it have left, in the slots and in the notes.
#[test]
fn a_change_sees_those_before_it() {
    let mut store = with_job_5();
    assert_eq!(outcome(&mut store, &[[NEW, 6, 1], [SET, 6, 2], [DELETE, 6, 3], [NEW, 6, 4]]), (4, 0));
    assert_eq!(mark(&store.working, 1), [0; 4], "freed at once");
    assert_eq!(mark(&store.working, 2), [ALLOC, 3, 3, JOBS]);
    assert_eq!(surviving_value(&store, 6), Some(4));
    let mut store = with_job_5();
    assert_eq!(outcome(&mut store, &[[DELETE, 5, 1], [NEW, 5, 2], [SET, 5, 3]]), (3, 0));
    assert_eq!(surviving_value(&store, 5), Some(3));
    leaves(&with_job_5(), &[[DELETE, 5, 1], [DELETE, 5, 1]], (1, 10), &[delete(0, 5)]);
    leaves(&with_job_5(), &[[NEW, 6, 6], [NEW, 6, 6]], (1, 11), &[new(0, 6)]);
    leaves(&with_job_5(), &[[DELETE, 5, 1], [SET, 5, 1]], (1, 10), &[delete(0, 5)]);
}

/// The value that a crash leaves of a job once its operation has ended and two ticks are over.
fn surviving_value(store: &Store, key: u32) -> Option<u32> {
    let mut store = store.clone();
    make(&mut store, &[END]);
    assert_eq!(refusal_of(&Call::Sync, simulate(&mut store, &Call::Sync)), 0);
    value_after_crash(&store, key)
}

fn value_after_crash(store: &Store, key: u32) -> Option<u32> {
    let mut crashed = store.clone();
    while simulate(&mut crashed, &Call::Recover) == WENT_ON {}
    surviving_entries(&crashed.working).unwrap().get(&job(key)).map(|value| value[0])
}

/// "V value words, which delete ignores"
#[test]
fn delete_ignores_its_value_words() {
    for value in [0, 5, u32::MAX] {
        leaves(&with_job_5(), &[[DELETE, 5, value]], (1, 0), &[delete(0, 5)]);
        leaves(&with_job_5(), &[[NEW, 6, 6], [DELETE, 6, value]], (2, 0), &[new(0, 6), delete(0, 6)]);
    }
}

/// "for the guarantee after a cut it counts as these": of a list that 11 ends, the accepted changes are lost with their
/// operation and kept with it.
#[test]
fn a_cut_keeps_or_loses_the_accepted_changes() {
    let mut store = with_job_5();
    assert_eq!(outcome(&mut store, &[[NEW, 6, 60], [SET, 5, 50], [NEW, 6, 61], [NEW, 7, 70]]), (2, 11));
    make(&mut store, &[END]);
    let left = |store: &Store| [5, 6, 7].map(|key| value_after_crash(store, key));
    tick(&mut store);
    assert_eq!((store.persistent[2], left(&store)), (4, [Some(5), None, None]));
    tick(&mut store);
    assert_eq!((store.persistent[2], left(&store)), (5, [Some(50), Some(60), None]));
}

/// A run of two lists, the first ended by 11 with a change left after it, with a crash at every store.
fn run_of_two_lists(engine: &mut dyn FnMut(&mut Store, &Call) -> Result<u64, String>) -> Result<(), String> {
    let ended = batch(0, &[[NEW, 6, 6], [NEW, 5, 5], [NEW, 7, 7]]);
    let calls = [BEGIN, new(0, 5), ended, batch(0, &[[SET, 5, 50], [NEW, 8, 8]]), END, Call::Sync];
    let trace = Trace { start: fresh(8, 1), events: calls.into_iter().map(Event::Call).collect() };
    replay(&trace, engine, &mut Counts::default())
}

/// What a run has to notice: a list that goes on after a refusal, one that counts the refused change, one that reports what
/// it does not make, one that stops early, and one that names another refusal.
#[test]
fn a_run_notices_a_list_that_differs_from_its_changes() {
    assert_eq!(run_of_two_lists(&mut simulated), Ok(()));
    let goes_on = |store: &mut Store, thread: u32, list: &[u32]| {
        let reply = simulate(&mut store.clone(), &Call::Batch { thread, list: list.to_vec() });
        for change in list.chunks(3) {
            simulate(store, &Call::Batch { thread, list: change.to_vec() });
        }
        reply
    };
    let counts_one_more = |store: &mut Store, thread: u32, list: &[u32]| {
        let reply = simulate(store, &Call::Batch { thread, list: list.to_vec() });
        reply + u64::from(Outcome::of(reply).refusal != 0)
    };
    let makes_none = |_: &mut Store, _: u32, list: &[u32]| list.len() as u64 / 3;
    let stops_early = |store: &mut Store, thread: u32, list: &[u32]| {
        simulate(store, &Call::Batch { thread, list: list[..3].to_vec() })
    };
    let names_another = |store: &mut Store, thread: u32, list: &[u32]| {
        let Outcome { accepted, refusal } = Outcome::of(simulate(store, &Call::Batch { thread, list: list.to_vec() }));
        Outcome { accepted, refusal: if refusal == 11 { 10 } else { refusal } }.number()
    };
    let wrong: [&dyn Fn(&mut Store, u32, &[u32]) -> u64; 5] =
        [&goes_on, &counts_one_more, &makes_none, &stops_early, &names_another];
    for (number, batch) in wrong.into_iter().enumerate() {
        let mut engine = |store: &mut Store, call: &Call| match call {
            Call::Batch { thread, list } => Ok(batch(store, *thread, list)),
            call => simulated(store, call),
        };
        assert!(run_of_two_lists(&mut engine).is_err(), "wrong list {number}");
    }
}

/// The same by calls alone. The refusals of an end are 1, 2, 5 and 7.
fn one_by_one(store: &mut Store, thread: u32, list: &[u32]) -> (u32, u32) {
    let first = simulate(&mut store.clone(), &Call::End { thread }) as u32;
    if first != 0 {
        return (0, first);
    }
    let words = store.working[1] as usize + 1;
    if list.len() % words != 0 || list.len() > 64 * words {
        return (0, 8);
    }
    for (number, change) in list.chunks(words).enumerate() {
        let (key, value) = (change[1], change[2..].to_vec());
        let reply = match change[0] {
            1 => simulate(store, &Call::New { thread, key, value }),
            2 => simulate(store, &Call::Set { thread, key, value }),
            3 => simulate(store, &Call::Delete { thread, key }),
            _ => 8,
        };
        if reply != 0 {
            return (number as u32, reply as u32);
        }
    }
    ((list.len() / words) as u32, 0)
}

/// On what runs, damage and chance leave: replies and every word.
#[test]
fn on_any_store_a_list_equals_its_changes_one_by_one() {
    let mut random = Random::new(13);
    let mut seen = BatchCases::default();
    for round in 0..30_000 {
        let slots = random.between(2, 9);
        let mut store = if random.chance(40) { wild_store(&mut random, slots) } else { start(&mut random, slots) };
        for _ in 0..8 {
            let call = any_call(&mut random, &store, Mix { advances: 20, batches: 20, keys: 6 });
            simulate(&mut store, &call);
        }
        if random.chance(30) {
            store = damaged_store(&mut random, &store);
        }
        for _ in 0..3 {
            let thread = if random.chance(95) { random.between(0, 1) } else { random.between(0, 20) };
            let list = any_list(&mut random, &store, thread, 6);
            let call = Call::Batch { thread, list: list.clone() };
            let (before, mut by_calls) = (store.clone(), store.clone());
            let wanted = one_by_one(&mut by_calls, thread, &list);
            assert_eq!(outcome_of(&mut store, &call), wanted, "round {round}, {list:?} on {before:?}");
            assert_eq!(store, by_calls, "round {round}, {list:?} on {before:?}");
            let (accepted, refusal) = wanted;
            seen.note(&before, &call, Outcome { accepted, refusal }.number());
        }
    }
    println!("seed 13, 90000 lists, {seen}");
    assert!(seen.are_at_least(100), "too few of some sort: {seen}");
}
