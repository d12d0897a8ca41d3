//! Random starts and random calls, most of them sensible for the store at hand.

use crate::calls::{image_words, refusal_of, simulate, transient_words, Call, WENT_ON};
use crate::changes::live_slot;
use crate::damage::{acceptable_image, any_clock, edge_word};
use crate::image::{job, Sizes, DELETE, JOBS, PREFIX};
use crate::lists::any_list;
use crate::queue::front;
use crate::random::Random;
use crate::store::{Entry, Store};
use crate::torn::any_mix;
use crate::trace::{Event, Trace};

/// A store whose three slices have the right lengths and hold any words.
pub fn unformatted(random: &mut Random, slots: u32, words: u32, threads: u32) -> Store {
    let image = image_words(slots, words);
    Store {
        working: random.junk(image),
        persistent: random.junk(image),
        transient: random.junk(transient_words(slots, threads)),
    }
}

/// What format left, or what recover left of an image it accepts or of an earlier run, which a cut within a store may have
/// ended.
pub fn start(random: &mut Random, slots: u32) -> Store {
    let most_words = random.pick(&[3, 4, 4, 9]);
    let words = random.between(2, most_words);
    let most_threads = random.pick(&[2, 3, 3, 16]);
    let threads = random.between(1, most_threads);
    let mut store = unformatted(random, slots, words, threads);
    if random.chance(50) {
        assert_eq!(simulate(&mut store, &Call::Format { slots, words }), 0);
    } else {
        let sizes = Sizes::new(slots, words).expect("the sizes are in range");
        let clock = any_clock(random);
        let filled = if random.chance(50) { slots as usize } else { slots as usize / 2 };
        store.persistent = acceptable_image(random, sizes, clock, filled);
        recover_fully(random, &mut store);
    }
    if random.chance(30) {
        some_calls(random, &mut store, 60);
        cut_within(random, &mut store, &Call::Advance);
        recover_fully(random, &mut store);
    }
    store
}

/// Recover calls up to "done", one of five of them cut within its store.
fn recover_fully(random: &mut Random, store: &mut Store) {
    loop {
        let reply =
            if random.chance(20) { cut_within(random, store, &Call::Recover) } else { simulate(store, &Call::Recover) };
        if reply != WENT_ON {
            return;
        }
    }
}

/// A call of whose store into the lasting image only some words arrive.
fn cut_within(random: &mut Random, store: &mut Store, call: &Call) -> u64 {
    let before = store.persistent.clone();
    let reply = simulate(store, call);
    store.persistent = any_mix(&before, &store.persistent, random);
    reply
}

/// A start and calls on it, made up by watching the simulator.
pub fn trace(random: &mut Random, slots: u32, length: usize) -> Trace {
    let start = start(random, slots);
    let events = some_calls(random, &mut start.clone(), length);
    Trace { start, events }
}

fn some_calls(random: &mut Random, store: &mut Store, length: usize) -> Vec<Event> {
    let slots = store.working[0];
    let mix = Mix { advances: random.pick(&[15, 45, 65]), batches: 4, keys: random.between(2, slots + 2) };
    calls_of(random, store, mix, length)
}

/// Calls on the store, which is left as they leave it.
pub fn calls_of(random: &mut Random, store: &mut Store, mix: Mix, length: usize) -> Vec<Event> {
    let mut events = Vec::new();
    while events.len() < length {
        let call = any_call(random, store, mix);
        if call == Call::Sync && random.chance(67) {
            events.extend(end_of_each(store));
            events.push(Event::Sync(words_within_a_sync(random, store)));
        } else {
            events.push(Event::Call(call));
        }
        simulate(store, events[events.len() - 1].call());
    }
    events
}

/// Ends the open operations, which would keep a sync from being accepted.
fn end_of_each(store: &mut Store) -> Vec<Event> {
    let threads = store.enter().map_or(0, |entry| entry.layout.threads as u32);
    let ends = (0..threads).map(|thread| Call::End { thread });
    ends.filter(|end| simulate(store, end) == 0).map(Event::Call).collect()
}

/// Up to four words before each advance call of a sync on this store, none where it is refused.
fn words_within_a_sync(random: &mut Random, store: &Store) -> Vec<Vec<usize>> {
    let mut store = store.clone();
    let reply = simulate(&mut store.clone(), &Call::Sync);
    let advances = if refusal_of(&Call::Sync, reply) == 0 { reply } else { 0 };
    let mut words = Vec::new();
    for _ in 0..advances {
        let mut before_it = Vec::new();
        for _ in 0..random.below(5) {
            let position = any_word(random, &store);
            simulate(&mut store, &Call::WriteBack { position });
            before_it.push(position);
        }
        words.push(before_it);
        simulate(&mut store, &Call::Advance);
    }
    words
}

/// A word of a mark or of contents, most often one that differs in the two images, and of these one of a mark.
fn any_word(random: &mut Random, store: &Store) -> usize {
    let length = store.working.len().min(store.persistent.len());
    let differing: Vec<usize> =
        (PREFIX..length).filter(|&position| store.working[position] != store.persistent[position]).collect();
    if differing.is_empty() || random.chance(20) {
        return PREFIX + random.below(length.saturating_sub(PREFIX).max(1));
    }
    let contents = Sizes::of(&store.working).map_or(length, |sizes| sizes.contents_line(0).start);
    let of_marks = differing.partition_point(|&position| position < contents);
    let part = if of_marks > 0 && random.chance(60) { &differing[..of_marks] } else { &differing };
    random.pick(part)
}

/// How often a call has to do with epochs, and how often one within an operation is a list of changes, both in percent;
/// and how many keys are in play.
#[derive(Clone, Copy)]
pub struct Mix {
    pub advances: usize,
    pub batches: usize,
    pub keys: u32,
}

/// A call of a run: any but format and recover.
pub fn any_call(random: &mut Random, store: &Store, mix: Mix) -> Call {
    if random.chance(mix.advances) {
        epoch_call(random, store)
    } else {
        thread_call(random, store, mix)
    }
}

pub fn epoch_call(random: &mut Random, store: &Store) -> Call {
    if random.chance(50) {
        if let Some(thread) = blocking_thread(store) {
            return Call::End { thread };
        }
    }
    match random.below(20) {
        0 => Call::Sync,
        1..=7 => word_written_back(random, store),
        _ => Call::Advance,
    }
}

/// A thread whose open operation keeps the next advance from starting.
fn blocking_thread(store: &Store) -> Option<u32> {
    let entry = store.enter().ok()?;
    let blocks = |&thread: &usize| entry.open(store, thread) == entry.clock - 1;
    (0..entry.layout.threads).find(blocks).map(|thread| thread as u32)
}

/// Now and then a word outside the marks and contents, or the first or last of them.
fn word_written_back(random: &mut Random, store: &Store) -> Call {
    let length = store.working.len();
    let edges = [0, 1, 2, 3, length.saturating_sub(1), length, length + 1, (1 << 32) + 3, usize::MAX];
    let position = if random.chance(10) { random.pick(&edges) } else { any_word(random, store) };
    Call::WriteBack { position }
}

/// Begin, end, a list of changes, a call on jobs or one on the queue.
pub fn thread_call(random: &mut Random, store: &Store, mix: Mix) -> Call {
    let entry = store.enter().ok();
    let threads = entry.map_or(2, |entry| entry.layout.threads);
    let thread = random.below(threads) as u32;
    let is_open = entry.is_some_and(|entry| entry.open(store, thread as usize) != 0);
    let thread = if random.chance(97) { thread } else { edge_word(random, threads as u32) };
    let roll = random.below(100);
    match (is_open, roll) {
        (true, 0..=17) | (false, 0..=4) => Call::End { thread },
        (true, 18..=20) | (false, 5..=79) => Call::Begin { thread },
        _ if random.chance(mix.batches) => Call::Batch { thread, list: any_list(random, store, thread, mix.keys) },
        _ if random.chance(50) => queue_call(random, store, entry, thread),
        _ => job_call(random, store, entry, thread, mix.keys),
    }
}

/// Append, take or look; where the queue is empty most often append.
fn queue_call(random: &mut Random, store: &Store, entry: Option<Entry>, thread: u32) -> Call {
    let is_empty = entry.is_some_and(|entry| front(store, &entry).is_none());
    match random.below(100) {
        0..=39 => Call::Append { thread, value: any_value(random, entry) },
        _ if is_empty && random.chance(75) => Call::Append { thread, value: any_value(random, entry) },
        40..=84 => Call::Take { thread },
        85..=94 => Call::Look { thread },
        _ => Call::LookRefusal { thread },
    }
}

/// A value, most often of the right length.
fn any_value(random: &mut Random, entry: Option<Entry>) -> Vec<u32> {
    let value_words = entry.map_or(1, |entry| entry.sizes.value_words());
    let length = if random.chance(97) { value_words } else { random.below(10) };
    random.junk(length)
}

/// A value for a set: that of the job of the key, that one with another word, or any.
pub fn value_to_set(random: &mut Random, store: &Store, entry: Option<Entry>, key: u32) -> Vec<u32> {
    let held =
        entry.and_then(|entry| live_slot(store, &entry, job(key)).map(|slot| entry.sizes.value(&store.working, slot)));
    match (random.below(4), held) {
        (0, Some(value)) => value,
        (1, Some(mut value)) => {
            let word = random.pick(&[0, value.len() - 1, value.len() - 1]);
            value[word] ^= 1 << random.below(32);
            value
        }
        _ => any_value(random, entry),
    }
}

/// New, set, delete or read.
fn job_call(random: &mut Random, store: &Store, entry: Option<Entry>, thread: u32, keys: u32) -> Call {
    let roll = random.below(100);
    let key = any_key(random, store, entry, keys, roll >= 35);
    match roll {
        0..=34 => Call::New { thread, key, value: any_value(random, entry) },
        35..=62 => Call::Set { thread, key, value: value_to_set(random, store, entry, key) },
        63..=88 => Call::Delete { thread, key },
        89..=95 => Call::Read { thread, key },
        _ => Call::ReadRefusal { thread, key },
    }
}

/// A key of the board, most often that of a live job where one is wanted; or that of a slot that looks like a job and is
/// none, a live one on another board (a queue entry, or what damage has put there) or one with remains.
pub fn any_key(random: &mut Random, store: &Store, entry: Option<Entry>, keys: u32, wants_held: bool) -> u32 {
    if random.chance(2) {
        return edge_word(random, keys);
    }
    let Some(entry) = entry else { return random.between(1, keys) };
    let looks_like_a_job = |&slot: &usize| {
        let header = entry.header(store, slot);
        entry.is_live(store, slot) || (header.is_remains() && (1..=DELETE).contains(&header.kind))
    };
    let is_job = |&slot: &usize| entry.is_live(store, slot) && entry.header(store, slot).board == JOBS;
    let (held, strays): (Vec<usize>, Vec<usize>) = entry.slots().filter(looks_like_a_job).partition(is_job);
    if !strays.is_empty() && random.chance(30) {
        entry.sizes.key(&store.working, random.pick(&strays))
    } else if !wants_held || random.chance(20) {
        random.between(1, keys)
    } else if held.is_empty() {
        1
    } else {
        entry.sizes.key(&store.working, random.pick(&held))
    }
}
