//! A day of a busy board: 1,024 slots of 9 words and 16 threads, ten calls for each of 86,400 seconds, every one compared
//! with the simulator, and a crash now and then whose recovery is held against the reference map.
//! Started by hand: day SEED SECONDS STORES, with crashes at one of so many lasting stores, within it and after it.

use differential::library::{any, compare};
use differential::numbers;
use simulator::calls::{simulate, Call};
use simulator::generator::{calls_of, unformatted, Mix};
use simulator::random::Random;
use simulator::store::Store;
use simulator::trace::{replay_with_some_crashes, Counts, Trace};

const SLOTS: u32 = 1024;
const WORDS: u32 = 9;
const THREADS: u32 = 16;
const CALLS_A_SECOND: usize = 10;

fn main() {
    let [seed, seconds, stores] = numbers("day SEED SECONDS STORES");
    let mut random = Random::new(seed);
    let start = fresh(&mut random);
    let mut store = start.clone();
    let mix = Mix { advances: 30, batches: 4, keys: 900 };
    let events = calls_of(&mut random, &mut store, mix, seconds as usize * CALLS_A_SECOND);
    let mut counts = Counts::default();
    let trace = Trace { start, events };
    let mut compared = |store: &mut Store, call: &Call| compare(store, call, any);
    if let Err(what) = replay_with_some_crashes(&trace, &mut compared, &mut counts, stores) {
        panic!("seed {seed}: {what}");
    }
    let Counts { calls, crashes, went_on, torn, refusals, queue_cases, batch_cases, resave_cases, within_syncs } =
        &counts;
    let (first, last) = (trace.start.working[2], store.working[2]);
    println!(
        "{calls} calls on {SLOTS} slots and {THREADS} threads, clock {first} to {last}, {crashes} cuts, {torn}, no \
         difference, recover went on {went_on}, {within_syncs}, refusals by number {refusals:?}, {queue_cases}, {batch_cases}, \
         {resave_cases}, seed {seed}"
    );
}

fn fresh(random: &mut Random) -> Store {
    let mut store = unformatted(random, SLOTS, WORDS, THREADS);
    assert_eq!(simulate(&mut store, &Call::Format { slots: SLOTS, words: WORDS }), 0);
    store
}
