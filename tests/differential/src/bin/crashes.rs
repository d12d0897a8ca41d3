//! Runs of all calls with a crash after every lasting store and within it, also in a sync and after the words that the
//! memory writes back there, each recovery held against the reference map, with cuts within its own stores; and the same
//! calls on damaged and wild stores.
//! Usage: crashes SEED RUNS

use differential::library::{any, compare};
use differential::numbers;
use simulator::calls::{refusal_of, simulate, Call};
use simulator::damage::{any_image, damaged_store, wild_store};
use simulator::generator::{any_call, trace, Mix};
use simulator::image::{Sizes, CLOCK, LARGEST};
use simulator::random::Random;
use simulator::store::Store;
use simulator::trace::{replay, shrink, Counts, Torn, Trace, WithinSyncs};

const CALLS_OF_A_RUN: usize = 300;

fn main() {
    let [seed, runs] = numbers("crashes SEED RUNS");
    let mut counts = Counts::default();
    let (mut starts_low, mut starts_high) = (0, 0);
    for run in 0..runs {
        let mut random = Random::new(seed.wrapping_add(run));
        let slots = any_slots(&mut random);
        let trace = trace(&mut random, slots, CALLS_OF_A_RUN);
        let clock = trace.start.persistent[CLOCK];
        starts_low += u64::from(clock < 20);
        starts_high += u64::from(clock > LARGEST - 20);
        let checked = replay(&trace, &mut compared, &mut counts)
            .map_err(|_| shrink(trace.clone(), &mut compared))
            .and_then(|()| side_steps(&mut random, &trace, &mut counts));
        if let Err(what) = checked {
            panic!("run {run} of seed {seed}: {what}");
        }
    }
    let Counts { calls, crashes, went_on, torn, refusals, queue_cases, batch_cases, resave_cases, within_syncs } =
        &counts;
    println!(
        "{runs} runs, {calls} calls, {crashes} cuts, {torn}, no difference, recover went on {went_on}, {within_syncs}, \
         starts near 2 {starts_low} and near {LARGEST} {starts_high}, refusals by number {refusals:?}, {queue_cases}, \
         {batch_cases}, {resave_cases}, seed {seed}"
    );
    assert!(refusals[1..].iter().all(|&seen| seen >= 100), "too few of some refusal");
    let least = Torn { headers: 100 * runs, contents: 40 * runs, recovers: 100 * runs, remains: 100 * runs };
    assert!(torn.are_at_least(least), "too few cuts within a store");
    let least = WithinSyncs { syncs: 2 * runs, underway: runs / 2, words: 20 * runs, changing: 4 * runs };
    assert!(within_syncs.are_at_least(least), "too little written back within syncs");
    assert!(queue_cases.of_runs_are_at_least(100), "too few of some sort of queue calls");
    assert!(batch_cases.of_runs_are_at_least(100), "too few of some sort of batches");
    assert!(resave_cases.are_at_least(100), "too few of some sort of sets of the value that a job has");
    assert!(starts_low >= 100 && starts_high >= 100, "too few starts near some end of the clock");
}

fn compared(store: &mut Store, call: &Call) -> Result<u64, String> {
    compare(store, call, any)
}

fn any_slots(random: &mut Random) -> u32 {
    match random.below(10) {
        0..=5 => random.between(2, 8),
        6..=8 => random.between(9, 24),
        _ => random.between(25, 64),
    }
}

/// Calls that are no part of the run: on damaged copies of what it came to, on a wild store, and recoveries of
/// images of any sort.
fn side_steps(random: &mut Random, trace: &Trace, counts: &mut Counts) -> Result<(), String> {
    let mut end = trace.start.clone();
    for event in &trace.events {
        simulate(&mut end, event.call());
    }
    for _ in 0..4 {
        let damaged = damaged_store(random, &end);
        calls_on(random, damaged, 4, counts)?;
    }
    let wild = wild_store(random, end.working[0].min(9));
    calls_on(random, wild, 30, counts)?;
    let sizes = Sizes::of(&end.persistent).expect("a run keeps the sizes");
    for _ in 0..3 {
        end.persistent = any_image(random, sizes);
        count(&mut end, &Call::Recover, counts)?;
    }
    Ok(())
}

fn calls_on(random: &mut Random, mut store: Store, number: usize, counts: &mut Counts) -> Result<(), String> {
    for _ in 0..number {
        let call = any_call(random, &store, Mix { advances: 60, batches: 10, keys: 4 });
        count(&mut store, &call, counts)?;
    }
    Ok(())
}

fn count(store: &mut Store, call: &Call, counts: &mut Counts) -> Result<(), String> {
    let reply = compared(store, call)?;
    counts.calls += 1;
    match refusal_of(call, reply) {
        0 => {}
        refusal => counts.refusals[refusal as usize] += 1,
    }
    Ok(())
}
