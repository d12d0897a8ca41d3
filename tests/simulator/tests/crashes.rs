//! The simulator against the reference map and against arbitrary words.

use simulator::boards::ToldApart;
use simulator::calls::{refusal_of, simulate, Call};
use simulator::damage::{damaged_store, wild_store};
use simulator::generator::{any_call, start, trace, unformatted, Mix};
use simulator::queue_cases::QueueCases;
use simulator::random::Random;
use simulator::remains::CallsOnRemains;
use simulator::trace::{replay, shrink, simulated, Counts, Torn, WithinSyncs};

#[test]
fn every_crash_leaves_the_reference_map() {
    let mut counts = Counts::default();
    for seed in 0..4000 {
        let mut random = Random::new(seed);
        let slots = random.between(2, 10);
        let trace = trace(&mut random, slots, 120);
        if replay(&trace, &mut simulated, &mut counts).is_err() {
            panic!("seed {seed}: {}", shrink(trace, &mut simulated));
        }
    }
    let Counts { calls, crashes, went_on, torn, refusals, queue_cases, batch_cases, resave_cases, within_syncs } =
        &counts;
    println!("seeds 0 to 3999, {calls} calls, {crashes} crashes, {torn}, {went_on} went on, {within_syncs}");
    println!("refusals {refusals:?}, {queue_cases}, {batch_cases}, {resave_cases}");
    assert!(*crashes > 50_000 && *went_on > 25_000);
    let least = Torn { headers: 50_000, contents: 50_000, recovers: 50_000, remains: 50_000 };
    assert!(torn.are_at_least(least), "too little torn: {torn}");
    assert!(queue_cases.of_runs_are_at_least(100), "too few of some sort: {queue_cases}");
    assert!(batch_cases.of_runs_are_at_least(50), "too few of some sort: {batch_cases}");
    assert!(resave_cases.are_at_least(50), "too few of some sort: {resave_cases}");
    let least = WithinSyncs { syncs: 2000, underway: 500, words: 10_000, changing: 3000 };
    assert!(within_syncs.are_at_least(least), "too little written back within syncs: {within_syncs}");
    assert!(refusals[5..].iter().all(|&seen| seen >= 100), "{refusals:?}");
}

#[test]
fn every_call_is_total_and_a_refusal_changes_nothing() {
    let mut random = Random::new(7);
    let (mut told_apart, mut queue_cases, mut on_remains) =
        (ToldApart::default(), QueueCases::default(), CallsOnRemains::default());
    for round in 0..80_000 {
        let slots = random.between(2, 6);
        let mut store = match random.below(3) {
            0 => unformatted(&mut random, slots, 3, 2),
            1 => wild_store(&mut random, slots),
            _ => start(&mut random, slots),
        };
        if random.chance(50) {
            store = damaged_store(&mut random, &store);
        }
        for _ in 0..10 {
            let call = match random.below(10) {
                0 => Call::Recover,
                1 => Call::Format { slots: random.between(0, 6), words: random.between(0, 6) },
                _ => any_call(&mut random, &store, Mix { advances: 45, batches: 4, keys: 4 }),
            };
            let before = store.clone();
            let reply = simulate(&mut store, &call);
            assert!(refusal_of(&call, reply) == 0 || store == before, "round {round}: {call:?} on {before:?}");
            told_apart.note(&before, &call, reply);
            queue_cases.note(&before, &call, reply);
            on_remains.note(&before, &call, reply, &store);
        }
    }
    println!("seed 7, 800000 calls, {told_apart:?}, {queue_cases}, {on_remains}");
    assert!(on_remains.are_at_least(100), "too few of some sort: {on_remains}");
    assert!(told_apart.are_at_least(100), "too few slots that only their board tells from a job: {told_apart:?}");
    assert!(queue_cases.are_at_least(100), "too few of some sort: {queue_cases}");
}
