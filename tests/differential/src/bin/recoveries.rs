//! Recover and the server's questions, on random images of up to 64 slots and a few of up to 1,024.
//! Usage: recoveries SEED COUNT

use differential::library::{answers, compare, recover};
use differential::numbers;
use differential::smallest::Smallest;
use simulator::calls::{refusal_of, transient_words, Call, WENT_ON};
use simulator::damage::{any_image, damage_length};
use simulator::image::{Sizes, QUEUE};
use simulator::lister::{bytes_of, clock_answer, survivors_answer};
use simulator::random::Random;
use simulator::recovery::surviving_entries;
use simulator::remains::RecoveriesOfRemains;
use simulator::store::Store;

#[derive(Default)]
struct Counts {
    calls: u64,
    went_on: u64,
    entries: u64,
    refusals: [u64; 5],
    of_remains: RecoveriesOfRemains,
}

fn main() {
    let [seed, count] = numbers("recoveries SEED COUNT");
    let mut random = Random::new(seed);
    let mut counts = Counts::default();
    let mut smallest = Smallest::default();
    for number in 0..count {
        let slots = match number % 100 {
            0..=69 => random.between(2, 8),
            _ if number % 1000 == 999 => random.between(65, 1024),
            _ => random.between(2, 64),
        };
        let store = any_store(&mut random, slots);
        let length = store.persistent.len();
        let checked = questions(&store, &mut counts).and_then(|()| recovery(store, &mut random, &mut counts));
        if let Err(what) = checked {
            smallest.note(length, what);
        }
    }
    smallest.report(seed);
    let Counts { calls, went_on, entries, refusals, of_remains } = &counts;
    println!(
        "{count} images, {calls} calls, went on {went_on}, {entries} queue entries survive, done and refused 1 to 4 \
         {refusals:?}, {of_remains}, seed {seed}"
    );
    let seen = counts.refusals[1..].iter().all(|&seen| seen >= 100) && counts.went_on >= count;
    assert!(seen, "too few of some reply");
    assert!(*entries >= count / 10, "too few queue entries, which the server does not count");
    assert!(of_remains.are_at_least(count / 200), "too few recoveries that met remains in some way");
}

fn any_store(random: &mut Random, slots: u32) -> Store {
    let sizes = Sizes::new(slots, random.between(2, 9)).expect("these sizes are in range");
    let notes = transient_words(slots, random.between(1, 16));
    let mut store = Store {
        working: random.junk(sizes.image_words()),
        persistent: any_image(random, sizes),
        transient: random.junk(notes),
    };
    if random.chance(3) {
        let slice = random.below(3);
        damage_length(random, store.slices()[slice]);
    }
    store
}

fn questions(store: &Store, counts: &mut Counts) -> Result<(), String> {
    let bytes = bytes_of(&store.persistent);
    let wanted = [clock_answer(&bytes), survivors_answer(&bytes)];
    let found = answers(&bytes);
    counts.calls += 2;
    let entries = surviving_entries(&store.persistent).unwrap_or_default();
    counts.entries += entries.keys().filter(|(board, _)| *board == QUEUE).count() as u64;
    if found == wanted {
        Ok(())
    } else {
        Err(format!("answers {found:?}, wanted {wanted:?}, on {store:?}"))
    }
}

/// Recover calls up to the one that does not go on, other junk in working and notes before each.
fn recovery(mut store: Store, random: &mut Random, counts: &mut Counts) -> Result<(), String> {
    loop {
        let before = store.persistent.clone();
        let reply = compare(&mut store, &Call::Recover, recover)?;
        counts.calls += 1;
        counts.of_remains.note(&before, &store.persistent);
        if reply != WENT_ON {
            counts.refusals[refusal_of(&Call::Recover, reply) as usize] += 1;
            return Ok(());
        }
        counts.went_on += 1;
        store.working = random.junk(store.working.len());
        store.transient = random.junk(store.transient.len());
    }
}
