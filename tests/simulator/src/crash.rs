//! Demand 3 at one crash: what recovery must make of a lasting image.

use crate::calls::{refusal_of, Call, DONE, WENT_ON};
use crate::image::CLOCK;
use crate::random::Random;
use crate::recovery::surviving_entries;
use crate::reference::Reference;
use crate::store::Store;
use crate::torn::any_mix;

/// Carries a call out on a store; an error says how the reply or the store differs from what it should be.
pub type Engine<'a> = dyn FnMut(&mut Store, &Call) -> Result<u64, String> + 'a;

/// The recover calls of one crash: those that replied "went on", and those that were cut within their store.
#[derive(Clone, Copy, Default)]
pub struct Recovered {
    pub went_on: u64,
    pub cut_within: u64,
}

/// "working and notes hold any words. So too in recovery": junk before each recover call, some of which are cut too.
pub fn check_crash(
    store: &Store,
    reference: &Reference,
    random: &mut Random,
    engine: &mut Engine,
) -> Result<Recovered, String> {
    let clock = store.persistent[CLOCK];
    if clock != reference.clock {
        return Err(format!("the crash finds clock {clock}, the reference map has {}", reference.clock));
    }
    if !reference.keeps_what_was_synced(clock) {
        return Err(format!("at clock {clock} an operation that ended before a sync is absent"));
    }
    let (recovered, calls) = recover_fully(store, random, engine)?;
    let wanted = reference.entries_after_crash(clock).map_err(|what| format!("at clock {clock} {what}"))?;
    for image in [&recovered.working, &recovered.persistent] {
        let found = surviving_entries(image);
        if found.as_ref() != Ok(&wanted) {
            return Err(format!("the crash at clock {clock} leaves {found:?}, wanted {wanted:?}"));
        }
    }
    Ok(calls)
}

/// "completes when no recover call declines and at most N reply "went on" before one replies "done"". In a quarter of the
/// recoveries some calls are cut within their store (02, No. 4: "in recovery too"): such a call has not replied, unless
/// all of its words were stored.
fn recover_fully(store: &Store, random: &mut Random, engine: &mut Engine) -> Result<(Store, Recovered), String> {
    let mut crashed = store.clone();
    let slots = store.persistent[0] as usize;
    let mut cuts_left = if random.chance(25) { random.below(2 * slots) } else { 0 };
    let mut calls = Recovered::default();
    loop {
        crashed.working = random.junk(store.working.len());
        crashed.transient = random.junk(store.transient.len());
        let before = crashed.persistent.clone();
        match engine(&mut crashed, &Call::Recover)? {
            DONE => return Ok((crashed, calls)),
            WENT_ON => {}
            other => return Err(format!("recover declines with {}", refusal_of(&Call::Recover, other))),
        }
        let after = crashed.persistent.clone();
        if cuts_left > 0 && random.chance(50) {
            cuts_left -= 1;
            crashed.persistent = any_mix(&before, &after, random);
        }
        if crashed.persistent == after {
            calls.went_on += 1;
        } else {
            calls.cut_within += 1;
        }
        if calls.went_on > slots as u64 {
            return Err(format!("recover went on more than {slots} times"));
        }
    }
}
