//! A run of calls with a crash after each lasting store and within it, also in a sync, held against the reference map.

use crate::batch::{call_alone, Outcome};
use crate::batch_cases::BatchCases;
use crate::calls::{refusal_of, simulate, Call, Refusals, TICKED};
use crate::crash::{check_crash, Engine};
use crate::image::{job, Sizes};
use crate::queue_cases::QueueCases;
use crate::random::Random;
use crate::reference::Reference;
use crate::resave_cases::ResaveCases;
use crate::store::Store;
use crate::torn::{has_remains, line_between, torn_images, Line};
use crate::transient::PHASE;

/// How much was tried; `refusals` by number. A crash is one after a store or within it.
#[derive(Clone, Default)]
pub struct Counts {
    pub calls: u64,
    pub crashes: u64,
    pub went_on: u64,
    pub torn: Torn,
    pub refusals: Refusals,
    pub queue_cases: QueueCases,
    pub batch_cases: BatchCases,
    pub resave_cases: ResaveCases,
    pub within_syncs: WithinSyncs,
}

/// The crashes within the store of a header and of contents, the recover calls cut within their store, and the crashes
/// of any sort that found remains of a mark.
#[derive(Clone, Copy, Default)]
pub struct Torn {
    pub headers: u64,
    pub contents: u64,
    pub recovers: u64,
    pub remains: u64,
}

impl Torn {
    pub fn are_at_least(self, least: Torn) -> bool {
        self.headers >= least.headers
            && self.contents >= least.contents
            && self.recovers >= least.recovers
            && self.remains >= least.remains
    }
}

impl std::fmt::Display for Torn {
    fn fmt(&self, text: &mut std::fmt::Formatter) -> std::fmt::Result {
        let Torn { headers, contents, recovers, remains } = self;
        write!(text, "{headers} of them within a header's store and {contents} within that of contents, ")?;
        write!(text, "{remains} finding remains, {recovers} recover calls cut within their store")
    }
}

/// The syncs during which the memory wrote words back, those of them that met an advance underway, the words, and
/// those of them that changed the lasting image.
#[derive(Clone, Copy, Default)]
pub struct WithinSyncs {
    pub syncs: u64,
    pub underway: u64,
    pub words: u64,
    pub changing: u64,
}

impl WithinSyncs {
    pub fn are_at_least(self, least: WithinSyncs) -> bool {
        self.syncs >= least.syncs
            && self.underway >= least.underway
            && self.words >= least.words
            && self.changing >= least.changing
    }
}

impl std::fmt::Display for WithinSyncs {
    fn fmt(&self, text: &mut std::fmt::Formatter) -> std::fmt::Result {
        let WithinSyncs { syncs, underway, words, changing } = self;
        write!(
            text,
            "{words} words written back within {syncs} syncs, {changing} of them changing the lasting image, "
        )?;
        write!(text, "{underway} of these syncs with an advance underway")
    }
}

/// What a run is made of: calls, and syncs with the positions of the words written back before their first advance call,
/// before their second, and so on.
#[derive(Clone, Debug)]
pub enum Event {
    Call(Call),
    Sync(Vec<Vec<usize>>),
}

impl Event {
    /// The call alone. A sync leaves the same store, whatever is written back within it.
    pub fn call(&self) -> &Call {
        match self {
            Event::Call(call) => call,
            Event::Sync(_) => &Call::Sync,
        }
    }
}

/// A start (what format left, or a recover that replied "done") and what was made of it.
#[derive(Clone, Debug)]
pub struct Trace {
    pub start: Store,
    pub events: Vec<Event>,
}

/// The simulator as an engine.
pub fn simulated(store: &mut Store, call: &Call) -> Result<u64, String> {
    Ok(simulate(store, call))
}

struct Replay<'a, 'b> {
    store: Store,
    reference: Reference,
    random: Random,
    engine: &'a mut Engine<'b>,
    counts: &'a mut Counts,
    stores: u64,
    every: u64,
}

/// Makes the calls, with a crash after each store and within it; an error is the first thing that is not as it should be.
pub fn replay(trace: &Trace, engine: &mut Engine, counts: &mut Counts) -> Result<(), String> {
    replay_with_some_crashes(trace, engine, counts, 1)
}

/// The same with a crash at one of so many stores.
pub fn replay_with_some_crashes(
    trace: &Trace,
    engine: &mut Engine,
    counts: &mut Counts,
    every: u64,
) -> Result<(), String> {
    let reference = Reference::of(&trace.start).map_err(|refusal| format!("start refused with {refusal}"))?;
    let random = Random::new(trace.events.len() as u64);
    let mut replay = Replay { store: trace.start.clone(), reference, random, engine, counts, stores: 0, every };
    replay.stored()?;
    for (number, event) in trace.events.iter().enumerate() {
        replay.make(event).map_err(|what| format!("call {number}, {event:?}: {what}"))?;
    }
    Ok(())
}

impl Replay<'_, '_> {
    fn make(&mut self, event: &Event) -> Result<(), String> {
        let before = self.store.clone();
        let call = event.call();
        let reply = (self.engine)(&mut self.store, call)?;
        let refusal = refusal_of(call, reply);
        self.counts.calls += 1;
        self.counts.queue_cases.note(&before, call, reply);
        self.counts.batch_cases.note(&before, call, reply);
        self.counts.resave_cases.note(&before, call, reply);
        if refusal != 0 {
            let seen = self.counts.refusals.get_mut(refusal as usize);
            *seen.ok_or(format!("unknown refusal {refusal}"))? += 1;
            return if self.store == before { Ok(()) } else { Err("a refusal changed the store".into()) };
        }
        match event {
            Event::Call(Call::Sync) => self.synced(before, reply, &[]),
            Event::Sync(words) => self.synced(before, reply, words),
            Event::Call(call) => self.accepted(&before, call, reply),
        }
    }

    fn accepted(&mut self, before: &Store, call: &Call, reply: u64) -> Result<(), String> {
        match call {
            Call::Begin { thread } => self.reference.began(*thread),
            Call::End { thread } => self.reference.ended(*thread),
            Call::New { thread, key, value } | Call::Set { thread, key, value } => {
                self.reference.changed(*thread, job(*key), Some(value))
            }
            Call::Delete { thread, key } => self.reference.changed(*thread, job(*key), None),
            Call::Batch { thread, list } => return self.batched(before, *thread, list, Outcome::of(reply)),
            Call::Append { thread, value } => return self.reference.appended(*thread, reply, value),
            Call::Take { thread } => return self.took(before, *thread),
            Call::Advance => return self.advanced(&before.persistent, reply),
            Call::WriteBack { .. } => return self.stored(),
            Call::Read { .. } | Call::ReadRefusal { .. } | Call::Look { .. } | Call::LookRefusal { .. } => {}
            Call::Sync | Call::Format { .. } | Call::Recover => {}
        }
        Ok(())
    }

    /// 02, No. 5: "It must equal the same calls made one by one up to the first that declines; for the guarantee after a
    /// cut it counts as these." They are made on what the batch got, and the plain board hears of each.
    fn batched(&mut self, before: &Store, thread: u32, list: &[u32], outcome: Outcome) -> Result<(), String> {
        let Outcome { accepted, refusal } = outcome;
        let sizes = Sizes::of(&before.working).ok_or("a run keeps the sizes")?;
        let mut changes = list.chunks_exact(sizes.words + 1);
        let mut alone = before.clone();
        for number in 0..accepted {
            let call = changes.next().and_then(|change| call_alone(thread, change));
            let call = call.ok_or(format!("change {number} is accepted, and there is none"))?;
            let reply = (self.engine)(&mut alone, &call)?;
            if reply != 0 {
                return Err(format!("change {number} is accepted, and alone it gets {reply}"));
            }
            self.accepted(before, &call, reply)?;
        }
        let wanted = match changes.next().map(|change| call_alone(thread, change)) {
            Some(Some(call)) => (self.engine)(&mut alone, &call)?,
            Some(None) => 8,
            None => 0,
        };
        if wanted != u64::from(refusal) || alone != self.store {
            return Err(format!("a batch ended by {refusal} differs from its changes one by one, ended by {wanted}"));
        }
        Ok(())
    }

    /// The entry that was taken is the one that look shows just before.
    fn took(&mut self, before: &Store, thread: u32) -> Result<(), String> {
        let mut before = before.clone();
        let value_at = (self.engine)(&mut before, &Call::Look { thread })?;
        let order = (value_at as usize).checked_sub(1).and_then(|key_at| before.working.get(key_at));
        self.reference.took(thread, *order.ok_or(format!("a take is accepted where look replies {value_at}"))?);
        Ok(())
    }

    /// The clock is one word and is stored whole: a cut within any other store finds the clock of before.
    fn advanced(&mut self, before: &[u32], reply: u64) -> Result<(), String> {
        self.cut_within(before)?;
        if reply == TICKED {
            self.reference.ticked();
        }
        self.stored()
    }

    /// "in a run it stands for those advance calls, so that a cut, or a line written back, may fall after any of them":
    /// they are made one by one on what sync got, each after its words, until two have ticked. It comes to the same
    /// store, and then what had ended before is safe.
    fn synced(&mut self, before: Store, reported: u64, words: &[Vec<usize>]) -> Result<(), String> {
        let is_underway = before.transient[PHASE] != 0;
        let after = std::mem::replace(&mut self.store, before);
        let (mut advances, mut ticks) = (0, 0);
        while ticks < 2 {
            if advances == reported {
                return Err(format!("sync reports {reported} lines, and so many advance calls tick {ticks} times"));
            }
            for &position in words.get(advances as usize).into_iter().flatten() {
                self.written_back(position)?;
            }
            let before = self.store.persistent.clone();
            let reply = (self.engine)(&mut self.store, &Call::Advance)?;
            advances += 1;
            ticks += u64::from(reply == TICKED);
            self.advanced(&before, reply)?;
        }
        if advances != reported || self.store != after {
            return Err(format!("sync, which reports {reported} lines, differs from its {advances} advance calls"));
        }
        if words.iter().any(|words| !words.is_empty()) {
            self.counts.within_syncs.syncs += 1;
            self.counts.within_syncs.underway += u64::from(is_underway);
        }
        self.reference.synced();
        self.stored()
    }

    /// A word written back within a sync.
    fn written_back(&mut self, position: usize) -> Result<(), String> {
        let before = self.store.persistent.clone();
        let reply = (self.engine)(&mut self.store, &Call::WriteBack { position })?;
        if reply != 0 {
            return Err(format!("word {position} is not written back: {reply}"));
        }
        self.counts.within_syncs.words += 1;
        self.counts.within_syncs.changing += u64::from(self.store.persistent != before);
        self.stored()
    }

    /// Crashes within the store that an advance call has made into this image.
    fn cut_within(&mut self, before: &[u32]) -> Result<(), String> {
        let sizes = Sizes::of(before).ok_or("a run keeps the sizes")?;
        let line = line_between(sizes, before, &self.store.persistent)?;
        if !(self.stores + 1).is_multiple_of(self.every) {
            return Ok(());
        }
        for persistent in torn_images(before, &self.store.persistent, &mut self.random) {
            let torn = Store { persistent, ..self.store.clone() };
            self.crash(&torn).map_err(|what| format!("{what}, within the store, from {:?}", torn.persistent))?;
            self.counts.torn.headers += u64::from(line == Some(Line::Header));
            self.counts.torn.contents += u64::from(line == Some(Line::Contents));
        }
        Ok(())
    }

    /// A crash after a store.
    fn stored(&mut self) -> Result<(), String> {
        self.stores += 1;
        if !self.stores.is_multiple_of(self.every) {
            return Ok(());
        }
        self.crash(&self.store.clone())
    }

    fn crash(&mut self, store: &Store) -> Result<(), String> {
        let calls = check_crash(store, &self.reference, &mut self.random, self.engine)?;
        self.counts.crashes += 1;
        self.counts.went_on += calls.went_on;
        self.counts.torn.recovers += calls.cut_within;
        self.counts.torn.remains += u64::from(has_remains(&store.persistent));
        Ok(())
    }
}

/// Leaves out calls, and then words written back, for as long as what is left still fails, and says how it fails then.
pub fn shrink(mut trace: Trace, engine: &mut Engine) -> String {
    let mut fails = |trace: &Trace| replay(trace, engine, &mut Counts::default()).err();
    let mut what = fails(&trace).unwrap_or_else(|| "it failed once and not again".into());
    let mut number = trace.events.len();
    while number > 0 {
        number -= 1;
        for shorter in shorter(&trace, number) {
            if let Some(still) = fails(&shorter) {
                trace = shorter;
                what = still;
                number = trace.events.len();
                break;
            }
        }
    }
    format!("{what}\n{trace:?}")
}

/// The trace without one event, or with a word less in it.
fn shorter(trace: &Trace, number: usize) -> Vec<Trace> {
    let mut without = trace.clone();
    let Event::Sync(words) = without.events.remove(number) else { return vec![without] };
    let mut all = vec![without];
    for (advance, before_it) in words.iter().enumerate() {
        for word in 0..before_it.len() {
            let mut fewer = words.clone();
            fewer[advance].remove(word);
            let mut shorter = trace.clone();
            shorter.events[number] = Event::Sync(fewer);
            all.push(shorter);
        }
    }
    all
}
