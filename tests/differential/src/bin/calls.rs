//! Every call and the lengths, on honest, damaged and wild stores; some of the damaged have slots on other boards, some
//! have marks of which only some words are left. All of these have a right index; others have a damaged one and are right in
//! all else.
//! Usage: calls SEED COUNT

use differential::damaged::Misled;
use differential::library::{any, compare, lengths};
use differential::numbers;
use differential::smallest::Smallest;
use differential::watch;
use simulator::batch_cases::BatchCases;
use simulator::boards::ToldApart;
use simulator::calls::{image_words, refusal_of, transient_words, Call, Refusals};
use simulator::damage::{any_image, damage_length, damaged_store, edge_word, sparse_store, wild_store};
use simulator::generator::{any_call, start, unformatted, Mix};
use simulator::image::Sizes;
use simulator::index_cases::IndexCases;
use simulator::index_damage::damage_index;
use simulator::queue_cases::QueueCases;
use simulator::random::Random;
use simulator::remains::{CallsOnRemains, RecoveriesOfRemains};
use simulator::resave_cases::ResaveCases;
use simulator::step_cases::StepCases;
use simulator::store::Store;

/// Upper ends for the number of slots, most of them small.
const MOST_SLOTS: [u32; 12] = [4, 5, 6, 7, 8, 8, 9, 9, 12, 24, 64, 1024];

struct Test {
    random: Random,
    calls: u64,
    accepted: u64,
    refusals: Refusals,
    told_apart: ToldApart,
    queue_cases: QueueCases,
    batch_cases: BatchCases,
    resave_cases: ResaveCases,
    step_cases: StepCases,
    on_remains: CallsOnRemains,
    of_remains: RecoveriesOfRemains,
    index_cases: IndexCases,
    misled: Misled,
    smallest: Smallest,
}

fn main() {
    let [seed, count] = numbers("calls SEED COUNT");
    watch::start();
    let random = Random::new(seed);
    let (refusals, told_apart, queue_cases, batch_cases, on_remains, of_remains) = Default::default();
    let (resave_cases, step_cases, index_cases, misled, smallest) = Default::default();
    let (calls, accepted) = (0, 0);
    let mut test = Test {
        random,
        calls,
        accepted,
        refusals,
        told_apart,
        queue_cases,
        batch_cases,
        resave_cases,
        step_cases,
        on_remains,
        of_remains,
        index_cases,
        misled,
        smallest,
    };
    while test.calls < count {
        let most = test.random.pick(&MOST_SLOTS);
        let slots = test.random.between(2, most);
        test.formats(slots);
        test.lengths(slots);
        test.honest(slots);
        test.recoveries(slots);
        let wild = wild_store(&mut test.random, slots);
        for _ in 0..4 {
            test.on_damaged_index(&wild, 6);
        }
        test.changes(wild, 12);
        test.far_steps();
    }
    let Test { calls, accepted, refusals, told_apart, queue_cases, batch_cases, on_remains, of_remains, .. } = test;
    let Test { resave_cases, step_cases, index_cases, misled, smallest, .. } = test;
    smallest.report(seed);
    let ToldApart { no_9, no_11, found_none } = told_apart;
    println!(
        "{calls} calls, no difference, {accepted} accepted, refusals by number {refusals:?}, slots told from jobs by \
         their board: no 9 {no_9}, no 11 {no_11}, none found {found_none}, {queue_cases}, {batch_cases}, {resave_cases}, \
         {step_cases}, {on_remains}, {of_remains}, {index_cases}, {misled}, seed {seed}"
    );
    assert!(refusals[1..].iter().all(|&seen| seen >= 100), "too few of some refusal");
    assert!(told_apart.are_at_least(100), "too few slots that only their board tells from a job");
    assert!(queue_cases.are_at_least(100), "too few of some sort of queue calls");
    assert!(batch_cases.are_at_least(100), "too few of some sort of batches");
    assert!(resave_cases.are_at_least(100), "too few of some sort of sets of the value that a job has");
    assert!(step_cases.are_at_least(100), "too few of some sort of advance calls far up a board");
    assert!(on_remains.are_at_least(100), "too few calls that met remains in some way");
    assert!(of_remains.are_at_least(100), "too few recoveries that met remains in some way");
    assert!(index_cases.are_at_least(100), "too few of some change of the index");
    assert!(misled.are_at_least(100), "too few answers that a damaged index changed in some way");
}

impl Test {
    /// One call on both sides, and the reply where they agree. The store goes on as the simulator leaves it.
    fn make(&mut self, store: &mut Store, call: &Call) -> Option<u64> {
        self.calls += 1;
        let before = store.clone();
        match compare(store, call, any) {
            Ok(reply) => {
                self.queue_cases.note(&before, call, reply);
                self.batch_cases.note(&before, call, reply);
                self.resave_cases.note(&before, call, reply);
                self.step_cases.note(&before, call, store);
                self.on_remains.note(&before, call, reply, store);
                self.index_cases.note(&before, call, reply, store);
                if *call == Call::Recover {
                    self.of_remains.note(&before.persistent, &store.persistent);
                }
                match refusal_of(call, reply) {
                    0 => self.accepted += 1,
                    refusal => self.refusals[refusal as usize] += 1,
                }
                Some(reply)
            }
            Err(what) => {
                self.smallest.note(store.working.len() + store.transient.len(), what);
                None
            }
        }
    }

    /// Calls on a damaged or wild store.
    fn changes(&mut self, mut store: Store, count: usize) {
        for _ in 0..count {
            let call = any_call(&mut self.random, &store, Mix { advances: 30, batches: 25, keys: 4 });
            let before = store.clone();
            if let Some(reply) = self.make(&mut store, &call) {
                self.told_apart.note(&before, &call, reply);
            }
        }
    }

    /// Advance calls that pass over most of a board.
    fn far_steps(&mut self) {
        let mut store = sparse_store(&mut self.random);
        for _ in 0..6 {
            self.make(&mut store, &Call::Advance);
        }
    }

    /// Calls on a copy of the store with a damaged index.
    fn on_damaged_index(&mut self, store: &Store, count: usize) {
        let mut store = store.clone();
        damage_index(&mut self.random, &mut store);
        for _ in 0..count {
            let call = any_call(&mut self.random, &store, Mix { advances: 10, batches: 15, keys: 4 });
            if let Err(what) = self.misled.make(&mut store, &call) {
                self.smallest.note(store.working.len() + store.transient.len(), what);
            }
        }
    }

    /// A run, with side steps into damaged copies of the store and into a recovery of what it would leave.
    fn honest(&mut self, slots: u32) {
        let mut store = start(&mut self.random, slots);
        let mix =
            Mix { advances: self.random.pick(&[10, 30, 60]), batches: 8, keys: self.random.between(2, slots + 2) };
        for _ in 0..80 {
            let call = any_call(&mut self.random, &store, mix);
            self.make(&mut store, &call);
            if self.random.chance(10) {
                let damaged = damaged_store(&mut self.random, &store);
                self.make(&mut damaged.clone(), &Call::Recover);
                self.on_damaged_index(&damaged, 2);
                self.changes(damaged, 5);
            }
            if self.random.chance(3) {
                self.on_damaged_index(&store, 5);
            }
        }
    }

    /// One recover call each on a few images of any sort.
    fn recoveries(&mut self, slots: u32) {
        let words = self.random.between(2, 9);
        let sizes = Sizes::new(slots.min(24), words).expect("these sizes are in range");
        for _ in 0..3 {
            let mut store = unformatted(&mut self.random, slots.min(24), words, 2);
            store.persistent = any_image(&mut self.random, sizes);
            self.make(&mut store, &Call::Recover);
        }
    }

    /// Format on slices that hold any words, of the lengths for these sizes and of wrong ones.
    fn formats(&mut self, slots: u32) {
        let (words, threads) = (self.random.between(2, 9), self.random.between(1, 16));
        let mut store = unformatted(&mut self.random, slots, words, threads);
        let mut wrong = store.clone();
        let slice = self.random.below(3);
        damage_length(&mut self.random, wrong.slices()[slice]);
        self.make(&mut wrong, &Call::Format { slots, words });
        let (odd_slots, odd_words) = (edge_word(&mut self.random, slots), edge_word(&mut self.random, words));
        self.make(&mut store, &Call::Format { slots: odd_slots, words: odd_words });
        self.make(&mut store, &Call::Format { slots, words });
    }

    fn lengths(&mut self, slots: u32) {
        self.calls += 2;
        let slots = if self.random.chance(50) { slots } else { self.random.pick(&[0, 1, 2, 1024, 1025, u32::MAX]) };
        let words = self.random.pick(&[0, 1, 2, 5, 9, 10, u32::MAX]);
        let threads = self.random.pick(&[0, 1, 7, 16, 17, u32::MAX]);
        let wanted = [image_words(slots, words), transient_words(slots, threads)];
        let given = lengths(slots, words, threads);
        if given != wanted {
            self.smallest.note(0, format!("lengths for {slots}, {words}, {threads}: {given:?}, wanted {wanted:?}"));
        }
    }
}
