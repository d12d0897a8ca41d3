//! Writes a file of questions and recoveries with the answers they must get, for the C host.
//! Usage: cases FILE SEED COUNT, COUNT being the number of random images beside the fixed ones.
//!
//! The file is a row of words, lowest byte first; a 64-bit number is two of them, the lower one first.
//!   seed (two words), number of cases, then the cases:
//!   1, byte count, the bytes filled up to whole words, answer of clock, answer of survivors (two words each);
//!   2, lengths of working, persistent and transient, the words of persistent, number of recover calls, then
//!      for each call its reply (two words), persistent after it, and 0 for "the other two as they were" or
//!      1, working and transient after it.

use simulator::calls::{refusal_of, simulate, transient_words, Call, WENT_ON};
use simulator::damage::{acceptable_image, any_image, damage_length};
use simulator::image::{Sizes, LARGEST};
use simulator::lister::{bytes_of, clock_answer, survivors_answer};
use simulator::random::Random;
use simulator::remains::RecoveriesOfRemains;
use simulator::store::Store;
use simulator::stored::{image_with, queued, stored_images, with_mark, EXAMPLE};

const QUESTION: u32 = 1;
const RECOVERY: u32 = 2;

#[derive(Default)]
struct Cases {
    words: Vec<u32>,
    number: u32,
    refusals: [u32; 5],
    went_on: u32,
    of_remains: RecoveriesOfRemains,
}

fn main() -> std::io::Result<()> {
    let arguments: Vec<String> = std::env::args().collect();
    let [_, file, seed, count] = &arguments[..] else { panic!("usage: cases FILE SEED COUNT") };
    let seed: u64 = seed.parse().expect("SEED is a number");
    let count: u32 = count.parse().expect("COUNT is a number");
    let mut cases = Cases::default();
    cases.stored();
    cases.single_words_replaced();
    cases.wrong_lengths();
    cases.random(&mut Random::new(seed), count);
    let seen = cases.refusals[1..].iter().all(|&seen| seen >= 100) && cases.went_on >= 100;
    assert!(seen, "too few of some kind: refusals {:?}, went on {}", cases.refusals, cases.went_on);
    assert!(cases.of_remains.are_at_least(20), "too few of some kind: {}", cases.of_remains);
    let head = [seed as u32, (seed >> 32) as u32, cases.number];
    std::fs::write(file, bytes_of(&[&head[..], &cases.words].concat()))?;
    println!("{} cases, seed {seed}", cases.number);
    Ok(())
}

impl Cases {
    fn wide(&mut self, number: u64) {
        self.words.extend([number as u32, (number >> 32) as u32]);
    }

    fn question(&mut self, bytes: &[u8]) {
        self.number += 1;
        self.words.extend([QUESTION, bytes.len() as u32]);
        for four in bytes.chunks(4) {
            let mut whole = [0; 4];
            whole[..four.len()].copy_from_slice(four);
            self.words.push(u32::from_le_bytes(whole));
        }
        self.wide(clock_answer(bytes));
        self.wide(survivors_answer(bytes));
    }

    /// Recover calls up to the one that does not go on. The answers do not hang on what working and transient
    /// hold, so the host fills them itself before each call.
    fn recovery(&mut self, mut store: Store) {
        self.question(&bytes_of(&store.persistent));
        self.number += 1;
        let lengths = [&store.working, &store.persistent, &store.transient].map(|slice| slice.len() as u32);
        self.words.push(RECOVERY);
        self.words.extend(lengths);
        self.words.extend(&store.persistent);
        let place = self.words.len();
        self.words.push(0);
        loop {
            self.words[place] += 1;
            let before = store.clone();
            let reply = simulate(&mut store, &Call::Recover);
            self.refusals[refusal_of(&Call::Recover, reply) as usize] += 1;
            self.of_remains.note(&before.persistent, &store.persistent);
            self.wide(reply);
            self.words.extend(&store.persistent);
            if before.working == store.working && before.transient == store.transient {
                self.words.push(0);
            } else {
                self.words.push(1);
                self.words.extend(&store.working);
                self.words.extend(&store.transient);
            }
            if reply != WENT_ON {
                return;
            }
            self.went_on += 1;
        }
    }

    /// A recovery of the image with slices of fitting lengths.
    fn fitting(&mut self, image: Vec<u32>, threads: u32) {
        let slots = image.first().copied().unwrap_or(0);
        let notes = transient_words(slots.clamp(2, 1024), threads);
        let working = vec![u32::MAX; image.len()];
        self.recovery(Store { working, persistent: image, transient: vec![u32::MAX; notes] });
    }

    fn stored(&mut self) {
        for (_, bytes) in stored_images() {
            if bytes.len() % 4 == 0 {
                let four = |four: &[u8]| u32::from_le_bytes(four.try_into().expect("four bytes"));
                self.fitting(bytes.chunks(4).map(four).collect(), 16);
            } else {
                self.question(&bytes);
            }
        }
    }

    /// Every single word of a few small images replaced by 0, 1, its neighbours and the largest word.
    fn single_words_replaced(&mut self) {
        for image in small_images() {
            for place in 0..image.len() {
                let word = image[place];
                for other in [0, 1, word.wrapping_sub(1), word.wrapping_add(1), u32::MAX] {
                    let mut damaged = image.clone();
                    damaged[place] = other;
                    self.fitting(damaged, 2);
                }
            }
        }
    }

    /// Lengths around the right ones, for each slice alone; T 0 and T 17 among those of the notes, and 70 + T + N words.
    fn wrong_lengths(&mut self) {
        for image in small_images() {
            let (length, slots) = (image.len(), image[0]);
            let mut try_lengths = |working: usize, persistent: usize, transient: usize| {
                let mut kept = image.clone();
                kept.resize(persistent, 0);
                let filled = |length| vec![u32::MAX; length];
                self.recovery(Store { working: filled(working), persistent: kept, transient: filled(transient) });
            };
            let one_thread = transient_words(slots, 1);
            for wrong in [0, 1, 2, 3, length - 1, length + 1, 2 * length] {
                try_lengths(wrong, length, one_thread);
                try_lengths(length, wrong, one_thread);
                try_lengths(wrong, wrong, one_thread);
            }
            let without_an_index = one_thread - 2 * slots as usize;
            let around = [one_thread - 2, one_thread - 1, one_thread, one_thread + 15, one_thread + 16];
            for notes in [&[0, 1, 5, 6, 900, without_an_index][..], &around].concat() {
                try_lengths(length, length, notes);
            }
        }
    }

    fn random(&mut self, random: &mut Random, count: u32) {
        let large = Sizes::new(1024, 9).expect("the largest sizes are in range");
        let image = acceptable_image(random, large, 30, 40);
        self.fitting(image, 1);
        for _ in 0..count {
            let sizes = Sizes::new(random.between(2, 7), random.between(2, 4)).expect("these sizes are in range");
            let mut image = any_image(random, sizes);
            if random.chance(3) {
                damage_length(random, &mut image);
            }
            let threads = random.between(1, 16);
            self.fitting(image, threads);
        }
    }
}

/// Small images that recovery accepts: of various sizes, kinds, labels, clocks and boards, some with remains.
fn small_images() -> Vec<Vec<u32>> {
    let latest = LARGEST - 2;
    vec![
        EXAMPLE.to_vec(),
        image_with(2, 2, 2, &[]),
        image_with(2, 3, 9, &[(1, 5, 1, 3), (3, 7, 1, 3)]),
        image_with(3, 2, 8, &[(3, 6, 1, 3), (2, 4, 1, 3), (1, 6, 2, 4)]),
        image_with(3, 3, LARGEST, &[(1, latest, LARGEST, 3), (2, latest + 1, 1, 4), (1, 2, 2, 5)]),
        image_with(4, 2, 6, &[(1, 2, 1, 3), (2, 3, 1, 3), (2, 4, 1, 3), (2, 5, 1, 3)]),
        image_with(4, 3, 4, &[(1, 2, 1, 3), (1, 2, 2, 4), (1, 2, 3, 5), (1, 2, 4, 6)]),
        image_with(4, 2, 7, &[(3, 4, 9, 1), (3, 5, 9, 1), (1, 3, 9, 1), (1, 7, 8, 2)]),
        queued(image_with(3, 2, 8, &[(1, 4, 2, 3), (1, 5, 3, 3), (1, 6, 4, 4)]), &[1, 2]),
        queued(image_with(3, 3, 8, &[(1, 4, 2, LARGEST), (3, 6, 3, 2), (1, 3, 3, 2)]), &[0, 1, 2]),
        with_mark(image_with(3, 2, 8, &[(1, 4, 2, 3), (3, 7, 2, 3)]), 2, [2, 6, 2, 0]),
        with_mark(with_mark(image_with(3, 2, 8, &[(1, 4, 2, 3)]), 1, [0, 0, 0, 1]), 2, [0, 5, 0, 2]),
    ]
}
