//! Puts random images to the lister and to the head count, as built, and compares what they print with the simulator.
//! Usage: programs DIRECTORY SEED COUNT, DIRECTORY being where the two programs are.

use simulator::damage::{any_image, damage_length};
use simulator::headcount::head_count;
use simulator::image::Sizes;
use simulator::lister::{accepted_image, bytes_of, listing};
use simulator::random::Random;
use std::io::Write;
use std::path::{Path, PathBuf};
use std::process::{Command, Stdio};

/// How often each refusal came up, how many slots were in each class, how many of the free ones had remains, and how many
/// lines ended in `queue` or not.
#[derive(Default)]
struct Seen {
    refusals: [usize; 5],
    classes: [usize; 4],
    remains: usize,
    entries: usize,
    jobs: usize,
}

fn main() {
    let arguments: Vec<String> = std::env::args().collect();
    let [_, directory, seed, count] = &arguments[..] else { panic!("usage: programs DIRECTORY SEED COUNT") };
    let directory = PathBuf::from(directory);
    let seed: u64 = seed.parse().expect("SEED is a number");
    let count: usize = count.parse().expect("COUNT is a number");
    let mut random = Random::new(seed);
    let mut seen = Seen::default();
    for number in 0..count {
        let bytes = any_bytes(&mut random);
        let (counted, listed) = (head_count(&bytes), listing(&bytes));
        seen.note(&counted, &listed);
        seen.remains += remains_counted(&bytes);
        compare(&directory.join("headcount"), &bytes, &counted, number);
        compare(&directory.join("lister"), &bytes, &listed, number);
    }
    let rare = seen.refusals[1..].iter().any(|&times| times < 50) || seen.classes.iter().any(|&slots| slots < 500);
    assert!(!rare, "too few of some kind: refusals {:?}, slots by class {:?}", &seen.refusals[1..], seen.classes);
    let Seen { classes, remains, jobs, entries, .. } = seen;
    assert!(remains >= 500, "too few free slots with remains: {remains}");
    assert!(jobs >= 500 && entries >= 500, "too few of some board: {jobs} jobs, {entries} queue entries");
    println!(
        "{count} images, seed {seed}, slots by class {classes:?}, {remains} of the free ones with remains, {jobs} jobs, \
         {entries} queue entries"
    );
}

/// The slots with remains in an image that the head count accepts.
fn remains_counted(bytes: &[u8]) -> usize {
    let Ok((image, accepted)) = accepted_image(bytes) else { return 0 };
    accepted.sizes.headers(&image).into_iter().filter(|header| header.is_remains()).count()
}

/// The bytes of an image, now and then of a wrong length.
fn any_bytes(random: &mut Random) -> Vec<u8> {
    let slots = if random.chance(2) { 1024 } else { random.between(2, 12) };
    let sizes = Sizes::new(slots, random.between(2, 9)).expect("these sizes are in range");
    let mut image = any_image(random, sizes);
    if random.chance(3) {
        damage_length(random, &mut image);
    }
    let mut bytes = bytes_of(&image);
    if random.chance(2) {
        bytes.truncate(bytes.len().saturating_sub(random.below(4)));
    }
    bytes
}

impl Seen {
    fn note(&mut self, counted: &str, listed: &str) {
        let (entries, jobs): (Vec<&str>, Vec<&str>) = listed.lines().skip(1).partition(|line| line.ends_with(" queue"));
        self.entries += entries.len();
        self.jobs += jobs.len();
        let numbers: Vec<usize> = counted.split_whitespace().filter_map(|word| word.parse().ok()).collect();
        match &numbers[..] {
            [refusal] => self.refusals[*refusal] += 1,
            [figures @ .., _total] => {
                for (sum, figure) in self.classes.iter_mut().zip(figures) {
                    *sum += figure;
                }
            }
            [] => panic!("no number in {counted}"),
        }
    }
}

fn compare(program: &Path, bytes: &[u8], wanted: &str, number: usize) {
    let child = Command::new(program).stdin(Stdio::piped()).stdout(Stdio::piped()).spawn();
    let mut child = child.unwrap_or_else(|error| panic!("{}: {error}", program.display()));
    child.stdin.take().expect("the input is a pipe").write_all(bytes).expect("the program reads its input");
    let output = child.wait_with_output().expect("the program ends");
    let printed = String::from_utf8_lossy(&output.stdout);
    assert!(
        printed == wanted,
        "{}, image {number}:\nprinted {printed}wanted  {wanted}bytes {bytes:?}",
        program.display()
    );
}
