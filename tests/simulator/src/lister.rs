//! The image that a program is given, what the lister prints of it, and the server's two questions.

use crate::calls::refused;
use crate::image::{JOBS, LARGEST_IMAGE, QUEUE};
use crate::recovery::{judge, Accepted};
use crate::store::Refusal;
use std::fmt::Write;

/// "four bytes a word, lowest first. A byte count that fits no image is refused with 1."
fn words_of(bytes: &[u8]) -> Result<Vec<u32>, Refusal> {
    if bytes.len() % 4 != 0 || bytes.len() > 4 * LARGEST_IMAGE {
        return Err(1);
    }
    let word = |four: &[u8]| four.iter().rev().fold(0, |sum, &byte| sum << 8 | u32::from(byte));
    Ok(bytes.chunks(4).map(word).collect())
}

pub fn bytes_of(words: &[u32]) -> Vec<u8> {
    words.iter().flat_map(|word| word.to_le_bytes()).collect()
}

/// The image that some bytes are, where recovery accepts it.
pub fn accepted_image(bytes: &[u8]) -> Result<(Vec<u32>, Accepted), Refusal> {
    let image = words_of(bytes)?;
    let accepted = judge(&image)?;
    Ok((image, accepted))
}

/// "It prints `clock C survivors K`, then for each survivor in slot order the slot, key and value words, one
/// space between; on a refusal only `refused` and the number".
/// 02, No. 3: "The lister shows both boards, a queue entry's line ending in one space and `queue`"
pub fn listing(bytes: &[u8]) -> String {
    let (image, Accepted { sizes, clock, survivors }) = match accepted_image(bytes) {
        Ok(accepted) => accepted,
        Err(refusal) => return format!("refused {refusal}\n"),
    };
    let mut text = format!("clock {clock} survivors {}\n", survivors.len());
    for slot in survivors {
        write!(text, "{slot}").expect("a string takes any text");
        for word in &image[sizes.contents_line(slot)] {
            write!(text, " {word}").expect("a string takes any text");
        }
        text.push_str(if sizes.header(&image, slot).board == QUEUE { " queue\n" } else { "\n" });
    }
    text
}

pub fn clock_answer(bytes: &[u8]) -> u64 {
    match words_of(bytes).and_then(|image| judge(&image)) {
        Ok(accepted) => u64::from(accepted.clock),
        Err(refusal) => refused(refusal),
    }
}

/// 02, No. 3: "the server counts jobs alone"
pub fn survivors_answer(bytes: &[u8]) -> u64 {
    match accepted_image(bytes) {
        Ok((image, Accepted { sizes, survivors, .. })) => {
            let is_job = |slot: &&usize| sizes.header(&image, **slot).board == JOBS;
            survivors.iter().filter(is_job).count() as u64
        }
        Err(refusal) => refused(refusal),
    }
}
