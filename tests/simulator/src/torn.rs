//! A line store that a cut falls into. 02, No. 4: "A line's words may now reach lasting memory in any order, with a cut
//! between any two", so what is left is an image "whose words are each as before or as after the one line store underway".

use crate::image::{Header, Sizes, CLOCK};
use crate::random::Random;

/// So many differing words are mixed in every way; of more, so many mixes are tried.
const MIXED_IN_EVERY_WAY: usize = 4;
const MIXES: usize = 12;

/// What a line is made of.
#[derive(Clone, Copy, PartialEq, Eq, Debug)]
pub enum Line {
    Clock,
    Header,
    Contents,
}

/// The line that differs in two images, none where they are equal; an error where more than one line does.
pub fn line_between(sizes: Sizes, before: &[u32], after: &[u32]) -> Result<Option<Line>, String> {
    let places = differing(before, after);
    let Some(&first) = places.first() else { return Ok(None) };
    let slots = (0..sizes.slots).map(|slot| [sizes.header_line(slot), sizes.contents_line(slot)]);
    let mut lines = slots.flatten().chain(std::iter::once(CLOCK..CLOCK + 1));
    let line = lines.find(|words| words.contains(&first)).unwrap_or(0..0);
    if !places.iter().all(|place| line.contains(place)) {
        return Err(format!("one call stores into words {places:?}, which are no line"));
    }
    Ok(Some(match first {
        CLOCK => Line::Clock,
        first if first < sizes.contents_line(0).start => Line::Header,
        _ => Line::Contents,
    }))
}

/// The images between these two, without them: all of them where few words differ, else some.
pub fn torn_images(before: &[u32], after: &[u32], random: &mut Random) -> Vec<Vec<u32>> {
    let places = differing(before, after);
    let all = 1 << places.len();
    let mix = |choice: usize| {
        let mut image = before.to_vec();
        let made = places.iter().enumerate().filter(|(bit, _)| choice >> bit & 1 == 1);
        made.for_each(|(_, &place)| image[place] = after[place]);
        image
    };
    match places.len() {
        0 | 1 => Vec::new(),
        2..=MIXED_IN_EVERY_WAY => (1..all - 1).map(mix).collect(),
        _ => (0..MIXES).map(|_| mix(1 + random.below(all - 2))).collect(),
    }
}

/// One of the images between these two, or one of them.
pub fn any_mix(before: &[u32], after: &[u32], random: &mut Random) -> Vec<u32> {
    before.iter().zip(after).map(|(&old, &new)| if old == new || random.chance(50) { new } else { old }).collect()
}

fn differing(before: &[u32], after: &[u32]) -> Vec<usize> {
    (0..before.len()).filter(|&place| before[place] != after[place]).collect()
}

/// Whether some mark of an image counts as free and is not four zeros.
pub fn has_remains(image: &[u32]) -> bool {
    Sizes::of(image).is_some_and(|sizes| sizes.headers(image).into_iter().any(Header::is_remains))
}
