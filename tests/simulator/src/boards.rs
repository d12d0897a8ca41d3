//! What the board word decides for job calls: where an answer differs from the one that marks on the board of jobs would
//! get.

use crate::calls::{refusal_of, simulate, Call};
use crate::image::{Header, Sizes, JOBS};
use crate::store::Store;

/// The image with every filled mark on the board of jobs, and every other as it is.
pub fn as_jobs(image: &[u32]) -> Vec<u32> {
    let mut image = image.to_vec();
    let Some(sizes) = Sizes::of(&image) else { return image };
    for slot in 0..sizes.slots {
        let header = sizes.header(&image, slot);
        if header.is_filled() {
            sizes.set_header(&mut image, slot, Header { board: JOBS, ..header });
        }
    }
    image
}

/// How often the board told a slot from a job: a label above the caller's epoch was no 9, a live slot of the key no 11,
/// and a live slot of the key not found.
#[derive(Clone, Copy, Default, Debug)]
pub struct ToldApart {
    pub no_9: u64,
    pub no_11: u64,
    pub found_none: u64,
}

impl ToldApart {
    /// Notes a call that got this reply on this store.
    pub fn note(&mut self, store: &Store, call: &Call, reply: u64) {
        let mut of_jobs = Store { working: as_jobs(&store.working), ..store.clone() };
        let as_jobs = simulate(&mut of_jobs, call);
        match (refusal_of(call, as_jobs), refusal_of(call, reply)) {
            (9, 0 | 10) => self.no_9 += 1,
            (11, 0) => self.no_11 += 1,
            (0, 10) => self.found_none += 1,
            _ => {}
        }
    }

    pub fn are_at_least(self, least: u64) -> bool {
        self.no_9 >= least && self.no_11 >= least && self.found_none >= least
    }
}
