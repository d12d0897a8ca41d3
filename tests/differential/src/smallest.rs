//! The smallest case that failed, for the reader of a long test.

#[derive(Default)]
pub struct Smallest(Option<(usize, String)>);

impl Smallest {
    pub fn note(&mut self, size: usize, what: String) {
        if self.0.as_ref().is_none_or(|(least, _)| size < *least) {
            self.0 = Some((size, what));
        }
    }

    /// Ends the program if anything failed.
    pub fn report(self, seed: u64) {
        if let Some((_, what)) = self.0 {
            panic!("seed {seed}, the smallest case that differs: {what}");
        }
    }
}
