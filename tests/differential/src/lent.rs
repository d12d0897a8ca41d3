//! A slice as it is lent to the library, between guard words that show a store beside it.

const GUARD: [u32; 4] = [0x5EED_0001, 0x5EED_0002, 0x5EED_0003, 0x5EED_0004];

pub struct Lent(Vec<u32>);

impl Lent {
    pub fn new(words: &[u32]) -> Lent {
        Lent([&GUARD[..], words, &GUARD].concat())
    }

    pub fn start(&mut self) -> *mut u32 {
        self.0[GUARD.len()..].as_mut_ptr()
    }

    /// The words now, or none where a guard was overwritten.
    pub fn taken_back(self) -> Option<Vec<u32>> {
        let inner = self.0.strip_prefix(&GUARD)?.strip_suffix(&GUARD)?;
        Some(inner.to_vec())
    }
}
