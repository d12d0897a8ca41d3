//! The layout of an image: "sizes first, then two parallel arrays".

use std::ops::Range;

pub const ALLOC: u32 = 1;
pub const UPDATE: u32 = 2;
pub const DELETE: u32 = 3;

/// The board of jobs. 02, No. 2: "the board, 1 for jobs"
pub const JOBS: u32 = 1;

/// The board of hand-overs. 02, No. 3: "We need a queue as board 2"
pub const QUEUE: u32 = 2;

/// The clock's place in an image, the number of words before the headers, and that of a header.
pub const CLOCK: usize = 2;
pub const PREFIX: usize = 3;
pub const HEADER_WORDS: usize = 4;

/// The upper end of the clock, of the uids and of the order numbers; the clock's lower end.
pub const LARGEST: u32 = 4_000_000_000;
pub const FIRST_CLOCK: u32 = 2;

/// 02, No. 2: "its lengths 13 and 12,291 become 15 and 13,315"
pub const LARGEST_IMAGE: usize = 13_315;

/// What an entry is called: its board and its key. 02, No. 2: "Keys are unique within a board"
pub type Name = (u32, u32);

/// The name that a job call looks for.
pub fn job(key: u32) -> Name {
    (JOBS, key)
}

/// N and W, both in range.
#[derive(Clone, Copy, PartialEq, Eq, Debug)]
pub struct Sizes {
    pub slots: usize,
    pub words: usize,
}

impl Sizes {
    /// "N, slots, 2 to 1,024. Word 1: W, words of contents, 2 to 9."
    pub fn new(slots: u32, words: u32) -> Option<Sizes> {
        let in_range = (2..=1024).contains(&slots) && (2..=9).contains(&words);
        in_range.then_some(Sizes { slots: slots as usize, words: words as usize })
    }

    /// The sizes an image gives itself, if its length fits them.
    pub fn of(image: &[u32]) -> Option<Sizes> {
        let sizes = Sizes::new(*image.first()?, *image.get(1)?)?;
        (image.len() == sizes.image_words()).then_some(sizes)
    }

    /// 02, No. 2: "an image has 3 + 4N + WN words"
    pub fn image_words(self) -> usize {
        PREFIX + HEADER_WORDS * self.slots + self.words * self.slots
    }

    /// V
    pub fn value_words(self) -> usize {
        self.words - 1
    }

    pub fn header_line(self, slot: usize) -> Range<usize> {
        let start = PREFIX + HEADER_WORDS * slot;
        start..start + HEADER_WORDS
    }

    pub fn contents_line(self, slot: usize) -> Range<usize> {
        let start = PREFIX + HEADER_WORDS * self.slots + self.words * slot;
        start..start + self.words
    }

    pub fn value_part(self, slot: usize) -> Range<usize> {
        let line = self.contents_line(slot);
        line.start + 1..line.end
    }

    pub fn header(self, image: &[u32], slot: usize) -> Header {
        let line = &image[self.header_line(slot)];
        Header { kind: line[0], epoch: line[1], uid: line[2], board: line[3] }
    }

    pub fn headers(self, image: &[u32]) -> Vec<Header> {
        (0..self.slots).map(|slot| self.header(image, slot)).collect()
    }

    pub fn set_header(self, image: &mut [u32], slot: usize, header: Header) {
        image[self.header_line(slot)].copy_from_slice(&header.words());
    }

    pub fn key(self, image: &[u32], slot: usize) -> u32 {
        image[self.contents_line(slot).start]
    }

    pub fn name(self, image: &[u32], slot: usize) -> Name {
        (self.header(image, slot).board, self.key(image, slot))
    }

    pub fn value(self, image: &[u32], slot: usize) -> Vec<u32> {
        image[self.value_part(slot)].to_vec()
    }

    pub fn set_contents(self, image: &mut [u32], slot: usize, key: u32, value: &[u32]) {
        let line = &mut image[self.contents_line(slot)];
        line[0] = key;
        line[1..].copy_from_slice(value);
    }
}

/// A mark: kind, label, uid, board.
#[derive(Clone, Copy, PartialEq, Eq, Debug)]
pub struct Header {
    pub kind: u32,
    pub epoch: u32,
    pub uid: u32,
    pub board: u32,
}

impl Header {
    /// 02, No. 2: "A free mark is now four zeros"
    pub const FREE: Header = Header { kind: 0, epoch: 0, uid: 0, board: 0 };

    pub fn words(self) -> [u32; HEADER_WORDS] {
        [self.kind, self.epoch, self.uid, self.board]
    }

    /// 02, No. 4: "A mark with any of its four words 0 counts as free". Such a mark is not whole.
    pub fn is_whole(self) -> bool {
        !self.words().contains(&0)
    }

    /// "what is left of such marks": not whole, and not four zeros either.
    pub fn is_remains(self) -> bool {
        !self.is_whole() && self != Header::FREE
    }

    /// Whole, and of a kind that there is. Calls other than recover take any other mark as free.
    pub fn is_filled(self) -> bool {
        self.is_whole() && self.kind <= DELETE
    }

    pub fn is_payload(self) -> bool {
        self.is_whole() && (self.kind == ALLOC || self.kind == UPDATE)
    }

    pub fn is_delete(self) -> bool {
        self.is_whole() && self.kind == DELETE
    }

    /// "A filled mark has a label from 2 to the clock and a uid from 1 to 4,000,000,000."
    /// 02, No. 3: "condition 3 admits boards 1 and 2"
    /// 02, No. 4: "of marks, condition 3 rejects only those of four nonzero words, one out of range"
    pub fn is_proper(self, clock: u32) -> bool {
        let in_range = self.kind <= DELETE
            && (FIRST_CLOCK..=clock).contains(&self.epoch)
            && self.uid <= LARGEST
            && self.board <= QUEUE;
        !self.is_whole() || in_range
    }

    /// "A slot is kept when it is filled and label + 2 ≤ clock."
    pub fn is_kept(self, clock: u32) -> bool {
        self.is_filled() && u64::from(self.epoch) + 2 <= u64::from(clock)
    }
}

pub fn clock_in_range(clock: u32) -> bool {
    (FIRST_CLOCK..=LARGEST).contains(&clock)
}
