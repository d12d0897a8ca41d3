//! The stored images: named byte strings for the lister and the server's questions.

use crate::image::{Header, Sizes, ALLOC, CLOCK, DELETE, HEADER_WORDS, JOBS, LARGEST, QUEUE, UPDATE};
use crate::lister::bytes_of;

/// The paper's example, "For words 2 2 7, 1 5 1, 2 6 1, 10 100, 10 200"; 02, No. 2: "01's worked marks gain a last 1"
pub const EXAMPLE: [u32; 15] = [2, 2, 7, 1, 5, 1, 1, 2, 6, 1, 1, 10, 100, 10, 200];

/// The same as it was before, with marks of three words.
pub const OLD_EXAMPLE: [u32; 13] = [2, 2, 7, 1, 5, 1, 2, 6, 1, 10, 100, 10, 200];

/// A slot to be filled: kind, label, uid, key; its value words count up from 1000 times the key. Its board is that of
/// jobs, or 0 with kind 0.
type Filled = (u32, u32, u32, u32);

/// An image with these slots from 0 on, the others free with old words in their contents.
pub fn image_with(slots: u32, words: u32, clock: u32, filled: &[Filled]) -> Vec<u32> {
    let sizes = Sizes::new(slots, words).expect("a stored image has sizes in range");
    let mut image = vec![77; sizes.image_words()];
    image[0] = slots;
    image[1] = words;
    image[CLOCK] = clock;
    for slot in 0..sizes.slots {
        sizes.set_header(&mut image, slot, Header::FREE);
    }
    for (slot, &(kind, epoch, uid, key)) in filled.iter().enumerate() {
        let value: Vec<u32> = (0..words - 1).map(|word| key.wrapping_mul(1000).wrapping_add(word)).collect();
        let board = if kind == 0 { 0 } else { JOBS };
        sizes.set_header(&mut image, slot, Header { kind, epoch, uid, board });
        sizes.set_contents(&mut image, slot, key, &value);
    }
    image
}

/// The image with a slot on this board.
pub fn on_board(mut image: Vec<u32>, slot: usize, board: u32) -> Vec<u32> {
    let sizes = Sizes::of(&image).expect("a stored image fits its sizes");
    let header = sizes.header(&image, slot);
    sizes.set_header(&mut image, slot, Header { board, ..header });
    image
}

/// The image with these words as a slot's mark.
pub fn with_mark(mut image: Vec<u32>, slot: usize, [kind, epoch, uid, board]: [u32; HEADER_WORDS]) -> Vec<u32> {
    let sizes = Sizes::of(&image).expect("a stored image fits its sizes");
    sizes.set_header(&mut image, slot, Header { kind, epoch, uid, board });
    image
}

/// The image with these slots on the queue.
pub fn queued(image: Vec<u32>, slots: &[usize]) -> Vec<u32> {
    slots.iter().fold(image, |image, &slot| on_board(image, slot, QUEUE))
}

/// 1,024 jobs of 8 value words; the last word is the largest there is.
pub fn full_largest() -> Vec<u32> {
    let jobs: Vec<Filled> = (1..=1024).map(|job| (ALLOC, 2 + job % 40, job, LARGEST + job)).collect();
    let mut image = image_with(1024, 9, 50, &jobs);
    *image.last_mut().expect("an image has words") = u32::MAX;
    image
}

/// 1,024 queue entries with the largest words there are: the lister's longest text.
pub fn full_queue() -> Vec<u32> {
    let entries: Vec<Filled> = (0..1024).map(|entry| (ALLOC, 2, 1 + entry, LARGEST - entry)).collect();
    let mut image = queued(image_with(1024, 9, LARGEST, &entries), &(0..1024).collect::<Vec<usize>>());
    let sizes = Sizes::of(&image).expect("the largest image fits its sizes");
    for slot in 0..sizes.slots {
        image[sizes.value_part(slot)].fill(u32::MAX);
    }
    image
}

/// Every stored image with its name.
pub fn stored_images() -> Vec<(String, Vec<u8>)> {
    let images = [accepted(), accepted_queues(), accepted_remains(), refused_2(), refused_3(), refused_4()].concat();
    let mut all: Vec<(String, Vec<u8>)> =
        images.into_iter().map(|(name, image)| (name.to_string(), bytes_of(&image))).collect();
    all.extend(refused_1().into_iter().map(|(name, bytes)| (name.to_string(), bytes)));
    all
}

fn accepted() -> Vec<(&'static str, Vec<u32>)> {
    let deleted = [(ALLOC, 3, 2, 6), (DELETE, 5, 2, 6)];
    let versions = [(ALLOC, 2, 4, 12), (UPDATE, 6, 4, 12), deleted[0], deleted[1], (UPDATE, 4, 3, 9), (ALLOC, 8, 1, 7)];
    let zero_value = [2, 3, 4, ALLOC, 2, LARGEST, JOBS, 0, 0, 0, 0, u32::MAX, 0, 0, 1, 2, 3];
    vec![
        ("example", EXAMPLE.to_vec()),
        ("empty-board", image_with(2, 2, 2, &[])),
        ("jobs-in-many-versions", image_with(8, 4, 8, &versions)),
        ("zero-value-words", zero_value.to_vec()),
        ("clock-at-its-end", image_with(3, 2, LARGEST, &[(ALLOC, LARGEST - 2, 1, 8), (UPDATE, LARGEST - 1, 1, 8)])),
        ("delete-not-yet-kept", image_with(2, 2, 8, &[(ALLOC, 5, 1, 3), (DELETE, 7, 1, 3)])),
        ("delete-kept", image_with(2, 2, 9, &[(ALLOC, 5, 1, 3), (DELETE, 7, 1, 3)])),
        ("key-zero-not-surviving", image_with(3, 2, 9, &[(ALLOC, 5, 1, 0), (UPDATE, 6, 1, 3), (DELETE, 7, 2, 0)])),
        ("equal-labels-not-kept", image_with(3, 2, 9, &[(ALLOC, 8, 1, 3), (UPDATE, 8, 1, 3), (ALLOC, 2, 2, 3)])),
        ("full-largest", full_largest()),
        ("empty-largest", image_with(1024, 9, 2, &[])),
    ]
}

fn accepted_queues() -> Vec<(&'static str, Vec<u32>)> {
    let of_two = |first: Filled, second: Filled| image_with(3, 3, 9, &[first, second]);
    let deleted = [(ALLOC, 3, 2, 6), (DELETE, 5, 2, 6)];
    let mixed = [(ALLOC, 2, 4, 12), (ALLOC, 4, 7, 9), deleted[0], deleted[1], (ALLOC, 3, 5, 8), (ALLOC, 8, 8, 10)];
    let past_the_end =
        [(ALLOC, 5, 1, LARGEST + 1), (UPDATE, 6, 1, LARGEST), (DELETE, 7, 2, u32::MAX), (ALLOC, 8, 3, 0)];
    vec![
        ("queue-beside-a-job", queued(image_with(8, 4, 8, &mixed), &[1, 2, 3, 4, 5])),
        ("queue-alone", queued(of_two((UPDATE, 5, 1, 2), (ALLOC, 7, 2, 1)), &[0, 1])),
        ("queue-not-kept", queued(of_two((ALLOC, 5, 1, 3), (ALLOC, 9, 2, 7)), &[1])),
        ("equal-keys-on-two-boards", queued(of_two((ALLOC, 5, 1, 3), (UPDATE, 6, 2, 3)), &[1])),
        ("equal-uids-on-two-boards", queued(of_two((ALLOC, 5, 1, 3), (UPDATE, 6, 1, 3)), &[1])),
        ("equal-uids-on-two-boards-deleted", queued(of_two((ALLOC, 5, 1, 3), (DELETE, 6, 1, 3)), &[1])),
        ("last-order-number", queued(of_two((ALLOC, 5, 1, 3), (ALLOC, 5, 2, LARGEST)), &[1])),
        ("order-numbers-past-their-end-not-surviving", queued(image_with(4, 2, 9, &past_the_end), &[0, 1, 2, 3])),
        ("full-queue", full_queue()),
    ]
}

/// 02, No. 4: "A mark with any of its four words 0 counts as free": beside a job, which survives.
fn accepted_remains() -> Vec<(&'static str, Vec<u32>)> {
    let beside = |mark: [u32; HEADER_WORDS]| with_mark(image_with(3, 3, 9, &[(ALLOC, 5, 1, 3), (0, 0, 0, 7)]), 1, mark);
    let deleted = [(DELETE, 6, 2, 4), (ALLOC, 5, 2, 4), (ALLOC, 4, 1, 3), (UPDATE, 8, 1, 3)];
    let in_two_passes = with_mark(image_with(6, 2, 9, &deleted), 4, [UPDATE, 5, 1, 0]);
    vec![
        ("remains-a-kind", beside([ALLOC, 0, 0, 0])),
        ("remains-a-label", beside([0, 5, 0, 0])),
        ("remains-a-uid", beside([0, 0, 2, 0])),
        ("remains-a-board", beside([0, 0, 0, JOBS])),
        ("remains-the-queues-board", beside([0, 0, 0, QUEUE])),
        ("remains-without-kind", beside([0, 5, 2, JOBS])),
        ("remains-without-label", beside([ALLOC, 0, 2, JOBS])),
        ("remains-without-uid", beside([UPDATE, 5, 0, QUEUE])),
        ("remains-without-board", beside([DELETE, 5, 2, 0])),
        ("remains-of-kind-4", beside([4, 5, 2, 0])),
        ("remains-of-label-1", beside([ALLOC, 1, 0, JOBS])),
        ("remains-of-a-label-above-the-clock", beside([0, 10, 2, JOBS])),
        ("remains-of-a-uid-past-its-end", beside([DELETE, 0, LARGEST + 1, JOBS])),
        ("remains-of-board-3", beside([0, 5, 2, 3])),
        ("remains-all-ones", beside([u32::MAX, u32::MAX, 0, u32::MAX])),
        ("remains-of-a-later-version", beside([UPDATE, 6, 1, 0])),
        ("remains-of-the-jobs-delete", beside([DELETE, 7, 1, 0])),
        ("remains-of-equal-uid-and-label", beside([UPDATE, 5, 1, 0])),
        ("remains-with-key-0", with_mark(image_with(2, 2, 9, &[(ALLOC, 5, 1, 3), (0, 0, 0, 0)]), 1, [ALLOC, 5, 2, 0])),
        ("remains-with-an-equal-key", with_mark(image_with(2, 2, 9, &[(1, 5, 1, 3), (1, 5, 2, 3)]), 1, [1, 5, 0, 1])),
        ("remains-after-stale-marks-and-a-delete", with_mark(in_two_passes, 5, [DELETE, 6, 0, JOBS])),
        ("remains-everywhere", with_mark(beside([0, 5, 2, JOBS]), 0, [ALLOC, 5, 1, 0])),
    ]
}

fn refused_1() -> Vec<(&'static str, Vec<u8>)> {
    let example = bytes_of(&EXAMPLE);
    let largest = bytes_of(&full_largest());
    let with_size = |place: usize, word: u32| {
        let mut image = EXAMPLE;
        image[place] = word;
        bytes_of(&image)
    };
    let (short_of_a_byte, short_of_a_word) = (example.len() - 1, example.len() - 4);
    vec![
        ("no-bytes", Vec::new()),
        ("one-byte", vec![2]),
        ("sizes-alone", example[..8].to_vec()),
        ("one-byte-short", example[..short_of_a_byte].to_vec()),
        ("one-byte-long", [&example[..], &[0]].concat()),
        ("one-word-short", example[..short_of_a_word].to_vec()),
        ("one-word-long", [&example[..], &[0; 4]].concat()),
        ("one-byte-more-than-largest", [&largest[..], &[0]].concat()),
        ("one-word-more-than-largest", [&largest[..], &[0; 4]].concat()),
        ("largest-twice", [&largest[..], &largest[..]].concat()),
        ("one-slot", bytes_of(&[1, 2, 7, 1, 5, 1, 1, 10, 100])),
        ("too-many-slots", with_size(0, 1025)),
        ("slots-do-not-fit", with_size(0, 3)),
        ("slots-wrap-around", with_size(0, 0x8000_0002)),
        ("one-word-of-contents", bytes_of(&[2, 1, 7, 0, 0, 0, 0, 0, 0, 0, 0, 1, 1])),
        ("ten-words-of-contents", bytes_of(&[[2, 10, 7].as_slice(), &[0; 28]].concat())),
        ("highest-byte-first", EXAMPLE.iter().flat_map(|word| word.to_be_bytes()).collect()),
        ("marks-of-three-words", bytes_of(&OLD_EXAMPLE)),
        ("marks-of-three-words-no-job", bytes_of(&[[2, 2, 2].as_slice(), &[0; 10]].concat())),
    ]
}

fn refused_2() -> Vec<(&'static str, Vec<u32>)> {
    let with_clock = |clock: u32| image_with(2, 2, clock, &[(0, 0, 0, 3), (9, 9, 9, 9)]);
    vec![
        ("clock-0", with_clock(0)),
        ("clock-1", with_clock(1)),
        ("clock-past-its-end", with_clock(LARGEST + 1)),
        ("clock-all-ones", with_clock(u32::MAX)),
    ]
}

fn refused_3() -> Vec<(&'static str, Vec<u32>)> {
    let equal = [(ALLOC, 5, 1, 3), (ALLOC, 5, 1, 3)];
    let mark = |header: Filled| image_with(4, 3, 9, &[equal[0], equal[1], header]);
    let of_two = |first: Filled, second: Filled| image_with(3, 3, 9, &[first, second]);
    vec![
        ("kind-4", mark((4, 5, 2, 7))),
        ("kind-all-ones", mark((u32::MAX, 5, 2, 7))),
        ("label-1", mark((UPDATE, 1, 2, 7))),
        ("label-above-clock", mark((DELETE, 10, 2, 7))),
        ("uid-past-its-end", mark((DELETE, 5, LARGEST + 1, 7))),
        ("board-3", on_board(mark((UPDATE, 5, 2, 7)), 2, 3)),
        ("board-all-ones", on_board(mark((DELETE, 5, 2, 7)), 2, u32::MAX)),
        ("kind-4-and-nothing-else", of_two((ALLOC, 5, 1, 3), (4, 5, 2, 7))),
        ("label-1-and-nothing-else", of_two((ALLOC, 5, 1, 3), (ALLOC, 1, 2, 7))),
        ("label-above-clock-and-nothing-else", of_two((ALLOC, 5, 1, 3), (ALLOC, 10, 2, 7))),
        ("uid-past-its-end-and-nothing-else", of_two((ALLOC, 5, 1, 3), (ALLOC, 5, LARGEST + 1, 7))),
        ("board-3-and-nothing-else", on_board(of_two((ALLOC, 5, 1, 3), (ALLOC, 5, 2, 7)), 1, 3)),
        ("board-3-not-kept", on_board(of_two((ALLOC, 5, 1, 3), (ALLOC, 9, 2, 7)), 1, 3)),
        ("board-3-beside-remains", on_board(with_mark(mark((ALLOC, 5, 2, 7)), 0, [4, 5, 1, 0]), 2, 3)),
        ("equal-keys-on-no-board", on_board(of_two((ALLOC, 5, 1, 3), (UPDATE, 6, 2, 3)), 1, 3)),
        ("equal-uids-on-no-board", on_board(of_two((ALLOC, 5, 1, 3), (UPDATE, 6, 1, 3)), 1, 3)),
        ("equal-uid-and-label-on-no-board", on_board(of_two((ALLOC, 5, 1, 3), (UPDATE, 5, 1, 4)), 1, 3)),
        ("survivor-with-key-0", of_two((ALLOC, 5, 1, 3), (ALLOC, 7, 2, 0))),
        ("equal-survivors-with-key-0", of_two((ALLOC, 5, 1, 3), (UPDATE, 5, 1, 0))),
        ("order-number-0", queued(of_two((ALLOC, 5, 1, 3), (ALLOC, 7, 2, 0)), &[1])),
        ("order-number-past-its-end", queued(of_two((ALLOC, 5, 1, 3), (ALLOC, 7, 2, LARGEST + 1)), &[1])),
        ("order-number-all-ones", queued(of_two((UPDATE, 7, 2, u32::MAX), (ALLOC, 5, 1, 3)), &[0])),
        (
            "equal-order-numbers-past-their-end",
            queued(of_two((ALLOC, 5, 1, u32::MAX), (ALLOC, 5, 2, u32::MAX)), &[0, 1]),
        ),
    ]
}

fn refused_4() -> Vec<(&'static str, Vec<u32>)> {
    let equal_uid_and_label = image_with(3, 2, 9, &[(ALLOC, 5, 1, 3), (UPDATE, 5, 1, 4)]);
    let equal_beside_another = image_with(3, 2, 9, &[(ALLOC, 5, 1, 3), (DELETE, 7, 1, 3), (UPDATE, 5, 1, 3)]);
    vec![
        ("equal-uid-and-label-on-two-boards", queued(equal_uid_and_label.clone(), &[1])),
        ("equal-uid-and-label-on-the-queue", queued(equal_uid_and_label, &[0, 1])),
        ("equal-order-numbers", queued(image_with(3, 2, 9, &[(ALLOC, 5, 1, 3), (UPDATE, 6, 2, 3)]), &[0, 1])),
        ("equal-uid-and-label", image_with(3, 2, 9, &[(ALLOC, 5, 1, 3), (UPDATE, 5, 1, 4)])),
        ("equal-beside-remains", with_mark(equal_beside_another, 1, [DELETE, 7, 1, 0])),
        ("equal-uid-and-label-of-deletes", image_with(3, 2, 9, &[(DELETE, 5, 1, 3), (DELETE, 5, 1, 4)])),
        ("equal-and-beaten", image_with(3, 2, 9, &[(ALLOC, 5, 1, 3), (UPDATE, 5, 1, 3), (UPDATE, 7, 1, 3)])),
        ("equal-keys", image_with(2, 2, 9, &[(ALLOC, 5, 1, 3), (UPDATE, 6, 2, 3)])),
        ("equal-keys-far-apart", {
            let mut image = full_largest();
            let sizes = Sizes::of(&image).expect("the largest image fits its sizes");
            let first = sizes.key(&image, 0);
            image[sizes.contents_line(1023).start] = first;
            image
        }),
    ]
}
