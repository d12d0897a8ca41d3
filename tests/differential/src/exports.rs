//! The C exports, as the header declares them. Each call on a store takes working, persistent and transient,
//! every one as a pointer and its length in words.

use std::ffi::c_char;

type Words = *mut u32;

extern "C" {
    pub fn board_clock(image: *const u8, bytes: usize) -> u64;
    pub fn board_survivors(image: *const u8, bytes: usize) -> u64;
    pub fn board_refusal_text(refusal: u32) -> *const c_char;
    pub fn board_image_words(slots: u32, words: u32) -> usize;
    pub fn board_transient_words(slots: u32, threads: u32) -> usize;
    pub fn board_recover(w: Words, wl: usize, p: Words, pl: usize, t: Words, tl: usize) -> u64;
    pub fn board_format(w: Words, wl: usize, p: Words, pl: usize, t: Words, tl: usize, slots: u32, words: u32) -> u32;
    pub fn board_begin(w: Words, wl: usize, p: Words, pl: usize, t: Words, tl: usize, thread: u32) -> u32;
    pub fn board_end(w: Words, wl: usize, p: Words, pl: usize, t: Words, tl: usize, thread: u32) -> u32;
    pub fn board_new(
        w: Words,
        wl: usize,
        p: Words,
        pl: usize,
        t: Words,
        tl: usize,
        thread: u32,
        key: u32,
        value: *const u32,
        length: usize,
    ) -> u32;
    pub fn board_set(
        w: Words,
        wl: usize,
        p: Words,
        pl: usize,
        t: Words,
        tl: usize,
        thread: u32,
        key: u32,
        value: *const u32,
        length: usize,
    ) -> u32;
    pub fn board_delete(w: Words, wl: usize, p: Words, pl: usize, t: Words, tl: usize, thread: u32, key: u32) -> u32;
    pub fn board_batch(
        w: Words,
        wl: usize,
        p: Words,
        pl: usize,
        t: Words,
        tl: usize,
        thread: u32,
        changes: *const u32,
        length: usize,
    ) -> u64;
    pub fn board_read(w: Words, wl: usize, p: Words, pl: usize, t: Words, tl: usize, thread: u32, key: u32) -> u64;
    pub fn board_read_refusal(
        w: Words,
        wl: usize,
        p: Words,
        pl: usize,
        t: Words,
        tl: usize,
        thread: u32,
        key: u32,
    ) -> u32;
    pub fn board_append(
        w: Words,
        wl: usize,
        p: Words,
        pl: usize,
        t: Words,
        tl: usize,
        thread: u32,
        value: *const u32,
        length: usize,
    ) -> u64;
    pub fn board_take(w: Words, wl: usize, p: Words, pl: usize, t: Words, tl: usize, thread: u32) -> u32;
    pub fn board_look(w: Words, wl: usize, p: Words, pl: usize, t: Words, tl: usize, thread: u32) -> u64;
    pub fn board_look_refusal(w: Words, wl: usize, p: Words, pl: usize, t: Words, tl: usize, thread: u32) -> u32;
    pub fn board_advance(w: Words, wl: usize, p: Words, pl: usize, t: Words, tl: usize) -> u64;
    pub fn board_sync(w: Words, wl: usize, p: Words, pl: usize, t: Words, tl: usize) -> u64;
    pub fn board_write_back(w: Words, wl: usize, p: Words, pl: usize, t: Words, tl: usize, position: usize) -> u32;
}
