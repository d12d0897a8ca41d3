//! The library's calls on the simulator's types, one function for each set of exports that a program needs.

use crate::exports::*;
use crate::lent::Lent;
use crate::watch;
use simulator::calls::{simulate, Call, DONE};
use simulator::index::is_right;
use simulator::store::Store;
use std::ffi::CStr;

/// The six arguments that every call on a store begins with.
#[derive(Clone, Copy)]
pub struct Slices {
    w: *mut u32,
    wl: usize,
    p: *mut u32,
    pl: usize,
    t: *mut u32,
    tl: usize,
}

/// Carries the call out with the library, on a copy of the store between guard words: its reply, and what it left.
pub fn carried_out(store: &Store, call: &Call, library: fn(Slices, &Call) -> u64) -> Result<(u64, Store), String> {
    let [mut working, mut persistent, mut transient] =
        [&store.working, &store.persistent, &store.transient].map(|slice| Lent::new(slice));
    let slices = Slices {
        w: working.start(),
        wl: store.working.len(),
        p: persistent.start(),
        pl: store.persistent.len(),
        t: transient.start(),
        tl: store.transient.len(),
    };
    let reply = library(slices, call);
    watch::returned();
    let beside = || format!("a word beside the slices was overwritten, by {call:?} on {store:?}");
    let after = Store {
        working: working.taken_back().ok_or_else(beside)?,
        persistent: persistent.taken_back().ok_or_else(beside)?,
        transient: transient.taken_back().ok_or_else(beside)?,
    };
    Ok((reply, after))
}

/// Carries the call out with the library and with the simulator. The reply is given where both agree in it and in every
/// word of the three slices, else what differs. Where the index was right it has to be right again.
pub fn compare(store: &mut Store, call: &Call, library: fn(Slices, &Call) -> u64) -> Result<u64, String> {
    let before = store.clone();
    let (reply, after) = carried_out(&before, call, library)?;
    let wanted = simulate(store, call);
    if reply != wanted || after != *store {
        return Err(format!(
            "{call:?} replies {reply}, wanted {wanted}\nbefore {before:?}\nwanted {store:?}\nafter  {after:?}"
        ));
    }
    if !is_right(&after) && has_to_be_right(&before, call, reply) {
        return Err(format!("{call:?} leaves a wrong index\nbefore {before:?}\nafter  {after:?}"));
    }
    Ok(reply)
}

/// Format makes an index, recovery another one, and all other calls keep theirs.
fn has_to_be_right(before: &Store, call: &Call, reply: u64) -> bool {
    match call {
        Call::Format { .. } if reply == 0 => true,
        Call::Recover if reply == DONE => true,
        _ => is_right(before),
    }
}

/// The library's answers to the server's two questions: clock and survivors.
pub fn answers(bytes: &[u8]) -> [u64; 2] {
    let (start, length) = (bytes.as_ptr(), bytes.len());
    // SAFETY: the bytes are readable for the whole length.
    unsafe { [board_clock(start, length), board_survivors(start, length)] }
}

/// The lengths the library gives: of an image, and of the notes.
pub fn lengths(slots: u32, words: u32, threads: u32) -> [usize; 2] {
    // SAFETY: both take numbers alone.
    unsafe { [board_image_words(slots, words), board_transient_words(slots, threads)] }
}

/// A refusal in English, as the library exports it.
pub fn refusal_text(refusal: u32) -> &'static str {
    // SAFETY: it takes a number alone, and gives a text that is never freed and ends in 0.
    unsafe { CStr::from_ptr(board_refusal_text(refusal)) }.to_str().expect("a text in ASCII")
}

/// Recover, which is the only call here.
pub fn recover(slices: Slices, _: &Call) -> u64 {
    let Slices { w, wl, p, pl, t, tl } = slices;
    // SAFETY: three separate buffers, each longer than the length that goes with it.
    unsafe { board_recover(w, wl, p, pl, t, tl) }
}

/// Format, begin, end and the calls on jobs.
fn change(slices: Slices, call: &Call) -> u64 {
    let Slices { w, wl, p, pl, t, tl } = slices;
    // SAFETY: as in `recover`, and the value is readable for its whole length.
    let reply = unsafe {
        match *call {
            Call::Format { slots, words } => board_format(w, wl, p, pl, t, tl, slots, words),
            Call::Begin { thread } => board_begin(w, wl, p, pl, t, tl, thread),
            Call::End { thread } => board_end(w, wl, p, pl, t, tl, thread),
            Call::New { thread, key, ref value } => {
                board_new(w, wl, p, pl, t, tl, thread, key, value.as_ptr(), value.len())
            }
            Call::Set { thread, key, ref value } => {
                board_set(w, wl, p, pl, t, tl, thread, key, value.as_ptr(), value.len())
            }
            Call::Delete { thread, key } => board_delete(w, wl, p, pl, t, tl, thread, key),
            Call::Batch { thread, ref list } => return batch(slices, thread, list),
            Call::ReadRefusal { thread, key } => board_read_refusal(w, wl, p, pl, t, tl, thread, key),
            Call::Read { thread, key } => return board_read(w, wl, p, pl, t, tl, thread, key),
            _ => return queue(slices, call),
        }
    };
    u64::from(reply)
}

/// A list of changes. It is lent between guard words too, and has to stay as it is.
fn batch(slices: Slices, thread: u32, list: &[u32]) -> u64 {
    let Slices { w, wl, p, pl, t, tl } = slices;
    let mut lent = Lent::new(list);
    // SAFETY: as in `change`.
    let reply = unsafe { board_batch(w, wl, p, pl, t, tl, thread, lent.start(), list.len()) };
    assert_eq!(lent.taken_back().as_deref(), Some(list), "the list was overwritten");
    reply
}

/// The calls on the queue.
fn queue(slices: Slices, call: &Call) -> u64 {
    let Slices { w, wl, p, pl, t, tl } = slices;
    // SAFETY: as in `change`.
    unsafe {
        match *call {
            Call::Append { thread, ref value } => {
                board_append(w, wl, p, pl, t, tl, thread, value.as_ptr(), value.len())
            }
            Call::Take { thread } => u64::from(board_take(w, wl, p, pl, t, tl, thread)),
            Call::Look { thread } => board_look(w, wl, p, pl, t, tl, thread),
            Call::LookRefusal { thread } => u64::from(board_look_refusal(w, wl, p, pl, t, tl, thread)),
            _ => panic!("{call:?} is no call of a thread"),
        }
    }
}

/// Every call.
pub fn any(slices: Slices, call: &Call) -> u64 {
    let Slices { w, wl, p, pl, t, tl } = slices;
    // SAFETY: as in `recover`.
    unsafe {
        match *call {
            Call::Recover => recover(slices, call),
            Call::Advance => board_advance(w, wl, p, pl, t, tl),
            Call::Sync => board_sync(w, wl, p, pl, t, tl),
            Call::WriteBack { position } => u64::from(board_write_back(w, wl, p, pl, t, tl, position)),
            _ => change(slices, call),
        }
    }
}
