//! Every exported call on a store as a value, and the simulator's reply to it, a number as C sees it.

use crate::batch::{batch, Outcome};
use crate::epochs::Step;
use crate::image::Sizes;
use crate::recovery::Progress;
use crate::store::{Refusal, Store};
use crate::transient::Layout;
use crate::{changes, epochs, queue, recovery};
use std::ops::Range;

#[derive(Clone, PartialEq, Eq, Debug)]
pub enum Call {
    Format { slots: u32, words: u32 },
    Recover,
    Begin { thread: u32 },
    End { thread: u32 },
    New { thread: u32, key: u32, value: Vec<u32> },
    Set { thread: u32, key: u32, value: Vec<u32> },
    Delete { thread: u32, key: u32 },
    Batch { thread: u32, list: Vec<u32> },
    Read { thread: u32, key: u32 },
    ReadRefusal { thread: u32, key: u32 },
    Append { thread: u32, value: Vec<u32> },
    Take { thread: u32 },
    Look { thread: u32 },
    LookRefusal { thread: u32 },
    Advance,
    Sync,
    WriteBack { position: usize },
}

pub const WENT_ON: u64 = 0;
pub const TICKED: u64 = 1;
pub const DONE: u64 = 1;
const REFUSED: u64 = 4_294_967_296;

/// A refusal as the calls that answer a 64-bit number give it: "4,294,967,296 plus the number".
pub fn refused(refusal: Refusal) -> u64 {
    REFUSED + u64::from(refusal)
}

/// Carries the call out on the store and gives its reply.
pub fn simulate(store: &mut Store, call: &Call) -> u64 {
    match call {
        Call::Format { slots, words } => plain(changes::format(store, *slots, *words)),
        Call::Recover => wide(recovery::recover(store).map(progress_number)),
        Call::Begin { thread } => plain(changes::begin(store, *thread)),
        Call::End { thread } => plain(changes::end(store, *thread)),
        Call::New { thread, key, value } => plain(changes::new(store, *thread, *key, value)),
        Call::Set { thread, key, value } => plain(changes::set(store, *thread, *key, value)),
        Call::Delete { thread, key } => plain(changes::delete(store, *thread, *key)),
        Call::Batch { thread, list } => batch(store, *thread, list).number(),
        Call::Read { thread, key } => wide(changes::read(store, *thread, *key).map(|place| place as u64)),
        Call::ReadRefusal { thread, key } => plain(changes::read(store, *thread, *key).map(|_| ())),
        Call::Append { thread, value } => wide(queue::append(store, *thread, value).map(u64::from)),
        Call::Take { thread } => plain(queue::take(store, *thread)),
        Call::Look { thread } => wide(queue::look(store, *thread).map(|place| place as u64)),
        Call::LookRefusal { thread } => plain(queue::look(store, *thread).map(|_| ())),
        Call::Advance => wide(epochs::advance(store).map(step_number)),
        Call::Sync => wide(epochs::sync(store)),
        Call::WriteBack { position } => plain(epochs::write_back(store, *position)),
    }
}

/// The refusals of the table, 1 to this one. 02, No. 3: "17 for take and look on an empty queue"
pub const LAST_REFUSAL: usize = 17;

/// How often each refusal came up, by its number.
pub type Refusals = [u64; LAST_REFUSAL + 1];

/// The refusal that a reply stands for, 0 for none: that of the call as a whole, which of a batch may be none although a
/// change of its list was refused.
pub fn refusal_of(call: &Call, reply: u64) -> Refusal {
    if matches!(call, Call::Batch { .. }) {
        return Outcome::of(reply).declines_with();
    }
    let gives_a_place = matches!(call, Call::Read { .. } | Call::Append { .. } | Call::Look { .. });
    let is_wide = gives_a_place || matches!(call, Call::Recover | Call::Advance | Call::Sync);
    let refusal = if is_wide { reply.saturating_sub(REFUSED) } else { reply };
    u32::try_from(refusal).unwrap_or(Refusal::MAX)
}

/// The memory copies the words of a line by itself, one after another.
pub fn line_written_back(line: Range<usize>) -> Vec<Call> {
    line.map(|position| Call::WriteBack { position }).collect()
}

/// The length of an image in words, 0 for sizes out of range.
pub fn image_words(slots: u32, words: u32) -> usize {
    Sizes::new(slots, words).map_or(0, Sizes::image_words)
}

/// The length of the notes in words, 0 for sizes out of range.
pub fn transient_words(slots: u32, threads: u32) -> usize {
    let narrowest = 2;
    let layout = Sizes::new(slots, narrowest).and_then(|sizes| Layout::new(sizes.slots, threads as usize));
    layout.map_or(0, Layout::words)
}

fn plain(result: Result<(), Refusal>) -> u64 {
    result.map_or_else(u64::from, |()| 0)
}

fn wide(result: Result<u64, Refusal>) -> u64 {
    result.unwrap_or_else(refused)
}

fn step_number(step: Step) -> u64 {
    match step {
        Step::WentOn => WENT_ON,
        Step::Ticked => TICKED,
    }
}

fn progress_number(progress: Progress) -> u64 {
    match progress {
        Progress::WentOn => WENT_ON,
        Progress::Done => DONE,
    }
}
