//! What the remains of marks decide (02, No. 4: "A mark with any of its four words 0 counts as free"): were some sort rare,
//! a comparison would say little about it.

use crate::calls::{refusal_of, simulate, Call};
use crate::image::{Header, Sizes, DELETE, FIRST_CLOCK, LARGEST, QUEUE};
use crate::recovery::{judge, Accepted};
use crate::store::{Entry, Store};
use crate::transient::{PHASE, PLACE_SLOT};

/// How often a call was answered otherwise than it would be if marks went by their kind alone, and how often remains
/// were taken.
#[derive(Clone, Copy, Default, Debug)]
pub struct CallsOnRemains {
    /// A label above the operation's epoch that is no 9: for calls on jobs, and for those on the queue.
    pub no_9: u64,
    pub no_9_of_the_queue: u64,
    /// What looks like the job, or like the front, and is not.
    pub no_job: u64,
    pub no_front: u64,
    /// A slot with remains that was taken, and what would have been 13 without such slots.
    pub taken: u64,
    pub no_13: u64,
    /// What looks like a retired payload or a DELETE that is due, and was passed over.
    pub not_due: u64,
}

impl CallsOnRemains {
    /// Notes a call that got this reply on the first store and left the second.
    pub fn note(&mut self, before: &Store, call: &Call, reply: u64, after: &Store) {
        let Ok(entry) = before.enter() else { return };
        let refusal = refusal_of(call, reply);
        let is_taken = |slot: usize| entry.header(before, slot).is_remains() && entry.header(after, slot).is_filled();
        self.taken += u64::from(refusal == 0 && entry.slots().any(is_taken));
        let mut by_kind = Store { working: by_kind(&before.working), ..before.clone() };
        let other_reply = simulate(&mut by_kind, call);
        match (refusal_of(call, other_reply), refusal) {
            (9, other) if other != 9 && on_the_queue(call) => self.no_9_of_the_queue += 1,
            (9, other) if other != 9 => self.no_9 += 1,
            (13, 0) => self.no_13 += 1,
            (11, 0) | (0, 10) => self.no_job += 1,
            (0, 17) => self.no_front += 1,
            (0, 0) if matches!(call, Call::Read { .. }) => self.no_job += u64::from(other_reply != reply),
            (0, 0) if matches!(call, Call::Look { .. }) => self.no_front += u64::from(other_reply != reply),
            (0, 0) if *call == Call::Advance => self.not_due += u64::from(passed_over(before, after, &entry)),
            _ => {}
        }
    }

    pub fn are_at_least(self, least: u64) -> bool {
        let CallsOnRemains { no_9, no_9_of_the_queue, no_job, no_front, taken, no_13, not_due } = self;
        [no_9, no_9_of_the_queue, no_job, no_front, taken, no_13, not_due].iter().all(|&seen| seen >= least)
    }
}

impl std::fmt::Display for CallsOnRemains {
    fn fmt(&self, text: &mut std::fmt::Formatter) -> std::fmt::Result {
        let CallsOnRemains { no_9, no_9_of_the_queue, no_job, no_front, taken, no_13, not_due } = self;
        write!(
            text,
            "remains: no 9 {no_9} and of the queue {no_9_of_the_queue}, no job {no_job}, no front {no_front}, "
        )?;
        write!(text, "slots taken {taken} and no 13 {no_13}, not due {not_due}")
    }
}

fn on_the_queue(call: &Call) -> bool {
    matches!(call, Call::Append { .. } | Call::Take { .. } | Call::Look { .. } | Call::LookRefusal { .. })
}

/// Whether an advance call looked for a due slot and passed over remains that are due by their kind.
fn passed_over(before: &Store, after: &Store, entry: &Entry) -> bool {
    let start = match before.transient[PHASE] {
        1 => before.transient[PLACE_SLOT] as usize,
        2..=4 => return false,
        _ => 0,
    };
    let freed = entry.slots().find(|&slot| entry.header(before, slot) != entry.header(after, slot));
    let is_due = |slot: usize| {
        let header = entry.header(before, slot);
        match header.kind {
            1 | 2 => entry.retired(before, slot).checked_add(2) == Some(entry.clock),
            DELETE => header.epoch.checked_add(3) == Some(entry.clock),
            _ => false,
        }
    };
    (start..freed.unwrap_or(entry.sizes.slots)).any(|slot| entry.header(before, slot).is_remains() && is_due(slot))
}

/// The image with each mark of kind 1 to 3 filled: in the place of its zeros stand a label below all, a uid above all and
/// the number of no board.
fn by_kind(image: &[u32]) -> Vec<u32> {
    let mut image = image.to_vec();
    let Some(sizes) = Sizes::of(&image) else { return image };
    let unless_zero = |word: u32, other: u32| if word == 0 { other } else { word };
    for slot in 0..sizes.slots {
        let Header { kind, epoch, uid, board } = sizes.header(&image, slot);
        if (1..=DELETE).contains(&kind) {
            let epoch = unless_zero(epoch, 1);
            let (uid, board) = (unless_zero(uid, u32::MAX), unless_zero(board, u32::MAX));
            sizes.set_header(&mut image, slot, Header { kind, epoch, uid, board });
        }
    }
    image
}

/// What recover calls that were accepted met: marks that look like something and count as free, and which mark came
/// first.
#[derive(Clone, Copy, Default, Debug)]
pub struct RecoveriesOfRemains {
    /// Remains that look like a survivor, like a later version of one, like another mark of its uid and label, and like a
    /// mark out of range.
    pub no_survivor: u64,
    pub no_winner: u64,
    pub no_4: u64,
    pub no_3: u64,
    /// Remains zeroed while a filled mark of the first pass stood above, and such a mark freed while remains stood above.
    pub before_stale: u64,
    pub after_stale: u64,
    /// Remains zeroed while a kept DELETE stood below.
    pub before_delete: u64,
}

impl RecoveriesOfRemains {
    /// Notes a recover call on the first of these lasting images, which left the second.
    pub fn note(&mut self, before: &[u32], after: &[u32]) {
        let Ok(accepted) = judge(before) else { return };
        let headers = accepted.sizes.headers(before);
        self.note_looks(&headers, &accepted);
        let Some(freed) = (0..headers.len()).find(|&slot| accepted.sizes.header(after, slot) != headers[slot]) else {
            return;
        };
        let is_kept_delete = |header: &Header| header.is_delete() && header.is_kept(accepted.clock);
        let is_stale = |slot: &usize| {
            headers[*slot].is_filled() && !accepted.survivors.contains(slot) && !is_kept_delete(&headers[*slot])
        };
        let stale_above = (freed + 1..headers.len()).any(|slot| is_stale(&slot));
        let remains_above = headers[freed + 1..].iter().any(|header| header.is_remains());
        if headers[freed].is_remains() {
            self.before_stale += u64::from(stale_above);
            self.before_delete += u64::from(headers[..freed].iter().any(is_kept_delete));
        } else if is_stale(&freed) {
            self.after_stale += u64::from(remains_above);
        }
    }

    fn note_looks(&mut self, headers: &[Header], accepted: &Accepted) {
        let clock = accepted.clock;
        let any = |looks: &dyn Fn(Header) -> bool| {
            u64::from(headers.iter().any(|&header| header.is_remains() && looks(header)))
        };
        let kept = |header: Header| (FIRST_CLOCK..=clock - 2).contains(&header.epoch);
        let beside = |header: Header, wanted: &dyn Fn(Header) -> bool| {
            let survivors = accepted.survivors.iter().map(|&slot| headers[slot]);
            survivors.clone().any(|survivor| survivor.uid == header.uid && wanted(survivor))
        };
        self.no_survivor += any(&|header| (1..DELETE).contains(&header.kind) && kept(header));
        self.no_winner += any(&|header| kept(header) && beside(header, &|survivor| header.epoch > survivor.epoch));
        self.no_4 += any(&|header| kept(header) && beside(header, &|survivor| header.epoch == survivor.epoch));
        self.no_3 += any(&|Header { kind, epoch, uid, board }| {
            kind > DELETE || epoch == 1 || epoch > clock || uid > LARGEST || board > QUEUE
        });
    }

    pub fn are_at_least(self, least: u64) -> bool {
        let looks = [self.no_survivor, self.no_winner, self.no_4, self.no_3];
        let order = [self.before_stale, self.after_stale, self.before_delete];
        looks.iter().chain(&order).all(|&seen| seen >= least)
    }
}

impl std::fmt::Display for RecoveriesOfRemains {
    fn fmt(&self, text: &mut std::fmt::Formatter) -> std::fmt::Result {
        let RecoveriesOfRemains { no_survivor, no_winner, no_4, no_3, before_stale, after_stale, before_delete } = self;
        write!(
            text,
            "remains: no survivor {no_survivor}, no winner {no_winner}, no 4 {no_4}, no 3 {no_3}, zeroed before "
        )?;
        write!(text, "a stale mark {before_stale}, after one {after_stale}, before a DELETE below {before_delete}")
    }
}
