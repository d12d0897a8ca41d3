//! What the rules of the queue (02, No. 3) decide in calls: were some sort rare, a comparison would say little about it.

use crate::calls::{refusal_of, Call};
use crate::image::{Header, ALLOC, LARGEST, QUEUE};
use crate::queue::front;
use crate::store::{Entry, Store};
use crate::transient::{NEXT_ORDER, NEXT_UID};

/// How often a call met each sort.
#[derive(Clone, Copy, Default, Debug)]
pub struct QueueCases {
    /// 12 of an append for the order number alone, and a new that was accepted without one left.
    pub no_order: u64,
    pub new_without_order: u64,
    /// 9 where no slot of the front's key is labelled above the operation's epoch, and where there is no front.
    pub newer_elsewhere: u64,
    pub newer_and_empty: u64,
    /// A label above the epoch on another board, which is no 9.
    pub newer_on_another_board: u64,
    /// A live slot of a smaller key on another board, another entry in a lower slot, and one of the same key in a higher.
    pub smaller_on_another_board: u64,
    pub front_behind_another: u64,
    pub front_twice: u64,
    /// Appends, and takes by what became of the front: freed at once, turned into a DELETE, covered by one.
    pub appended: u64,
    pub freed: u64,
    pub turned: u64,
    pub covered: u64,
}

impl QueueCases {
    /// Notes a call that got this reply on this store.
    pub fn note(&mut self, store: &Store, call: &Call, reply: u64) {
        let Ok(entry) = store.enter() else { return };
        let refusal = refusal_of(call, reply);
        let thread = match call {
            Call::Append { thread, .. } | Call::Take { thread } => thread,
            Call::Look { thread } | Call::LookRefusal { thread } => thread,
            Call::New { .. } => {
                self.new_without_order += u64::from(refusal == 0 && store.transient[NEXT_ORDER] > LARGEST);
                return;
            }
            _ => return,
        };
        let epoch = if (*thread as usize) < entry.layout.threads { entry.open(store, *thread as usize) } else { 0 };
        match refusal {
            0 => self.note_accepted(store, &entry, epoch, call),
            9 => self.note_newer(store, &entry, epoch),
            12 => self.no_order += u64::from(store.transient[NEXT_UID] <= LARGEST),
            _ => {}
        }
    }

    fn note_newer(&mut self, store: &Store, entry: &Entry, epoch: u32) {
        let Some(front) = front(store, entry) else {
            self.newer_and_empty += 1;
            return;
        };
        let name = entry.sizes.name(&store.working, front);
        let is_newer =
            |slot: usize| is_above(entry.header(store, slot), epoch) && entry.sizes.name(&store.working, slot) == name;
        self.newer_elsewhere += u64::from(!entry.slots().any(is_newer));
    }

    fn note_accepted(&mut self, store: &Store, entry: &Entry, epoch: u32, call: &Call) {
        let is_above = |slot: usize| is_above(entry.header(store, slot), epoch);
        self.newer_on_another_board += u64::from(epoch != 0 && entry.slots().any(is_above));
        if matches!(call, Call::Append { .. }) {
            self.appended += 1;
            return;
        }
        let Some(front) = front(store, entry) else { return };
        self.note_front(store, entry, front);
        if matches!(call, Call::Take { .. }) {
            self.note_taken(entry.header(store, front), epoch);
        }
    }

    fn note_front(&mut self, store: &Store, entry: &Entry, front: usize) {
        let key = |slot: usize| entry.sizes.key(&store.working, slot);
        let is_queued = |slot: usize| entry.header(store, slot).board == QUEUE;
        let others: Vec<usize> = entry.slots().filter(|&slot| slot != front && entry.is_live(store, slot)).collect();
        let any = |wanted: &dyn Fn(usize) -> bool| u64::from(others.iter().any(|&slot| wanted(slot)));
        self.smaller_on_another_board += any(&|slot| !is_queued(slot) && key(slot) < key(front));
        self.front_behind_another += any(&|slot| is_queued(slot) && slot < front);
        self.front_twice += any(&|slot| is_queued(slot) && key(slot) == key(front));
    }

    fn note_taken(&mut self, front: Header, epoch: u32) {
        match (front.epoch == epoch, front.kind == ALLOC) {
            (true, true) => self.freed += 1,
            (true, false) => self.turned += 1,
            (false, _) => self.covered += 1,
        }
    }

    /// Every sort came up so often.
    pub fn are_at_least(self, least: u64) -> bool {
        let of_runs = self.of_runs_are_at_least(least);
        of_runs && [self.front_twice, self.turned].iter().all(|&seen| seen >= least)
    }

    /// Every sort that a run can meet; two entries of one number and an UPDATE of the queue's own epoch it cannot.
    pub fn of_runs_are_at_least(self, least: u64) -> bool {
        let orders = [self.no_order, self.new_without_order];
        let newer = [self.newer_elsewhere, self.newer_and_empty, self.newer_on_another_board];
        let fronts = [self.smaller_on_another_board, self.front_behind_another];
        let changes = [self.appended, self.freed, self.covered];
        [&orders[..], &newer, &fronts, &changes].concat().iter().all(|&seen| seen >= least)
    }
}

impl std::fmt::Display for QueueCases {
    fn fmt(&self, text: &mut std::fmt::Formatter) -> std::fmt::Result {
        write!(
            text,
            "queue: appended {}, taken by freeing {}, turning {} and covering {}, the front behind another {}, beside \
             one of its number {} and above a job {}, 9 by another key {} and with no front {}, no 9 by a job {}, 12 \
             for the order number {} and a new without one {}",
            self.appended,
            self.freed,
            self.turned,
            self.covered,
            self.front_behind_another,
            self.front_twice,
            self.smaller_on_another_board,
            self.newer_elsewhere,
            self.newer_and_empty,
            self.newer_on_another_board,
            self.no_order,
            self.new_without_order
        )
    }
}

fn is_above(header: Header, epoch: u32) -> bool {
    header.is_filled() && header.epoch > epoch
}
