//! The plain board of demand 3: it hears the calls and their replies, and says what a crash must leave.

use crate::image::{Name, CLOCK, QUEUE};
use crate::recovery::{next_order, surviving_entries, Entries};
use crate::store::{Refusal, Store};

/// What an accepted call changes: new, set and append give a name its value, delete takes it away, and take the front,
/// which look had shown under this order number.
#[derive(Clone)]
enum Change {
    Given(Name, Vec<u32>),
    Deleted(Name),
    Taken(u32),
}

/// "It keeps a clock (first the store's), each thread's open operation (first none) and a row of changes
/// (first empty)." The row has each change with the epoch of its operation. Beside these, the order number that the next
/// append has to be given, the latest epoch of an operation that has ended, and of one that had ended when a sync last
/// reported done.
#[derive(Clone)]
pub struct Reference {
    pub clock: u32,
    start: Entries,
    open: [u32; 16],
    row: Vec<(u32, Change)>,
    next_order: u32,
    ended: u32,
    durable: u32,
}

impl Reference {
    /// "The starting jobs (survivors of the starting lasting image)", and 02, No. 3: "the starting entries"
    pub fn of(store: &Store) -> Result<Reference, Refusal> {
        let start = surviving_entries(&store.persistent)?;
        let clock = store.persistent[CLOCK];
        let next_order = next_order(&start);
        Ok(Reference { clock, start, open: [0; 16], row: Vec::new(), next_order, ended: 0, durable: 0 })
    }

    /// "An accepted begin opens an operation whose epoch is that clock"
    pub fn began(&mut self, thread: u32) {
        self.open[thread as usize] = self.clock;
    }

    pub fn ended(&mut self, thread: u32) {
        self.ended = self.ended.max(self.open[thread as usize]);
        self.open[thread as usize] = 0;
    }

    /// "An accepted new, set or delete adds its kind, key, value and operation to the row."
    pub fn changed(&mut self, thread: u32, name: Name, value: Option<&[u32]>) {
        self.note(thread, value.map_or(Change::Deleted(name), |value| Change::Given(name, value.to_vec())));
    }

    /// An append that replied this order number: "1 first and one more at each append", and after recovery "one above
    /// the largest surviving order number".
    pub fn appended(&mut self, thread: u32, order: u64, value: &[u32]) -> Result<(), String> {
        if order != u64::from(self.next_order) {
            return Err(format!("append gives order number {order}, wanted {}", self.next_order));
        }
        self.note(thread, Change::Given((QUEUE, self.next_order), value.to_vec()));
        self.next_order += 1;
        Ok(())
    }

    /// A take, where look had shown the entry of this order number.
    pub fn took(&mut self, thread: u32, order: u32) {
        self.note(thread, Change::Taken(order));
    }

    fn note(&mut self, thread: u32, change: Change) {
        self.row.push((self.open[thread as usize], change));
    }

    pub fn ticked(&mut self) {
        self.clock += 1;
    }

    /// A sync reported done.
    pub fn synced(&mut self) {
        self.durable = self.ended;
    }

    /// Whether every operation that had ended when a sync last reported done is present.
    pub fn keeps_what_was_synced(&self, clock: u32) -> bool {
        is_present(self.durable, clock)
    }

    /// "new and set give the key the value, delete takes it away." 02, No. 3: "After a cut the queue holds the starting
    /// entries changed by the accepted appends and takes of present operations, in call order". It is a queue: at its
    /// turn a take gets the first entry of those that present operations left.
    pub fn entries_after_crash(&self, clock: u32) -> Result<Entries, String> {
        let mut entries = self.start.clone();
        for (_, change) in self.row.iter().filter(|(epoch, _)| is_present(*epoch, clock)) {
            match change {
                Change::Given(name, value) => {
                    entries.insert(*name, value.clone());
                }
                Change::Deleted(name) => {
                    entries.remove(name);
                }
                Change::Taken(order) => take_first(&mut entries, *order)?,
            }
        }
        Ok(entries)
    }
}

/// Takes the first entry of the queue, which has to be the one that was taken.
fn take_first(entries: &mut Entries, order: u32) -> Result<(), String> {
    let first = entries.keys().copied().find(|(board, _)| *board == QUEUE);
    if first != Some((QUEUE, order)) {
        return Err(format!("a take got entry {order}, and the first of present operations is {first:?}"));
    }
    entries.remove(&(QUEUE, order));
    Ok(())
}

/// "An operation is present if its epoch is at most c − 2"
fn is_present(epoch: u32, clock: u32) -> bool {
    epoch + 2 <= clock
}
