//! Stores that are right in all but their index. 02, No. 6: "For any other index, calls that look something up promise only
//! demand 1 and refusals 1 to 8". All other calls are as with a right one.

use crate::library::{any, carried_out};
use simulator::calls::{refusal_of, simulate, Call};
use simulator::store::Store;

/// How often the index gave another answer than the walk: a job not found, one made that was there, a 9 or a change of a
/// list missed, and another job found, not the lowest of its key.
#[derive(Clone, Copy, Default, Debug)]
pub struct Misled {
    pub calls: u64,
    pub not_found: u64,
    pub made_again: u64,
    pub no_9: u64,
    pub list_ended_elsewhere: u64,
    pub another_found: u64,
}

impl Misled {
    /// One call of the library. The store goes on as it leaves it; an error says what no index allows.
    pub fn make(&mut self, store: &mut Store, call: &Call) -> Result<(), String> {
        let before = store.clone();
        let (reply, after) = carried_out(&before, call, any)?;
        let mut walked = before.clone();
        let wanted = simulate(&mut walked, call);
        if let Some(what) = broken_promise(&before, call, (reply, &after), (wanted, &walked)) {
            return Err(format!(
                "{what}: {call:?} replies {reply}, the walk {wanted}\nbefore {before:?}\nwalked {walked:?}\nafter  {after:?}"
            ));
        }
        self.calls += 1;
        if (reply, &after.working) != (wanted, &walked.working) {
            self.note(call, reply, wanted);
        }
        *store = after;
        Ok(())
    }

    fn note(&mut self, call: &Call, reply: u64, wanted: u64) {
        let [found, walked] = [reply, wanted].map(|reply| refusal_of(call, reply));
        match (call, walked, found) {
            (Call::Batch { .. }, ..) => self.list_ended_elsewhere += 1,
            (_, 0, 10) => self.not_found += 1,
            (_, 11, 0) => self.made_again += 1,
            (_, 9, _) => self.no_9 += 1,
            (_, 0, 0) => self.another_found += 1,
            _ => {}
        }
    }

    pub fn are_at_least(self, least: u64) -> bool {
        let Misled { not_found, made_again, no_9, list_ended_elsewhere, another_found, .. } = self;
        [not_found, made_again, no_9, list_ended_elsewhere, another_found].iter().all(|&seen| seen >= least)
    }
}

impl std::fmt::Display for Misled {
    fn fmt(&self, text: &mut std::fmt::Formatter) -> std::fmt::Result {
        let Misled { calls, not_found, made_again, no_9, list_ended_elsewhere, another_found } = self;
        write!(
            text,
            "{calls} calls on a damaged index, which misled them: not found {not_found}, made again {made_again}, "
        )?;
        write!(text, "no 9 {no_9}, a list ended elsewhere {list_ended_elsewhere}, another found {another_found}")
    }
}

fn looks_up(call: &Call) -> bool {
    matches!(call, Call::New { .. } | Call::Set { .. } | Call::Delete { .. } | Call::Batch { .. }) || is_read(call)
}

fn is_read(call: &Call) -> bool {
    matches!(call, Call::Read { .. } | Call::ReadRefusal { .. })
}

/// What the library's reply and store break, beside those that the walk gives.
fn broken_promise(
    before: &Store,
    call: &Call,
    (reply, after): (u64, &Store),
    (wanted, walked): (u64, &Store),
) -> Option<&'static str> {
    if !looks_up(call) {
        return (reply != wanted || after != walked).then_some("a call that looks nothing up differs from the walk");
    }
    let is_refused_early = |reply: u64| (1..=8).contains(&refusal_of(call, reply));
    if reply != wanted && (is_refused_early(reply) || is_refused_early(wanted)) {
        return Some("refusals 1 to 8 differ");
    }
    let changes_nothing = refusal_of(call, reply) != 0 || is_read(call);
    if changes_nothing && after != before {
        return Some("a refusal or a read changes something");
    }
    if after.persistent != before.persistent {
        return Some("a call on jobs stores into persistent");
    }
    None
}
