//! The five "Ways to lose a job", each as a run in which the job must not be lost or come back.

mod common;

use common::{delete, fresh, make, mark, new, tick, BEGIN, END};
use simulator::calls::{line_written_back, simulate, Call, DONE, WENT_ON};
use simulator::image::{Sizes, ALLOC, DELETE, JOBS, UPDATE};
use simulator::recovery::{judge, surviving_entries, Entries};
use simulator::store::Store;
use simulator::stored::image_with;

/// What recovery leaves of the store as it is now.
fn jobs_after_crash(store: &Store) -> Entries {
    let mut crashed = store.clone();
    while simulate(&mut crashed, &Call::Recover) == WENT_ON {}
    surviving_entries(&crashed.working).unwrap()
}

#[test]
fn a_delete_outlasts_the_record_it_covers() {
    let mut store = fresh(3, 1);
    make(&mut store, &[BEGIN, new(0, 1), delete(0, 1), new(0, 2), delete(0, 2), new(0, 3), END]);
    tick(&mut store);
    tick(&mut store);
    make(&mut store, &[BEGIN, delete(0, 3), END]);
    let kinds = [0, 2].map(|slot| mark(&store.working, slot)[0]);
    assert_eq!(kinds, [DELETE, ALLOC], "the DELETE stands before its record");
    tick(&mut store);
    tick(&mut store);
    while store.persistent[2] < 9 {
        assert!(jobs_after_crash(&store).is_empty(), "the deleted job is back at clock {}", store.persistent[2]);
        simulate(&mut store, &Call::Advance);
    }
}

#[test]
fn a_stray_copy_of_a_slot_freed_at_once_does_not_return() {
    let mut store = fresh(3, 1);
    make(&mut store, &[BEGIN, new(0, 1)]);
    let sizes = Sizes::of(&store.working).unwrap();
    make(&mut store, &line_written_back(sizes.contents_line(0)));
    make(&mut store, &line_written_back(sizes.header_line(0)));
    make(&mut store, &[delete(0, 1), END]);
    assert_eq!(mark(&store.persistent, 0), [ALLOC, 2, 1, JOBS]);
    assert_eq!(simulate(&mut store, &Call::Sync), 4);
    assert!(jobs_after_crash(&store).is_empty());
}

#[test]
fn an_older_operation_cannot_make_a_key_that_a_newer_one_deleted() {
    let mut store = fresh(4, 2);
    make(&mut store, &[BEGIN, new(0, 1), END]);
    tick(&mut store);
    tick(&mut store);
    make(&mut store, &[BEGIN]);
    tick(&mut store);
    make(&mut store, &[Call::Begin { thread: 1 }, delete(1, 1), Call::End { thread: 1 }]);
    assert_eq!(simulate(&mut store, &new(0, 1)), 9);
    make(&mut store, &[END]);
    tick(&mut store);
    assert_eq!((store.persistent[2], jobs_after_crash(&store).len()), (6, 1));
}

#[test]
fn a_label_one_below_the_clock_is_not_kept() {
    let image = image_with(2, 2, 7, &[(ALLOC, 5, 1, 3), (UPDATE, 6, 1, 3)]);
    assert_eq!(judge(&image).unwrap().survivors, [0]);
}

#[test]
fn recovery_frees_a_kept_delete_after_its_payload() {
    let image = image_with(2, 2, 9, &[(DELETE, 6, 1, 3), (ALLOC, 5, 1, 3)]);
    let mut store = Store { working: image.clone(), persistent: image, transient: vec![0; 77] };
    assert_eq!(simulate(&mut store, &Call::Recover), WENT_ON);
    assert_eq!([0, 1].map(|slot| mark(&store.persistent, slot)), [[DELETE, 6, 1, JOBS], [0; 4]]);
    assert_eq!(simulate(&mut store, &Call::Recover), WENT_ON);
    assert_eq!([0, 1].map(|slot| mark(&store.persistent, slot)), [[0; 4]; 2]);
    assert_eq!(simulate(&mut store, &Call::Recover), DONE);
}
