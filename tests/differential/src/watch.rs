//! A call that never returns would have a test wait for ever: the watch ends it.

use std::sync::atomic::{AtomicU64, Ordering};
use std::time::Duration;

/// A call may take this long.
const LIMIT: Duration = Duration::from_secs(60);

static RETURNED: AtomicU64 = AtomicU64::new(0);

/// Notes that a call has returned.
pub fn returned() {
    RETURNED.fetch_add(1, Ordering::Relaxed);
}

/// Ends the program, and says so, where no call returns for some time.
pub fn start() {
    std::thread::spawn(|| loop {
        let before = RETURNED.load(Ordering::Relaxed);
        std::thread::sleep(LIMIT);
        if RETURNED.load(Ordering::Relaxed) == before {
            eprintln!("the call after {before} others has not returned for {LIMIT:?}");
            std::process::exit(1);
        }
    });
}
