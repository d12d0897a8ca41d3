//! The compiled library as its C exports show it, compared with the simulator.

pub mod damaged;
mod exports;
mod lent;
pub mod library;
pub mod smallest;
pub mod watch;

/// The numbers a program was started with.
pub fn numbers<const COUNT: usize>(usage: &str) -> [u64; COUNT] {
    let given: Option<Vec<u64>> = std::env::args().skip(1).map(|word| word.parse().ok()).collect();
    given.and_then(|given| given.try_into().ok()).unwrap_or_else(|| panic!("usage: {usage}"))
}
