//! A stand-in for rand that only counts how often it is asked, and answers 0. dodgy_3d asks where it picks a
//! direction by chance; Guineacrumb takes the caller's fallback there.
use std::cell::Cell;

thread_local! {
    static CALLS: Cell<u64> = const { Cell::new(0) };
}

pub fn random<T: Default>() -> T {
    CALLS.set(CALLS.get() + 1);
    T::default()
}

/// How often this thread has asked.
pub fn calls() -> u64 {
    CALLS.get()
}
