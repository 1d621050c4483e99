//! Stands in for tracing: messages are dropped, warnings are counted.

use std::cell::Cell;

thread_local! {
    static WARNINGS: Cell<u64> = const { Cell::new(0) };
}

pub fn count_warning() {
    WARNINGS.set(WARNINGS.get() + 1);
}

/// Warnings given so far.
pub fn warnings() -> u64 {
    WARNINGS.get()
}

#[macro_export]
macro_rules! info {
    ($($t:tt)*) => {};
}

#[macro_export]
macro_rules! warn {
    ($($t:tt)*) => {
        $crate::count_warning()
    };
}
