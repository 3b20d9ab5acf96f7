//! Which case a thread compares, so that a program can name it where the comparison itself panics.
use std::cell::RefCell;
use std::fmt::Display;

thread_local! {
    static NAME: RefCell<Option<String>> = const { RefCell::new(None) };
}

/// Compares one case. Where that panics, its name stays.
pub(crate) fn named<T>(name: impl Display, compare: impl FnOnce() -> T) -> T {
    NAME.set(Some(name.to_string()));
    let compared = compare();
    NAME.set(None);
    compared
}

/// The name of the case that this thread compares.
pub fn name() -> Option<String> {
    NAME.with_borrow(Option::clone)
}
