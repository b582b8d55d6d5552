//! Panics of the Rust are caught, silently, and told apart by their message.

use std::any::Any;
use std::cell::Cell;
use std::panic::{AssertUnwindSafe, catch_unwind, set_hook, take_hook};
use std::sync::Once;

/// Why the Rust panicked.
#[derive(Debug, Clone, Copy, PartialEq, Eq)]
pub enum Cause {
    /// A node was to be appended and all slots were in use.
    Slots,
    /// It met its own `unreachable!()`: no comma after a member, or a word
    /// declaration whose given kind is none of the five.
    Unreachable,
    /// Anything else.
    Other,
}

thread_local! {
    static QUIET: Cell<bool> = const { Cell::new(false) };
}

static HOOK: Once = Once::new();

/// Runs `f`. While it runs, a panic on this thread prints nothing; panics on
/// other threads and at other times go to the hook that was there before.
#[inline]
pub(crate) fn catch<T>(f: impl FnOnce() -> T) -> Result<T, Cause> {
    if !HOOK.is_completed() {
        install();
    }
    QUIET.set(true);
    let outcome = catch_unwind(AssertUnwindSafe(f));
    QUIET.set(false);
    outcome.map_err(cause)
}

#[cold]
fn install() {
    HOOK.call_once(|| {
        let previous = take_hook();
        set_hook(Box::new(move |info| {
            if !QUIET.get() {
                previous(info);
            }
        }));
    });
}

#[cold]
fn cause(message: Box<dyn Any + Send>) -> Cause {
    match message.downcast_ref::<&'static str>() {
        Some(&"Number of parse nodes greatly exceeds number of tokens") => Cause::Slots,
        Some(&"internal error: entered unreachable code") => Cause::Unreachable,
        _ => Cause::Other,
    }
}
