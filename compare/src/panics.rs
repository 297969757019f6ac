//! Panics, which are told as differences.

use std::any::Any;
use std::panic::{self, AssertUnwindSafe};

/// What the work answers, or an error with the panic's words where it panics.
pub fn caught<T>(work: impl FnOnce() -> Result<T, String>) -> Result<T, String> {
    panic::catch_unwind(AssertUnwindSafe(work))
        .unwrap_or_else(|panic| Err(format!("a panic: {}", words(panic.as_ref()))))
}

/// The words of a panic, which are a text made for it or a fixed one.
fn words(panic: &(dyn Any + Send)) -> &str {
    let own = panic.downcast_ref::<String>().map(String::as_str);
    let fixed = panic.downcast_ref::<&str>().copied();
    own.or(fixed).unwrap_or("without words")
}
