//! Where the Rust asserts or unwraps, the port refuses. The Rust is let run into it, and the panic is the answer.

use std::cell::RefCell;
use std::panic::{self, AssertUnwindSafe};
use std::sync::Once;

use crate::parse::Stop;

thread_local! {
    /// The message of the panic being caught; `None` while none is expected.
    static CAUGHT: RefCell<Option<String>> = const { RefCell::new(None) };
}

static HOOK: Once = Once::new();

fn install() {
    HOOK.call_once(|| {
        let usual = panic::take_hook();
        panic::set_hook(Box::new(move |info| {
            let expected = CAUGHT.with(|caught| match &mut *caught.borrow_mut() {
                Some(message) => {
                    *message = info.to_string();
                    true
                }
                None => false,
            });
            if !expected {
                usual(info);
            }
        }));
    });
}

/// Runs a call of the Rust that changes no table. The assertion on an unknown hop is refusal 6, an empty host route's
/// unwrap is refusal 7; any other panic is a fault of the oracle and is passed on.
pub fn refused_if_it_panics<T>(call: impl FnOnce() -> T) -> Result<T, Stop> {
    install();
    CAUGHT.with(|caught| *caught.borrow_mut() = Some(String::new()));
    let result = panic::catch_unwind(AssertUnwindSafe(call));
    let message = CAUGHT.with(|caught| caught.borrow_mut().take()).unwrap_or_default();
    match result {
        Ok(value) => Ok(value),
        Err(_) if message.contains("assertion failed") => Err(Stop::Refuse(6)),
        Err(_) if message.contains("Option::unwrap()") => Err(Stop::Refuse(7)),
        Err(other) => {
            eprintln!("oracle: the Rust ended in a way that no refusal stands for: {message}");
            panic::resume_unwind(other)
        }
    }
}
