//! Runs a computation that may panic, and keeps the panic's message from the terminal.

use std::cell::{Cell, RefCell};
use std::panic::{self, AssertUnwindSafe};
use std::sync::Once;

thread_local! {
    static CATCHING: Cell<bool> = Cell::new(false);
    static MESSAGE: RefCell<String> = RefCell::new(String::new())
}

static HOOK: Once = Once::new();

fn install_hook() {
    HOOK.call_once(|| {
        let before = panic::take_hook();
        panic::set_hook(Box::new(move |info| {
            if CATCHING.with(|catching| catching.get()) {
                MESSAGE.with(|message| *message.borrow_mut() = text_of(info));
            } else {
                before(info);
            }
        }));
    });
}

/// The message, and the file and line without the folders.
fn text_of(info: &panic::PanicHookInfo) -> String {
    let payload = info.payload();
    let message = if let Some(text) = payload.downcast_ref::<&str>() {
        text.to_string()
    } else if let Some(text) = payload.downcast_ref::<String>() {
        text.clone()
    } else {
        "panic".to_string()
    };
    match info.location() {
        Some(place) => {
            let file = place.file().rsplit('/').next().unwrap_or("");
            format!("{}:{}: {}", file, place.line(), message)
        }
        None => message,
    }
}

/// The result, or the message of the panic.
pub fn caught<T, F: FnOnce() -> T>(run: F) -> Result<T, String> {
    install_hook();
    CATCHING.with(|catching| catching.set(true));
    let result = panic::catch_unwind(AssertUnwindSafe(run));
    CATCHING.with(|catching| catching.set(false));
    result.map_err(|_| MESSAGE.with(|message| message.borrow().clone()))
}
