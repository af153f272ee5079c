//! Panics of others' code, where it must go on behind them: in `T::clear` and drops.
//!
//! Of several panics of one call the first is handed on, when all is done. One that can't be handed on, as another one is already or the
//! thread unwinds, goes no further; its payload is leaked, as its drop might panic in turn.
use std::any::Any;
use std::mem;
use std::panic::{self, AssertUnwindSafe};
use std::thread;

/// The first panic of several calls.
#[derive(Default)]
pub(crate) struct First(Option<Box<dyn Any + Send>>);

impl First {
    pub(crate) fn catch(&mut self, call: impl FnOnce()) {
        if let Err(payload) = panic::catch_unwind(AssertUnwindSafe(call)) {
            match self.0 {
                Some(_) => mem::forget(payload),
                None => self.0 = Some(payload),
            }
        }
    }

    /// Hands it on, if there was one, and it can be.
    pub(crate) fn hand_on(self) {
        match self.0 {
            Some(payload) if thread::panicking() => mem::forget(payload),
            Some(payload) => panic::resume_unwind(payload),
            None => {}
        }
    }
}
