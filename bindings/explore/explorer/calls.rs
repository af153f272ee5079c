//! How many steps the calls of a scenario made at most.
use crate::run::{self, Steps};
use std::collections::BTreeMap;
use std::sync::{Mutex, PoisonError};

static MOST: Mutex<BTreeMap<&str, Steps>> = Mutex::new(BTreeMap::new());

/// Makes a call of this name, whose steps are counted.
pub fn call<R>(name: &'static str, with: impl FnOnce() -> R) -> R {
    let before = run::made();
    let answer = with();
    if let Some(before) = before {
        run::unwatched(|| note(name, run::steps_since(before)));
    }
    answer
}

fn note(name: &'static str, steps: Steps) {
    let mut most = MOST.lock().unwrap_or_else(PoisonError::into_inner);
    let most = most.entry(name).or_default();
    *most = most.or_more(steps);
}

/// The calls of all schedules so far, with the most steps that one of each made.
pub fn calls() -> Vec<(&'static str, Steps)> {
    let most = MOST.lock().unwrap_or_else(PoisonError::into_inner);
    most.iter().map(|(name, most)| (*name, *most)).collect()
}
