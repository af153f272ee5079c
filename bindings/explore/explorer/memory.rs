//! Memory as the declared orderings order it: who read and wrote what, what is freed, and what an atomic word passes on.
use crate::clock::Clock;
use std::collections::{BTreeMap, HashMap};
use std::ops::Range;

/// What is done to memory.
#[derive(Clone, Copy, Debug, PartialEq, Eq)]
pub(crate) enum Access {
    Read,
    Write,
    /// A step on an atomic word.
    Step,
    Free,
}

/// The last moments of each thread's accesses.
#[derive(Default)]
struct Accesses {
    read: Clock,
    written: Clock,
    stepped: Clock,
}

impl Accesses {
    /// A thread whose access isn't known to have come before this one, though it must be.
    fn conflict(&self, access: Access, thread: usize, known: &Clock) -> Option<usize> {
        let written = self.written.unknown_to(known, thread);
        match access {
            Access::Read | Access::Step => written,
            Access::Write | Access::Free => written
                .or_else(|| self.read.unknown_to(known, thread))
                .or_else(|| self.stepped.unknown_to(known, thread)),
        }
    }

    fn note(&mut self, access: Access, thread: usize, moment: u32) {
        let moments = match access {
            Access::Read => &mut self.read,
            Access::Step => &mut self.stepped,
            Access::Write | Access::Free => &mut self.written,
        };
        moments.set(thread, moment);
    }
}

/// Memory that a thread has freed. It is kept until the schedule ends, so that nothing else stands there.
struct Freed {
    end: usize,
    by: usize,
}

/// Memory that a thread has asked for, in this moment.
struct Begun {
    end: usize,
    by: usize,
    moment: u32,
}

#[derive(Default)]
pub(crate) struct Memory {
    begun: BTreeMap<usize, Begun>,
    accesses: BTreeMap<usize, Accesses>,
    freed: BTreeMap<usize, Freed>,
    /// What an atomic word tells those who acquire it.
    passed_on: HashMap<usize, Clock>,
}

impl Memory {
    /// Notes an access by a thread in this moment, which knows so much. Answers what is wrong with it.
    pub(crate) fn access(
        &mut self,
        at: usize,
        access: Access,
        thread: usize,
        moment: u32,
        known: &Clock,
    ) -> Option<String> {
        let before = self.freed.range(..=at).next_back();
        if let Some((_, freed)) = before.filter(|(_, freed)| at < freed.end) {
            return Some(format!(
                "{access:?} of memory that thread {} has freed",
                freed.by
            ));
        }
        let begun = self.begun.range(..=at).next_back();
        if let Some((_, begun)) = begun.filter(|(_, begun)| at < begun.end) {
            if begun.by != thread && begun.moment > known.of(begun.by) {
                let by = begun.by;
                return Some(format!("{access:?} of memory for which thread {by} asked, with which nothing orders it"));
            }
        }
        let accesses = self.accesses.entry(at).or_default();
        let conflict = accesses.conflict(access, thread, known);
        accesses.note(access, thread, moment);
        conflict.map(|other| format!("{access:?} that nothing orders with thread {other}"))
    }

    /// Notes that a thread frees this memory: it must know of all accesses to it.
    pub(crate) fn free(
        &mut self,
        range: Range<usize>,
        thread: usize,
        known: &Clock,
    ) -> Option<String> {
        let conflict = self
            .accesses
            .range(range.clone())
            .find_map(|(_, accesses)| accesses.conflict(Access::Free, thread, known));
        let end = range.end;
        self.freed.insert(range.start, Freed { end, by: thread });
        conflict.map(|other| format!("Free that nothing orders with thread {other}"))
    }

    pub(crate) fn is_freed(&self, at: usize) -> bool {
        self.freed.contains_key(&at)
    }

    /// A thread asks for memory: what stood there before tells nothing.
    pub(crate) fn begin(&mut self, range: Range<usize>, by: usize, moment: u32) {
        let end = range.end;
        self.begun.insert(range.start, Begun { end, by, moment });
        let known: Vec<usize> = self
            .accesses
            .range(range.clone())
            .map(|(at, _)| *at)
            .collect();
        for at in known {
            self.accesses.remove(&at);
            self.passed_on.remove(&at);
        }
    }

    /// What a thread learns that acquires the word.
    pub(crate) fn acquired(&self, at: usize) -> Clock {
        self.passed_on.get(&at).copied().unwrap_or_default()
    }

    /// A write to the word, by a thread that releases so much. What was released there before is passed on by a read-modify-write alone.
    pub(crate) fn written(&mut self, at: usize, released: Option<&Clock>, reads_too: bool) {
        let passed_on = self.passed_on.entry(at).or_default();
        if !reads_too {
            *passed_on = Clock::default();
        }
        if let Some(released) = released {
            passed_on.join(released);
        }
    }
}
