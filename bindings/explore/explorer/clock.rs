//! How far a thread knows of the others: vector clocks.

/// The most threads of a scenario.
pub(crate) const MOST_THREADS: usize = 4;

/// For each thread a moment, which counts its steps.
#[derive(Clone, Copy, Debug, Default)]
pub(crate) struct Clock([u32; MOST_THREADS]);

impl Clock {
    pub(crate) fn of(&self, thread: usize) -> u32 {
        self.0[thread]
    }

    pub(crate) fn set(&mut self, thread: usize, moment: u32) {
        self.0[thread] = moment;
    }

    /// Each thread's later moment of the two.
    pub(crate) fn join(&mut self, other: &Clock) {
        for (own, other) in self.0.iter_mut().zip(other.0) {
            *own = other.max(*own);
        }
    }

    /// A thread of which a moment stands here that lies behind what `known` has; but not this one.
    pub(crate) fn unknown_to(&self, known: &Clock, but: usize) -> Option<usize> {
        (0..MOST_THREADS).find(|&thread| thread != but && self.of(thread) > known.of(thread))
    }
}
