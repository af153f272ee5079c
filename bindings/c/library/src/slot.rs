//! The two words that a program keeps of a lane, a pool or an owned reference: `pardz_lane`, `pardz_pool`, `pardz_owned`.
use crate::code::{must, Answer, Refusal};

/// Empty, or with a pointer of this kind, which is then not null. It is moved by plain copies.
#[repr(C)]
pub(crate) struct Slot<P> {
    pub(crate) at: Option<P>,
    /// For the program: 0 where the slot is empty; else 1, and of an owned reference its key.
    pub(crate) full: u64,
}

impl<P> Slot<P> {
    /// What it has.
    #[inline]
    pub(crate) fn get(&self) -> Answer<&P> {
        self.at.as_ref().ok_or(Refusal::EmptyLane)
    }

    /// The same, for a call that has it alone.
    #[inline]
    pub(crate) fn get_mut(&mut self) -> Answer<&mut P> {
        self.at.as_mut().ok_or(Refusal::EmptyLane)
    }

    /// That it has nothing.
    pub(crate) fn must_be_empty(&self) -> Answer {
        must(self.at.is_none(), Refusal::FullLane)
    }

    /// Fills it, if it is empty, with what this answers. `full` isn't 0.
    pub(crate) fn fill(&mut self, full: u64, make: impl FnOnce() -> Answer<P>) -> Answer {
        self.must_be_empty()?;
        let at = Some(make()?);
        *self = Slot { at, full };
        Ok(())
    }

    /// Empties it.
    pub(crate) fn take(&mut self) -> Answer<P> {
        self.full = 0;
        self.at.take().ok_or(Refusal::EmptyLane)
    }
}

impl<P: Clone> Slot<P> {
    /// Another slot, which is empty, has the same.
    pub(crate) fn share(&self, other: &mut Slot<P>) -> Answer {
        let at = self.get()?;
        other.fill(self.full, || Ok(at.clone()))
    }
}
