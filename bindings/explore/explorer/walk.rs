//! The walk over all schedules, depth first: which thread goes on at each step, and what is left to try there.
//!
//! Two schedules that differ by the order of steps on different words are the same to the threads. So in front of a step another thread is
//! tried only where a later step on the same word could have come first, and one thread with which such a schedule begins; and none that was
//! tried already, and on whose word nothing was done since (source sets and sleep sets: Abdulla, Aronis, Jonsson and Sagonas). With a bound
//! on preemptions there are no sleep sets: the thread of the later step is tried, and also where the run of steps of the earlier one's
//! thread began (Coons, Musuvathi and McKinley).

/// A set of threads, by their bits.
#[derive(Clone, Copy, Debug, Default, PartialEq, Eq)]
pub(crate) struct Threads(u32);

impl Threads {
    pub(crate) fn one(thread: usize) -> Threads {
        Threads(1 << thread)
    }

    pub(crate) fn has(self, thread: usize) -> bool {
        self.0 >> thread & 1 == 1
    }

    pub(crate) fn with(self, thread: usize) -> Threads {
        Threads(self.0 | 1 << thread)
    }

    pub(crate) fn or(self, others: Threads) -> Threads {
        Threads(self.0 | others.0)
    }

    pub(crate) fn and(self, others: Threads) -> Threads {
        Threads(self.0 & others.0)
    }

    pub(crate) fn without(self, others: Threads) -> Threads {
        Threads(self.0 & !others.0)
    }

    pub(crate) fn first(self) -> Option<usize> {
        (self.0 != 0).then_some(self.0.trailing_zeros() as usize)
    }

    pub(crate) fn iter(self) -> impl Iterator<Item = usize> {
        (0..32).filter(move |&thread| self.has(thread))
    }
}

/// Where a schedule chooses who makes the next step.
#[derive(Debug)]
struct Fork {
    chosen: usize,
    /// Who could make a step.
    able: Threads,
    /// Who is to be tried, and who was.
    wanted: Threads,
    tried: Threads,
    asleep: Threads,
    /// How often, up to here, a thread was chosen though the last one could have gone on.
    preemptions: u32,
    /// How many values back the step looks, and how many it may.
    age: usize,
    most_age: usize,
}

/// What a walk chooses.
pub(crate) enum Choice {
    Thread(usize),
    /// All who could make a step are asleep: any end of this schedule was seen already.
    Seen,
}

#[derive(Debug, Default)]
pub(crate) struct Walk {
    forks: Vec<Fork>,
    depth: usize,
    asleep: Threads,
    /// The most preemptions, where they are bounded.
    bound: Option<u32>,
    /// How many steps of a schedule may look at an old value.
    old_looks: usize,
}

impl Walk {
    pub(crate) fn new(bound: Option<u32>, old_looks: usize) -> Walk {
        Walk {
            bound,
            old_looks,
            ..Walk::default()
        }
    }

    /// How many values back the step that was chosen last looks, of so many that it may.
    pub(crate) fn age(&mut self, most: usize) -> usize {
        let (fork, before) = match self.forks[..self.depth].split_last_mut() {
            Some(split) => split,
            None => return 0,
        };
        let old_looks = before.iter().filter(|fork| fork.age > 0).count();
        fork.most_age = if old_looks < self.old_looks { most } else { 0 };
        fork.age
    }

    /// Who makes the next step, of those who could.
    pub(crate) fn choose(&mut self, able: Threads, last: Option<usize>) -> Choice {
        let preemptions = self.preemptions_before(self.depth);
        if let Some(fork) = self.forks.get_mut(self.depth) {
            assert_eq!(fork.able, able, "a schedule is followed again");
            self.asleep = fork.asleep;
            fork.preemptions = preemptions + preempts(last, fork.chosen, able);
        } else {
            let awake = able.without(self.asleep);
            let last_again = last.filter(|&last| awake.has(last));
            let Some(chosen) = last_again.or(awake.first()) else {
                return Choice::Seen;
            };
            self.forks.push(Fork {
                chosen,
                able,
                wanted: Threads::one(chosen),
                tried: Threads::default(),
                asleep: self.asleep,
                preemptions: preemptions + preempts(last, chosen, able),
                age: 0,
                most_age: 0,
            });
        }
        self.depth += 1;
        Choice::Thread(self.forks[self.depth - 1].chosen)
    }

    fn preemptions_before(&self, depth: usize) -> u32 {
        depth
            .checked_sub(1)
            .map_or(0, |before| self.forks[before].preemptions)
    }

    /// Who sleeps on behind the step that was chosen last, by who of them can't tell whether it was made.
    pub(crate) fn keep_asleep(&mut self, unaware: impl Fn(usize) -> bool) {
        let woken = self.asleep.iter().filter(|&thread| !unaware(thread));
        let woken = woken.fold(Threads::default(), Threads::with);
        self.asleep = self.asleep.without(woken);
    }

    /// A thread's step is to be tried in front of that of this index: by schedules that begin with one of `firsts`.
    pub(crate) fn reverse(&mut self, index: usize, thread: usize, firsts: Threads) {
        if self.bound.is_some() {
            let chosen = self.forks[index].chosen;
            let run = self.forks[..index].iter().rev();
            let length = run.take_while(|fork| fork.chosen == chosen).count();
            self.want(index, thread);
            return self.want(index - length, thread);
        }
        let fork = &mut self.forks[index];
        // (Who can't begin there waits for that very step.)
        let firsts = firsts.and(fork.able);
        if firsts.and(fork.wanted.or(fork.asleep)) == Threads::default() {
            let own = Some(thread).filter(|&thread| firsts.has(thread));
            let first = own.or(firsts.first()).map(Threads::one);
            fork.wanted = fork.wanted.or(first.unwrap_or_default());
        }
    }

    fn want(&mut self, index: usize, thread: usize) {
        let fork = &mut self.forks[index];
        fork.wanted = match fork.able.has(thread) {
            true => fork.wanted.with(thread),
            false => fork.wanted.or(fork.able),
        };
    }

    /// Goes on to the next schedule. Answers whether there is one.
    pub(crate) fn turn_back(&mut self) -> bool {
        self.depth = 0;
        self.asleep = Threads::default();
        while let Some(mut fork) = self.forks.pop() {
            if fork.age < fork.most_age {
                fork.age += 1;
                self.forks.push(fork);
                return true;
            }
            (fork.age, fork.most_age) = (0, 0);
            fork.tried = fork.tried.with(fork.chosen);
            if self.bound.is_none() {
                fork.asleep = fork.asleep.with(fork.chosen);
            }
            if let Some(thread) = self.next_of(&fork) {
                fork.chosen = thread;
                self.forks.push(fork);
                return true;
            }
        }
        false
    }

    /// Whom a fork is to try next.
    fn next_of(&self, fork: &Fork) -> Option<usize> {
        let last = self.forks.last().map(|fork| fork.chosen);
        let spent = self.forks.last().map_or(0, |fork| fork.preemptions);
        let within =
            |thread| spent + preempts(last, thread, fork.able) <= self.bound.unwrap_or(u32::MAX);
        let left = fork.wanted.without(fork.tried).without(fork.asleep);
        left.iter().find(|&thread| within(thread))
    }
}

/// 1 where this choice takes the turn from a thread that could go on.
fn preempts(last: Option<usize>, chosen: usize, able: Threads) -> u32 {
    u32::from(last.is_some_and(|last| last != chosen && able.has(last)))
}
