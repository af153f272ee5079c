//! One schedule of a scenario: its threads, of which one runs at a time, from one step to its next.
use crate::clock::{Clock, MOST_THREADS};
use crate::memory::{Access, Memory};
use crate::walk::{Choice, Threads, Walk};
use std::cell::{Cell, RefCell};
use std::collections::HashMap;
use std::fmt::Write;
use std::mem;
use std::ops::Range;
use std::sync::atomic::{AtomicU64, Ordering};
use std::sync::{Arc, Condvar, Mutex, MutexGuard, PoisonError};

/// More steps than any schedule of a scenario has, unless its threads wait for each other for ever.
const MOST_STEPS: usize = 10_000;

/// So often a thread looks again in vain, when no other can go on: more often than any part of the crate does.
const MOST_WAITS_IN_VAIN: u32 = 3000;

/// Counts the steps of all schedules: whoever watches sees by it that something goes on.
pub(crate) static PROGRESS: AtomicU64 = AtomicU64::new(0);

#[derive(Clone, Copy, Debug, PartialEq, Eq)]
pub(crate) enum Kind {
    Start,
    Read,
    Write,
    Lock,
    Unlock,
    /// Until another thread writes a word that this one has read since its last wait.
    Wait,
}

/// What a thread is about to do, or did.
#[derive(Clone, Copy, Debug)]
pub(crate) struct Step {
    pub(crate) kind: Kind,
    pub(crate) at: usize,
    pub(crate) name: &'static str,
}

impl Step {
    /// Whether the order of the two tells.
    fn depends_on(&self, other: &Step) -> bool {
        let have_words = self.has_word() && other.has_word();
        have_words && self.at == other.at && !(self.kind == Kind::Read && other.kind == Kind::Read)
    }

    /// Whether it is of a word.
    fn has_word(&self) -> bool {
        !matches!(self.kind, Kind::Start | Kind::Wait)
    }
}

/// A step that was made.
struct Made {
    thread: usize,
    step: Step,
    count: u32,
    /// Which steps come before it, and it, in each schedule that is the same to the threads.
    order: Clock,
}

impl Made {
    fn comes_before(&self, order: &Clock) -> bool {
        self.count <= order.of(self.thread)
    }
}

#[derive(Default)]
struct Thread {
    waiting: Option<Step>,
    has_ended: bool,
    /// How many steps it made.
    count: u32,
    /// Which steps come before its next one, but for those on the same word.
    order: Clock,
    /// Which steps the declared orderings let it know of.
    known: Clock,
    /// The words that it read since its last wait, and how often each was written before.
    read: Vec<(usize, u32)>,
}

#[derive(Default)]
struct Word {
    writes: Clock,
    reads: Clock,
    times_written: u32,
    /// Which steps were made on it, in their order.
    made: Vec<usize>,
}

/// How many steps a call makes.
#[derive(Clone, Copy, Debug, Default, PartialEq, Eq)]
pub struct Steps {
    /// On atomic words, and on the one of them on which it makes most.
    pub atomic: usize,
    pub on_a_word: usize,
    pub locks: usize,
}

impl Steps {
    /// The more of each.
    pub(crate) fn or_more(self, other: Steps) -> Steps {
        Steps {
            atomic: self.atomic.max(other.atomic),
            on_a_word: self.on_a_word.max(other.on_a_word),
            locks: self.locks.max(other.locks),
        }
    }
}

/// What a step on an atomic word does by its ordering.
#[derive(Clone, Copy)]
pub(crate) struct Effect {
    pub(crate) acquires: bool,
    pub(crate) releases: bool,
    pub(crate) reads: bool,
    pub(crate) writes: bool,
    /// All threads see it and others of its kind in one order.
    pub(crate) in_one_order: bool,
}

/// A value that a word had.
struct Value {
    bits: u64,
    by: usize,
    moment: u32,
    /// What it tells those who acquire it.
    passed_on: Clock,
    in_one_order: bool,
}

/// The values of a word in their order, and the last that each thread has seen.
#[derive(Default)]
struct Values {
    all: Vec<Value>,
    seen: [usize; MOST_THREADS],
}

impl Values {
    /// Which is the oldest that a thread may see, which knows so much.
    fn oldest(&self, thread: usize, known: &Clock, in_one_order: bool) -> usize {
        let is_known = |value: &Value| value.moment <= known.of(value.by);
        let known = self.all.iter().rposition(is_known);
        let ordered = self.all.iter().rposition(|value| value.in_one_order);
        let ordered = ordered.filter(|_| in_one_order);
        self.seen[thread].max(known.max(ordered).unwrap_or(0))
    }
}

struct State {
    threads: Vec<Thread>,
    arrived: usize,
    running: Option<usize>,
    made: Vec<Made>,
    words: HashMap<usize, Word>,
    values: HashMap<usize, Values>,
    had: HashMap<usize, usize>,
    memory: Memory,
    walk: Walk,
    /// Any end of this schedule was seen already: it runs on without a choice.
    is_seen: bool,
    steps: usize,
    /// How often, since a word was written last, a thread looked though nobody could have changed what it sees.
    waits_in_vain: u32,
    failure: Option<String>,
}

/// What a schedule came to.
pub(crate) struct Outcome {
    pub(crate) walk: Walk,
    pub(crate) is_seen: bool,
    pub(crate) steps: usize,
    pub(crate) failure: Option<String>,
    pub(crate) schedule: String,
}

pub(crate) struct Run {
    state: Mutex<State>,
    wakes: Vec<Condvar>,
}

impl State {
    fn new(threads: usize, walk: Walk) -> State {
        State {
            threads: (0..threads).map(|_| Thread::default()).collect(),
            arrived: 0,
            running: None,
            made: Vec::new(),
            words: HashMap::new(),
            values: HashMap::new(),
            had: HashMap::new(),
            memory: Memory::default(),
            walk,
            is_seen: false,
            steps: 0,
            waits_in_vain: 0,
            failure: None,
        }
    }

    fn is_able(&self, thread: usize) -> bool {
        let thread = &self.threads[thread];
        thread.waiting.is_some_and(|step| match step.kind {
            Kind::Lock => !self.had.contains_key(&step.at),
            Kind::Wait => thread.read.iter().any(|read| self.is_new(read)) || self.all_wait(),
            _ => true,
        })
    }

    /// Whether the word was written since.
    fn is_new(&self, (at, times): &(usize, u32)) -> bool {
        self.words.get(at).map_or(0, |word| word.times_written) != *times
    }

    /// No thread can go on but by looking in vain, which ends where it looks so often and no more.
    fn all_wait(&self) -> bool {
        let goes_on = |thread: &Thread| {
            thread.waiting.is_some_and(|step| match step.kind {
                Kind::Lock => !self.had.contains_key(&step.at),
                Kind::Wait => thread.read.iter().any(|read| self.is_new(read)),
                _ => true,
            })
        };
        self.waits_in_vain < MOST_WAITS_IN_VAIN && !self.threads.iter().any(goes_on)
    }

    /// Who makes the next step. None where all have ended; an error where none of those that haven't can go on.
    fn choose(&mut self, last: Option<usize>) -> Result<Option<usize>, &'static str> {
        let threads = 0..self.threads.len();
        let able = threads.filter(|&thread| self.is_able(thread));
        let able = able.fold(Threads::default(), Threads::with);
        let Some(first) = able.first() else {
            let all_ended = self.threads.iter().all(|thread| thread.has_ended);
            return if all_ended {
                Ok(None)
            } else {
                Err("a deadlock: no thread can go on")
            };
        };
        if self.steps > MOST_STEPS {
            return Err("a livelock: the threads make steps without end");
        }
        if !self.is_seen {
            match self.walk.choose(able, last) {
                Choice::Thread(thread) => return Ok(Some(thread)),
                Choice::Seen => self.is_seen = true,
            }
        }
        Ok(Some(last.filter(|&last| able.has(last)).unwrap_or(first)))
    }

    /// The steps which could as well have come behind this one: those on which it depends by nothing in between.
    fn races(&self, thread: usize, step: Step) -> Vec<usize> {
        let made = self.words.get(&step.at).map_or(&[][..], |word| &word.made);
        let mut covered = self.threads[thread].order;
        let mut found = Vec::new();
        for &index in made.iter().rev() {
            let made = &self.made[index];
            // (A lock is had in front of another thread's lock, not of its unlock.)
            if !step.depends_on(&made.step)
                || step.kind == Kind::Lock && made.step.kind == Kind::Unlock
            {
                continue;
            }
            if made.thread != thread && !made.comes_before(&covered) {
                found.push(index);
            }
            covered.join(&made.order);
            if made.step.kind != Kind::Read {
                break;
            }
        }
        found
    }

    /// With which threads a schedule may begin, from in front of the step of this index on, that has this step of a thread in front of it.
    fn firsts(&self, index: usize, thread: usize, step: Step) -> Threads {
        let reversed = &self.made[index];
        let rest = self.made[index + 1..].iter();
        let rest: Vec<&Made> = rest
            .filter(|made| !reversed.comes_before(&made.order))
            .collect();
        let on_word = rest.iter().filter(|made| step.depends_on(&made.step));
        let mut order = self.threads[thread].order;
        on_word.for_each(|made| order.join(&made.order));
        let firsts = rest.iter().enumerate().filter(|(position, made)| {
            let before = &rest[..*position];
            before
                .iter()
                .all(|other| other.thread != made.thread && !other.comes_before(&made.order))
        });
        let firsts = firsts.fold(Threads::default(), |firsts, (_, made)| {
            firsts.with(made.thread)
        });
        match rest
            .iter()
            .all(|other| other.thread != thread && !other.comes_before(&order))
        {
            true => firsts.with(thread),
            false => firsts,
        }
    }

    /// A thread is to make the step that it announced.
    fn begin(&mut self, thread: usize) {
        let own = &mut self.threads[thread];
        let step = own.waiting.take().expect("it announced a step");
        own.count += 1;
        own.known.set(thread, own.count);
        self.steps += 1;
        PROGRESS.fetch_add(1, Ordering::Relaxed);
        if step.has_word() {
            self.access(thread, step.at, Access::Step, step.name);
        }
    }

    /// It made it.
    fn end(&mut self, thread: usize, step: Step) {
        match step.kind {
            Kind::Lock => drop(self.had.insert(step.at, thread)),
            Kind::Unlock => drop(self.had.remove(&step.at)),
            Kind::Wait => self.end_wait(thread),
            _ => (),
        }
        if !self.is_seen {
            for index in self.races(thread, step) {
                let firsts = self.firsts(index, thread, step);
                self.walk.reverse(index, thread, firsts);
            }
        }
        let count = self.threads[thread].count;
        self.threads[thread].order.set(thread, count);
        if step.has_word() {
            self.order(thread, step);
        }
        if !self.is_seen {
            self.note(thread, step, count);
        }
    }

    /// A wait comes behind the writes for which it waited.
    fn end_wait(&mut self, thread: usize) {
        let read = mem::take(&mut self.threads[thread].read);
        let new = read.iter().filter(|read| self.is_new(read));
        let new: Vec<Clock> = new.map(|read| self.words[&read.0].writes).collect();
        self.waits_in_vain += u32::from(new.is_empty());
        for writes in &new {
            self.threads[thread].order.join(writes);
        }
    }

    /// The step comes behind those on the same word on which it depends.
    fn order(&mut self, thread: usize, step: Step) {
        let own = &mut self.threads[thread];
        let word = self.words.entry(step.at).or_default();
        own.order.join(&word.writes);
        if step.kind == Kind::Read {
            own.read.push((step.at, word.times_written));
            word.reads.join(&own.order);
        } else {
            own.order.join(&word.reads);
            word.times_written += 1;
            word.writes.join(&own.order);
            self.waits_in_vain = 0;
        }
    }

    /// The walk learns of the step.
    fn note(&mut self, thread: usize, step: Step, count: u32) {
        let index = self.made.len();
        let order = self.threads[thread].order;
        self.made.push(Made {
            thread,
            step,
            count,
            order,
        });
        if step.has_word() {
            self.words.entry(step.at).or_default().made.push(index);
        }
        let threads = &self.threads;
        let waiting = |thread: usize| threads[thread].waiting;
        self.walk.keep_asleep(|other| {
            other != thread && waiting(other).is_some_and(|other| !other.depends_on(&step))
        });
    }

    /// The thread looks at a word whose newest value is this one. Answers how many values back it looks, and what it finds there.
    fn look(&mut self, thread: usize, at: usize, effect: Effect, newest: u64) -> (u32, u64) {
        let acquired = effect.acquires.then(|| self.memory.acquired(at));
        let own = &mut self.threads[thread];
        let Some(values) = self.values.get_mut(&at).filter(|_| !self.is_seen) else {
            own.known.join(&acquired.unwrap_or_default());
            return (0, newest);
        };
        let oldest = values.oldest(thread, &own.known, effect.in_one_order);
        let last = values.all.len() - 1;
        let age = self.walk.age(last - oldest);
        let value = &values.all[last - age];
        values.seen[thread] = last - age;
        if effect.acquires {
            own.known.join(&value.passed_on);
        }
        (age as u32, value.bits)
    }

    /// A write by the thread's last step, which replaced a value by this one.
    fn note_value(
        &mut self,
        thread: usize,
        at: usize,
        (before, after): (u64, u64),
        effect: Effect,
    ) {
        let values = self.values.entry(at).or_default();
        if values.all.is_empty() {
            values.all.push(Value {
                bits: before,
                by: thread,
                moment: 0,
                passed_on: Clock::default(),
                in_one_order: true,
            });
        }
        values.seen[thread] = values.all.len();
        values.all.push(Value {
            bits: after,
            by: thread,
            moment: self.threads[thread].count,
            passed_on: self.memory.acquired(at),
            in_one_order: effect.in_one_order,
        });
    }

    /// An exchange by the thread found the newest value, and failed: no later look of it finds an older one.
    fn note_seen(&mut self, thread: usize, at: usize) {
        if let Some(values) = self.values.get_mut(&at) {
            values.seen[thread] = values.all.len() - 1;
        }
    }

    /// What a step on an atomic word tells by its ordering.
    fn take_effect(&mut self, thread: usize, at: usize, effect: Effect) {
        let acquired = effect.acquires.then(|| self.memory.acquired(at));
        let own = &mut self.threads[thread];
        if let Some(acquired) = acquired {
            own.known.join(&acquired);
        }
        if effect.writes {
            let released = effect.releases.then_some(&own.known);
            self.memory.written(at, released, effect.reads);
        }
    }

    /// An access to memory: by the thread's last step, or behind it and in front of its next one.
    fn access(&mut self, thread: usize, at: usize, access: Access, what: &str) {
        let own = &self.threads[thread];
        let moment = own.count + u32::from(access != Access::Step);
        let wrong = self.memory.access(at, access, thread, moment, &own.known);
        if let Some(wrong) = wrong {
            self.fail(format!("thread {thread}, {what}: {wrong}"));
        }
    }

    fn steps_since(&self, count: usize, thread: usize) -> Steps {
        let own = self.made[count..].iter();
        let own = own.filter(|made| made.thread == thread);
        let mut steps = Steps::default();
        let mut words: HashMap<usize, usize> = HashMap::new();
        for made in own {
            match made.step.kind {
                Kind::Read | Kind::Write => {
                    steps.atomic += 1;
                    *words.entry(made.step.at).or_default() += 1;
                }
                Kind::Lock => steps.locks += 1,
                _ => (),
            }
        }
        steps.on_a_word = words.into_values().max().unwrap_or(0);
        steps
    }

    fn fail(&mut self, what: String) {
        if self.failure.is_none() {
            self.failure = Some(format!("{what}\n{}", self.schedule()));
        }
    }

    /// The steps, a line for each turn of a thread. Words are numbered as they came.
    fn schedule(&self) -> String {
        let mut text = String::new();
        let mut numbers = HashMap::new();
        let mut last = None;
        for Made { thread, step, .. } in &self.made {
            if last != Some(thread) {
                let _ = write!(text, "\n    thread {thread}:");
                last = Some(thread);
            }
            let next = numbers.len();
            let number = numbers.entry(step.at).or_insert(next);
            let _ = write!(text, " {} w{number},", step.name);
        }
        text
    }
}

impl Run {
    pub(crate) fn new(threads: usize, walk: Walk) -> Run {
        assert!(
            threads <= MOST_THREADS,
            "a scenario has {MOST_THREADS} threads at most"
        );
        Run {
            state: Mutex::new(State::new(threads, walk)),
            wakes: (0..threads).map(|_| Condvar::new()).collect(),
        }
    }

    fn lock(&self) -> MutexGuard<'_, State> {
        self.state.lock().unwrap_or_else(PoisonError::into_inner)
    }

    /// What it came to, when its threads have ended.
    pub(crate) fn outcome(self) -> Outcome {
        let state = self
            .state
            .into_inner()
            .unwrap_or_else(PoisonError::into_inner);
        Outcome {
            schedule: state.schedule(),
            walk: state.walk,
            is_seen: state.is_seen,
            steps: state.steps,
            failure: state.failure,
        }
    }

    /// The steps so far.
    pub(crate) fn schedule(&self) -> String {
        self.lock().schedule()
    }

    /// Announces a step, and returns once it is the thread's turn to make it.
    fn turn(&self, thread: usize, step: Step) {
        let mut state = self.lock();
        state.threads[thread].waiting = Some(step);
        if step.kind == Kind::Start {
            state.arrived += 1;
        }
        if state.arrived == state.threads.len() {
            let last = (step.kind != Kind::Start).then_some(thread);
            self.hand_on(&mut state, last);
        }
        while state.running != Some(thread) {
            state = self.wakes[thread]
                .wait(state)
                .unwrap_or_else(PoisonError::into_inner);
        }
        state.begin(thread);
    }

    /// Whoever is chosen goes on.
    fn hand_on(&self, state: &mut State, last: Option<usize>) {
        match state.choose(last) {
            Ok(next) => {
                state.running = next;
                if let Some(next) = next.filter(|_| next != last) {
                    self.wakes[next].notify_all();
                }
            }
            // (Its threads stand where they are, so nothing else can be run.)
            Err(what) => {
                state.fail(what.into());
                crate::explore::give_up(state.failure.as_deref().unwrap_or(what));
            }
        }
    }

    fn end(&self, thread: usize) {
        let mut state = self.lock();
        state.threads[thread].has_ended = true;
        self.hand_on(&mut state, Some(thread));
    }
}

/// A thread of a schedule: its thread-local that ends last.
struct Own(RefCell<Option<(Arc<Run>, usize)>>);

impl Drop for Own {
    fn drop(&mut self) {
        WATCHED.set(false);
        let own = self.0.get_mut().take();
        // (Whoever gives up has the schedule's state, and ends here too.)
        if let Some((run, thread)) = own.filter(|_| !crate::explore::has_given_up()) {
            run.end(thread);
        }
    }
}

thread_local! {
    static OWN: Own = const { Own(RefCell::new(None)) };
    /// Whether memory that the thread takes and frees is the scenario's.
    static WATCHED: Cell<bool> = const { Cell::new(false) };
}

/// The thread becomes that of a schedule. It is the first that is done there, so that what it leaves for its end comes before.
pub(crate) fn start(run: Arc<Run>, thread: usize) {
    OWN.with(|own| *own.0.borrow_mut() = Some((run, thread)));
    step_without_word(Kind::Start, "start");
    WATCHED.set(true);
}

/// Does something with the schedule of this thread, if it is of one.
fn with_run<R>(with: impl FnOnce(&Run, usize) -> R) -> Option<R> {
    OWN.try_with(|own| {
        let own = own.0.borrow();
        let (run, thread) = own.as_ref()?;
        let watched = WATCHED.replace(false);
        let answer = with(run, *thread);
        WATCHED.set(watched);
        Some(answer)
    })
    .ok()
    .flatten()
}

/// Makes a step on an atomic word: `make` is done in the thread's turn, and tells what came of it.
pub(crate) fn step<R>(
    kind: Kind,
    at: usize,
    name: &'static str,
    bits: impl Fn() -> u64,
    make: impl FnOnce() -> (R, Effect),
) -> R {
    let step = Step { kind, at, name };
    with_run(|run, thread| run.turn(thread, step));
    let before = bits();
    let (answer, effect) = make();
    let after = bits();
    with_run(|run, thread| {
        let mut state = run.lock();
        // (An exchange that fails was a look.)
        let kind = if kind == Kind::Write && !effect.writes {
            Kind::Read
        } else {
            kind
        };
        state.end(thread, Step { kind, ..step });
        state.take_effect(thread, at, effect);
        if effect.writes {
            state.note_value(thread, at, (before, after), effect);
        } else {
            state.note_seen(thread, at);
        }
    });
    answer
}

/// Looks at an atomic word, which may have been written meanwhile by steps that the thread doesn't know of.
pub(crate) fn look(at: usize, bits: impl Fn() -> u64, effect: Effect) -> u64 {
    let step = Step {
        kind: Kind::Read,
        at,
        name: "load",
    };
    with_run(|run, thread| run.turn(thread, step));
    let newest = bits();
    let found = with_run(|run, thread| {
        let mut state = run.lock();
        let (age, found) = state.look(thread, at, effect, newest);
        state.end(thread, step);
        // (A thread that waits for the word to be written finds that it was.)
        if let Some((_, times)) = state.threads[thread].read.last_mut() {
            *times = times.wrapping_sub(age);
        }
        found
    });
    found.unwrap_or(newest)
}

/// The word was written by who has it alone.
pub(crate) fn is_own(at: usize) {
    with_run(|run, _| run.lock().values.remove(&at));
}

fn step_without_word(kind: Kind, name: &'static str) {
    let step = Step { kind, at: 0, name };
    with_run(|run, thread| {
        run.turn(thread, step);
        run.lock().end(thread, step);
    });
}

/// Waits until another thread writes a word that this one has read since its last wait.
pub(crate) fn wait() {
    step_without_word(Kind::Wait, "wait");
}

/// Looks at memory that isn't atomic.
pub(crate) fn access(at: usize, access: Access, what: &str) {
    with_run(|run, thread| run.lock().access(thread, at, access, what));
}

/// How many steps all threads have made. None where this one is of no schedule.
pub(crate) fn made() -> Option<usize> {
    with_run(|run, _| run.lock().made.len())
}

/// This thread's steps behind so many of all threads.
pub(crate) fn steps_since(count: usize) -> Steps {
    let steps = with_run(|run, thread| run.lock().steps_since(count, thread));
    steps.unwrap_or_default()
}

/// Whether the thread's memory is the scenario's. (It asks for none itself.)
pub(crate) fn is_watched() -> bool {
    WATCHED.try_with(Cell::get).unwrap_or(false)
}

/// Fresh memory.
pub(crate) fn begin(range: Range<usize>) {
    with_run(|run, thread| {
        let mut state = run.lock();
        let moment = state.threads[thread].count + 1;
        state.memory.begin(range, thread, moment);
    });
}

/// Memory is freed. Answers whether it was there.
pub(crate) fn free(range: Range<usize>) -> bool {
    let free = |run: &Run, thread: usize| {
        let mut state = run.lock();
        if state.memory.is_freed(range.start) {
            state.fail(format!("thread {thread}: memory is freed twice"));
            return false;
        }
        let known = state.threads[thread].known;
        if let Some(wrong) = state.memory.free(range, thread, &known) {
            state.fail(format!("thread {thread}: {wrong}"));
        }
        true
    };
    with_run(free).unwrap_or(true)
}

/// A panic in a thread of a schedule. Answers whether it was in one.
pub(crate) fn is_of_a_schedule() -> bool {
    with_run(|_, _| ()).is_some()
}

/// Does something whose memory isn't the scenario's.
pub(crate) fn unwatched<R>(with: impl FnOnce() -> R) -> R {
    let watched = WATCHED.replace(false);
    let answer = with();
    WATCHED.set(watched);
    answer
}
