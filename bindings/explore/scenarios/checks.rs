//! What the explorer itself is to find, and that it leaves no outcome out.
use crate::world::{Scenario, Within};
use explorer::{
    explore, reads, refusing, writes, AtomicPtr, AtomicU32, AtomicUsize, Extent, Mutex, Ordering,
    Plan, Steps,
};
use std::cell::{RefCell, UnsafeCell};
use std::collections::BTreeSet;
use std::process::Command;
use std::{env, hint, mem};
use Ordering::{AcqRel, Acquire, Relaxed, Release, SeqCst};

/// Small programs with a fault each, and what is told of it.
fn faulty() -> Vec<(Scenario, &'static str)> {
    let number = || AtomicU32::new(0);
    let add = |number: &AtomicU32| number.store(number.load(SeqCst) + 1, SeqCst);
    let message = Message::default;
    let counted = || Counted(AtomicPtr::new(Box::into_raw(Box::new(AtomicUsize::new(2)))));
    let locks = || [Mutex::new(()), Mutex::new(())];
    vec![
        (
            Scenario::new("lost-update", number, [add, add], |sum| {
                assert_eq!(sum.load(SeqCst), 2)
            }),
            "at the end: ",
        ),
        (
            Scenario::new(
                "unordered",
                message,
                [|m| m.send(Relaxed), Message::receive],
                drop,
            ),
            "nothing orders",
        ),
        (
            Scenario::new(
                "crossed-locks",
                locks,
                [|l| have_both(&l[0], &l[1]), |l| have_both(&l[1], &l[0])],
                drop,
            ),
            "a deadlock",
        ),
        (
            Scenario::new("never-set", number, [spin, spin], drop),
            "a livelock",
        ),
        (
            Scenario::new(
                "no-step",
                number,
                [|_| loop {
                    hint::spin_loop()
                }],
                drop,
            ),
            "no step for",
        ),
        (
            Scenario::new(
                "used-when-freed",
                counted,
                [Counted::free, Counted::look],
                drop,
            ),
            "has freed",
        ),
        (
            Scenario::new("freed-twice", counted, [Counted::free, Counted::free], drop),
            "freed twice",
        ),
        (
            Scenario::new(
                "freed-unordered",
                counted,
                [|c| c.let_go(Relaxed), |c| c.let_go(Relaxed)],
                drop,
            ),
            "Free that nothing orders",
        ),
        (
            Scenario::new(
                "leak",
                number,
                [|_| mem::forget(hint::black_box(Box::new(7)))],
                drop,
            ),
            "1 pieces of memory are left",
        ),
        (
            Scenario::new("panics", number, [|_| panic!("a thread's own")], drop),
            "panicked: a thread's own",
        ),
    ]
}

/// The same without the fault.
fn sound() -> Vec<Scenario> {
    let counted = || Counted(AtomicPtr::new(Box::into_raw(Box::new(AtomicUsize::new(2)))));
    let number = || AtomicU32::new(0);
    let add = |number: &AtomicU32| {
        number.fetch_add(1, Relaxed);
    };
    vec![
        Scenario::new("fetch-add", number, [add, add], |sum| {
            assert_eq!(sum.load(SeqCst), 2)
        }),
        Scenario::new(
            "ordered",
            Message::default,
            [|m| m.send(Release), Message::receive],
            drop,
        ),
        Scenario::new(
            "freed-ordered",
            counted,
            [|c| c.let_go(AcqRel), |c| c.let_go(AcqRel)],
            drop,
        ),
        Scenario::new("counted", number, [count_steps, add], drop),
        Scenario::new("refused", number, [refuse_second, add], drop),
        Scenario::new(
            "failed-exchange",
            number,
            [|number| number.store(1, Relaxed), exchange_and_look],
            drop,
        ),
    ]
}

/// What a failed exchange has found, a later look finds too.
fn exchange_and_look(number: &AtomicU32) {
    if number.compare_exchange(0, 2, Relaxed, Relaxed) == Err(1) {
        assert_eq!(number.load(Relaxed), 1, "an older value is found");
    }
}

/// A call of four steps, and a lock.
fn count_steps(number: &AtomicU32) {
    let (lock, other) = (Mutex::new(()), AtomicU32::new(0));
    explorer::call("a call", || {
        number.fetch_add(1, Relaxed);
        drop(lock.lock());
        other.store(1, Relaxed);
        number.fetch_sub(1, Relaxed);
        number.load(Relaxed)
    });
    explorer::call("a call", || number.load(Relaxed));
}

/// The second request of a call is refused, and no other.
fn refuse_second(number: &AtomicU32) {
    let mut rows = [(); 3].map(|()| Vec::<u8>::new());
    let reserve = || {
        rows.each_mut().map(|row| {
            number.load(Relaxed);
            row.try_reserve_exact(1).is_ok()
        })
    };
    assert_eq!(refusing(2, reserve), ([true, false, true], true));
    assert_eq!(refusing(1, || ()), ((), false));
    assert!(rows[1].try_reserve_exact(1).is_ok());
}

/// A number behind a flag.
#[derive(Default)]
struct Message {
    number: UnsafeCell<u32>,
    is_there: AtomicU32,
}

// SAFETY: the explorer looks at each access.
unsafe impl Sync for Message {}

impl Message {
    fn send(&self, order: Ordering) {
        writes(self.number.get(), "a message");
        self.is_there.store(1, order);
    }

    fn receive(&self) {
        if self.is_there.load(Acquire) == 1 {
            reads(self.number.get(), "a message");
        }
    }
}

/// Memory that two threads have.
struct Counted(AtomicPtr<AtomicUsize>);

impl Counted {
    fn count(&self) -> &AtomicUsize {
        // SAFETY: freed memory is kept until the schedule has ended.
        unsafe { &*self.0.load(Relaxed) }
    }

    fn let_go(&self, order: Ordering) {
        if self.count().fetch_sub(1, order) == 1 {
            self.free();
        }
    }

    fn look(&self) {
        self.count().load(Relaxed);
    }

    fn free(&self) {
        // SAFETY: as above: memory that is freed again is left as it is.
        drop(unsafe { Box::from_raw(self.0.load(Relaxed)) });
    }
}

fn have_both(one: &Mutex<()>, other: &Mutex<()>) {
    let _one = one.lock();
    let _other = other.lock();
}

fn spin(never: &AtomicU32) {
    while never.load(SeqCst) == 0 {}
}

/// Runs one of the faulty programs, as a child of `check` does.
pub fn run_faulty(name: &str) -> Option<Scenario> {
    let mut all = faulty().into_iter().map(|(scenario, _)| scenario);
    all.find(|scenario| scenario.name == name)
}

/// Each fault is told, in a process of its own; what has none passes; and no outcome is left out.
pub fn check() {
    let program = env::current_exe().expect("its own path");
    let faults = faulty();
    for (Scenario { name, .. }, told) in &faults {
        let output = Command::new(&program)
            .args(["--faulty", name])
            .output()
            .expect("it runs");
        let text = String::from_utf8_lossy(&output.stdout);
        let is_told = text.starts_with(&format!("FAIL {name}: ")) && text.contains(told);
        assert!(
            !output.status.success() && is_told,
            "{name} is told as: {text}"
        );
    }
    for scenario in sound() {
        for old_looks in [0, 1] {
            let within = Within {
                old_looks,
                ..Within::default()
            };
            let failure = scenario.explore(within).failure;
            assert_eq!(failure, None, "{}", scenario.name);
        }
    }
    let steps = Steps {
        atomic: 4,
        on_a_word: 3,
        locks: 1,
    };
    assert_eq!(explorer::calls(), [("a call", steps)]);
    let programs = (0..PROGRAMS).map(compare).sum::<usize>();
    println!("ok   the explorer finds {} faults, and all {programs} outcomes of {PROGRAMS} drawn programs", faults.len());
}

const PROGRAMS: u64 = 200;

/// A step of a drawn program, on one of two words. What it finds is part of the outcome.
#[derive(Clone, Copy, Debug)]
enum Op {
    Load,
    Store(u32),
    Add(u32),
    Exchange(u32, u32),
}

/// Three threads of drawn steps, each with its word.
#[derive(Clone, Debug)]
struct Program([Vec<(usize, Op)>; 3]);

#[derive(Debug)]
struct Drawn {
    program: Program,
    words: [AtomicU32; 2],
    found: std::sync::Mutex<[Vec<u32>; 3]>,
}

/// A drawn number below `below`: by a linear congruence.
fn draw(state: &mut u64, below: u64) -> u64 {
    *state = state
        .wrapping_mul(6_364_136_223_846_793_005)
        .wrapping_add(1_442_695_040_888_963_407);
    (*state >> 33) % below
}

fn draw_program(seed: u64) -> Program {
    let mut state = seed;
    Program([(); 3].map(|()| {
        let length = 1 + draw(&mut state, 3);
        let step = |_| {
            let (word, number) = (draw(&mut state, 2) as usize, draw(&mut state, 3) as u32);
            let op = match draw(&mut state, 4) {
                0 => Op::Load,
                1 => Op::Store(number),
                2 => Op::Add(number + 1),
                _ => Op::Exchange(number, number + 2),
            };
            (word, op)
        };
        (0..length).map(step).collect()
    }))
}

impl Drawn {
    fn run(&self, thread: usize) {
        for &(word, op) in &self.program.0[thread] {
            let word = &self.words[word];
            let found = match op {
                Op::Load => word.load(SeqCst),
                Op::Store(number) => {
                    word.store(number, SeqCst);
                    0
                }
                Op::Add(number) => word.fetch_add(number, SeqCst),
                Op::Exchange(old, new) => word
                    .compare_exchange(old, new, SeqCst, SeqCst)
                    .unwrap_or_else(|found| found),
            };
            self.found.lock().expect("no panic")[thread].push(found);
        }
    }
}

/// The outcomes of all orders of the steps, each with how many preemptions it has.
struct Orders {
    program: Program,
    outcomes: BTreeSet<(Outcome, u32)>,
}

/// What each thread found, and the words at the end.
type Outcome = ([Vec<u32>; 3], [u32; 2]);

impl Orders {
    fn go_on(&mut self, outcome: Outcome, last: Option<usize>, preemptions: u32) {
        let done = |thread: usize| outcome.0[thread].len();
        let able: Vec<usize> = (0..3)
            .filter(|&thread| done(thread) < self.program.0[thread].len())
            .collect();
        if able.is_empty() {
            self.outcomes.insert((outcome, preemptions));
            return;
        }
        for &thread in &able {
            let preempts = last.is_some_and(|last| last != thread && able.contains(&last));
            let mut next = outcome.clone();
            let (word, op) = self.program.0[thread][done(thread)];
            let word = &mut next.1[word];
            let found = *word;
            match op {
                Op::Store(number) => *word = number,
                Op::Add(number) => *word += number,
                Op::Exchange(old, new) if found == old => *word = new,
                Op::Load | Op::Exchange(..) => (),
            }
            next.0[thread].push(if matches!(op, Op::Store(_)) { 0 } else { found });
            self.go_on(next, Some(thread), preemptions + u32::from(preempts));
        }
    }
}

/// The schedules of a drawn program have the outcomes that any order of its steps has. Answers how many.
fn compare(seed: u64) -> usize {
    let program = draw_program(seed);
    let mut orders = Orders {
        program: program.clone(),
        outcomes: BTreeSet::new(),
    };
    orders.go_on(Default::default(), None, 0);
    let outcomes = RefCell::new(BTreeSet::new());
    let set_up = || Drawn {
        program: program.clone(),
        words: Default::default(),
        found: Default::default(),
    };
    let finish = |drawn: Drawn| {
        let words = drawn.words.map(|word| word.load(SeqCst));
        let found = drawn.found.into_inner().expect("no panic");
        outcomes.borrow_mut().insert((found, words));
    };
    let works: [fn(&Drawn); 3] = [
        |drawn| drawn.run(0),
        |drawn| drawn.run(1),
        |drawn| drawn.run(2),
    ];
    let plan = Plan {
        name: "drawn",
        extent: Extent::All,
        // What the threads found is kept beyond the schedule.
        forgets: true,
        most: None,
        old_looks: 0,
    };
    let report = explore(plan, set_up, &works, finish);
    assert_eq!(report.failure, None);
    let outcomes = outcomes.into_inner();
    let mut wanted = orders.outcomes.iter().map(|(outcome, _)| outcome);
    let missing = wanted.find(|outcome| !outcomes.contains(outcome));
    assert_eq!(missing, None, "an outcome is left out, of {program:?}");
    let all: BTreeSet<&Outcome> = orders.outcomes.iter().map(|(outcome, _)| outcome).collect();
    all.len()
}
