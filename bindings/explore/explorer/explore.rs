//! Runs a scenario through its schedules.
use crate::heap;
use crate::run::{self, Run, PROGRESS};
use crate::walk::Walk;
use std::any::Any;
use std::fmt;
use std::panic::{self, AssertUnwindSafe};
use std::process;
use std::sync::atomic::{AtomicBool, Ordering};
use std::sync::{Arc, Mutex, PoisonError, Weak};
use std::thread;
use std::time::{Duration, Instant};

/// Which schedules are run.
#[derive(Clone, Copy, Debug, PartialEq, Eq)]
pub enum Extent {
    All,
    /// Those in which so many times at most a thread loses its turn though it could go on.
    Preemptions(u32),
}

impl fmt::Display for Extent {
    fn fmt(&self, f: &mut fmt::Formatter<'_>) -> fmt::Result {
        match self {
            Extent::All => write!(f, "all"),
            Extent::Preemptions(most) => write!(f, "of at most {most} preemptions"),
        }
    }
}

/// What the schedules of a scenario came to.
#[derive(Debug)]
pub struct Report {
    /// How many were run to their end, and how many were left where each end was seen already.
    pub schedules: u64,
    pub left: u64,
    pub steps: u64,
    pub seconds: f64,
    /// What went wrong in the last one, with its steps.
    pub failure: Option<String>,
}

/// What a thread of a scenario does.
pub type Work<W> = fn(&W);

/// The scenario under way, for who watches.
static UNDER_WAY: Mutex<(String, Weak<Run>)> = Mutex::new((String::new(), Weak::new()));

/// How a scenario is run.
#[derive(Clone, Copy, Debug)]
pub struct Plan<'n> {
    pub name: &'n str,
    pub extent: Extent,
    /// Whether a thread forgets something, so that memory is left.
    pub forgets: bool,
    /// How many schedules are run at most, where not all are wanted.
    pub most: Option<u64>,
    /// How many looks of a schedule may find an older value of their word than the newest.
    pub old_looks: usize,
}

/// Runs the works, each on a thread of its own, in one schedule after the other. Each begins with what `set_up` gives, and `finish` looks at
/// what is left. It stops at the first that fails.
pub fn explore<W: Send + Sync + 'static>(
    plan: Plan<'_>,
    set_up: impl Fn() -> W,
    works: &[Work<W>],
    finish: impl Fn(W),
) -> Report {
    let start = Instant::now();
    let bound = match plan.extent {
        Extent::All => None,
        Extent::Preemptions(most) => Some(most),
    };
    let mut walk = Walk::new(bound, plan.old_looks);
    let mut report = Report {
        schedules: 0,
        left: 0,
        steps: 0,
        seconds: 0.0,
        failure: None,
    };
    loop {
        crate::atomics::begin_counters();
        let run = Arc::new(Run::new(works.len(), walk));
        *under_way() = (plan.name.into(), Arc::downgrade(&run));
        let failure = run_works(&run, set_up(), works, &finish);
        let outcome = Arc::into_inner(run)
            .expect("its threads have ended")
            .outcome();
        let (left, bytes) = heap::settle();
        let leaks = (left > 0 && !plan.forgets)
            .then(|| format!("{left} pieces of memory are left, of {bytes} bytes"));
        report.steps += outcome.steps as u64;
        report.schedules += u64::from(!outcome.is_seen);
        report.left += u64::from(outcome.is_seen);
        report.failure = outcome.failure.or(failure
            .or(leaks)
            .map(|what| format!("{what}\n{}", outcome.schedule)));
        walk = outcome.walk;
        let is_enough = plan.most.is_some_and(|most| report.schedules >= most);
        if report.failure.is_some() || is_enough || !walk.turn_back() {
            report.seconds = start.elapsed().as_secs_f64();
            return report;
        }
    }
}

/// Runs one schedule. Answers what panicked.
fn run_works<W: Send + Sync + 'static>(
    run: &Arc<Run>,
    world: W,
    works: &[Work<W>],
    finish: impl Fn(W),
) -> Option<String> {
    let world = Arc::new(world);
    let start = |(thread, work): (usize, &Work<W>)| {
        let (run, world, work) = (Arc::clone(run), Arc::clone(&world), *work);
        thread::spawn(move || {
            run::start(run, thread);
            let done = panic::catch_unwind(AssertUnwindSafe(|| work(&world)));
            drop(world);
            done
        })
    };
    let threads: Vec<_> = works.iter().enumerate().map(start).collect();
    let mut panicked = None;
    for (number, thread) in threads.into_iter().enumerate() {
        if let Err(payload) = thread.join().and_then(|done| done) {
            panicked = panicked.or(Some(format!(
                "thread {number} panicked: {}",
                text_of(&*payload)
            )));
        }
    }
    let world = Arc::into_inner(world).expect("its threads have ended");
    FINISHES.store(true, Ordering::Relaxed);
    let finished = panic::catch_unwind(AssertUnwindSafe(|| finish(world)));
    FINISHES.store(false, Ordering::Relaxed);
    let wrong = finished
        .err()
        .map(|payload| format!("at the end: {}", text_of(&*payload)));
    panicked.or(wrong)
}

fn text_of(payload: &(dyn Any + Send)) -> &str {
    let text = payload.downcast_ref::<&str>().copied();
    let text = text.or_else(|| payload.downcast_ref::<String>().map(String::as_str));
    text.unwrap_or("a panic without a text")
}

fn under_way() -> std::sync::MutexGuard<'static, (String, Weak<Run>)> {
    UNDER_WAY.lock().unwrap_or_else(PoisonError::into_inner)
}

/// Whether the end of a schedule is looked at.
static FINISHES: AtomicBool = AtomicBool::new(false);
static GIVEN_UP: AtomicBool = AtomicBool::new(false);

pub(crate) fn has_given_up() -> bool {
    GIVEN_UP.load(Ordering::Relaxed)
}

/// Ends the program where a schedule can't be ended: its threads wait for ever.
pub(crate) fn give_up(what: &str) -> ! {
    GIVEN_UP.store(true, Ordering::Relaxed);
    println!("FAIL {}: {what}", under_way().0);
    process::exit(1);
}

/// Keeps the program on the processor where it is now, if the system has the call: its threads take turns, so none other serves it, and
/// from one to another a turn takes several times as long.
#[cfg(all(target_os = "linux", target_pointer_width = "64"))]
pub fn stay() {
    extern "C" {
        fn sched_getcpu() -> i32;
        fn sched_setaffinity(process: i32, bytes: usize, processors: *const u64) -> i32;
    }
    let mut processors = [0u64; 16];
    // SAFETY: it asks nothing.
    let here = unsafe { sched_getcpu() };
    if let Some(word) = usize::try_from(here)
        .ok()
        .and_then(|here| processors.get_mut(here / 64))
    {
        *word = 1 << (here % 64);
        // SAFETY: there are so many bytes. Where it refuses, all stays as it was.
        unsafe { sched_setaffinity(0, size_of_val(&processors), processors.as_ptr()) };
    }
}

#[cfg(not(all(target_os = "linux", target_pointer_width = "64")))]
pub fn stay() {}

/// Ends the program where no step is made for so long, and keeps the panics of schedules quiet: their text is in the report.
pub fn watch(patience: Duration) {
    let tell = panic::take_hook();
    panic::set_hook(Box::new(move |panic| {
        if !run::is_of_a_schedule() && !FINISHES.load(Ordering::Relaxed) {
            tell(panic);
        }
    }));
    thread::spawn(move || loop {
        let before = PROGRESS.load(Ordering::Relaxed);
        thread::sleep(patience);
        if PROGRESS.load(Ordering::Relaxed) == before {
            let run = under_way().1.upgrade();
            let schedule = run.map_or(String::new(), |run| run.schedule());
            give_up(&format!("no step for {patience:?}\n{schedule}"));
        }
    });
}
