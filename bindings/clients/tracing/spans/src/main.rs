//! A registry of spans under tracing's macros.
//!
//! `spans THREADS ROUNDS` has twice as many threads as told that come and go, each of which opens and closes nested spans, and holds one
//! open that another thread closes. A layer looks each span up as it opens and closes. Then a thread has 10,000 spans open at once. It
//! ends well where each span was found with its parents, and none is left. Last it tells the time of two nested spans, with a layer that does nothing.
use std::sync::atomic::{AtomicUsize, Ordering::Relaxed};
use std::sync::mpsc::{channel, Receiver, Sender};
use std::sync::Arc;
use std::time::Instant;
use std::{env, iter, process, thread};
use tracing::span::{Attributes, Id};
use tracing::{dispatcher, info_span, subscriber, Dispatch, Span, Subscriber};
use tracing_subscriber::layer::{Context, Identity, Layer, SubscriberExt};
use tracing_subscriber::registry::{LookupSpan, Registry};

/// What a layer saw.
#[derive(Default)]
struct Seen {
    opened: AtomicUsize,
    closed: AtomicUsize,
    wrong: AtomicUsize,
}

struct Look(Arc<Seen>);

impl Look {
    /// A span has the parent that its name asks for.
    fn look<S: Subscriber + for<'a> LookupSpan<'a>>(&self, id: &Id, context: &Context<'_, S>) {
        let right = context.span(id).is_some_and(|span| {
            let parent = span.parent().map(|parent| parent.name());
            match span.name() {
                "inner" => parent == Some("outer"),
                "outer" => parent == Some("kept"),
                _ => parent.is_none(),
            }
        });
        self.0.wrong.fetch_add(usize::from(!right), Relaxed);
    }
}

impl<S: Subscriber + for<'a> LookupSpan<'a>> Layer<S> for Look {
    fn on_new_span(&self, _: &Attributes<'_>, id: &Id, context: Context<'_, S>) {
        self.0.opened.fetch_add(1, Relaxed);
        self.look(id, &context);
    }

    fn on_close(&self, id: Id, context: Context<'_, S>) {
        self.0.closed.fetch_add(1, Relaxed);
        self.look(&id, &context);
    }
}

/// Two nested spans.
fn nested(round: usize) {
    let outer = info_span!("outer", round);
    let _in_outer = outer.enter();
    let inner = info_span!("inner", round);
    let _in_inner = inner.enter();
}

/// Nested spans within one that is sent away; and ends those that come.
fn work(rounds: usize, kept: Sender<Span>, others: &Receiver<Span>) {
    let span = info_span!("kept");
    span.in_scope(|| (0..rounds).for_each(nested));
    let _ = kept.send(span);
    others.try_iter().for_each(drop);
}

/// Threads that come and go, half of them at a time.
fn come_and_go(threads: usize, rounds: usize, dispatch: &Dispatch) {
    for _ in 0..2 {
        let (mut senders, mut receivers): (Vec<_>, Vec<_>) =
            iter::repeat_with(channel).take(threads).unzip();
        senders.rotate_left(threads.min(1));
        thread::scope(|scope| {
            for (kept, others) in senders.drain(..).zip(receivers.drain(..)) {
                scope.spawn(move || {
                    dispatcher::with_default(dispatch, || work(rounds, kept, &others));
                });
            }
        });
    }
}

/// Many spans at once.
fn open_many(dispatch: &Dispatch) {
    dispatcher::with_default(dispatch, || {
        let spans: Vec<Span> = (0..10_000).map(|_| info_span!("many")).collect();
        drop(spans);
    });
}

/// The lower quartile of 25 runs, in nanoseconds.
fn time() -> u128 {
    const ROUNDS: usize = 20_000;
    subscriber::with_default(Registry::default().with(Identity::new()), || {
        let run = || {
            let start = Instant::now();
            (0..ROUNDS).for_each(nested);
            start.elapsed().as_nanos() / ROUNDS as u128
        };
        let mut times: Vec<u128> = iter::repeat_with(run).take(25).collect();
        times.sort_unstable();
        times[6]
    })
}

fn main() {
    let mut words = env::args().skip(1).map(|word| word.parse());
    let (Some(Ok(threads)), Some(Ok(rounds)), None) = (words.next(), words.next(), words.next())
    else {
        eprintln!("usage: spans THREADS ROUNDS");
        process::exit(2);
    };
    let seen = Arc::new(Seen::default());
    let dispatch = Dispatch::new(Registry::default().with(Look(seen.clone())));
    come_and_go(threads, rounds, &dispatch);
    open_many(&dispatch);
    let [opened, closed, wrong] =
        [&seen.opened, &seen.closed, &seen.wrong].map(|count| count.load(Relaxed));
    let all = 2 * threads * (1 + 2 * rounds) + 10_000;
    println!(
        "{opened} spans opened of {all}, {closed} closed, {wrong} wrong; {} ns for two nested",
        time()
    );
    process::exit(i32::from((opened, closed, wrong) != (all, all, 0)));
}
