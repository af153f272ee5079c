//! A registry of spans, as a subscriber of `tracing` keeps one: spans are opened, recorded to, entered, exited and closed on
//! several threads, and a closed span's place and memory are used again.
//!
//!     cargo run --release --example spans -- 2000
//!
//! Two threads take requests, and open a span for each; two others serve them, with a span below it. Ends by itself.
use pardz::{Clear, CreateError, Key, Lane, Pool, Shape};
use std::cell::{Cell, RefCell};
use std::sync::atomic::{AtomicUsize, Ordering::SeqCst};
use std::sync::mpsc::{sync_channel, Receiver, SyncSender};
use std::sync::Mutex;
use std::{env, thread};

/// A span. Whoever refers to it may record to it; it is closed when its last holder lets go.
#[derive(Default)]
struct Span {
    name: &'static str,
    parent: Option<Key>,
    holders: AtomicUsize,
    fields: Mutex<Vec<(&'static str, u64)>>,
}

impl Clear for Span {
    fn clear(&mut self) {
        self.parent = None;
        self.fields.clear();
    }
}

/// What one thread has of the registry: its lane, the spans that it is in, and what it counts.
struct Tracer<'r> {
    lane: Lane<'r, Span>,
    entered: RefCell<Vec<Key>>,
    closed: Cell<u64>,
    rows: Cell<u64>,
}

impl<'r> Tracer<'r> {
    fn new(pool: &'r Pool<Span>) -> Option<Tracer<'r>> {
        Some(Tracer {
            lane: pool.lane().ok()?,
            entered: RefCell::default(),
            closed: Cell::new(0),
            rows: Cell::new(0),
        })
    }

    /// Opens a span within the one that the thread is in.
    fn new_span(&self, name: &'static str) -> Result<Key, CreateError> {
        let parent = self
            .entered
            .borrow()
            .last()
            .copied()
            .filter(|parent| self.hold(*parent));
        let created = self.lane.create();
        if let (Err(_), Some(parent)) = (&created, parent) {
            self.try_close(parent);
        }
        let mut span = created?;
        span.name = name;
        span.parent = parent;
        *span.holders.get_mut() = 1;
        Ok(span.publish())
    }

    /// One holder more. Whether the span is there.
    fn hold(&self, key: Key) -> bool {
        let span = self.lane.get(key);
        span.is_some_and(|span| span.holders.fetch_add(1, SeqCst) > 0)
    }

    /// Whether the span is there.
    fn record(&self, key: Key, field: &'static str, value: u64) -> bool {
        let Some(span) = self.lane.get(key) else {
            return false;
        };
        span.fields
            .lock()
            .expect("nobody panics with it")
            .push((field, value));
        true
    }

    fn enter(&self, key: Key) {
        self.entered.borrow_mut().push(key);
    }

    fn exit(&self) {
        self.entered.borrow_mut().pop();
    }

    /// One holder less. The last one closes the span, and lets go of the one that it is within.
    fn try_close(&self, key: Key) {
        let mut next = Some(key);
        while let Some(key) = next {
            let Some(span) = self.lane.get(key) else {
                return;
            };
            if span.holders.fetch_sub(1, SeqCst) > 1 {
                return;
            }
            self.report(&span);
            next = span.parent;
            assert!(self.lane.clear(key), "the last holder alone clears");
        }
    }

    /// What a subscriber does with a span that is closed.
    fn report(&self, span: &Span) {
        let fields = span.fields.lock().expect("nobody panics with it");
        let value = |name| {
            fields
                .iter()
                .find(|field| field.0 == name)
                .map_or(0, |field| field.1)
        };
        if self.closed.get() == 0 {
            println!("{} {fields:?}", span.name);
        }
        self.closed.set(self.closed.get() + 1);
        self.rows.set(self.rows.get() + value("rows"));
    }
}

/// Opens a span for each request, and hands it on. Answers how many found no place.
fn take_requests(pool: &Pool<Span>, requests: u64, to: SyncSender<Key>) -> u64 {
    let tracer = Tracer::new(pool).expect("a lane for each thread");
    let mut missed = 0;
    for number in 0..requests {
        match tracer.new_span("request") {
            Ok(span) => {
                tracer.record(span, "number", number);
                to.send(span).expect("the other thread listens");
            }
            Err(_) => missed += 1,
        }
    }
    missed
}

/// Serves requests, each in its span, with one below it. Answers how many spans it closed, and what they recorded.
fn serve(pool: &Pool<Span>, from: Receiver<Key>) -> (u64, u64) {
    let tracer = Tracer::new(pool).expect("a lane for each thread");
    for request in from {
        tracer.enter(request);
        let query = tracer
            .new_span("query")
            .expect("a thread that serves has one span open at once");
        tracer.enter(query);
        tracer.record(query, "rows", 3);
        tracer.exit();
        tracer.try_close(request); // the query still holds it
        assert!(tracer.record(request, "status", 200));
        tracer.try_close(query);
        assert!(!tracer.record(request, "late", 1));
        tracer.exit();
    }
    (tracer.closed.get(), tracer.rows.get())
}

fn main() -> Result<(), Box<dyn std::error::Error>> {
    let requests = env::args().nth(1).map_or(Ok(1000), |word| word.parse())?;
    let pool = Pool::<Span>::open(Shape {
        lanes: 4,
        first_page: 16,
        pages: 1,
        ..Shape::default()
    })?;
    let (missed, closed, rows) = thread::scope(|scope| {
        let mut threads = Vec::new();
        for _ in 0..2 {
            let (to, from) = sync_channel(8);
            let pool = &pool;
            threads.push((
                scope.spawn(move || take_requests(pool, requests, to)),
                scope.spawn(move || serve(pool, from)),
            ));
        }
        threads
            .into_iter()
            .fold((0, 0, 0), |(missed, closed, rows), (taking, serving)| {
                let served = serving.join().expect("no panic");
                (
                    missed + taking.join().expect("no panic"),
                    closed + served.0,
                    rows + served.1,
                )
            })
    });
    println!("{closed} spans closed, {missed} without a place, {rows} rows");
    let census = pool.close();
    assert_eq!((census.present, census.marked, census.filling), (0, 0, 0));
    assert_eq!(closed, 2 * (2 * requests - missed));
    assert_eq!(rows, 3 * (2 * requests - missed));
    Ok(())
}
