//! Threads that come and go make requests of one pool: each publishes a text, and reads and clears one that another thread
//! published.
//!
//!     cargo run --release --example come_and_go -- WAY THREADS REQUESTS
//!
//! - `lanes`: each thread takes a `Lane`;
//! - `calls`: all threads call the pool;
//! - `owned`: fillings and references are owned, and are sent to the other thread.
//!
//! So many threads are there at once, each for a hundred requests; then others come. It fails where a create is refused, or a read finds
//! nothing or something else, or a clear isn't the one that counts.
use pardz::{CreateError, Key, Lane, OwnedRef, Pool};
use std::sync::atomic::{AtomicU64, Ordering::Relaxed};
use std::sync::Mutex;
use std::{env, mem, process, thread};

/// How many requests a thread makes.
const OF_A_THREAD: u64 = 100;

/// A text that another thread is to read: the number that it tells, and its reference where that is owned.
type Sent = (Key, u64, Option<OwnedRef<String>>);

/// What is sent lies here until another thread takes it.
struct Board {
    places: Vec<Mutex<Option<Sent>>>,
    next: AtomicU64,
    refused: AtomicU64,
    wrong: AtomicU64,
    read: AtomicU64,
}

impl Board {
    /// One with so many places, where nothing lies yet.
    fn new(places: u64) -> Board {
        Board {
            places: (0..places).map(|_| Mutex::default()).collect(),
            next: AtomicU64::new(0),
            refused: AtomicU64::new(0),
            wrong: AtomicU64::new(0),
            read: AtomicU64::new(0),
        }
    }

    /// Leaves what was published, and takes what lay there.
    fn swap(&self, sent: Option<Sent>, place: u64) -> Option<Sent> {
        let place = &self.places[place as usize % self.places.len()];
        // (By tries: a thread sanitizer sees what they order, and not what waits within std do.)
        loop {
            if let Ok(mut place) = place.try_lock() {
                return mem::replace(&mut place, sent);
            }
            thread::yield_now();
        }
    }

    /// Whether all was as it should be.
    fn note(&self, is_right: bool) {
        self.read.fetch_add(1, Relaxed);
        self.wrong.fetch_add(u64::from(!is_right), Relaxed);
    }
}

/// The calls of one thread, by a `Lane` or without.
struct Caller<'p> {
    pool: &'p Pool<String>,
    lane: Option<Lane<'p, String>>,
    is_owned: bool,
}

impl Caller<'_> {
    fn publish(&self, text: &str) -> Result<(Key, Option<OwnedRef<String>>), CreateError> {
        if self.is_owned {
            let mut filling = self.pool.create_owned()?;
            filling.push_str(text);
            let text = filling.downgrade();
            return Ok((text.key(), Some(text)));
        }
        let key = match &self.lane {
            Some(lane) => lane.put(text)?,
            None => self.pool.put(text)?,
        };
        Ok((key, None))
    }

    /// Whether the text of a key is this one.
    fn reads(&self, key: Key, text: &str) -> bool {
        match &self.lane {
            Some(lane) => lane.get(key).is_some_and(|found| *found == text),
            None if self.is_owned => self.pool.get_owned(key).is_some_and(|found| *found == text),
            None => self.pool.get(key).is_some_and(|found| *found == text),
        }
    }

    fn clear(&self, key: Key) -> bool {
        match &self.lane {
            Some(lane) => lane.clear(key),
            None => self.pool.clear(key),
        }
    }

    /// Whether what another thread sent is there, and is cleared by this one.
    fn takes(&self, (key, number, owned): Sent) -> bool {
        let text = number.to_string();
        let found = self.reads(key, &text);
        let cleared = self.clear(key) && !self.clear(key) && !self.reads(key, &text);
        found && cleared && owned.map_or(true, |owned| *owned == text)
    }
}

/// The requests of one thread.
fn work(caller: &Caller<'_>, board: &Board) {
    for _ in 0..OF_A_THREAD {
        let number = board.next.fetch_add(1, Relaxed);
        let Ok((key, owned)) = caller.publish(&number.to_string()) else {
            board.refused.fetch_add(1, Relaxed);
            continue;
        };
        if let Some(sent) = board.swap(Some((key, number, owned)), number * 7919) {
            board.note(caller.takes(sent));
        }
    }
}

fn come_and_go(way: &str, threads: u64, requests: u64) -> Option<bool> {
    let pool = Pool::<String>::new();
    let board = Board::new(4 * threads);
    let caller = || Caller {
        pool: &pool,
        lane: (way == "lanes").then(|| pool.lane().expect("memory")),
        is_owned: way == "owned",
    };
    thread::scope(|scope| {
        let visits = || {
            while board.next.load(Relaxed) < requests {
                let visit = scope.spawn(|| work(&caller(), &board));
                visit.join().expect("no panic");
            }
        };
        let running: Vec<_> = (0..threads).map(|_| scope.spawn(visits)).collect();
        // (Each is joined: a thread sanitizer doesn't see what the end of the scope waits for.)
        for visits in running {
            visits.join().expect("no panic");
        }
    });
    let last = caller();
    for place in 0..4 * threads {
        if let Some(sent) = board.swap(None, place) {
            board.note(last.takes(sent));
        }
    }
    drop(last);
    let (made, read) = (board.next.into_inner(), board.read.into_inner());
    let (refused, wrong) = (board.refused.into_inner(), board.wrong.into_inner());
    let census = pool.close();
    println!("{way}: {made} requests of {threads} threads at once, {read} read, {refused} refused, {wrong} wrong or missed");
    let left = census.present + census.marked + census.filling;
    Some((read, refused, wrong, left) == (made, 0, 0, 0))
}

fn main() {
    let words: Vec<String> = env::args().skip(1).collect();
    let is_right = match &words[..] {
        [way, threads, requests] if ["lanes", "calls", "owned"].contains(&&**way) => {
            match (threads.parse(), requests.parse()) {
                (Ok(threads), Ok(requests)) if threads > 0 => come_and_go(way, threads, requests),
                _ => None,
            }
        }
        _ => None,
    };
    if is_right.is_none() {
        eprintln!("come_and_go WAY THREADS REQUESTS, as its source says");
    }
    process::exit(i32::from(is_right != Some(true)));
}
