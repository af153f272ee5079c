//! Workers that hand jobs on by their keys: each stage has threads of its own, and a job's memory goes from use to use.
//!
//!     cargo run --release --example workers -- 10000
//!
//! A source writes texts, three workers count their words, and a sink adds up what they found. Ends by itself.
use pardz::{Clear, CreateError, Key, Lane, Pool, Shape};
use std::sync::mpsc::{sync_channel, Receiver, SyncSender};
use std::sync::{Mutex, OnceLock};
use std::{env, thread};

const WORKERS: usize = 3;

/// How many jobs may wait between two stages.
const WAITING: usize = 16;

/// A job: its text is written by the source, and what was found by the one worker that has its key.
#[derive(Default)]
struct Job {
    text: String,
    words: OnceLock<usize>,
}

impl Clear for Job {
    fn clear(&mut self) {
        self.text.clear();
        self.words.take();
    }
}

/// Publishes so many jobs. Where all places are in use it waits for the sink.
fn write_jobs(lane: &Lane<Job>, jobs: usize, to: SyncSender<Key>) {
    for number in 0..jobs {
        let mut job = loop {
            match lane.create() {
                Ok(job) => break job,
                Err(CreateError::Full) => thread::yield_now(),
                Err(error) => panic!("{error}"),
            }
        };
        for word in 0..number % 50 {
            job.text.push_str(["one ", "two  ", "three\n"][word % 3]);
        }
        to.send(job.publish()).expect("the workers listen");
    }
}

/// Counts the words of each job, and hands it on.
fn count_words(lane: &Lane<Job>, from: &Mutex<Receiver<Key>>, to: SyncSender<Key>) {
    loop {
        let next = from.lock().expect("nobody panics with it").recv();
        let Ok(key) = next else { return };
        let job = lane.get(key).expect("the sink alone clears");
        let words = job.text.split_whitespace().count();
        job.words.set(words).expect("one worker has the key");
        to.send(key).expect("the sink listens");
    }
}

/// Adds up, and clears the jobs.
fn add_up(lane: &Lane<Job>, from: Receiver<Key>) -> (usize, usize) {
    from.into_iter().fold((0, 0), |(jobs, words), key| {
        let job = lane.get(key).expect("the sink alone clears");
        assert!(lane.clear(key));
        (jobs + 1, words + job.words.get().expect("counted"))
    })
}

fn main() -> Result<(), Box<dyn std::error::Error>> {
    let jobs = env::args().nth(1).map_or(Ok(1000), |word| word.parse())?;
    let pool = Pool::<Job>::open(Shape {
        lanes: 2 + WORKERS as u32,
        first_page: 16,
        pages: 2,
        ..Shape::default()
    })?;
    let (to_workers, written) = sync_channel(WAITING);
    let (to_sink, counted) = sync_channel(WAITING);
    let written = Mutex::new(written);
    let lane = || pool.lane();
    let (found, words) = thread::scope(|scope| {
        let source = lane()?;
        scope.spawn(move || write_jobs(&source, jobs, to_workers));
        for _ in 0..WORKERS {
            let (worker, from, to) = (lane()?, &written, to_sink.clone());
            scope.spawn(move || count_words(&worker, from, to));
        }
        drop(to_sink);
        let sink = lane()?;
        let counted = scope.spawn(move || add_up(&sink, counted));
        Ok::<_, CreateError>(counted.join().expect("no panic"))
    })?;
    println!("{words} words in {found} jobs");
    assert_eq!(found, jobs);
    assert_eq!(words, (0..jobs).map(|number| number % 50).sum::<usize>());
    assert_eq!(pool.census(), pool.close());
    Ok(())
}
