//! One thread fills and publishes, and another reads and clears.
//!
//!     cargo run --example hello
use pardz::{Key, Pool};
use std::error::Error;
use std::io::Write;
use std::sync::mpsc::{channel, Receiver, Sender};
use std::thread;

fn publish(pool: &Pool, to: Sender<Key>) -> Result<(), Box<dyn Error>> {
    let mut filling = pool.create()?; // an empty buffer, with memory of an earlier use
    write!(filling, "hello {}", 5)?;
    to.send(filling.publish())?;
    Ok(())
}

fn read(pool: &Pool, from: Receiver<Key>) -> Option<()> {
    for key in from {
        let bytes = pool.get(key)?;
        pool.clear(key); // found no more; the bytes stay while `bytes` lives
        println!("{}", String::from_utf8_lossy(&bytes));
    }
    Some(())
}

fn main() -> Result<(), Box<dyn Error>> {
    let pool = Pool::new();
    let (to, from) = channel();
    thread::scope(|scope| {
        let reader = scope.spawn(|| read(&pool, from));
        publish(&pool, to)?;
        reader.join().expect("no panic").ok_or("published")?;
        Ok::<_, Box<dyn Error>>(())
    })?;
    assert_eq!(pool.close().present, 0);
    Ok(())
}
