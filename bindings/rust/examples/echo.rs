//! A TCP echo server on the loopback whose messages lie in the pool: for each connection one thread reads straight into buffers and
//! publishes them, and another gets each by its key, writes it back and clears it.
//!
//!     cargo run --release --example echo -- 1000
//!
//! Four clients send so many messages each, and check what comes back. Ends by itself.
use pardz::{Buffer, Key, Lane, Pool, Shape};
use std::io::{self, Read, Write};
use std::net::{Shutdown, SocketAddr, TcpListener, TcpStream};
use std::sync::mpsc::{sync_channel, Receiver, SyncSender};
use std::time::Duration;
use std::{env, thread};

const CONNECTIONS: usize = 4;

/// How many messages of a connection may wait for their writer.
const WAITING: usize = 8;

/// Nothing takes as long here.
const PATIENCE: Duration = Duration::from_secs(20);

/// Reads a connection to its end. A lane has 24 places: more than wait, are read and are written at once, so one is free.
fn read_from(lane: Lane, mut stream: TcpStream, to: SyncSender<Key>) -> io::Result<()> {
    loop {
        let mut filling = lane.create()?;
        if filling.read_from(&mut stream, 4096)? == 0 {
            return Ok(());
        }
        to.send(filling.publish()).map_err(io::Error::other)?;
    }
}

/// Writes back each message. Answers how many there were.
fn write_to(lane: Lane, mut stream: TcpStream, from: Receiver<Key>) -> io::Result<u64> {
    let mut messages = 0;
    for key in from {
        let message = lane
            .get(key)
            .ok_or_else(|| io::Error::other("a message is gone"))?;
        lane.clear(key);
        stream.write_all(&message)?;
        messages += 1;
    }
    stream.shutdown(Shutdown::Write)?;
    Ok(messages)
}

/// Sends messages, and checks that they come back. Answers how many bytes they had.
fn ask(at: SocketAddr, number: usize, rounds: usize) -> io::Result<u64> {
    let mut stream = prepared(TcpStream::connect(at)?)?;
    let mut back = vec![0; 3000];
    let mut total = 0;
    for round in 0..rounds {
        let length = 1 + (round * 37 + number * 11) % 3000;
        let message: Vec<u8> = (0..length)
            .map(|i| (i * 7 + round + number) as u8)
            .collect();
        stream.write_all(&message)?;
        stream.read_exact(&mut back[..length])?;
        assert_eq!(back[..length], message);
        total += length as u64;
    }
    stream.shutdown(Shutdown::Write)?;
    assert_eq!(stream.read(&mut back)?, 0);
    Ok(total)
}

fn prepared(stream: TcpStream) -> io::Result<TcpStream> {
    stream.set_nodelay(true)?;
    stream.set_read_timeout(Some(PATIENCE))?;
    stream.set_write_timeout(Some(PATIENCE))?;
    Ok(stream)
}

fn main() -> Result<(), Box<dyn std::error::Error>> {
    let rounds = env::args().nth(1).map_or(Ok(500), |word| word.parse())?;
    let pool = Pool::<Buffer>::open(Shape {
        lanes: 2 * CONNECTIONS as u32,
        first_page: 8,
        pages: 2,
        ..Shape::default()
    })?;
    let listener = TcpListener::bind("127.0.0.1:0")?;
    let at = listener.local_addr()?;
    let (bytes, messages) = thread::scope(|scope| {
        let clients: Vec<_> = (0..CONNECTIONS)
            .map(|number| scope.spawn(move || ask(at, number, rounds)))
            .collect();
        let mut served = Vec::new();
        for _ in 0..CONNECTIONS {
            let stream = prepared(listener.accept()?.0)?;
            let other = stream.try_clone()?;
            let (to, from) = sync_channel(WAITING);
            let (reader, writer) = (pool.lane()?, pool.lane()?);
            served.push((
                scope.spawn(|| read_from(reader, stream, to)),
                scope.spawn(|| write_to(writer, other, from)),
            ));
        }
        let (mut bytes, mut messages) = (0, 0);
        for client in clients {
            bytes += client.join().expect("no panic")?;
        }
        for (reader, writer) in served {
            reader.join().expect("no panic")?;
            messages += writer.join().expect("no panic")?;
        }
        Ok::<_, Box<dyn std::error::Error>>((bytes, messages))
    })?;
    let census = pool.close();
    println!("{bytes} bytes in {messages} messages on {CONNECTIONS} connections");
    assert_eq!((census.present, census.marked, census.filling), (0, 0, 0));
    Ok(())
}
