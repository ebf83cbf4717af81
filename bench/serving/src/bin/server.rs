//! `serve W C PORT`: reads a scenario on standard input; then worker w of W serves C connections, one after another, on the
//! port PORT + n of node n = w mod the number of nodes, and at the end `served T` is written, the number of connections. With
//! `forever` for C each connection has a thread of its own, and there is no end.
use qkdnet_serving::connection;
use qkdnet_serving::scenario::Network;
use std::io::{self, Read};
use std::net::{Ipv4Addr, TcpListener};
use std::sync::Arc;
use std::thread;

/// The doors of the workers: that of a node is opened once.
fn doors(workers: usize, nodes: usize, port: u16) -> io::Result<Vec<TcpListener>> {
    let mut doors: Vec<TcpListener> = Vec::new();
    for worker in 0..workers {
        let door = match worker.checked_sub(nodes) {
            None => TcpListener::bind((Ipv4Addr::LOCALHOST, port + worker as u16))?,
            Some(earlier) => doors[earlier].try_clone()?,
        };
        doors.push(door);
    }
    Ok(doors)
}

/// Serves so many connections; one that fails has ended.
fn work(network: &Network, node: usize, door: &TcpListener, connections: u32) -> io::Result<()> {
    for _ in 0..connections {
        let (stream, _) = door.accept()?;
        stream.set_nodelay(true)?;
        let _ = connection::serve(network, node, &stream);
    }
    Ok(())
}

/// Serves each connection by a thread of its own, without end.
fn work_forever(network: &Arc<Network>, node: usize, door: &TcpListener) -> io::Result<()> {
    loop {
        let (stream, _) = door.accept()?;
        stream.set_nodelay(true)?;
        let network = Arc::clone(network);
        thread::spawn(move || connection::serve(&network, node, &stream));
    }
}

/// `None` for connections is without end.
fn serve(workers: usize, connections: Option<u32>, port: u16) -> io::Result<u64> {
    let mut scenario = String::new();
    io::stdin().read_to_string(&mut scenario)?;
    let network = Arc::new(Network::read(&scenario)?);
    let nodes = network.managers.len();
    if nodes == 0 {
        return Ok(0);
    }
    let doors = doors(workers, nodes, port)?;
    thread::scope(|scope| {
        let network = &network;
        let work = |w: usize, door| match connections {
            Some(connections) => work(network, w % nodes, door, connections),
            None => work_forever(network, w % nodes, door),
        };
        let threads: Vec<_> = doors.iter().enumerate().map(|(w, door)| scope.spawn(move || work(w, door))).collect();
        threads.into_iter().try_for_each(|thread| thread.join().expect("a worker ends"))
    })?;
    Ok(workers as u64 * u64::from(connections.unwrap_or(0)))
}

/// The connections of a worker, as a word says them: a number, or `forever`.
fn count(word: &str) -> Option<Option<u32>> {
    match word {
        "forever" => Some(None),
        word => word.parse().ok().map(Some),
    }
}

fn main() -> io::Result<()> {
    let words: Vec<String> = std::env::args().skip(1).collect();
    let numbers = match &words[..] {
        [serve, w, c, port] if serve == "serve" => w.parse().ok().zip(count(c)).zip(port.parse().ok()),
        _ => None,
    };
    let Some(((workers, connections), port)) = numbers else {
        return Err(io::Error::other("usage: server serve W C PORT < SCENARIO"));
    };
    println!("served {}", serve(workers, connections, port)?);
    Ok(())
}
