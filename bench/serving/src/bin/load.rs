//! `load PORT NODES WORKERS CONNECTIONS STATUSES KEYS DEPTH`: asks a server with so many workers on these nodes, each of which
//! serves so many connections, with a thread for each worker. Every thread asks for STATUSES times 1,000 statuses; the
//! threads of a node share its KEYS keys for masters, and its KEYS keys for slaves. DEPTH requests are on their way at a time. The
//! connections that are left are opened and closed, so that the server ends. Printed are, for statuses, keys of masters and
//! keys of slaves, the number of requests and the seconds. Node n has the master mN, who has keys for the slave sP of the
//! node P = n xor 1, and the slave sN, who has keys of mP.
use qkdnet_serving::name::Name;
use qkdnet_serving::responses::Responses;
use std::io::{self, Write};
use std::net::{Ipv4Addr, TcpStream};
use std::ops::Range;
use std::process;
use std::sync::Barrier;
use std::thread;
use std::time::{Duration, Instant};

/// The most responses of a connection.
const RESPONSES: u64 = 1000;

const PATIENCE: Duration = Duration::from_secs(60);

struct Load {
    port: u16,
    nodes: u64,
    workers: u64,
    connections: u64,
    statuses: u64,
    keys: u64,
    depth: u64,
}

#[derive(Clone, Copy)]
enum Call {
    Status,
    Enc,
    Dec,
}

fn request(call: Call, node: u64, count: u64) -> String {
    let other = node ^ 1;
    let (target, caller) = match call {
        Call::Status => (format!("s{other}/status"), format!("m{node}")),
        Call::Enc => (format!("s{other}/enc_keys"), format!("m{node}")),
        Call::Dec => (format!("m{other}/dec_keys?key_ID={}", Name::of_key(other as usize, count + 1)), format!("s{node}")),
    };
    format!("GET /api/v1/keys/{target} HTTP/1.1\r\nHost: localhost\r\nX-SAE-ID: {caller}\r\n\r\n")
}

impl Load {
    fn connect(&self, node: u64) -> io::Result<TcpStream> {
        let stream = TcpStream::connect((Ipv4Addr::LOCALHOST, self.port + node as u16))?;
        stream.set_nodelay(true)?;
        stream.set_read_timeout(Some(PATIENCE))?;
        Ok(stream)
    }

    /// Waits until the server has opened its ports.
    fn wait(&self) -> io::Result<()> {
        let start = Instant::now();
        for node in 0..self.nodes.min(self.workers) {
            while let Err(error) = self.connect(node) {
                if start.elapsed() > PATIENCE {
                    return Err(error);
                }
                thread::sleep(Duration::from_millis(20));
            }
        }
        Ok(())
    }

    /// Asks for these, on as many connections as it takes, and answers how many these were.
    fn ask(&self, call: Call, node: u64, numbers: Range<u64>) -> io::Result<u64> {
        let mut connections = 0;
        for start in numbers.clone().step_by(RESPONSES as usize) {
            let end = numbers.end.min(start + RESPONSES);
            let stream = self.connect(node)?;
            let mut responses = Responses::new(&stream);
            for first in (start..end).step_by(self.depth as usize) {
                let some = first..end.min(first + self.depth);
                let requests: String = some.clone().map(|count| request(call, node, count)).collect();
                (&stream).write_all(requests.as_bytes())?;
                some.into_iter().try_for_each(|_| responses.take())?;
            }
            connections += 1;
        }
        Ok(connections)
    }

    fn numbers(&self, call: Call, worker: u64) -> Range<u64> {
        let node = worker % self.nodes;
        let beside = (self.workers - node).div_ceil(self.nodes);
        let place = worker / self.nodes;
        match call {
            Call::Status => 0..self.statuses * RESPONSES,
            Call::Enc | Call::Dec => self.keys * place / beside..self.keys * (place + 1) / beside,
        }
    }

    /// All three, one after another by all threads; the seconds of each, and how many connections this thread used.
    fn work(&self, worker: u64, barrier: &Barrier) -> io::Result<([f64; 3], u64)> {
        let mut seconds = [0.0; 3];
        let mut connections = 0;
        for (call, second) in [Call::Status, Call::Enc, Call::Dec].into_iter().zip(&mut seconds) {
            barrier.wait();
            let start = Instant::now();
            connections += self.ask(call, worker % self.nodes, self.numbers(call, worker))?;
            barrier.wait();
            *second = start.elapsed().as_secs_f64();
        }
        Ok((seconds, connections))
    }

    /// Opens and closes the connections that a worker has left; one of each node was used to wait.
    fn leave(&self, used: u64, worker: u64) -> io::Result<()> {
        (used + u64::from(worker < self.nodes)..self.connections).try_for_each(|_| self.connect(worker % self.nodes).map(drop))
    }
}

/// Ends the program, since the other threads wait for this one.
fn give_up<T>(error: io::Error) -> T {
    eprintln!("{error}");
    process::exit(1)
}

fn load(words: &[u64]) -> Option<Load> {
    let &[port, nodes, workers, connections, statuses, keys, depth] = words else {
        return None;
    };
    let port = port.try_into().ok()?;
    Some(Load { port, nodes, workers, connections, statuses, keys, depth })
}

fn main() -> io::Result<()> {
    let words: Vec<u64> = std::env::args().skip(1).map_while(|word| word.parse().ok()).collect();
    let load = load(&words).ok_or_else(|| io::Error::other("usage: load PORT NODES WORKERS CONNECTIONS STATUSES KEYS DEPTH"))?;
    load.wait()?;
    let barrier = Barrier::new(load.workers as usize);
    let results: Vec<_> = thread::scope(|scope| {
        let (load, barrier) = (&load, &barrier);
        let threads: Vec<_> = (0..load.workers).map(|worker| scope.spawn(move || load.work(worker, barrier).unwrap_or_else(give_up))).collect();
        threads.into_iter().map(|thread| thread.join().expect("a thread ends")).collect()
    });
    for (place, call) in [Call::Status, Call::Enc, Call::Dec].into_iter().enumerate() {
        let requests: u64 = (0..load.workers).map(|worker| load.numbers(call, worker)).map(|numbers| numbers.end - numbers.start).sum();
        let seconds = results.iter().map(|result| result.0[place]).fold(0.0, f64::max);
        println!("{requests} {seconds:.6}");
    }
    for (worker, result) in results.iter().enumerate() {
        load.leave(result.1, worker as u64)?;
    }
    Ok(())
}
