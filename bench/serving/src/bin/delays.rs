//! `delays PORT CLIENTS REQUESTS EACH`: so many clients at once ask node 0 of a server for so many statuses in all, one after another,
//! EACH on one connection. Printed are the seconds that all took, and of the delays of single requests the middle, that of one in a
//! hundred and the longest, in microseconds. The first delay of a connection begins with it, the last one ends with it.
use qkdnet_serving::responses::Responses;
use std::io::{self, Read, Write};
use std::net::{Ipv4Addr, TcpStream};
use std::process;
use std::thread;
use std::time::{Duration, Instant};

const REQUEST: &[u8] = b"GET /api/v1/keys/s1/status HTTP/1.1\r\nHost: localhost\r\nX-SAE-ID: m0\r\n\r\n";

const LAST_REQUEST: &[u8] = b"GET /api/v1/keys/s1/status HTTP/1.1\r\nHost: localhost\r\nX-SAE-ID: m0\r\nConnection: close\r\n\r\n";

const PATIENCE: Duration = Duration::from_secs(60);

/// Asks so often on one connection, and adds the delays to the others.
fn ask(port: u16, times: usize, delays: &mut Vec<Duration>) -> io::Result<()> {
    let mut start = Instant::now();
    let mut stream = TcpStream::connect((Ipv4Addr::LOCALHOST, port))?;
    stream.set_nodelay(true)?;
    stream.set_read_timeout(Some(PATIENCE))?;
    for _ in 1..times {
        (&stream).write_all(REQUEST)?;
        Responses::new(&stream).take()?;
        delays.push(start.elapsed());
        start = Instant::now();
    }
    stream.write_all(LAST_REQUEST)?;
    let mut octets = Vec::new();
    stream.read_to_end(&mut octets)?;
    delays.push(start.elapsed());
    match octets.starts_with(b"HTTP/1.1 200 ") {
        true => Ok(()),
        false => Err(io::Error::other("not answered")),
    }
}

/// The delays of a client's requests.
fn delays(port: u16, requests: usize, each: usize) -> io::Result<Vec<Duration>> {
    let mut delays = Vec::with_capacity(requests);
    for _ in 0..requests / each {
        ask(port, each, &mut delays)?;
    }
    Ok(delays)
}

fn run(port: u16, clients: usize, requests: usize, each: usize) -> io::Result<()> {
    let start = Instant::now();
    while let Err(error) = ask(port, 1, &mut Vec::new()) {
        if start.elapsed() > PATIENCE {
            return Err(error);
        }
        thread::sleep(Duration::from_millis(20));
    }
    let start = Instant::now();
    let threads: Vec<_> = (0..clients).map(|_| thread::spawn(move || delays(port, requests / clients, each))).collect();
    let mut all = Vec::new();
    for thread in threads {
        all.extend(thread.join().expect("a client panicked")?);
    }
    let seconds = start.elapsed().as_secs_f64();
    all.sort();
    let at = |hundredths: usize| all[(all.len() * hundredths / 100).min(all.len() - 1)].as_micros();
    println!("{} {seconds} {} {} {}", all.len(), at(50), at(99), at(100));
    Ok(())
}

fn main() {
    let words: Vec<usize> = std::env::args().skip(1).filter_map(|word| word.parse().ok()).collect();
    let [port, clients, requests, each] = words[..] else {
        eprintln!("delays PORT CLIENTS REQUESTS EACH");
        process::exit(2);
    };
    if let Err(error) = run(port as u16, clients, requests, each) {
        eprintln!("{error}");
        process::exit(1);
    }
}
