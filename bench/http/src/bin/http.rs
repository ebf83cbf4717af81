//! Answers the requests on its standard input as often as its word says, and prints how many there are and how many octets
//! all responses have; with the word 0 it writes the responses themselves. Alice may have keys for bob, who is at home at
//! the same node, and the manager has every key that it is asked for. bench/http.py times it beside http_speed.
use qkdnet_http::api::event_of;
use qkdnet_http::event::Event;
use qkdnet_http::reply::Reply;
use qkdnet_http::request::{Requests, Unread};
use qkdnet_http::response::Response;
use qkdnet_http::name::key_name;
use qkdnet_http::site::Site;
use std::hint::black_box;
use std::io::{self, Read, Write};

const KEY: [u8; 512] = [0x5a; 512];

fn site() -> Site {
    let mut site = Site::default();
    site.add_node("A");
    let master = site.add_sae("alice", 0);
    let slave = site.add_sae("bob", 0);
    site.allow(master, slave);
    site
}

fn reply(event: &Event) -> Reply {
    match event {
        Event::Status { .. } => Reply::Ready(1),
        Event::Enc { number, bits, .. } => {
            let bytes = &KEY[..usize::from(bits / 8)];
            Reply::Handed((1..=u64::from(*number)).map(|count| (key_name(0, count), bytes.to_vec())).collect())
        }
        Event::EncGroup { .. } => Reply::Few(0),
        Event::Dec { names, .. } => Reply::Handed(names.iter().map(|name| (*name, KEY[..32].to_vec())).collect()),
    }
}

/// The next response, or the last one to octets that are no request; none at the end of the input.
fn next(site: &Site, requests: &mut Requests<&[u8]>) -> io::Result<Option<Response>> {
    match requests.read() {
        Ok(Some(request)) => Ok(Some(match event_of(site, 0, &request) {
            Ok(event) => Response::of_reply(site, &event, reply(&event), request.close),
            Err(fault) => Response::of_fault(&fault, request.close),
        })),
        Ok(None) => Ok(None),
        Err(Unread::Refused(message)) => Ok(Some(Response::of_front(message))),
        Err(Unread::Fault(error)) => Err(error),
    }
}

/// Answers a text, up to the first response that closes; the number of responses. Each goes to a function.
fn answered(octets: &[u8], mut take: impl FnMut(Vec<u8>)) -> io::Result<u64> {
    let site = site();
    let mut requests = Requests::new(octets);
    let mut count = 0;
    while let Some(response) = next(&site, &mut requests)? {
        take(response.octets());
        count += 1;
        if response.close {
            break;
        }
    }
    Ok(count)
}

fn main() -> io::Result<()> {
    let times = std::env::args().nth(1).map_or(1, |word| word.parse().unwrap_or(0));
    let mut octets = Vec::new();
    io::stdin().read_to_end(&mut octets)?;
    if times == 0 {
        let mut responses = Vec::new();
        answered(&octets, |response| responses.extend_from_slice(&response))?;
        return io::stdout().write_all(&responses);
    }
    let mut counts = (0, 0);
    for _ in 0..times {
        let mut whole = 0;
        let count = answered(black_box(&octets), |response| whole += black_box(response).len() as u64)?;
        counts = (count, whole);
    }
    println!("{} requests, {} octets answered", counts.0, counts.1);
    Ok(())
}
