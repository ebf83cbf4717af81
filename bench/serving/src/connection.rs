//! Connections that are served.
use crate::api::event_of;
use crate::request::{Request, Requests, Unread};
use crate::response::Response;
use crate::scenario::Network;
use std::io::{self, Write};
use std::net::TcpStream;
use std::sync::PoisonError;

/// The most responses of a connection.
const RESPONSE_LIMIT: u32 = 1000;

/// Serves a connection to the manager of a node until it closes: at the end of its input, behind octets that are no request,
/// behind a request that closes it, and behind the last response that a connection has.
pub fn serve(network: &Network, node: usize, stream: &TcpStream) -> io::Result<()> {
    let mut requests = Requests::new(stream);
    let mut sink = stream;
    for count in 1..=RESPONSE_LIMIT {
        let request = match requests.read() {
            Ok(Some(request)) => request,
            Ok(None) => return Ok(()),
            Err(Unread::Refused(message)) => return sink.write_all(&Response::of_front(message).octets()),
            Err(Unread::Fault(error)) => return Err(error),
        };
        let close = request.close || count == RESPONSE_LIMIT;
        sink.write_all(&answer(network, node, &request, close).octets())?;
        if close {
            return Ok(());
        }
    }
    Ok(())
}

fn answer(network: &Network, node: usize, request: &Request, close: bool) -> Response {
    match event_of(&network.site, node, request) {
        Ok(event) => {
            let reply = network.managers[node].lock().unwrap_or_else(PoisonError::into_inner).ask(&event);
            Response::of_reply(&network.site, &event, reply, close)
        }
        Err(fault) => Response::of_fault(&fault, close),
    }
}
