//! Responses (RFC 9112, section 4), whose bodies are JSON with members in order of name.
use crate::bodies::{container, message, status};
use crate::event::Event;
use crate::reply::Reply;
use crate::resource::Fault;
use crate::site::Site;
use std::io::Write;

#[derive(Debug)]
pub struct Response {
    status: u16,
    body: Vec<u8>,
    /// Whether the connection closes behind it.
    pub close: bool,
}

impl Response {
    fn of_message(status: u16, text: &str, close: bool) -> Self {
        Response { status, body: message(text), close }
    }

    /// The response to octets that are no request.
    pub fn of_front(text: &str) -> Self {
        Response::of_message(400, text, true)
    }

    pub fn of_fault(fault: &Fault, close: bool) -> Self {
        Response::of_message(fault.status, fault.message, close)
    }

    /// The response that answers a manager's reply to an event.
    pub fn of_reply(site: &Site, event: &Event, reply: Reply, close: bool) -> Self {
        match (reply, event) {
            (Reply::Ready(count), &Event::Status { master, slave }) => Response { status: 200, body: status(site, master, slave, count), close },
            (Reply::Handed(keys), _) => Response { status: 200, body: container(keys), close },
            (Reply::Ready(count) | Reply::Few(count), _) => Response::of_message(503, &format!("{count} keys ready"), close),
            (Reply::Unknown(place), _) => Response::of_message(400, &format!("key {place} is unknown"), close),
            (Reply::Repeated(place), _) => Response::of_message(400, &format!("key {place} is repeated"), close),
            (Reply::AlreadyHanded(place), _) => Response::of_message(400, &format!("key {place} was handed already"), close),
        }
    }

    /// Its octets.
    pub fn octets(&self) -> Vec<u8> {
        let reason = match self.status {
            200 => "OK",
            400 => "Bad Request",
            401 => "Unauthorized",
            500 => "Internal Server Error",
            _ => "Service Unavailable",
        };
        let connection = if self.close { "close" } else { "keep-alive" };
        let mut octets = Vec::with_capacity(128 + self.body.len());
        write!(
            octets,
            "HTTP/1.1 {} {reason}\r\nContent-Type: application/json\r\nContent-Length: {}\r\nConnection: {connection}\r\n\r\n",
            self.status,
            self.body.len()
        )
        .expect("a vector takes all");
        octets.extend_from_slice(&self.body);
        octets
    }
}
