//! The head of a request, by httparse.
use crate::request::{BODY_LIMIT, HEAD_LIMIT, Method, Request, Unread, decimal};
use httparse::{EMPTY_HEADER, Header, Status};

/// The request of a head that is whole, without its body, and how many octets head and body have.
pub fn head_of(octets: &[u8]) -> Result<Option<(Request, usize, usize)>, Unread> {
    let text = &octets[..octets.len().min(HEAD_LIMIT + 1)];
    let mut headers = [EMPTY_HEADER; 32];
    let mut head = httparse::Request::new(&mut headers);
    match head.parse(text) {
        Ok(Status::Complete(length)) if length <= HEAD_LIMIT => {
            let body = body_length(&head).map_err(Unread::Refused)?;
            Ok(Some((request_of(&head), length, body)))
        }
        Ok(_) if text.len() > HEAD_LIMIT => Err(Unread::Refused("head too long")),
        Ok(_) => Ok(None),
        Err(_) => Err(Unread::Refused("bad request head")),
    }
}

fn request_of(head: &httparse::Request) -> Request {
    let mut callers = named(head.headers, "X-SAE-ID");
    let caller = callers.next().map(|header| header.value.to_vec());
    Request {
        method: method_of(head),
        target: head.path.unwrap_or_default().to_owned(),
        caller: if callers.next().is_none() { caller } else { None },
        body: Vec::new(),
        close: head.version == Some(0) || named(head.headers, "Connection").any(|header| header.value.eq_ignore_ascii_case(b"close")),
    }
}

fn method_of(head: &httparse::Request) -> Method {
    match head.method {
        Some("GET") => Method::Get,
        Some("POST") => Method::Post,
        _ => Method::Other,
    }
}

fn body_length(head: &httparse::Request) -> Result<usize, &'static str> {
    if named(head.headers, "Transfer-Encoding").next().is_some() {
        return Err("transfer encoding refused");
    }
    let mut lengths = named(head.headers, "Content-Length");
    match (lengths.next(), lengths.next()) {
        (None, _) if method_of(head) == Method::Post => Err("length missing"),
        (None, _) => Ok(0),
        (Some(length), None) => match decimal(length.value).ok_or("bad length")? {
            length if length <= BODY_LIMIT => Ok(length as usize),
            _ => Err("body too long"),
        },
        (Some(_), Some(_)) => Err("bad length"),
    }
}

fn named<'a>(headers: &'a [Header<'a>], name: &'a str) -> impl Iterator<Item = &'a Header<'a>> {
    headers.iter().filter(move |header| header.name.eq_ignore_ascii_case(name))
}
