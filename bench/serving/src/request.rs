//! Requests read from a connection (RFC 9112).
use crate::head::head_of;
use std::io::{self, Read};

/// The most octets of a head, and of a body.
pub const HEAD_LIMIT: usize = 8192;
pub const BODY_LIMIT: u64 = 65_536;

#[derive(Clone, Copy, Debug, PartialEq, Eq)]
pub enum Method {
    Get,
    Post,
    Other,
}

#[derive(Debug)]
pub struct Request {
    pub method: Method,
    pub target: String,
    /// The value of the only field X-SAE-ID.
    pub caller: Option<Vec<u8>>,
    pub body: Vec<u8>,
    /// Whether the connection closes behind the response.
    pub close: bool,
}

/// Why no request is read.
#[derive(Debug)]
pub enum Unread {
    Refused(&'static str),
    Fault(io::Error),
}

impl From<io::Error> for Unread {
    fn from(error: io::Error) -> Self {
        Unread::Fault(error)
    }
}

/// The requests of one source, with the octets that were read and not used yet.
pub struct Requests<S> {
    source: S,
    octets: Vec<u8>,
    used: usize,
}

impl<S: Read> Requests<S> {
    pub fn new(source: S) -> Self {
        Requests { source, octets: Vec::new(), used: 0 }
    }

    /// The next request, or none at the end of the input.
    pub fn read(&mut self) -> Result<Option<Request>, Unread> {
        let (mut request, head, body) = loop {
            match head_of(&self.octets[self.used..])? {
                Some(parts) => break parts,
                None if self.more()? => {}
                None if self.octets.len() == self.used => return Ok(None),
                None => return Err(Unread::Refused("input ended")),
            }
        };
        while self.octets.len() - self.used < head + body {
            if !self.more()? {
                return Err(Unread::Refused("input ended"));
            }
        }
        let start = self.used + head;
        request.body = self.octets[start..start + body].to_vec();
        self.used = start + body;
        Ok(Some(request))
    }

    /// Reads once; whether anything came.
    fn more(&mut self) -> io::Result<bool> {
        self.octets.drain(..self.used);
        self.used = 0;
        let mut piece = [0; 4096];
        let count = self.source.read(&mut piece)?;
        self.octets.extend_from_slice(&piece[..count]);
        Ok(count > 0)
    }
}

/// The number that 1 to 10 digits are.
pub fn decimal(text: &[u8]) -> Option<u64> {
    if !(1..=10).contains(&text.len()) || !text.iter().all(u8::is_ascii_digit) {
        return None;
    }
    std::str::from_utf8(text).ok()?.parse().ok()
}
