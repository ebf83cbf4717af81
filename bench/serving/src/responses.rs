//! Responses, as a client reads them.
use std::io::{self, Read};
use std::net::TcpStream;

/// Responses of a connection, each of which has to be 200.
pub struct Responses<'a> {
    stream: &'a TcpStream,
    octets: Vec<u8>,
    used: usize,
}

impl<'a> Responses<'a> {
    pub fn new(stream: &'a TcpStream) -> Self {
        Responses { stream, octets: Vec::new(), used: 0 }
    }

    /// Reads the next one.
    pub fn take(&mut self) -> io::Result<()> {
        loop {
            if let Some(length) = whole(&self.octets[self.used..])? {
                self.used += length;
                return Ok(());
            }
            self.octets.drain(..self.used);
            self.used = 0;
            let mut piece = [0; 16_384];
            match self.stream.read(&mut piece)? {
                0 => return Err(io::Error::other("the connection ended")),
                count => self.octets.extend_from_slice(&piece[..count]),
            }
        }
    }
}

/// How many octets the response has that stands here, if it is whole.
fn whole(octets: &[u8]) -> io::Result<Option<usize>> {
    let Some(length) = octets.windows(4).position(|end| end == b"\r\n\r\n") else {
        return Ok(None);
    };
    let head = std::str::from_utf8(&octets[..length]).unwrap_or_default();
    let mut fields = head.split("\r\n").filter_map(|line| line.split_once(": "));
    let body: Option<usize> = fields.find(|field| field.0.eq_ignore_ascii_case("content-length")).and_then(|field| field.1.parse().ok());
    match body {
        Some(body) if head.starts_with("HTTP/1.1 200 ") => Ok((length + 4 + body <= octets.len()).then_some(length + 4 + body)),
        _ => Err(io::Error::other(format!("not answered: {head}"))),
    }
}
