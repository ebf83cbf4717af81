//! The head of a request, by hand.
use crate::request::{BODY_LIMIT, HEAD_LIMIT, Method, Request, Unread, decimal};

/// The request of a head that is whole, without its body, and how many octets head and body have.
pub fn head_of(octets: &[u8]) -> Result<Option<(Request, usize, usize)>, Unread> {
    let text = &octets[..octets.len().min(HEAD_LIMIT)];
    let Some(length) = text.windows(4).position(|end| end == b"\r\n\r\n") else {
        return if octets.len() > HEAD_LIMIT { Err(Unread::Refused("head too long")) } else { Ok(None) };
    };
    let head = std::str::from_utf8(&text[..length]).map_err(|_| Unread::Refused("bad request head"))?;
    let (request, body) = request_of(head).map_err(Unread::Refused)?;
    Ok(Some((request, length + 4, body)))
}

/// The request of a head without its end, and the length of its body.
fn request_of(head: &str) -> Result<(Request, usize), &'static str> {
    let mut lines = head.split("\r\n");
    let words: Vec<_> = lines.next().unwrap_or_default().split(' ').collect();
    let &[method, target, version] = &words[..] else {
        return Err("bad request head");
    };
    let mut request = Request {
        method: match method {
            "GET" => Method::Get,
            "POST" => Method::Post,
            _ => Method::Other,
        },
        target: target.to_owned(),
        caller: None,
        body: Vec::new(),
        close: version == "HTTP/1.0",
    };
    let mut callers = 0;
    let mut body = None;
    for line in lines {
        let (name, value) = line.split_once(':').ok_or("bad request head")?;
        let value = value.trim_matches([' ', '\t']);
        if name.eq_ignore_ascii_case("X-SAE-ID") {
            callers += 1;
            request.caller = (callers == 1).then(|| value.as_bytes().to_vec());
        } else if name.eq_ignore_ascii_case("Connection") {
            request.close |= value.eq_ignore_ascii_case("close");
        } else if name.eq_ignore_ascii_case("Transfer-Encoding") {
            return Err("transfer encoding refused");
        } else if name.eq_ignore_ascii_case("Content-Length") {
            let length = decimal(value.as_bytes()).filter(|_| body.is_none()).ok_or("bad length")?;
            body = Some(if length <= BODY_LIMIT { length as usize } else { return Err("body too long") });
        }
    }
    match body {
        None if request.method == Method::Post => Err("length missing"),
        body => Ok((request, body.unwrap_or(0))),
    }
}
