//! What a request is about, and who may ask for it.
use crate::request::Method;
use crate::site::{Sae, Site};

/// What is wrong with a request.
#[derive(Debug)]
pub struct Fault {
    pub status: u16,
    pub message: &'static str,
}

pub fn bad(message: &'static str) -> Fault {
    Fault { status: 400, message }
}

pub fn unauthorized(message: &'static str) -> Fault {
    Fault { status: 401, message }
}

#[derive(Clone, Copy, PartialEq, Eq)]
pub enum Resource {
    Status,
    EncKeys,
    DecKeys,
}

/// The resource of a path that serves a method, and the application that the path names.
pub fn resource(path: &str, method: Method) -> Option<(Resource, &str)> {
    let (sae, call) = path.strip_prefix("/api/v1/keys/")?.split_once('/')?;
    let resource = match call {
        "status" => Resource::Status,
        "enc_keys" => Resource::EncKeys,
        "dec_keys" => Resource::DecKeys,
        _ => return None,
    };
    let served = method == Method::Get || (method == Method::Post && resource != Resource::Status);
    (served && !sae.is_empty()).then_some((resource, sae))
}

/// The master and the slave, where the caller is at home at the node and the pair is allowed.
pub fn pair(site: &Site, node: usize, resource: Resource, caller: &[u8], other: &str) -> Option<(Sae, Sae)> {
    let caller = site.find(std::str::from_utf8(caller).ok()?)?;
    let other = site.find(other)?;
    let (master, slave) = match resource {
        Resource::Status | Resource::EncKeys => (caller, other),
        Resource::DecKeys => (other, caller),
    };
    (site.home(caller) == node && site.may(master, slave)).then_some((master, slave))
}
