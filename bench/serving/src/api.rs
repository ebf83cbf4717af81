//! Which event a request asks for.
use crate::event::Event;
use crate::parameters::{keys_of_body, name_of_query, names_of_body, number_of_query, size_of_query};
use crate::request::{Method, Request};
use crate::resource::{Fault, Resource, bad, pair, resource, unauthorized};
use crate::site::Site;

/// The event that a request to the manager of a node asks for.
pub fn event_of(site: &Site, node: usize, request: &Request) -> Result<Event, Fault> {
    let (path, query) = request.target.split_once('?').unwrap_or((&request.target, ""));
    let (resource, other) = resource(path, request.method).ok_or(bad("unknown resource"))?;
    let caller = request.caller.as_deref().ok_or(unauthorized("X-SAE-ID missing"))?;
    let (master, slave) = pair(site, node, resource, caller, other).ok_or(unauthorized("not allowed"))?;
    match (resource, request.method) {
        (Resource::Status, _) => Ok(Event::Status { master, slave }),
        (Resource::EncKeys, Method::Post) => {
            let (number, bits) = keys_of_body(&request.body).ok_or(bad("bad body"))?;
            Ok(Event::Enc { master, slave, number, bits })
        }
        (Resource::EncKeys, _) => Ok(Event::Enc {
            master,
            slave,
            number: number_of_query(query).ok_or(bad("bad number"))?,
            bits: size_of_query(query).ok_or(bad("bad size"))?,
        }),
        (Resource::DecKeys, Method::Post) => {
            let names = names_of_body(&request.body).map_err(|()| bad("bad body"))?.ok_or(bad("bad key_IDs"))?;
            Ok(Event::Dec { slave, master, names })
        }
        (Resource::DecKeys, _) => Ok(Event::Dec { slave, master, names: vec![name_of_query(query).ok_or(bad("bad key_ID"))?] }),
    }
}
