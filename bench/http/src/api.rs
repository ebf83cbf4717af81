//! Which event a request asks for.
use crate::event::Event;
use crate::request::{Method, Request};
use crate::resource::{Fault, Resource, bad, pair, resource, unauthorized};
use crate::site::{Sae, Site};
use crate::{body, query};

/// The event that a request to the manager of a node asks for.
pub fn event_of(site: &Site, node: usize, request: &Request) -> Result<Event, Fault> {
    let (path, query) = request.target.split_once('?').unwrap_or((&request.target, ""));
    let (resource, other) = resource(path, request.method).ok_or(bad("unknown resource"))?;
    let caller = request.caller.as_deref().ok_or(unauthorized("X-SAE-ID missing"))?;
    let (master, slave) = pair(site, node, resource, caller, other).ok_or(unauthorized("not allowed"))?;
    match (resource, request.method) {
        (Resource::Status, _) => Ok(Event::Status { master, slave }),
        (Resource::EncKeys, Method::Post) => enc_by_body(site, &request.body, master, slave),
        (Resource::EncKeys, _) => Ok(Event::Enc {
            master,
            slave,
            number: query::number(query).ok_or(bad("bad number"))?,
            bits: query::size(query).ok_or(bad("bad size"))?,
        }),
        (Resource::DecKeys, Method::Post) => {
            let object = body::object(&request.body).ok_or(bad("bad body"))?;
            Ok(Event::Dec { slave, master, names: body::key_ids(&object).ok_or(bad("bad key_IDs"))? })
        }
        (Resource::DecKeys, _) => Ok(Event::Dec { slave, master, names: vec![query::key_id(query).ok_or(bad("bad key_ID"))?] }),
    }
}

fn enc_by_body(site: &Site, body: &[u8], master: Sae, slave: Sae) -> Result<Event, Fault> {
    let object = if body.is_empty() { body::Object::new() } else { body::object(body).ok_or(bad("bad body"))? };
    let number = body::number(&object).ok_or(bad("bad number"))?;
    let bits = body::size(&object).ok_or(bad("bad size"))?;
    let mut slaves = body::slaves(site, &object, slave).ok_or(bad("additional_slave_SAE_IDs refused"))?;
    if !body::asks_no_extension(&object) {
        return Err(bad("extension_mandatory refused"));
    }
    if slaves.len() == 1 {
        return Ok(Event::Enc { master, slave, number, bits });
    }
    slaves.sort_unstable();
    Ok(Event::EncGroup { master, slaves, number, bits })
}
