//! Parameters in a body.
use crate::query::{key_number, key_size};
use crate::site::{Sae, Site};
use serde_json::{Map, Value};
use uuid::Uuid;

pub type Object = Map<String, Value>;

pub fn object(body: &[u8]) -> Option<Object> {
    match serde_json::from_slice(body) {
        Ok(Value::Object(object)) => Some(object),
        _ => None,
    }
}

pub fn number(object: &Object) -> Option<u16> {
    key_number(object.get("number").map_or(Some(1), Value::as_u64)?)
}

pub fn size(object: &Object) -> Option<u16> {
    key_size(object.get("size").map_or(Some(256), Value::as_u64)?)
}

/// Whether no extension is mandatory.
pub fn asks_no_extension(object: &Object) -> bool {
    object.get("extension_mandatory").is_none_or(|value| value.as_array().is_some_and(Vec::is_empty))
}

/// The slaves: the first one, and at most 4 more.
pub fn slaves(site: &Site, object: &Object, first: Sae) -> Option<Vec<Sae>> {
    let mut slaves = vec![first];
    let Some(more) = object.get("additional_slave_SAE_IDs") else {
        return Some(slaves);
    };
    for id in more.as_array()? {
        let slave = site.find(id.as_str()?)?;
        if slaves.len() > 4 || slaves.contains(&slave) {
            return None;
        }
        slaves.push(slave);
    }
    Some(slaves)
}

/// The names of 1 to 128 keys.
pub fn key_ids(object: &Object) -> Option<Vec<Uuid>> {
    let keys = object.get("key_IDs")?.as_array()?;
    if !(1..=128).contains(&keys.len()) {
        return None;
    }
    keys.iter().map(|key| Uuid::parse_str(key.get("key_ID")?.as_str()?).ok()).collect()
}
