//! Bodies of responses, by serde.
use crate::site::{Sae, Site};
use serde::Serialize;
use uuid::Uuid;

#[derive(Serialize)]
struct Message<'a> {
    message: &'a str,
}

#[derive(Serialize)]
struct Container {
    keys: Vec<Key>,
}

#[derive(Serialize)]
struct Key {
    key: String,
    #[serde(rename = "key_ID")]
    key_id: Uuid,
}

#[derive(Serialize)]
struct Status<'a> {
    key_size: u32,
    #[serde(rename = "master_SAE_ID")]
    master: &'a str,
    #[serde(rename = "max_SAE_ID_count")]
    max_slaves: u32,
    max_key_count: u32,
    max_key_per_request: u32,
    max_key_size: u32,
    min_key_size: u32,
    #[serde(rename = "slave_SAE_ID")]
    slave: &'a str,
    #[serde(rename = "source_KME_ID")]
    source: &'a str,
    stored_key_count: u32,
    #[serde(rename = "target_KME_ID")]
    target: &'a str,
}

fn json<T: Serialize>(value: &T) -> Vec<u8> {
    serde_json::to_vec(value).expect("these values are JSON")
}

pub fn message(message: &str) -> Vec<u8> {
    json(&Message { message })
}

pub fn container(keys: Vec<(Uuid, Vec<u8>)>) -> Vec<u8> {
    json(&Container { keys: keys.into_iter().map(|(key_id, bytes)| Key { key: base64::encode(bytes), key_id }).collect() })
}

pub fn status(site: &Site, master: Sae, slave: Sae, count: u32) -> Vec<u8> {
    json(&Status {
        key_size: 256,
        master: site.id(master),
        max_slaves: 4,
        max_key_count: 4096,
        max_key_per_request: 128,
        max_key_size: 4096,
        min_key_size: 64,
        slave: site.id(slave),
        source: &site.nodes[site.home(master)],
        stored_key_count: count,
        target: &site.nodes[site.home(slave)],
    })
}
