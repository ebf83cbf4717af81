//! Bodies of responses, by hand.
use crate::name::Name;
use crate::site::{Sae, Site};
use std::fmt::Write;

pub fn message(message: &str) -> Vec<u8> {
    format!("{{\"message\":\"{message}\"}}").into_bytes()
}

pub fn container(keys: Vec<(Name, Vec<u8>)>) -> Vec<u8> {
    let mut body = String::from("{\"keys\":[");
    for (place, (name, bytes)) in keys.iter().enumerate() {
        body.push_str(if place == 0 { "{\"key\":\"" } else { ",{\"key\":\"" });
        push_base64(&mut body, bytes);
        write!(body, "\",\"key_ID\":\"{name}\"}}").expect("a text takes all");
    }
    body.push_str("]}");
    body.into_bytes()
}

/// Base 64 (RFC 4648, section 4).
fn push_base64(text: &mut String, octets: &[u8]) {
    const LETTERS: &[u8; 64] = b"ABCDEFGHIJKLMNOPQRSTUVWXYZabcdefghijklmnopqrstuvwxyz0123456789+/";
    for three in octets.chunks(3) {
        let bits = three.iter().enumerate().fold(0, |bits, (place, &octet)| bits | u32::from(octet) << (16 - 8 * place));
        for place in 0..4 {
            let letter = LETTERS[(bits >> (18 - 6 * place) & 63) as usize];
            text.push(if place <= three.len() { letter as char } else { '=' });
        }
    }
}

pub fn status(site: &Site, master: Sae, slave: Sae, count: u32) -> Vec<u8> {
    format!(
        "{{\"key_size\":256,\"master_SAE_ID\":\"{}\",\"max_SAE_ID_count\":4,\"max_key_count\":4096,\"max_key_per_request\":128,\"max_key_size\":4096,\"min_key_size\":64,\"slave_SAE_ID\":\"{}\",\"source_KME_ID\":\"{}\",\"stored_key_count\":{count},\"target_KME_ID\":\"{}\"}}",
        site.id(master),
        site.id(slave),
        site.nodes[site.home(master)],
        site.nodes[site.home(slave)],
    )
    .into_bytes()
}
