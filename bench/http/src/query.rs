//! Parameters in a query.
use crate::request::decimal;
use std::borrow::Cow;
use uuid::Uuid;

/// The values of a parameter.
fn values<'a>(query: &'a str, name: &'a str) -> impl Iterator<Item = Cow<'a, str>> {
    form_urlencoded::parse(query.as_bytes()).filter(move |pair| pair.0 == name).map(|pair| pair.1)
}

/// A number, or this one where there is none.
fn number_or(query: &str, name: &str, absent: u64) -> Option<u64> {
    let mut values = values(query, name);
    match (values.next(), values.next()) {
        (None, _) => Some(absent),
        (Some(value), None) => decimal(value.as_bytes()),
        (Some(_), Some(_)) => None,
    }
}

pub fn number(query: &str) -> Option<u16> {
    key_number(number_or(query, "number", 1)?)
}

pub fn size(query: &str) -> Option<u16> {
    key_size(number_or(query, "size", 256)?)
}

pub fn key_id(query: &str) -> Option<Uuid> {
    let mut values = values(query, "key_ID");
    match (values.next(), values.next()) {
        (Some(value), None) => Uuid::parse_str(&value).ok(),
        _ => None,
    }
}

/// A number of keys: 1 to 128.
pub fn key_number(number: u64) -> Option<u16> {
    (1..=128).contains(&number).then_some(number as u16)
}

/// A size in bits: 64 to 4,096 in steps of 8.
pub fn key_size(size: u64) -> Option<u16> {
    ((64..=4096).contains(&size) && size % 8 == 0).then_some(size as u16)
}
