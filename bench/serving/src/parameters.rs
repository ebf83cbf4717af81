//! What a request asks with, in its query or in its body.
use crate::json::{Value, member, object};
use crate::name::Name;
use crate::request::decimal;

/// A number of keys: 1 to 128.
fn key_number(number: u64) -> Option<u16> {
    (1..=128).contains(&number).then_some(number as u16)
}

/// A size in bits: 64 to 4,096 in steps of 8.
fn key_size(size: u64) -> Option<u16> {
    ((64..=4096).contains(&size) && size % 8 == 0).then_some(size as u16)
}

/// The only value of a parameter of a query; an `Err` where there are more.
fn only<'a>(query: &'a str, name: &str) -> Result<Option<&'a str>, ()> {
    let mut values = query.split('&').filter_map(|pair| pair.split_once('=')).filter(|pair| pair.0 == name).map(|pair| pair.1);
    match (values.next(), values.next()) {
        (value, None) => Ok(value),
        _ => Err(()),
    }
}

fn number_or(query: &str, name: &str, absent: u64) -> Option<u64> {
    match only(query, name).ok()? {
        None => Some(absent),
        Some(value) => decimal(value.as_bytes()),
    }
}

pub fn number_of_query(query: &str) -> Option<u16> {
    key_number(number_or(query, "number", 1)?)
}

pub fn size_of_query(query: &str) -> Option<u16> {
    key_size(number_or(query, "size", 256)?)
}

pub fn name_of_query(query: &str) -> Option<Name> {
    Name::read(only(query, "key_ID").ok()??)
}

fn whole(object: &[(String, Value)], name: &str, absent: u64) -> Option<u64> {
    match member(object, name) {
        None => Some(absent),
        Some(Value::Number(number)) => Some(*number),
        Some(_) => None,
    }
}

/// How many keys of which size a body asks for.
pub fn keys_of_body(body: &[u8]) -> Option<(u16, u16)> {
    let object = if body.is_empty() { Vec::new() } else { object(body)? };
    Some((key_number(whole(&object, "number", 1)?)?, key_size(whole(&object, "size", 256)?)?))
}

/// The names of 1 to 128 keys; an `Err` where the body is no object.
pub fn names_of_body(body: &[u8]) -> Result<Option<Vec<Name>>, ()> {
    let object = object(body).ok_or(())?;
    let Some(Value::List(keys)) = member(&object, "key_IDs") else {
        return Ok(None);
    };
    if !(1..=128).contains(&keys.len()) {
        return Ok(None);
    }
    Ok(keys.iter().map(name_in).collect())
}

fn name_in(key: &Value) -> Option<Name> {
    match key {
        Value::Object(members) => match member(members, "key_ID")? {
            Value::Text(text) => Name::read(text),
            _ => None,
        },
        _ => None,
    }
}
