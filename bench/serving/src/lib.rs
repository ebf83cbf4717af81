//! The delivery interface of ETSI GS QKD 014 over HTTP in plain Rust, by the standard library alone: what bench/serving.py measures
//! the proved program beside. What doesn't differ there bench/http shares.
pub mod api;
pub mod bodies;
pub mod connection;
pub mod event;
pub mod head;
pub mod json;
pub mod manager;
pub mod name;
pub mod parameters;
pub mod reply;
pub mod request;
pub mod resource;
pub mod response;
pub mod responses;
pub mod scenario;
pub mod site;
