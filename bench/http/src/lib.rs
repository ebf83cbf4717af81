//! The delivery interface of ETSI GS QKD 014 over HTTP in plain Rust, by crates of others: what bench/http.py measures the proved
//! program beside.
pub mod api;
pub mod bodies;
pub mod body;
pub mod event;
pub mod head;
pub mod name;
pub mod query;
pub mod reply;
#[path = "../../serving/src/request.rs"]
pub mod request;
#[path = "../../serving/src/resource.rs"]
pub mod resource;
#[path = "../../serving/src/response.rs"]
pub mod response;
#[path = "../../serving/src/site.rs"]
pub mod site;
