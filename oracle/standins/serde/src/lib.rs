//! Stand-in for serde: the names only. JSON is not taken by the port.

pub use derives::{Deserialize, Serialize};

pub trait Serialize {}

pub trait Deserialize<'de> {}
