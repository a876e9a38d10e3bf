//! Stand-in for serde_json: JSON is not taken by the port, so every text and value is an error here.

use std::fmt::{Display, Formatter};

#[derive(Debug)]
pub struct Error;

impl Display for Error {
    fn fmt(&self, f: &mut Formatter<'_>) -> std::fmt::Result {
        write!(f, "the stand-in for serde_json reads nothing")
    }
}

impl std::error::Error for Error {}

#[derive(Debug, Clone, PartialEq, Eq)]
pub enum Value {
    Null,
}

pub fn from_str<T>(_: &str) -> Result<T, Error> {
    Err(Error)
}

pub fn from_value<T>(_: Value) -> Result<T, Error> {
    Err(Error)
}
