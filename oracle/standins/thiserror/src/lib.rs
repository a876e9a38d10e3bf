//! Stand-in for thiserror.

pub use derives::Error;
