//! Stand-in for miette: the trait without methods.

pub use derives::Diagnostic;

pub trait Diagnostic: std::error::Error {}
