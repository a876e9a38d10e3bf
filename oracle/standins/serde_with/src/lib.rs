//! Stand-in for serde_with: the attribute only.

pub use derives::serde_as;
