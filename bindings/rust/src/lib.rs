//! Entity manifests of Cedar policies: which data a decision reads, for each request type.
//!
//! These are bindings to Terbagyl's static library, in which every function is proved to meet its contract. The crate has no dependencies, and
//! its only unsafe code is the private module that calls the library's C names.
//!
//! ```
//! use terbagyl::{Held, Manifest, RequestType, Schema, Step};
//!
//! let schema = Schema::read("T\t0\t3\nE\t10\nF\t7\t0\n")?;
//! let mut manifest = Manifest::new();
//! manifest.add_policy(&schema, "A\t10\t500\t20\nvar\tp\nattr\t7\n")?; // principal.7
//! assert_eq!(manifest.listing(), "A\t10\t500\t20\nN\t1\tp\t0\t0\nN\t2\tf\t7\t0\n");
//! let open_fitting = RequestType::new(10, 500, 20);
//! assert_eq!(manifest.has(open_fitting, &[Step::Principal, Step::Field(7)]), Held::There);
//! # Ok::<(), terbagyl::Refusal>(())
//! ```
//!
//! What the texts are, and what every refusal's number and place mean, is in docs/FORMS.md of the repository.
//!
//! # x86-64 alone
//!
//! The library is compiled for x86-64. The build script looks for `libentity_manifest.a` in the folder that `TERBAGYL_LIB` names, then in the
//! repository's target/staticlib, and otherwise has the Rattle kit build it (`tools/staticlib`). For another processor it stops,
//! and says so.
//!
//! # Stack
//!
//! No call takes more than 1 MiB of stack, and a thread of Rust has 2 MiB by default. docs/FORMS.md, 'Stack', says what each call takes.
//!
//! # Many questions
//!
//! [`Manifest::has`] checks the whole manifest at each call. For many questions walk it once with [`Manifest::entries`] or
//! [`Manifest::nodes`], which decode its rows in Rust; `has` shows how.

#![deny(missing_docs)]
#![deny(unsafe_code)]

mod buffer;
mod load;
mod manifest;
mod place;
#[allow(unsafe_code)]
#[rustfmt::skip] // declarations as wide as the header's
mod raw;
mod refusal;
mod rows;
mod value;

pub use load::{load, turn, AncestorsRequest, Asked, Load, Next, Request, Row, Slice, Stalled, Store};
pub use manifest::{Contribution, Manifest, Schema, TripBound};
pub use place::{Held, RequestType, Step};
pub use refusal::{Counted, Refusal};
pub use rows::{Entries, Entry, Node, NodeType, Nodes, Positions};
pub use value::{Entity, Value};

/// The version of the library that is linked: its first number and its second.
///
/// ```
/// assert_eq!(terbagyl::version(), (0, 3));
/// ```
pub fn version() -> (u64, u64) {
    let version = raw::version();
    (version >> 16, version & 0xffff)
}
