// Included by src/lib.rs: the published module, found beside this file in the build's folder.
#[allow(missing_docs, dead_code, clippy::all)]
pub mod entity_manifest;
