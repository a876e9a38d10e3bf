//! Stand-in for entity_manifest/slicing.rs, which is not among the published files: the errors that loader.rs names.
//! Below it `probe`, by which a driver outside this crate reaches what is private to it.

use crate::entity_manifest::PartialRequestError;
use cedar_policy_core::entities::err::EntitiesError;
use thiserror::Error;

pub mod probe;

#[derive(Debug, Error)]
#[error("entity slicing requires a fully concrete context")]
pub struct PartialContextError {}

#[derive(Debug, Error)]
#[error("entity slicing requires fully concrete entities")]
pub struct PartialEntityError {}

#[derive(Debug, Error)]
#[error("entity loader returned the wrong number of entities. Expected {expected}, got {got}")]
pub struct WrongNumberOfEntitiesError {
    pub expected: usize,
    pub got: usize,
}

#[derive(Debug, Error)]
pub enum EntitySliceError {
    #[error(transparent)]
    Entities(#[from] EntitiesError),
    #[error(transparent)]
    PartialRequest(#[from] PartialRequestError),
    #[error(transparent)]
    PartialContext(#[from] PartialContextError),
    #[error(transparent)]
    PartialEntity(#[from] PartialEntityError),
    #[error(transparent)]
    WrongNumberOfEntities(#[from] WrongNumberOfEntitiesError),
}
