//! Plays the root of crate cedar-policy-validator 4.4.1 for its module `entity_manifest`. The four files of that module are the published
//! ones, byte for byte, copied at build time; everything else here is stand-in.

include!(concat!(env!("OUT_DIR"), "/src/root.rs"));

pub mod schema;
pub mod typecheck;
pub mod types;

pub use schema::ValidatorSchema;

use cedar_policy_core::ast::PolicySet;

#[derive(Debug, Clone, Copy, PartialEq, Eq, Default)]
pub enum ValidationMode {
    #[default]
    Strict,
    Permissive,
}

/// Stand-in: strict validation is not taken, every policy set passes.
#[derive(Debug, Clone, Default)]
pub struct ValidationResult {}

impl ValidationResult {
    pub fn validation_passed(&self) -> bool {
        true
    }
}

pub struct Validator {}

impl Validator {
    pub fn new(_schema: ValidatorSchema) -> Self {
        Validator {}
    }

    pub fn validate(&self, _policies: &PolicySet, _mode: ValidationMode) -> ValidationResult {
        ValidationResult {}
    }
}
