//! Stand-in for the validator's schema: look-ups only.

use crate::types::{Attributes, Type};
use cedar_policy_core::ast::{EntityType, EntityUID};
use std::collections::HashMap;

#[derive(Debug, Clone, Default)]
pub struct ValidatorSchema {
    pub entity_types: HashMap<EntityType, ValidatorEntityType>,
    pub literals: HashMap<EntityUID, Type>,
    pub action_ids: HashMap<EntityUID, ValidatorActionId>,
}

#[derive(Debug, Clone)]
pub struct ValidatorEntityType {
    pub attributes: Attributes,
}

#[derive(Debug, Clone)]
pub struct ValidatorActionId {
    pub context: Type,
}

impl ValidatorSchema {
    pub fn get_entity_type(&self, name: &EntityType) -> Option<&ValidatorEntityType> {
        self.entity_types.get(name)
    }

    pub fn get_action_id(&self, action: &EntityUID) -> Option<&ValidatorActionId> {
        self.action_ids.get(action)
    }
}

impl ValidatorEntityType {
    pub fn attributes(&self) -> &Attributes {
        &self.attributes
    }
}
