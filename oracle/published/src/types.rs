//! Stand-in for the validator's types. As in the real crate a type owns its parts; attributes are shared (`Arc`), so that a schema whose
//! types refer to one another many times stays small.

use crate::ValidatorSchema;
use cedar_policy_core::ast::{EntityType, EntityUID};
use smol_str::SmolStr;
use std::collections::{BTreeMap, BTreeSet};
use std::fmt::{Display, Formatter};
use std::sync::Arc;

#[derive(Debug, Clone, PartialEq, Eq)]
pub enum Type {
    Never,
    True,
    False,
    Primitive { primitive_type: Primitive },
    Set { element_type: Option<Box<Type>> },
    EntityOrRecord(EntityRecordKind),
    ExtensionType { name: SmolStr },
}

#[derive(Debug, Clone, Copy, PartialEq, Eq)]
pub enum Primitive {
    Bool,
    Long,
    String,
}

#[derive(Debug, Clone, PartialEq, Eq)]
pub enum EntityRecordKind {
    Record { attrs: Attributes, open_attributes: OpenTag },
    AnyEntity,
    Entity(EntityLUB),
    ActionEntity { name: EntityType, attrs: Attributes },
}

#[derive(Debug, Clone, Copy, PartialEq, Eq)]
pub enum OpenTag {
    OpenAttributes,
    ClosedAttributes,
}

#[derive(Debug, Clone, PartialEq, Eq)]
pub struct AttributeType {
    pub attr_type: Type,
    pub is_required: bool,
}

#[derive(Debug, Clone, PartialEq, Eq, Default)]
pub struct Attributes {
    attrs: Arc<BTreeMap<SmolStr, AttributeType>>,
}

impl Attributes {
    pub fn new(attrs: impl IntoIterator<Item = (SmolStr, AttributeType)>) -> Self {
        Attributes { attrs: Arc::new(attrs.into_iter().collect()) }
    }

    pub fn iter(&self) -> impl Iterator<Item = (&SmolStr, &AttributeType)> {
        self.attrs.iter()
    }

    pub fn get_attr(&self, attr: &SmolStr) -> Option<&AttributeType> {
        self.attrs.get(attr)
    }
}

#[derive(Debug, Clone, PartialEq, Eq)]
pub struct EntityLUB {
    names: BTreeSet<EntityType>,
}

impl EntityLUB {
    pub fn new(names: impl IntoIterator<Item = EntityType>) -> Self {
        EntityLUB { names: names.into_iter().collect() }
    }

    pub fn get_single_entity(&self) -> Option<&EntityType> {
        match self.names.len() {
            1 => self.names.first(),
            _ => None,
        }
    }
}

impl Type {
    pub fn named_entity_reference(name: EntityType) -> Type {
        Type::EntityOrRecord(EntityRecordKind::Entity(EntityLUB::new([name])))
    }

    /// In the real crate worked out from the entity's type; here the schema says it (`L` lines).
    pub fn euid_literal(entity: &EntityUID, schema: &ValidatorSchema) -> Option<Type> {
        schema.literals.get(entity).cloned()
    }

    pub fn is_entity_type(&self) -> bool {
        matches!(
            self,
            Type::EntityOrRecord(EntityRecordKind::AnyEntity | EntityRecordKind::Entity(_) | EntityRecordKind::ActionEntity { .. })
        )
    }
}

impl Display for Type {
    fn fmt(&self, f: &mut Formatter<'_>) -> std::fmt::Result {
        f.write_str(match self {
            Type::Never => "never",
            Type::True => "true",
            Type::False => "false",
            Type::Primitive { .. } => "primitive",
            Type::Set { .. } => "set",
            Type::EntityOrRecord(EntityRecordKind::Record { .. }) => "record",
            Type::EntityOrRecord(_) => "entity",
            Type::ExtensionType { .. } => "extension",
        })
    }
}
