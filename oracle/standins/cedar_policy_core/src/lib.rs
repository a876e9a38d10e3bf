//! Stand-in for cedar-policy-core: the types, values, entities and expressions that module `entity_manifest` names, with as much behind them
//! as that module uses. Names and shapes follow the real crate as far as the published files show them.

pub mod ast;

pub mod entities {
    //! A set of entities, kept as it is given: nothing is checked or closed.

    use crate::ast::{Entity, EntityUID};
    use crate::extensions::Extensions;
    use std::collections::HashMap;

    pub mod err {
        use std::fmt::{Display, Formatter};

        #[derive(Debug)]
        pub struct EntitiesError;

        impl Display for EntitiesError {
            fn fmt(&self, f: &mut Formatter<'_>) -> std::fmt::Result {
                write!(f, "an error of entities")
            }
        }

        impl std::error::Error for EntitiesError {}
    }

    pub trait Schema {}

    pub struct NoEntitiesSchema;

    impl Schema for NoEntitiesSchema {}

    pub enum TCComputation {
        AssumeAlreadyComputed,
    }

    #[derive(Debug, Clone, Default)]
    pub struct Entities {
        entities: HashMap<EntityUID, Entity>,
    }

    impl Entities {
        pub fn from_entities(
            entities: impl IntoIterator<Item = Entity>,
            _schema: Option<&impl Schema>,
            _closure: TCComputation,
            _extensions: &Extensions,
        ) -> Result<Self, err::EntitiesError> {
            Ok(Entities { entities: entities.into_iter().map(|e| (e.uid().clone(), e)).collect() })
        }

        pub fn iter(&self) -> impl Iterator<Item = &Entity> {
            self.entities.values()
        }
    }
}

pub mod extensions {
    pub struct Extensions;

    impl Extensions {
        pub fn all_available() -> &'static Extensions {
            &Extensions
        }
    }
}
