//! Thin wrappers, no rules: each function here calls the published one of the same name, or makes or takes apart a published value.
//! It stands inside `entity_manifest`, where private names can be seen.

use crate::entity_manifest::analysis::{EntityManifestAnalysisResult, WrappedAccessPaths};
use crate::entity_manifest::loader::{self, AncestorsRequest, EntityAnswer, EntityLoader, EntityRequest};
use crate::entity_manifest::slicing::EntitySliceError;
use crate::entity_manifest::{
    entity_manifest_from_expr, union_fields, AccessPath, AccessTrie, EntityManifest, EntityManifestError, EntityRoot, Fields,
    MismatchedEntityManifestError, RootAccessTrie,
};
use crate::types::Type;
use crate::ValidatorSchema;
use cedar_policy_core::ast::{Entity, EntityUID, Expr, Request, RequestType};
use cedar_policy_core::entities::Entities;
use smol_str::SmolStr;
use std::collections::{HashMap, HashSet};

// ---------------------------------------------------------------- tries and manifests, made and taken apart

pub fn trie(trie: HashMap<EntityRoot, AccessTrie>) -> RootAccessTrie {
    RootAccessTrie { trie }
}

pub fn node(children: Fields, ancestors_trie: RootAccessTrie, is_ancestor: bool) -> AccessTrie {
    AccessTrie { children, ancestors_trie, is_ancestor, node_type: None }
}

pub fn is_ancestor(node: &AccessTrie) -> bool {
    node.is_ancestor
}

pub fn node_type(node: &AccessTrie) -> Option<&Type> {
    node.node_type.as_ref()
}

pub fn manifest(per_action: HashMap<RequestType, RootAccessTrie>) -> EntityManifest {
    EntityManifest { per_action }
}

/// What `compute_entity_manifest` does with the contribution of one policy and request type.
pub fn add(manifest: &mut EntityManifest, request_type: RequestType, new_primary_slice: RootAccessTrie) {
    manifest
        .per_action
        .entry(request_type)
        .and_modify(|existing| existing.union_mut(&new_primary_slice))
        .or_insert(new_primary_slice);
}

pub fn fields_united(first: &Fields, second: &Fields) -> Fields {
    union_fields(first, second)
}

// ---------------------------------------------------------------- analysis

/// An `EntityManifestAnalysisResult`.
#[derive(Debug, Clone, PartialEq, Eq, Default)]
pub struct Analysed(EntityManifestAnalysisResult);

/// A `WrappedAccessPaths`, seen from outside.
pub enum Paths<'a> {
    Empty,
    AccessPath(&'a EntityRoot, &'a [SmolStr]),
    Union(Box<Paths<'a>>, Box<Paths<'a>>),
    RecordLiteral(Vec<(&'a SmolStr, Paths<'a>)>),
    SetLiteral(Box<Paths<'a>>),
}

impl Analysed {
    pub fn from_root(root: EntityRoot) -> Self {
        Analysed(EntityManifestAnalysisResult::from_root(root))
    }

    pub fn empty_paths(self) -> Self {
        Analysed(self.0.empty_paths())
    }

    pub fn union(self, other: &Self) -> Self {
        Analysed(self.0.union(&other.0))
    }

    pub fn get_or_has_attr(self, attr: &SmolStr) -> Self {
        Analysed(self.0.get_or_has_attr(attr))
    }

    pub fn full_type_required(self, ty: &Type) -> Self {
        Analysed(self.0.full_type_required(ty))
    }

    pub fn with_ancestors_required(self, ancestors_trie: &RootAccessTrie) -> Self {
        Analysed(self.0.with_ancestors_required(ancestors_trie))
    }

    pub fn to_ancestor_access_trie(&self) -> RootAccessTrie {
        self.0.resulting_paths.to_ancestor_access_trie()
    }

    /// The paths wrapped in a set literal, as the arm `ExprKind::Set` ends.
    pub fn set(mut self) -> Self {
        self.0.resulting_paths = WrappedAccessPaths::SetLiteral(Box::new(self.0.resulting_paths));
        self
    }

    /// A record literal of results, as the arm `ExprKind::Record` makes it.
    pub fn record(content: Vec<(SmolStr, Self)>) -> Self {
        let mut record_contents = HashMap::new();
        let mut global_trie = RootAccessTrie::default();
        for (key, Analysed(res)) in content {
            record_contents.insert(key, Box::new(res.resulting_paths));
            global_trie = global_trie.union(&res.global_trie);
        }
        Analysed(EntityManifestAnalysisResult { resulting_paths: WrappedAccessPaths::RecordLiteral(record_contents), global_trie })
    }

    pub fn from_expr(expr: &Expr<Option<Type>>) -> Result<Self, EntityManifestError> {
        entity_manifest_from_expr(expr).map(Analysed)
    }

    pub fn global_trie(&self) -> &RootAccessTrie {
        &self.0.global_trie
    }

    pub fn into_global_trie(self) -> RootAccessTrie {
        self.0.global_trie
    }

    pub fn paths(&self) -> Paths<'_> {
        seen(&self.0.resulting_paths)
    }
}

fn seen(paths: &WrappedAccessPaths) -> Paths<'_> {
    match paths {
        WrappedAccessPaths::Empty => Paths::Empty,
        WrappedAccessPaths::AccessPath(AccessPath { root, path }) => Paths::AccessPath(root, path),
        WrappedAccessPaths::Union(l, r) => Paths::Union(Box::new(seen(l)), Box::new(seen(r))),
        WrappedAccessPaths::RecordLiteral(fields) => Paths::RecordLiteral(fields.iter().map(|(k, v)| (k, seen(v))).collect()),
        WrappedAccessPaths::SetLiteral(x) => Paths::SetLiteral(Box::new(seen(x))),
    }
}

// ---------------------------------------------------------------- typing

pub fn to_typed(manifest: &EntityManifest, schema: &ValidatorSchema) -> Result<EntityManifest, MismatchedEntityManifestError> {
    manifest.to_typed(schema)
}

// ---------------------------------------------------------------- loading

/// An `EntityLoader`, seen from outside: a row is an entity and its pruned trie, an ancestors request an entity and ids.
pub trait Store {
    fn load_entities(&mut self, rows: &[(EntityUID, AccessTrie)]) -> Vec<Option<Entity>>;
    fn load_ancestors(&mut self, requests: &[(EntityUID, HashSet<EntityUID>)]) -> Vec<HashSet<EntityUID>>;
}

struct Through<'a>(&'a mut dyn Store);

impl EntityLoader for Through<'_> {
    fn load_entities(&mut self, to_load: &[EntityRequest]) -> Result<Vec<EntityAnswer>, EntitySliceError> {
        let rows: Vec<_> = to_load.iter().map(|r| (r.entity_id.clone(), r.access_trie.clone())).collect();
        Ok(self.0.load_entities(&rows))
    }

    fn load_ancestors(&mut self, entities: &[AncestorsRequest]) -> Result<Vec<HashSet<EntityUID>>, EntitySliceError> {
        let requests: Vec<_> = entities.iter().map(|r| (r.entity_id.clone(), r.ancestors.clone())).collect();
        Ok(self.0.load_ancestors(&requests))
    }
}

pub fn load_entities(manifest: &EntityManifest, request: &Request, store: &mut dyn Store) -> Result<Entities, EntitySliceError> {
    loader::load_entities(manifest, request, &mut Through(store))
}

/// An `EntityLoader` whose answers are at hand, batch by batch: nothing is recorded or copied.
struct AtHand {
    batches: std::vec::IntoIter<Vec<EntityAnswer>>,
    ancestors: Vec<HashSet<EntityUID>>,
}

impl EntityLoader for AtHand {
    fn load_entities(&mut self, _to_load: &[EntityRequest]) -> Result<Vec<EntityAnswer>, EntitySliceError> {
        Ok(self.batches.next().unwrap_or_default())
    }

    fn load_ancestors(&mut self, _entities: &[AncestorsRequest]) -> Result<Vec<HashSet<EntityUID>>, EntitySliceError> {
        Ok(std::mem::take(&mut self.ancestors))
    }
}

/// A load with answers at hand, in the order in which this manifest's rows are asked for.
pub fn load_at_hand(
    manifest: &EntityManifest,
    request: &Request,
    batches: Vec<Vec<EntityAnswer>>,
    ancestors: Vec<HashSet<EntityUID>>,
) -> Result<Entities, EntitySliceError> {
    loader::load_entities(manifest, request, &mut AtHand { batches: batches.into_iter(), ancestors })
}
