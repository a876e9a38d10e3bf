//! Typing and loading by the published Rust: `to_typed`, and `load_entities` with a store that records what it is asked.

use crate::model::*;
use crate::plain_load::Slice;
use crate::plain_typing::{OF_PRINCIPAL, OF_RESOURCE};
use crate::rust::{self, caught, Schema};
use crate::values::{Entity, Fields, Value};
use cedar_policy_core::ast::{self, Context, EntityUID, EntityUIDEntry, Literal, PartialValue, ValueKind};
use published::entity_manifest::slicing::probe::{self, Store};
use published::entity_manifest::slicing::EntitySliceError;
use published::entity_manifest::{AccessTrie, EntityManifest, MismatchedEntityManifestError, RootAccessTrie};
use published::types::Type;
use std::collections::{BTreeMap, BTreeSet, HashMap, HashSet};
use std::sync::Arc;

// ---------------------------------------------------------------- typing

/// A manifest typed by the Rust; its error or its assert as a number, 999 for any other panic.
pub fn to_typed(schema: &Schema, manifest: &EntityManifest) -> Result<EntityManifest, u64> {
    match caught(|| probe::to_typed(manifest, &schema.whole)) {
        Ok(Ok(typed)) => Ok(typed),
        Ok(Err(MismatchedEntityManifestError::MismatchedMissingEntity(_))) => Err(9),
        Ok(Err(MismatchedEntityManifestError::MismatchedNotStrictSchema(_))) => Err(10),
        Err(words) if words == "assertion failed: self.children.is_empty()" => Err(11),
        Err(_) => Err(999),
    }
}

fn sorted_roots(trie: &RootAccessTrie) -> BTreeMap<Step, &AccessTrie> {
    trie.trie().iter().map(|(r, n)| (rust::root_step(r), n)).collect()
}

fn put_typed<'a>(nodes: BTreeMap<Step, &'a AccessTrie>, depth: usize, out: &mut Vec<(u64, Option<&'a Type>)>) {
    for (step, node) in nodes {
        out.push((node_word(depth, step, probe::is_ancestor(node)), probe::node_type(node)));
        let mut below = sorted_roots(node.ancestors_required());
        below.extend(node.children().iter().map(|(f, n)| (step_of_field(f), &**n)));
        put_typed(below, depth + 1, out);
    }
}

fn step_of_field(field: &smol_str::SmolStr) -> Step {
    step(F, rust::id(field))
}

/// The rows of a typed manifest of the Rust in listing order, each node with its type.
pub fn typed_rows(m: &EntityManifest) -> Vec<(u64, Option<&Type>)> {
    let entries: BTreeMap<u64, &RootAccessTrie> = m.per_action().iter().map(|(r, t)| (rust::request_of(r), t)).collect();
    let mut out = Vec::new();
    for (request, trie) in entries {
        out.push((entry_word(request), None));
        put_typed(sorted_roots(trie), 1, &mut out);
    }
    out
}

/// The Rust's type for the number that a row has.
fn type_numbered(schema: &Schema, request: u64, number: u64) -> Option<Type> {
    let named = |name: u64| Some(Type::named_entity_reference(rust::entity_type(name as u32 % 65_536)));
    match (number as usize).checked_sub(1)? {
        OF_PRINCIPAL => named(request >> 32),
        OF_RESOURCE => named(request),
        t => schema.types.get(t).cloned(),
    }
}

/// Whether typed rows are those of the Rust, and each type the Rust's.
pub fn same_types(schema: &Schema, rows: &[u64], m: &EntityManifest) -> Result<(), String> {
    let theirs = typed_rows(m);
    if rows.len() != theirs.len() {
        return Err(format!("{} rows stay, of the Rust {}", rows.len(), theirs.len()));
    }
    let mut request = 0;
    for (at, (word, (their_word, their_type))) in rows.iter().zip(theirs).enumerate() {
        if word % 32 == 0 {
            request = word / 64;
        }
        let (bare, number) = if word % 32 == 0 { (*word, 0) } else { (word % (1 << 25), word >> 25) };
        if bare != their_word || type_numbered(schema, request, number).as_ref() != their_type {
            return Err(format!("row {at} is {word:#x}, of the Rust {their_word:#x} with type {their_type:?}"));
        }
    }
    Ok(())
}

// ---------------------------------------------------------------- values

fn rust_value(value: &Value) -> ast::Value {
    let kind = match value {
        Value::Plain(n) => ValueKind::Lit(Literal::Long(*n as i64)),
        Value::Extension(n) => ValueKind::ExtensionValue(Arc::new(rust::name(*n))),
        Value::Entity(n) => ValueKind::Lit(Literal::EntityUID(Arc::new(rust::entity(*n)))),
        Value::Set(elements) => ValueKind::Set(ast::Set::new(elements.iter().map(rust_value))),
        Value::Record(fields) => ValueKind::Record(Arc::new(rust_fields(fields).collect())),
    };
    ast::Value::new(kind, None)
}

fn rust_fields(fields: &Fields) -> impl Iterator<Item = (smol_str::SmolStr, ast::Value)> + '_ {
    fields.iter().map(|(f, x)| (rust::name(*f), rust_value(x)))
}

fn value_back(value: &ast::Value) -> Value {
    match value.value_kind() {
        ValueKind::Lit(Literal::Long(n)) => Value::Plain(*n as u32),
        ValueKind::Lit(Literal::EntityUID(e)) => Value::Entity(rust::id(e.eid())),
        ValueKind::Lit(other) => panic!("a literal that the bridge did not make: {other:?}"),
        ValueKind::ExtensionValue(n) => Value::Extension(rust::id(n)),
        ValueKind::Set(set) => Value::Set(set.iter().map(value_back).collect()),
        ValueKind::Record(fields) => Value::Record(fields.iter().map(|(f, x)| (rust::id(f), value_back(x))).collect()),
    }
}

pub fn rust_entity(id: EntityUID, entity: &Entity) -> ast::Entity {
    let attrs: HashMap<_, _> = rust_fields(&entity.fields).map(|(f, x)| (f, PartialValue::Value(x))).collect();
    let parents: HashSet<EntityUID> = entity.parents.iter().map(|p| rust::entity(*p)).collect();
    ast::Entity::new_with_attr_partial_value(id, attrs, HashSet::new(), parents, [])
}

fn entity_back(entity: &ast::Entity) -> (u32, Entity) {
    let fields = entity.attrs().map(|(f, x)| match x {
        PartialValue::Value(x) => (rust::id(f), value_back(x)),
        PartialValue::Residual(_) => panic!("a residual that the bridge did not make"),
    });
    let parents = entity.parents().map(|p| rust::id(p.eid())).collect();
    (rust::id(entity.uid().eid()), Entity { parents, fields: fields.collect() })
}

// ---------------------------------------------------------------- loads

pub fn rust_request(request: &crate::plain_load::Request) -> ast::Request {
    let known = |n: u32| EntityUIDEntry::Known(rust::entity(n));
    ast::Request {
        principal: known(request.principal),
        action: known((request.kind >> 16) as u32 % 65_536),
        resource: known(request.resource),
        context: Some(Context::Value(Arc::new(rust_fields(&request.context).collect()))),
        request_type: Some(rust::request_type(request.kind)),
    }
}

/// Who answers: batches as a whole by their number, their rows as entities and pruned tries, and requests.
pub trait Answers {
    fn batch(&self, number: usize, rows: &[(u32, Node)]) -> Vec<Option<Entity>>;
    fn sets(&self, requests: &[(u32, BTreeSet<u32>)]) -> Vec<BTreeSet<u32>>;
}

/// What the Rust has asked, in its order, and what it was answered.
#[derive(Default)]
pub struct Log {
    pub batches: Vec<Vec<(u32, Node)>>,
    pub answers: Vec<Vec<Option<Entity>>>,
    pub requests: Vec<(u32, BTreeSet<u32>)>,
    pub sets: Vec<BTreeSet<u32>>,
    /// the ancestors call was made
    pub asked: bool,
}

struct Recorder<'a> {
    answers: &'a dyn Answers,
    log: Log,
}

impl Store for Recorder<'_> {
    fn load_entities(&mut self, rows: &[(EntityUID, AccessTrie)]) -> Vec<Option<ast::Entity>> {
        let asked: Vec<(u32, Node)> = rows.iter().map(|(e, trie)| (rust::id(e.eid()), rust::model_node(trie))).collect();
        let answers = self.answers.batch(self.log.batches.len(), &asked);
        let made = answers.iter().enumerate().map(|(n, answer)| {
            // a surplus answer is of any entity
            let id = rows.get(n).map_or_else(|| rust::entity(0), |(e, _)| e.clone());
            answer.as_ref().map(|entity| rust_entity(id, entity))
        });
        let made = made.collect();
        self.log.batches.push(asked);
        self.log.answers.push(answers);
        made
    }

    fn load_ancestors(&mut self, requests: &[(EntityUID, HashSet<EntityUID>)]) -> Vec<HashSet<EntityUID>> {
        let ids = |ids: &HashSet<EntityUID>| ids.iter().map(|e| rust::id(e.eid())).collect();
        self.log.requests = requests.iter().map(|(e, set)| (rust::id(e.eid()), ids(set))).collect();
        self.log.sets = self.answers.sets(&self.log.requests);
        self.log.asked = true;
        self.log.sets.iter().map(|set| set.iter().map(|e| rust::entity(*e)).collect()).collect()
    }
}

/// How a load of the Rust ends: its slice; a panic or assert as the number that document 01 gives for it (999 for any other); 12.
#[derive(Debug, PartialEq, Eq)]
pub enum Ended {
    Slice(Slice),
    Number(u64),
    Counts(u64, u64),
}

/// What loader.rs panics with, word for word.
fn number_of(words: &str) -> u64 {
    if words.contains("attempting to merge ") {
        13
    } else if words.starts_with("assertion failed: trie.ancestors_trie == Default::default()")
        || words.starts_with("assertion failed: !trie.is_ancestor")
        || words.starts_with("Found is_ancestor on set of non-entity-type ")
    {
        14
    } else {
        999
    }
}

pub fn load(typed: &EntityManifest, request: &ast::Request, answers: &dyn Answers) -> (Ended, Log) {
    let mut recorder = Recorder { answers, log: Log::default() };
    let ended = match caught(|| probe::load_entities(typed, request, &mut recorder)) {
        Ok(Ok(entities)) => Ended::Slice(entities.iter().map(entity_back).collect()),
        Ok(Err(EntitySliceError::WrongNumberOfEntities(e))) => Ended::Counts(e.expected as u64, e.got as u64),
        Ok(Err(_)) => Ended::Number(999),
        Err(words) => Ended::Number(number_of(&words)),
    };
    (ended, recorder.log)
}
