//! The bridge between our forms and the types of the published Rust, and runs by the Rust's own functions.

use crate::model::*;
use crate::plain::{self, lines, Line, Types};
use cedar_policy_core::ast::{EntityType, EntityUID, RequestType, Var};
use published::entity_manifest::slicing::probe::{self, Analysed, Paths};
use published::entity_manifest::{AccessTrie, EntityManifest, EntityRoot, RootAccessTrie};
use published::schema::{ValidatorActionId, ValidatorEntityType};
use published::types::{AttributeType, Attributes, EntityLUB, EntityRecordKind, OpenTag, Primitive, Type};
use published::ValidatorSchema;
use smol_str::SmolStr;
use std::cell::Cell;
use std::collections::HashMap;
use std::panic::{catch_unwind, set_hook, take_hook, AssertUnwindSafe};

// ---------------------------------------------------------------- names and ids

pub fn name(id: u32) -> SmolStr {
    // decimals without a heap
    let (mut bytes, mut at, mut n) = ([0u8; 5], 5, id);
    loop {
        at -= 1;
        bytes[at] = b'0' + (n % 10) as u8;
        n /= 10;
        if n == 0 {
            return SmolStr::new(std::str::from_utf8(&bytes[at..]).unwrap());
        }
    }
}

pub fn id(name: &SmolStr) -> u32 {
    name.parse().expect("a name that the bridge made")
}

/// Entities have one space of ids, actions among them: all are of the type `E`.
pub fn entity(n: u32) -> EntityUID {
    EntityUID::new(EntityType::new("E"), name(n))
}

pub fn entity_type(n: u32) -> EntityType {
    EntityType::new(name(n))
}

pub fn request_type(request: u64) -> RequestType {
    let part = |shift: u32| (request >> shift) as u32 % 65_536;
    RequestType { principal: entity_type(part(32)), action: entity(part(16)), resource: entity_type(part(0)) }
}

pub fn request_of(r: &RequestType) -> u64 {
    request(id(r.principal.name()) as u64, id(r.action.eid()) as u64, id(r.resource.name()) as u64)
}

pub fn root(step: Step) -> EntityRoot {
    match step / 65_536 {
        1 => EntityRoot::Var(Var::Principal),
        2 => EntityRoot::Var(Var::Action),
        3 => EntityRoot::Var(Var::Resource),
        4 => EntityRoot::Var(Var::Context),
        5 => EntityRoot::Literal(entity(step % 65_536)),
        _ => panic!("a field is no root"),
    }
}

pub fn root_step(root: &EntityRoot) -> Step {
    match root {
        EntityRoot::Var(Var::Principal) => step(1, 0),
        EntityRoot::Var(Var::Action) => step(2, 0),
        EntityRoot::Var(Var::Resource) => step(3, 0),
        EntityRoot::Var(Var::Context) => step(4, 0),
        EntityRoot::Literal(uid) => step(5, id(uid.eid())),
    }
}

// ---------------------------------------------------------------- tries and manifests

pub fn trie(model: &Trie) -> RootAccessTrie {
    probe::trie(model.range(65_536..).map(|(s, n)| (root(*s), node(n))).collect())
}

fn node(n: &Node) -> AccessTrie {
    let children = n.below.range(..65_536).map(|(f, n)| (name(*f), Box::new(node(n)))).collect();
    probe::node(children, trie(&n.below), n.mark)
}

pub fn model(trie: &RootAccessTrie) -> Trie {
    trie.trie().iter().map(|(r, n)| (root_step(r), model_node(n))).collect()
}

pub fn model_node(n: &AccessTrie) -> Node {
    let mut below = model(n.ancestors_required());
    below.extend(n.children().iter().map(|(f, n)| (step(F, id(f)), model_node(n))));
    Node { mark: probe::is_ancestor(n), below }
}

pub fn manifest(model: &Manifest) -> EntityManifest {
    probe::manifest(model.iter().map(|(r, t)| (request_type(*r), trie(t))).collect())
}

pub fn model_manifest(m: &EntityManifest) -> Manifest {
    m.per_action().iter().map(|(r, t)| (request_of(r), model(t))).collect()
}

/// A manifest from its listing.
pub fn from_listing(text: &[u8]) -> Answer<EntityManifest> {
    plain::read(Kind::Manifest, text).map(|rows| manifest(&manifest_of(&rows)))
}

/// The listing of a manifest.
pub fn listing(m: &EntityManifest) -> Vec<u8> {
    let mut out = Vec::new();
    plain::write(&rows(&model_manifest(m)), &mut out);
    out
}

fn size_node(n: &AccessTrie) -> (usize, usize) {
    let (mut count, mut deep) = size(n.ancestors_required());
    for child in n.children().values() {
        let (c, d) = size_node(child);
        count += c;
        deep = deep.max(d);
    }
    (count + 1, deep + 1)
}

/// How many nodes, and the longest position.
pub fn size(t: &RootAccessTrie) -> (usize, usize) {
    t.trie().values().map(size_node).fold((0, 0), |(c, d), (x, y)| (c + x, d.max(y)))
}

// ---------------------------------------------------------------- types

/// The types of a schema as the Rust's, in their order, and the whole schema.
pub struct Schema {
    pub plain: Types,
    pub types: Vec<Type>,
    pub whole: ValidatorSchema,
}

impl Schema {
    pub fn of(items: &[u64]) -> Self {
        let plain = Types::of(items);
        let mut types: Vec<Type> = Vec::new();
        let attributes = |types: &Vec<Type>, attrs: &[(u32, usize)]| {
            Attributes::new(attrs.iter().map(|(f, t)| (name(*f), AttributeType { attr_type: types[*t].clone(), is_required: false })))
        };
        for n in 0..plain.kind.len() {
            let value = plain.value[n];
            types.push(match plain.kind[n] {
                0 => Type::Never,
                1 => Type::True,
                2 => Type::False,
                3 => Type::Primitive { primitive_type: Primitive::Long },
                4 => Type::ExtensionType { name: "x".into() },
                5 => Type::Set { element_type: None },
                6 => Type::Set { element_type: Some(Box::new(types[value as usize].clone())) },
                7 => Type::EntityOrRecord(EntityRecordKind::Record {
                    attrs: attributes(&types, &plain.attrs[n]),
                    open_attributes: OpenTag::ClosedAttributes,
                }),
                8 => Type::EntityOrRecord(EntityRecordKind::ActionEntity {
                    name: EntityType::new("Action"),
                    attrs: attributes(&types, &plain.attrs[n]),
                }),
                9 => {
                    // a word keeps the first name, and that there are several
                    let mut names = vec![entity_type(value % 65_536)];
                    if value >= 65_536 {
                        names.push(EntityType::new("another"));
                    }
                    Type::EntityOrRecord(EntityRecordKind::Entity(EntityLUB::new(names)))
                }
                _ => Type::EntityOrRecord(EntityRecordKind::AnyEntity),
            });
        }
        let mut whole = ValidatorSchema::default();
        let mut at = 0;
        while at < items.len() {
            let (tag, value, key) = (items[at] % 16, (items[at] / 16 % (1 << 36)) as usize, (items[at] >> 40) as u32);
            at += 1;
            match tag {
                11 => {
                    let mut attrs = Vec::new();
                    while at < items.len() && items[at] % 16 == 12 {
                        attrs.push(((items[at] >> 40) as u32, (items[at] / 16 % (1 << 36)) as usize));
                        at += 1;
                    }
                    let attributes = attributes(&types, &attrs);
                    whole.entity_types.insert(entity_type(key), ValidatorEntityType { attributes });
                }
                13 => {
                    whole.literals.insert(entity(key), types[value].clone());
                }
                14 => {
                    whole.action_ids.insert(entity(key), ValidatorActionId { context: types[value].clone() });
                }
                _ => (),
            }
        }
        Schema { plain, types, whole }
    }
}

// ---------------------------------------------------------------- panics

thread_local! {
    static QUIET: Cell<bool> = const { Cell::new(false) };
}

/// Panics inside `caught` are not printed.
pub fn hush() {
    let loud = take_hook();
    set_hook(Box::new(move |info| {
        if !QUIET.get() {
            loud(info);
        }
    }));
}

/// What f gives, or what it panicked with.
pub fn caught<T>(f: impl FnOnce() -> T) -> Result<T, String> {
    QUIET.set(true);
    let answer = catch_unwind(AssertUnwindSafe(f));
    QUIET.set(false);
    answer.map_err(|e| match (e.downcast_ref::<&str>(), e.downcast_ref::<String>()) {
        (Some(s), _) => s.to_string(),
        (_, Some(s)) => s.clone(),
        _ => "a panic without words".to_string(),
    })
}

/// The number that document 01 gives for a panic of the Rust: what analysis.rs panics with, word for word.
fn number_of(panic: &str) -> u64 {
    if panic == "Attempted to dereference a set literal." {
        7
    } else if panic.starts_with("Missing field ")
        || panic.starts_with("Found record literal when expected ")
        || panic.starts_with("Found set literal when expected ")
        || panic.starts_with("Expected concrete set type")
    {
        8
    } else {
        999
    }
}

// ---------------------------------------------------------------- unions and builds

pub fn union(a: &Trie, b: &Trie) -> Trie {
    model(&trie(a).union(&trie(b)))
}

/// Contributions added in their order, by the Rust's union; limits are ours, so 5 and 4 are judged on the Rust's result.
pub fn build(list: &[(u64, &Trie)]) -> (Manifest, Vec<u64>) {
    let mut m = probe::manifest(HashMap::new());
    let (mut sizes, mut said) = (HashMap::<u64, usize>::new(), Vec::new());
    for (request, t) in list {
        let r = request_type(*request);
        if !m.per_action().contains_key(&r) && m.per_action().len() == 64 {
            said.push(5);
            continue;
        }
        let before = m.per_action().get(&r).cloned();
        probe::add(&mut m, r.clone(), trie(t));
        let now = size(&m.per_action()[&r]).0;
        let others: usize = sizes.iter().filter(|(x, _)| *x != request).map(|(_, n)| n).sum();
        if others + now > 4_096 {
            let mut all = m.per_action().clone();
            match before {
                Some(t) => all.insert(r, t),
                None => all.remove(&r),
            };
            m = probe::manifest(all);
            said.push(4);
        } else {
            sizes.insert(*request, now);
            said.push(0);
        }
    }
    (model_manifest(&m), said)
}

// ---------------------------------------------------------------- steps

/// What the Rust makes of a step text.
pub enum Ran {
    Answer(Answer<Trie>),
    /// A step would take the Rust more than a moment (and our answer to it is 3, 4 or 8).
    TooLarge,
}

const LARGE: usize = 4_000;

fn path_nodes(w: &Paths) -> usize {
    match w {
        Paths::Empty | Paths::AccessPath(..) => 1,
        Paths::Union(a, b) => 1 + path_nodes(a) + path_nodes(b),
        Paths::RecordLiteral(fields) => 1 + fields.iter().map(|(_, w)| path_nodes(w)).sum::<usize>(),
        Paths::SetLiteral(w) => 1 + path_nodes(w),
    }
}

fn paths(w: &Paths) -> usize {
    match w {
        Paths::Empty => 0,
        Paths::AccessPath(..) => 1,
        Paths::Union(a, b) => paths(a) + paths(b),
        Paths::RecordLiteral(fields) => fields.iter().map(|(_, w)| paths(w)).sum(),
        Paths::SetLiteral(w) => paths(w),
    }
}

/// How many nodes `full` would add, each path counted by itself; a literal that does not fit counts its fitting parts.
fn cost(t: &Types, w: &Paths, ty: usize) -> usize {
    match w {
        Paths::Empty => 0,
        Paths::AccessPath(_, fields) => fields.len() + 1 + t.size[ty],
        Paths::Union(a, b) => cost(t, a, ty) + cost(t, b, ty),
        Paths::RecordLiteral(fields) if t.kind[ty] == 7 => t.attrs[ty]
            .iter()
            .map(|(f, u)| fields.iter().find(|(name, _)| id(name) == *f).map_or(0, |(_, w)| cost(t, w, *u)))
            .sum(),
        Paths::SetLiteral(w) if t.kind[ty] == 6 => cost(t, w, t.value[ty] as usize),
        _ => 0,
    }
}

/// One step by the Rust's functions; nothing is judged.
pub fn apply(schema: &Schema, stack: &mut Vec<Analysed>, line: &Line) {
    let made = match line {
        Line::Root(r) => Analysed::from_root(root(*r)),
        Line::None => Analysed::default(),
        Line::Attr(f) => stack.pop().unwrap().get_or_has_attr(&name(*f)),
        Line::Drop => stack.pop().unwrap().empty_paths(),
        Line::Full(t) => stack.pop().unwrap().full_type_required(&schema.types[*t]),
        Line::Set => stack.pop().unwrap().set(),
        Line::Union => {
            let right = stack.pop().unwrap();
            stack.pop().unwrap().union(&right)
        }
        Line::In => {
            let right = stack.pop().unwrap();
            let left = stack.pop().unwrap();
            left.with_ancestors_required(&right.to_ancestor_access_trie()).union(&right).empty_paths()
        }
        Line::Rec(ids) => {
            let took = stack.split_off(stack.len() - ids.len());
            Analysed::record(ids.iter().map(|f| name(*f)).zip(took).collect())
        }
    };
    stack.push(made);
}

/// A step text by the Rust's functions. Form, stack and limits are ours, judged on the Rust's results; 7 and 8 are the Rust's panics.
pub fn steps(schema: &Schema, text: &[u8]) -> Ran {
    let (mut stack, mut count): (Vec<Analysed>, usize) = (Vec::new(), 0);
    for (place, line) in lines(text).enumerate() {
        let refused = |n| Ran::Answer(refuse(n, place));
        let Some(line) = line.and_then(|l| Line::parse(schema.plain.kind.len(), l)) else { return refused(1) };
        let takes = line.takes();
        if stack.len() < takes || stack.len() - takes + 1 > 32 {
            return refused(6);
        }
        let large = match (&line, stack.as_slice()) {
            (Line::Full(t), [.., top]) => cost(&schema.plain, &top.paths(), *t) > LARGE,
            (Line::In, [.., left, right]) => paths(&left.paths()) * size(&right.to_ancestor_access_trie()).0 > LARGE,
            _ => false,
        };
        if large {
            return Ran::TooLarge;
        }
        if let Err(words) = caught(|| apply(schema, &mut stack, &line)) {
            return refused(number_of(&words));
        }
        let top = stack.last().unwrap();
        if path_nodes(&top.paths()) > 256 {
            return refused(15);
        }
        let (nodes, deep) = size(top.global_trie());
        if deep > STEPS {
            return refused(3);
        }
        if nodes > 1_024 {
            return refused(4);
        }
        count = place + 1;
    }
    Ran::Answer(match stack.as_slice() {
        [one] => Ok(model(one.global_trie())),
        _ => refuse(6, count),
    })
}
