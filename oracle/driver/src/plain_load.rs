//! Loading from document 01 and docs/FORMS.md alone: tries and values are trees, a walk is a recursion over both, and a state is lawful where
//! it can be read as a load and that load worked out.

use crate::model::*;
use crate::plain::lawful;
use crate::plain_typing::rows_in;
use crate::values::*;
use std::collections::{BTreeMap, BTreeSet};

pub const CONTEXT_WORDS: usize = 8_193;
pub const STATE_WORDS: usize = 36_874;
pub const BATCH_WORDS: usize = 4_096;
pub const LENT_WORDS: usize = 24_577;
pub const REQUESTS_WORDS: usize = 528_385;
pub const SLICE_WORDS: usize = 12_289;

// ---------------------------------------------------------------- tries with numbered nodes

#[derive(Default)]
pub struct TreeNode {
    pub mark: bool,
    pub fields: Vec<(u32, usize)>,
    pub roots: Vec<(Step, usize)>,
}

/// The nodes of one entry, by their numbers in listing order.
#[derive(Default)]
pub struct Tree {
    pub nodes: Vec<TreeNode>,
    pub roots: Vec<(Step, usize)>,
}

impl Tree {
    /// Of the rows of an entry's nodes.
    pub fn of(rows: &[u64]) -> Self {
        let mut tree = Tree::default();
        let mut path: Vec<usize> = Vec::new();
        for (number, word) in rows.iter().enumerate() {
            let (depth, step) = (depth_of(*word), step_of(*word));
            path.truncate(depth - 1);
            match path.last() {
                None => tree.roots.push((step, number)),
                Some(above) if step < 65_536 => tree.nodes[*above].fields.push((step, number)),
                Some(above) => tree.nodes[*above].roots.push((step, number)),
            }
            path.push(number);
            tree.nodes.push(TreeNode { mark: mark_of(*word), ..TreeNode::default() });
        }
        tree
    }

    /// How many nodes stand in no ancestors trie, and one more than the most field steps to one of them; without a node 0 and 0.
    pub fn primary(&self) -> (u64, u64) {
        fn below(tree: &Tree, node: usize, steps: u64) -> (u64, u64) {
            let fields = tree.nodes[node].fields.iter().map(|(_, child)| below(tree, *child, steps + 1));
            fields.fold((1, steps + 1), |(nodes, most), (n, m)| (nodes + n, most.max(m)))
        }
        self.roots.iter().map(|(_, node)| below(self, *node, 0)).fold((0, 0), |(nodes, most), (n, m)| (nodes + n, most.max(m)))
    }
}

// ---------------------------------------------------------------- the load

/// Document 01's rule, or the Rust's, which passes over children on sets and plain values and has no limits.
#[derive(Clone, Copy, Debug, PartialEq, Eq)]
pub enum Rule {
    Document,
    Rust,
}

#[derive(Clone, Debug, Default)]
pub struct Request {
    pub kind: u64,
    pub principal: u32,
    pub resource: u32,
    pub context: Fields,
}

/// A row: an entity and the number of its node in the entry.
#[derive(Clone, Copy, Debug, PartialEq, Eq, PartialOrd, Ord)]
pub struct Asked {
    pub entity: u32,
    pub node: usize,
}

#[derive(Clone, Copy, Debug, PartialEq, Eq)]
pub enum Refused {
    At(u64, u64),
    Counts(u64, u64),
}

pub type Slice = BTreeMap<u32, Entity>;

#[derive(Clone, Default)]
pub struct Load {
    pub waiting: Vec<Asked>,
    pub asked: Vec<Asked>,
    pub slice: Slice,
    pub sum: usize,
    pub batches: u64,
}

/// What a walk over values has met.
struct Walk<'a> {
    tree: &'a Tree,
    rule: Rule,
    rows: Vec<Asked>,
    /// ancestor ids; a batch's walk drops them
    ids: Option<BTreeSet<u32>>,
}

impl Walk<'_> {
    fn take(&mut self, id: u32) -> Result<(), u64> {
        let Some(ids) = &mut self.ids else { return Ok(()) };
        ids.insert(id);
        if self.rule == Rule::Document && ids.len() > 256 { Err(15) } else { Ok(()) }
    }

    fn value(&mut self, node: usize, value: &Value) -> Result<(), u64> {
        let n = &self.tree.nodes[node];
        let (mark, ancestors, children) = (n.mark, !n.roots.is_empty(), !n.fields.is_empty() && self.rule == Rule::Document);
        match value {
            Value::Entity(entity) => self.rows.push(Asked { entity: *entity, node }),
            Value::Record(_) if ancestors || mark => return Err(14),
            Value::Record(fields) => return self.fields(node, fields),
            Value::Set(_) if ancestors || children => return Err(14),
            Value::Set(elements) if mark => {
                let ids = elements.iter().map(|x| if let Value::Entity(e) = x { Some(*e) } else { None }).collect::<Option<Vec<u32>>>();
                for id in ids.ok_or(14u64)? {
                    self.take(id)?;
                }
            }
            Value::Set(_) => (),
            Value::Plain(_) | Value::Extension(_) if ancestors || children || mark => return Err(14),
            Value::Plain(_) | Value::Extension(_) => (),
        }
        Ok(())
    }

    /// The children of a node looked up in a record; an absent one is skipped.
    fn fields(&mut self, node: usize, fields: &Fields) -> Result<(), u64> {
        let tree = self.tree;
        for (f, child) in &tree.nodes[node].fields {
            if let Some(value) = fields.get(f) {
                self.value(*child, value)?;
            }
        }
        Ok(())
    }

    /// The entities found in the context, then the roots p, a, r, e in order.
    fn initial(&mut self, roots: &[(Step, usize)], request: &Request) -> Result<(), u64> {
        for (_, node) in roots.iter().filter(|(step, _)| step / 65_536 == 4) {
            self.fields(*node, &request.context)?;
        }
        for (step, node) in roots {
            let entity = match step / 65_536 {
                1 => request.principal,
                2 => (request.kind >> 16) as u32 % 65_536,
                3 => request.resource,
                4 => continue,
                _ => step % 65_536,
            };
            self.rows.push(Asked { entity, node: *node });
        }
        Ok(())
    }
}

fn merged_values(a: &Value, b: &Value) -> Option<Value> {
    match (a, b) {
        (Value::Record(a), Value::Record(b)) => merged_fields(a, b).map(Value::Record),
        _ => (a == b).then(|| a.clone()),
    }
}

fn merged_fields(a: &Fields, b: &Fields) -> Option<Fields> {
    let mut both = a.clone();
    for (f, y) in b {
        let value = a.get(f).map_or(Some(y.clone()), |x| merged_values(x, y))?;
        both.insert(*f, value);
    }
    Some(both)
}

/// An answered entity put into a slice; false is 13.
fn entered(slice: &mut Slice, id: u32, entity: &Entity) -> bool {
    let both = match slice.get(&id) {
        None => Some(entity.clone()),
        Some(old) if old.parents == entity.parents => {
            merged_fields(&old.fields, &entity.fields).map(|fields| Entity { parents: old.parents.clone(), fields })
        }
        Some(_) => None,
    };
    both.map(|both| slice.insert(id, both)).is_some()
}

pub struct Loader<'a> {
    pub tree: &'a Tree,
    pub request: &'a Request,
    pub rule: Rule,
}

impl Loader<'_> {
    fn walk(&self, ids: Option<BTreeSet<u32>>) -> Walk<'_> {
        Walk { tree: self.tree, rule: self.rule, rows: Vec::new(), ids }
    }

    pub fn begin(&self) -> Result<Load, Refused> {
        let mut walk = self.walk(None);
        walk.initial(&self.tree.roots, self.request).map_err(|n| Refused::At(n, 0))?;
        Ok(Load { waiting: walk.rows, ..Load::default() })
    }

    /// The first place at which sizes come to more than 8,192.
    pub fn summed(&self, sum: usize, sizes: impl Iterator<Item = usize>) -> Result<usize, Refused> {
        let mut sum = sum;
        for (place, size) in sizes.enumerate() {
            sum += size;
            if self.rule == Rule::Document && sum > 8_192 {
                return Err(Refused::At(15, place as u64));
            }
        }
        Ok(sum)
    }

    /// A batch handed out and its answers taken: 12, 15, then by row 14, 13.
    pub fn answered(&self, load: &Load, answers: &[Option<Entity>]) -> Result<Load, Refused> {
        if answers.len() != load.waiting.len() {
            return Err(Refused::Counts(load.waiting.len() as u64, answers.len() as u64));
        }
        let sum = self.summed(load.sum, answers.iter().map(size_of))?;
        let (mut slice, mut next) = (load.slice.clone(), Vec::new());
        for (place, (row, answer)) in load.waiting.iter().zip(answers).enumerate() {
            let Some(entity) = answer else { continue };
            let mut walk = self.walk(None);
            walk.fields(row.node, &entity.fields).map_err(|n| Refused::At(n, place as u64))?;
            next.extend(walk.rows);
            if !entered(&mut slice, row.entity, entity) {
                return Err(Refused::At(13, place as u64));
            }
        }
        let asked = load.asked.iter().chain(&load.waiting).copied().collect();
        Ok(Load { waiting: next, asked, slice, sum, batches: load.batches + !load.waiting.is_empty() as u64 })
    }

    /// Which of 13 and 14 a batch can be refused with where its rows come in any order: 14 for a row alone, 13 for the others together.
    pub fn occurring(&self, load: &Load, answers: &[Option<Entity>]) -> BTreeSet<u64> {
        let (mut slice, mut found) = (load.slice.clone(), BTreeSet::new());
        for (row, answer) in load.waiting.iter().zip(answers) {
            let Some(entity) = answer else { continue };
            if self.walk(None).fields(row.node, &entity.fields).is_err() {
                found.insert(14);
            } else if !entered(&mut slice, row.entity, entity) {
                found.insert(13);
            }
        }
        found
    }

    /// The ids wanted for one row.
    fn wanted(&self, slice: &Slice, row: Asked) -> Result<BTreeSet<u32>, u64> {
        let mut walk = self.walk(Some(BTreeSet::new()));
        walk.initial(&self.tree.nodes[row.node].roots, self.request)?;
        while !walk.rows.is_empty() {
            for Asked { entity, node } in std::mem::take(&mut walk.rows) {
                if self.tree.nodes[node].mark {
                    walk.take(entity)?;
                }
                if let Some(loaded) = slice.get(&entity) {
                    walk.fields(node, &loaded.fields)?;
                }
            }
        }
        Ok(walk.ids.unwrap_or_default())
    }

    /// One ancestors request a row ever asked, in asking order.
    pub fn requests(&self, load: &Load) -> Result<Vec<BTreeSet<u32>>, Refused> {
        let wanted = |(place, row): (usize, &Asked)| self.wanted(&load.slice, *row).map_err(|n| Refused::At(n, place as u64));
        load.asked.iter().enumerate().map(wanted).collect()
    }
}

/// Each answered id becomes a parent of the entity if it is loaded.
pub fn with_ancestors<'a>(slice: &Slice, entities: impl Iterator<Item = u32>, sets: impl Iterator<Item = &'a BTreeSet<u32>>) -> Slice {
    let mut slice = slice.clone();
    for (entity, ids) in entities.zip(sets) {
        if let Some(loaded) = slice.get_mut(&entity) {
            loaded.parents.extend(ids);
        }
    }
    slice
}

// ---------------------------------------------------------------- states

/// What a call answers: its number, and the three values beside it.
#[derive(Clone, Copy, Debug, PartialEq, Eq)]
pub struct Told {
    pub number: u64,
    pub values: [u64; 3],
}

fn done(count: usize, batches: u64, rows: usize) -> Told {
    Told { number: 0, values: [count as u64, batches, rows as u64] }
}

fn refused(number: u64) -> Told {
    Told { number, values: [0; 3] }
}

impl From<Refused> for Told {
    fn from(refused: Refused) -> Told {
        match refused {
            Refused::At(number, place) => Told { number, values: [place, 0, 0] },
            Refused::Counts(expected, got) => Told { number: 12, values: [0, expected, got] },
        }
    }
}

const ENTRY: usize = 9;
const CONTEXT: usize = 4_106;
const ANSWERS: usize = 12_298;
const SETS: usize = 24_586;

/// A lawful state, read.
struct Transcript {
    request: Request,
    tree: Tree,
    load: Load,
    answers: usize,
    /// how many words they take
    words: usize,
    sets: Vec<BTreeSet<u32>>,
}

impl Transcript {
    fn loader(&self) -> Loader<'_> {
        Loader { tree: &self.tree, request: &self.request, rule: Rule::Document }
    }
}

fn is_request(request: [u64; 3]) -> bool {
    request[0] < 1 << 48 && request[1] < 65_536 && request[2] < 65_536
}

/// The nodes' rows of the entry in a state.
fn entry_in(state: &[u64]) -> Option<&[u64]> {
    let (first, count) = (state[4], state[5] as usize);
    if state[5] == 0 {
        return (first == 0).then_some(&[]);
    }
    let rows = state[ENTRY..CONTEXT].get(..count)?;
    let lone = rows.iter().filter(|w| **w % 32 == 0).count() == 1;
    let good = lawful(Kind::Manifest, rows) && lone && rows[0] / 64 == state[1] && first.checked_add(count as u64 - 1).is_some_and(|n| n <= 4_096);
    good.then_some(&rows[1..])
}

fn read_state(state: &[u64]) -> Option<Transcript> {
    let request = [state[1], state[2], state[3]];
    if !(1..=5).contains(&state[0]) || !is_request(request) || state[7] > 4_096 || state[8] > 4_096 {
        return None;
    }
    let tree = Tree::of(entry_in(state)?);
    let context = fields_of(state[CONTEXT..ANSWERS].get(..usize::try_from(state[6]).ok()?)?)?;
    let (answers, words) = answers_of(state[7], &state[ANSWERS..SETS]).ok()?;
    let (sets, _) = sets_of(state[8], &state[SETS..STATE_WORDS]).ok()?;
    let request = Request { kind: request[0], principal: request[1] as u32, resource: request[2] as u32, context };
    let loader = Loader { tree: &tree, request: &request, rule: Rule::Document };
    let (mut load, mut left) = (loader.begin().ok()?, answers.as_slice());
    while !left.is_empty() {
        let batch = load.waiting.len();
        if batch == 0 || left.len() < batch {
            return None;
        }
        load = loader.answered(&load, &left[..batch]).ok()?;
        left = &left[batch..];
    }
    let fits = match state[0] {
        1..=2 => !load.waiting.is_empty() && sets.is_empty(),
        3..=4 => load.waiting.is_empty() && sets.is_empty(),
        _ => load.waiting.is_empty() && sets.len() <= load.asked.len() && loader.summed(load.sum, sets.iter().map(|s| s.len())).is_ok(),
    };
    fits.then(|| Transcript { answers: answers.len(), request, tree, load, words, sets })
}

/// A lent state at a turn: 31, 1, 16. `more`: the other buffer is long enough.
fn at_turn(state: &[u64], more: bool, turn: u64) -> Result<Transcript, Told> {
    if state.len() < STATE_WORDS || !more {
        return Err(refused(31));
    }
    let t = read_state(state).ok_or(refused(1))?;
    if state[0] == turn { Ok(t) } else { Err(refused(16)) }
}

fn put(out: &mut [u64], at: usize, words: &[u64]) {
    out[at..at + words.len()].copy_from_slice(words);
}

fn either(told: Result<Told, Told>) -> Told {
    told.unwrap_or_else(|told| told)
}

// ---------------------------------------------------------------- calls

/// The bound on the trips of a load (K10): beside 0 the ancestors calls, the batches and the rows.
pub fn trip_bound(manifest: &[u64], request: u64) -> Told {
    if manifest.len() < Kind::Manifest.words() {
        return refused(31);
    }
    let Some(rows) = rows_in(manifest).filter(|rows| lawful(Kind::Manifest, rows) && is_request([request, 0, 0])) else { return refused(1) };
    let Some(at) = rows.iter().position(|w| *w == entry_word(request)) else { return done(0, 0, 0) };
    let nodes: Vec<u64> = rows[at + 1..].iter().copied().take_while(|w| w % 32 != 0).collect();
    let (nodes, batches) = Tree::of(&nodes).primary();
    done(1, batches, nodes as usize)
}

pub fn begin(manifest: &[u64], request: [u64; 3], context: &[u64], state: &mut [u64]) -> Told {
    if manifest.len() < Kind::Manifest.words() || context.len() < CONTEXT_WORDS || state.len() < STATE_WORDS {
        return refused(31);
    }
    let Some(rows) = rows_in(manifest).filter(|rows| lawful(Kind::Manifest, rows)) else { return refused(1) };
    let Some(fields) = rows_in(context).filter(|rows| rows.len() < CONTEXT_WORDS && is_request(request)).and_then(fields_of) else { return refused(1) };
    let at = rows.iter().position(|w| *w == entry_word(request[0]));
    let entry = at.map_or(&[][..], |at| {
        let more = rows[at + 1..].iter().position(|w| w % 32 == 0).unwrap_or(rows.len() - at - 1);
        &rows[at..at + 1 + more]
    });
    let first = at.map_or(0, |at| rows[..at].iter().filter(|w| **w % 32 != 0).count());
    let tree = Tree::of(entry.get(1..).unwrap_or(&[]));
    let asked = Request { kind: request[0], principal: request[1] as u32, resource: request[2] as u32, context: fields };
    let load = match (Loader { tree: &tree, request: &asked, rule: Rule::Document }).begin() {
        Ok(load) => load,
        Err(refused) => return refused.into(),
    };
    let turn = if at.is_none() { 5 } else { turn_for(&load) };
    put(state, 0, &[turn, request[0], request[1], request[2], first as u64, entry.len() as u64, context[0], 0, 0]);
    put(state, ENTRY, entry);
    put(state, CONTEXT, &context[1..=context[0] as usize]);
    done(entry.len().saturating_sub(1), 0, 0)
}

fn turn_for(load: &Load) -> u64 {
    if load.waiting.is_empty() { 3 } else { 1 }
}

pub fn batch(state: &mut [u64], out: &mut [u64]) -> Told {
    either(at_turn(state, out.len() >= BATCH_WORDS, 1).map(|t| {
        let rows: Vec<u64> = t.load.waiting.iter().map(|r| r.entity as u64 + 65_536 * (r.node as u64 + state[4])).collect();
        put(out, 0, &rows);
        state[0] = 2;
        done(rows.len(), t.load.batches + 1, t.load.asked.len() + rows.len())
    }))
}

pub fn answer(state: &mut [u64], answers: &[u64]) -> Told {
    either(at_turn(state, answers.len() >= LENT_WORDS, 2).and_then(|t| {
        let (given, size) = answers_of(answers[0], &answers[1..LENT_WORDS]).map_err(|row| Refused::At(1, row))?;
        let load = t.loader().answered(&t.load, &given)?;
        state[0] = turn_for(&load);
        state[7] = (t.answers + given.len()) as u64;
        put(state, ANSWERS + t.words, &answers[1..=size]);
        Ok(done(load.waiting.len(), load.batches, load.asked.len()))
    }))
}

pub fn ancestors(state: &mut [u64], out: &mut [u64]) -> Told {
    either(at_turn(state, out.len() >= REQUESTS_WORDS, 3).and_then(|t| {
        let wanted = t.loader().requests(&t.load)?;
        let mut words = vec![wanted.len() as u64];
        words.extend(t.load.asked.iter().zip(&wanted).map(|(row, ids)| row.entity as u64 + 65_536 * ids.len() as u64));
        words.extend(wanted.iter().flatten().map(|id| *id as u64));
        put(out, 0, &words);
        state[0] = 4;
        Ok(done(wanted.len(), t.load.batches, t.load.asked.len()))
    }))
}

pub fn ancestors_answer(state: &mut [u64], sets: &[u64]) -> Told {
    either(at_turn(state, sets.len() >= LENT_WORDS, 4).and_then(|t| {
        let (given, _) = sets_of(sets[0], &sets[1..LENT_WORDS]).map_err(|set| Refused::At(1, set))?;
        t.loader().summed(t.load.sum, given.iter().map(|s| s.len()))?;
        let mut words = Vec::new();
        let kept = given.len().min(t.load.asked.len());
        given[..kept].iter().for_each(|ids| put_set(ids, &mut words));
        state[0] = 5;
        state[8] = kept as u64;
        put(state, SETS, &words);
        Ok(done(kept, t.load.batches, t.load.asked.len()))
    }))
}

pub fn result(state: &[u64], out: &mut [u64]) -> Told {
    either(at_turn(state, out.len() >= SLICE_WORDS, 5).map(|t| {
        let slice = with_ancestors(&t.load.slice, t.load.asked.iter().map(|r| r.entity), t.sets.iter());
        put(out, 0, &slice_words(&slice));
        done(slice.len(), t.load.batches, t.load.asked.len())
    }))
}

pub fn slice_words(slice: &Slice) -> Vec<u64> {
    let mut words = vec![slice.len() as u64];
    for (id, Entity { parents, fields }) in slice {
        let rows = rows_of_fields(fields);
        words.push(*id as u64 + ((parents.len() as u64) << 16) + ((rows.len() as u64) << 32));
        words.extend(parents.iter().map(|p| *p as u64));
        words.extend(rows);
    }
    words
}
