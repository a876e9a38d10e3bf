//! Typing from document 01 alone: a recursion over tries, which notes every refusal that it meets.

use crate::model::*;
use crate::plain::{lawful, lawful_schema, Types};
use std::collections::BTreeMap;

/// A lawful schema, its lines by what they name.
pub struct Lines {
    pub types: Types,
    /// of an entity type its fields and their types
    pub entities: BTreeMap<u32, Vec<(u32, usize)>>,
    pub literals: BTreeMap<u32, usize>,
    pub contexts: BTreeMap<u32, usize>,
}

pub const OF_PRINCIPAL: usize = 1_024;
pub const OF_RESOURCE: usize = 1_025;

/// What a type says of a node's fields.
enum Shape<'a> {
    Fields(&'a [(u32, usize)]),
    Leaf,
    NotStrict,
}

impl Lines {
    pub fn of(items: &[u64]) -> Self {
        let mut lines = Lines { types: Types::of(items), entities: BTreeMap::new(), literals: BTreeMap::new(), contexts: BTreeMap::new() };
        let mut open = None;
        for w in items {
            let (tag, value, key) = (w % 16, (w / 16 % (1 << 36)) as usize, (w >> 40) as u32);
            match tag {
                0..=10 => open = None,
                11 => {
                    open = Some(key);
                    lines.entities.insert(key, Vec::new());
                }
                12 => open.into_iter().for_each(|name| lines.entities.get_mut(&name).unwrap().push((key, value))),
                13 => {
                    lines.literals.insert(key, value);
                }
                _ => {
                    lines.contexts.insert(key, value);
                }
            }
        }
        lines
    }

    fn root_type(&self, request: u64, step: Step) -> Option<usize> {
        let action = (request >> 16) as u32 % 65_536;
        match step / 65_536 {
            1 => Some(OF_PRINCIPAL),
            2 => self.literals.get(&action).copied(),
            3 => Some(OF_RESOURCE),
            4 => self.contexts.get(&action).copied(),
            _ => self.literals.get(&(step % 65_536)).copied(),
        }
    }

    fn entity(&self, name: u32) -> Shape<'_> {
        self.entities.get(&name).map_or(Shape::NotStrict, |fields| Shape::Fields(fields))
    }

    fn shape(&self, request: u64, ty: usize) -> Shape<'_> {
        match ty {
            OF_PRINCIPAL => self.entity((request >> 32) as u32 % 65_536),
            OF_RESOURCE => self.entity(request as u32 % 65_536),
            _ => match self.types.kind[ty] {
                0..=6 => Shape::Leaf,
                7..=8 => Shape::Fields(&self.types.attrs[ty]),
                // several names are a number past all ids
                9 => self.entity(self.types.value[ty]),
                _ => Shape::NotStrict,
            },
        }
    }

    /// The fields of a type, none for one that has none.
    pub fn fields(&self, request: u64, ty: usize) -> &[(u32, usize)] {
        if let Shape::Fields(fields) = self.shape(request, ty) { fields } else { &[] }
    }

    /// The type that a step leads to from a node of type `above`, which a root does not look at.
    pub fn step_type(&self, request: u64, above: usize, step: Step) -> Option<usize> {
        if step >= 65_536 {
            return self.root_type(request, step);
        }
        self.fields(request, above).iter().find(|(f, _)| *f == step).map(|(_, ty)| *ty)
    }

    /// Whether a node may have a type: it is strict.
    pub fn is_typed(&self, request: u64, ty: usize) -> bool {
        !matches!(self.shape(request, ty), Shape::NotStrict)
    }

    pub fn is_entity_set(&self, ty: usize) -> bool {
        ty < OF_PRINCIPAL && self.types.kind[ty] == 6 && self.is_entity(self.types.value[ty] as usize)
    }

    /// Whether nodes of a type are entities.
    pub fn is_entity(&self, ty: usize) -> bool {
        ty >= OF_PRINCIPAL || self.types.kind[ty] >= 8
    }
}

struct Typing<'a> {
    lines: &'a Lines,
    request: u64,
    place: usize,
    rows: Vec<u64>,
    refusals: Vec<Refusal>,
}

impl Typing<'_> {
    /// The nodes below one whose type has these fields.
    fn nodes(&mut self, trie: &Trie, depth: usize, fields: &[(u32, usize)]) {
        for (step, node) in trie {
            let place = self.place;
            self.place += 1;
            let ty = if *step < 65_536 {
                fields.iter().find(|(f, _)| f == step).map(|(_, ty)| *ty)
            } else {
                let ty = self.lines.root_type(self.request, *step);
                if ty.is_none() {
                    self.refusals.push(Refusal { number: 9, place: place as u64 });
                }
                ty
            };
            let wrong = |number| Err(Refusal { number, place: place as u64 });
            let below = ty.map(|ty| match self.lines.shape(self.request, ty) {
                Shape::NotStrict => wrong(10),
                Shape::Leaf if node.below.range(..65_536).next().is_some() => wrong(11),
                Shape::Leaf => Ok((ty, &[][..])),
                Shape::Fields(fields) => Ok((ty, fields)),
            });
            match below {
                Some(Ok((ty, fields))) => {
                    self.rows.push(node_word(depth, *step, node.mark) + ((ty as u64 + 1) << 25));
                    self.nodes(&node.below, depth + 1, fields);
                    continue;
                }
                Some(Err(refusal)) => self.refusals.push(refusal),
                None => (),
            }
            self.place += count(&node.below);
        }
    }
}

/// A manifest typed, or all refusals that are met in listing order; below a refused node nothing is looked at.
pub fn typed(lines: &Lines, manifest: &Manifest) -> Result<Vec<u64>, Vec<Refusal>> {
    let mut t = Typing { lines, request: 0, place: 0, rows: Vec::new(), refusals: Vec::new() };
    for (request, trie) in manifest {
        t.request = *request;
        t.rows.push(entry_word(*request));
        t.nodes(trie, 1, &[]);
    }
    if t.refusals.is_empty() { Ok(t.rows) } else { Err(t.refusals) }
}

/// The rows of a lent state, as far as its count can be true.
pub fn rows_in(state: &[u64]) -> Option<&[u64]> {
    usize::try_from(state[0]).ok().and_then(|n| state.get(1..n.checked_add(1)?))
}

#[derive(Default)]
pub struct Typer {
    /// the last schema asked with, and its lines where it is lawful
    schema: Option<(Vec<u64>, Option<Lines>)>,
}

impl Typer {
    pub fn lines(&mut self, items: &[u64]) -> Option<&Lines> {
        if self.schema.as_ref().is_none_or(|(s, _)| s != items) {
            self.schema = Some((items.to_vec(), lawful_schema(items).then(|| Lines::of(items))));
        }
        self.schema.as_ref().and_then(|(_, lines)| lines.as_ref())
    }

    /// The call: 31, 1 at 0, then by node; what stays is written to `out`.
    pub fn call(&mut self, schema: &[u64], manifest: &[u64], out: &mut [u64]) -> Answer<()> {
        if schema.len() < SCHEMA_WORDS || manifest.len() < Kind::Manifest.words() || out.len() < Kind::Manifest.words() {
            return refuse(31, 0);
        }
        let Some(lines) = rows_in(schema).filter(|items| items.len() < SCHEMA_WORDS).and_then(|items| self.lines(items)) else { return refuse(1, 0) };
        let Some(rows) = rows_in(manifest).filter(|rows| lawful(Kind::Manifest, rows)) else { return refuse(1, 0) };
        let rows = typed(lines, &manifest_of(rows)).map_err(|refusals| refusals[0])?;
        out[0] = rows.len() as u64;
        out[1..=rows.len()].copy_from_slice(&rows);
        Ok(())
    }
}
