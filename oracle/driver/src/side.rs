//! The side that is held against the published Rust: our library, or the plain one.

use crate::load_side::Loads;
use crate::model::*;
use crate::plain::{self, Types};
use crate::plain_typing::Typer;
use crate::policies;

/// A call with its input at hand, to be timed. It gives back the refusal's number, 0 where there is none.
pub type Ready<'a> = Box<dyn FnMut() -> u64 + 'a>;

pub trait Side: Loads {
    fn name(&self) -> &'static str;
    fn empty(&mut self) -> Answer<Vec<u64>>;
    fn add(&mut self, manifest: &[u64], contribution: &[u64]) -> Answer<Vec<u64>>;
    fn add_policy(&mut self, schema: &[u64], manifest: &[u64], text: &[u8]) -> Answer<Vec<u64>>;
    fn union(&mut self, kind: Kind, a: &[u64], b: &[u64]) -> Answer<Vec<u64>>;
    fn has(&mut self, kind: Kind, state: &[u64], place: &[u64]) -> Answer<u64>;
    fn read(&mut self, kind: Kind, text: &[u8]) -> Answer<Vec<u64>>;
    fn write(&mut self, kind: Kind, state: &[u64]) -> Answer<Vec<u8>>;
    fn read_schema(&mut self, text: &[u8]) -> Answer<Vec<u64>>;
    fn analyse(&mut self, schema: &[u64], request: u64, text: &[u8]) -> Answer<Vec<u64>>;
    /// What was wrong with lent buffers since the last time this was asked.
    fn faults(&mut self) -> Vec<String>;
    /// What only a library can be asked: buffers that are too short or longer than needed. How many calls were made.
    fn lengths(&mut self) -> u64;

    fn ready_union<'a>(&'a mut self, a: &'a [u64], b: &'a [u64]) -> Ready<'a>;
    fn ready_build<'a>(&'a mut self, list: &'a [Vec<u64>]) -> Ready<'a>;
    /// Policy texts added to an empty manifest, one call each.
    fn ready_policies<'a>(&'a mut self, schema: &'a [u64], texts: &'a [Vec<u8>]) -> Ready<'a>;
    fn ready_read<'a>(&'a mut self, text: &'a [u8]) -> Ready<'a>;
    fn ready_write<'a>(&'a mut self, rows: &'a [u64]) -> Ready<'a>;
    fn ready_analyse<'a>(&'a mut self, schema: &'a [u64], request: u64, texts: &'a [Vec<u8>]) -> Ready<'a>;
}

fn number<T>(answer: Answer<T>) -> u64 {
    answer.map_or_else(|r| r.number, |_| 0)
}

#[derive(Default)]
pub struct Plain {
    /// the last schema asked with, and its types where it is lawful
    schema: Option<(Vec<u64>, Option<Types>)>,
    pub typer: Typer,
}

impl Plain {
    fn types(&mut self, schema: &[u64]) -> Option<&Types> {
        if self.schema.as_ref().is_none_or(|(s, _)| s != schema) {
            self.schema = Some((schema.to_vec(), plain::lawful_schema(schema).then(|| Types::of(schema))));
        }
        self.schema.as_ref().and_then(|(_, types)| types.as_ref())
    }
}

impl Side for Plain {
    fn name(&self) -> &'static str {
        "plain"
    }

    fn empty(&mut self) -> Answer<Vec<u64>> {
        Ok(Vec::new())
    }

    fn add(&mut self, manifest: &[u64], contribution: &[u64]) -> Answer<Vec<u64>> {
        plain::add(manifest, contribution)
    }

    fn add_policy(&mut self, schema: &[u64], manifest: &[u64], text: &[u8]) -> Answer<Vec<u64>> {
        match self.types(schema) {
            Some(types) => policies::plain_add_policy(types, manifest, text),
            None => refuse(1, 0),
        }
    }

    fn union(&mut self, kind: Kind, a: &[u64], b: &[u64]) -> Answer<Vec<u64>> {
        plain::union(kind, a, b)
    }

    fn has(&mut self, kind: Kind, state: &[u64], place: &[u64]) -> Answer<u64> {
        plain::has(kind, state, place)
    }

    fn read(&mut self, kind: Kind, text: &[u8]) -> Answer<Vec<u64>> {
        plain::read(kind, text)
    }

    fn write(&mut self, kind: Kind, state: &[u64]) -> Answer<Vec<u8>> {
        if !plain::lawful(kind, state) {
            return refuse(1, 0);
        }
        let mut out = Vec::new();
        plain::write(state, &mut out);
        Ok(out)
    }

    fn read_schema(&mut self, text: &[u8]) -> Answer<Vec<u64>> {
        plain::read_schema(text)
    }

    fn analyse(&mut self, schema: &[u64], request: u64, text: &[u8]) -> Answer<Vec<u64>> {
        match self.types(schema) {
            Some(types) => plain::analyse(types, request, text),
            None => refuse(1, 0),
        }
    }

    fn faults(&mut self) -> Vec<String> {
        Vec::new()
    }

    fn lengths(&mut self) -> u64 {
        0
    }

    fn ready_union<'a>(&'a mut self, a: &'a [u64], b: &'a [u64]) -> Ready<'a> {
        Box::new(move || number(plain::union(Kind::Manifest, a, b)))
    }

    fn ready_build<'a>(&'a mut self, list: &'a [Vec<u64>]) -> Ready<'a> {
        Box::new(move || {
            let mut m = Vec::new();
            for c in list {
                match plain::add(&m, c) {
                    Ok(next) => m = next,
                    Err(r) => return r.number,
                }
            }
            0
        })
    }

    fn ready_policies<'a>(&'a mut self, schema: &'a [u64], texts: &'a [Vec<u8>]) -> Ready<'a> {
        let types = Types::of(schema);
        Box::new(move || {
            let mut m = Vec::new();
            for text in texts {
                match policies::plain_add_policy(&types, &m, text) {
                    Ok(next) => m = next,
                    Err(r) => return r.number,
                }
            }
            0
        })
    }

    fn ready_read<'a>(&'a mut self, text: &'a [u8]) -> Ready<'a> {
        Box::new(move || number(plain::read(Kind::Manifest, text)))
    }

    fn ready_write<'a>(&'a mut self, rows: &'a [u64]) -> Ready<'a> {
        let mut out = Vec::with_capacity(Kind::Manifest.bytes());
        Box::new(move || {
            out.clear();
            plain::write(rows, &mut out);
            0
        })
    }

    fn ready_analyse<'a>(&'a mut self, schema: &'a [u64], request: u64, texts: &'a [Vec<u8>]) -> Ready<'a> {
        let types = Types::of(schema);
        Box::new(move || texts.iter().map(|t| number(plain::analyse(&types, request, t))).max().unwrap_or(0))
    }
}
