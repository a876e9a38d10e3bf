//! A call of typing or loading made on the reference and on the other side with the same lent words, and everything compared.

use crate::load_side::{Loads, Twin};
use crate::model::*;
use crate::plain_load::*;
use crate::side::{Plain, Side};

#[derive(Clone, Copy, Debug, PartialEq, Eq)]
pub enum Call {
    Type,
    Bound(u64),
    Begin([u64; 3]),
    Batch,
    Answer,
    Ancestors,
    Sets,
    Result,
}

/// The buffers of all calls.
pub struct Lends {
    pub plain: Plain,
    pub schema: Twin,
    pub manifest: Twin,
    pub typed: Twin,
    pub context: Twin,
    pub state: Twin,
    pub batch: Twin,
    /// answers, or sets of ancestor ids
    pub lent: Twin,
    pub requests: Twin,
    pub slice: Twin,
    schema_items: Vec<u64>,
}

fn told_of(answer: Answer<()>) -> Told {
    match answer {
        Ok(()) => Told { number: 0, values: [0; 3] },
        Err(Refusal { number, place }) => Told { number, values: [place, 0, 0] },
    }
}

/// A count, and the words behind it.
pub fn counted(words: &[u64]) -> Vec<u64> {
    [words.len() as u64].into_iter().chain(words.iter().copied()).collect()
}

impl Lends {
    pub fn new() -> Self {
        Lends {
            plain: Plain::default(),
            schema: Twin::new(SCHEMA_WORDS),
            manifest: Twin::new(Kind::Manifest.words()),
            typed: Twin::new(Kind::Manifest.words()),
            context: Twin::new(CONTEXT_WORDS),
            state: Twin::new(STATE_WORDS),
            batch: Twin::new(BATCH_WORDS),
            lent: Twin::new(LENT_WORDS),
            requests: Twin::new(REQUESTS_WORDS),
            slice: Twin::new(SLICE_WORDS),
            schema_items: Vec::new(),
        }
    }

    pub fn put_schema(&mut self, items: &[u64]) {
        if self.schema_items != items || self.schema.len != SCHEMA_WORDS {
            self.schema.put(&counted(items), 4_096);
            self.schema_items = items.to_vec();
        }
    }

    /// The schema's words are no longer those that were put.
    pub fn spoil_schema(&mut self) {
        self.schema_items = vec![u64::MAX];
    }

    /// The call on both sides; what is written must be the same to the last word, and nothing else changed.
    pub fn call(&mut self, side: &mut dyn Side, call: Call) -> Result<Told, String> {
        let Lends { plain, schema, manifest, typed, context, state, batch, lent, requests, slice, .. } = self;
        let (expected, got): (Told, Told) = match call {
            Call::Type => (
                told_of(plain.to_typed(schema.reference(), manifest.reference(), typed.reference_mut())),
                told_of(side.to_typed(schema.other(), manifest.other(), typed.other_mut())),
            ),
            Call::Bound(r) => (plain.trip_bound(manifest.reference(), r), side.trip_bound(manifest.other(), r)),
            Call::Begin(r) => (
                plain.load_begin(manifest.reference(), r, context.reference(), state.reference_mut()),
                side.load_begin(manifest.other(), r, context.other(), state.other_mut()),
            ),
            Call::Batch => (plain.load_batch(state.reference_mut(), batch.reference_mut()), side.load_batch(state.other_mut(), batch.other_mut())),
            Call::Answer => (plain.load_answer(state.reference_mut(), lent.reference()), side.load_answer(state.other_mut(), lent.other())),
            Call::Ancestors => {
                (plain.load_ancestors(state.reference_mut(), requests.reference_mut()), side.load_ancestors(state.other_mut(), requests.other_mut()))
            }
            Call::Sets => {
                (plain.load_ancestors_answer(state.reference_mut(), lent.reference()), side.load_ancestors_answer(state.other_mut(), lent.other()))
            }
            Call::Result => (plain.load_result(state.reference(), slice.reference_mut()), side.load_result(state.other(), slice.other_mut())),
        };
        let mut wrong = Vec::new();
        if expected != got {
            wrong.push(format!("expected {expected:?}, got {got:?}"));
        }
        let touched: Vec<(&str, &mut Twin)> = match call {
            Call::Type => vec![("schema", schema), ("manifest", manifest), ("typed manifest", typed)],
            Call::Bound(_) => vec![("manifest", manifest)],
            Call::Begin(_) => vec![("manifest", manifest), ("context", context), ("state", state)],
            Call::Batch => vec![("state", state), ("batch rows", batch)],
            Call::Answer => vec![("state", state), ("answers", lent)],
            Call::Ancestors => vec![("state", state), ("requests", requests)],
            Call::Sets => vec![("state", state), ("sets", lent)],
            Call::Result => vec![("state", state), ("slice", slice)],
        };
        for (name, twin) in touched {
            wrong.extend(twin.same().map(|told| format!("{name}: {told}")));
        }
        if wrong.is_empty() { Ok(expected) } else { Err(format!("{call:?}: {}", wrong.join("; "))) }
    }
}
