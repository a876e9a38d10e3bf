//! Typing and loading by lent buffers, on either side. The driver lends the same words to both, noise around them, and compares all of them.

use crate::model::*;
use crate::plain_load::{self, Told};
use crate::side::Plain;

pub trait Loads {
    fn to_typed(&mut self, schema: &[u64], manifest: &[u64], out: &mut [u64]) -> Answer<()>;
    fn trip_bound(&mut self, manifest: &[u64], request: u64) -> Told;
    fn load_begin(&mut self, manifest: &[u64], request: [u64; 3], context: &[u64], state: &mut [u64]) -> Told;
    fn load_batch(&mut self, state: &mut [u64], out: &mut [u64]) -> Told;
    fn load_answer(&mut self, state: &mut [u64], answers: &[u64]) -> Told;
    fn load_ancestors(&mut self, state: &mut [u64], out: &mut [u64]) -> Told;
    fn load_ancestors_answer(&mut self, state: &mut [u64], sets: &[u64]) -> Told;
    fn load_result(&mut self, state: &[u64], out: &mut [u64]) -> Told;
}

impl Loads for Plain {
    fn to_typed(&mut self, schema: &[u64], manifest: &[u64], out: &mut [u64]) -> Answer<()> {
        self.typer.call(schema, manifest, out)
    }

    fn trip_bound(&mut self, manifest: &[u64], request: u64) -> Told {
        plain_load::trip_bound(manifest, request)
    }

    fn load_begin(&mut self, manifest: &[u64], request: [u64; 3], context: &[u64], state: &mut [u64]) -> Told {
        plain_load::begin(manifest, request, context, state)
    }

    fn load_batch(&mut self, state: &mut [u64], out: &mut [u64]) -> Told {
        plain_load::batch(state, out)
    }

    fn load_answer(&mut self, state: &mut [u64], answers: &[u64]) -> Told {
        plain_load::answer(state, answers)
    }

    fn load_ancestors(&mut self, state: &mut [u64], out: &mut [u64]) -> Told {
        plain_load::ancestors(state, out)
    }

    fn load_ancestors_answer(&mut self, state: &mut [u64], sets: &[u64]) -> Told {
        plain_load::ancestors_answer(state, sets)
    }

    fn load_result(&mut self, state: &[u64], out: &mut [u64]) -> Told {
        plain_load::result(state, out)
    }
}

// ---------------------------------------------------------------- buffers

const GUARD: usize = 16;

fn noise(n: usize, salt: u64) -> u64 {
    (n as u64 + 1).wrapping_mul(0x9e37_79b9_7f4a_7c15) ^ salt
}

/// One buffer as it is lent to the reference and to the other side: the same words, and the same noise before and behind them.
pub struct Twin {
    words: usize,
    /// what is lent of it: from GUARD on
    pub len: usize,
    all: [Vec<u64>; 2],
    salt: u64,
}

impl Twin {
    /// With room for a few words more than the form asks for.
    pub fn new(words: usize) -> Self {
        let all: Vec<u64> = (0..words + 3 * GUARD).map(|n| noise(n, 0)).collect();
        Twin { words, len: words, all: [all.clone(), all], salt: 0 }
    }

    /// Noise again in the first words, and these at the start.
    pub fn put(&mut self, content: &[u64], noisy: usize) {
        self.salt = self.salt.wrapping_add(0x1234_5678_9abc_def1);
        self.len = self.words;
        for all in &mut self.all {
            for (n, word) in all[GUARD..GUARD + noisy.max(content.len())].iter_mut().enumerate() {
                *word = noise(n, self.salt);
            }
            all[GUARD..GUARD + content.len()].copy_from_slice(content);
        }
    }

    /// Lent with so many words more or less than the form asks for.
    pub fn other_length(&mut self, by: isize) {
        self.len = self.words.saturating_add_signed(by).min(self.words + GUARD);
    }

    pub fn reference(&self) -> &[u64] {
        &self.all[0][GUARD..GUARD + self.len]
    }

    pub fn reference_mut(&mut self) -> &mut [u64] {
        &mut self.all[0][GUARD..GUARD + self.len]
    }

    pub fn other(&self) -> &[u64] {
        &self.all[1][GUARD..GUARD + self.len]
    }

    pub fn other_mut(&mut self) -> &mut [u64] {
        &mut self.all[1][GUARD..GUARD + self.len]
    }

    /// A word of both.
    pub fn set(&mut self, at: usize, word: u64) {
        self.all.iter_mut().for_each(|all| all[GUARD + at] = word);
    }

    /// Whether both still have the same words, those beside the buffer too; afterwards they have.
    pub fn same(&mut self) -> Option<String> {
        if self.all[0] == self.all[1] {
            return None;
        }
        let at = self.all[0].iter().zip(&self.all[1]).position(|(a, b)| a != b).unwrap();
        let told = format!("word {} is {:#x}, expected {:#x}", at as isize - GUARD as isize, self.all[1][at], self.all[0][at]);
        let [reference, other] = &mut self.all;
        other.copy_from_slice(reference);
        Some(told)
    }
}
