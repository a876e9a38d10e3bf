//! A manifest as a tree of sorted maps, and as the words of docs/FORMS.md.

use std::collections::BTreeMap;

/// `kind * 65,536 + id`, kinds f p a r c e: the order of numbers is the order of siblings.
pub type Step = u32;
pub const F: u32 = 0;
pub const E: u32 = 5;
pub const LETTERS: &[u8; 6] = b"fparce";

pub fn step(kind: u32, id: u32) -> Step {
    kind * 65_536 + id
}

/// Below a node both its children (fields) and its ancestors trie (roots).
#[derive(Clone, Debug, PartialEq, Eq, Default)]
pub struct Node {
    pub mark: bool,
    pub below: Trie,
}

pub type Trie = BTreeMap<Step, Node>;

/// By request type, one number.
pub type Manifest = BTreeMap<u64, Trie>;

pub fn request(principal: u64, action: u64, resource: u64) -> u64 {
    (principal * 65_536 + action) * 65_536 + resource
}

#[derive(Clone, Copy, Debug, PartialEq, Eq)]
pub enum Kind {
    Contribution,
    Manifest,
}

impl Kind {
    pub fn nodes(self) -> usize {
        if self == Kind::Contribution { 1_024 } else { 4_096 }
    }

    pub fn entries(self) -> usize {
        if self == Kind::Contribution { 1 } else { 64 }
    }

    /// The one length of a state, in words.
    pub fn words(self) -> usize {
        1 + self.entries() + self.nodes()
    }

    /// The one length of a text that is written.
    pub fn bytes(self) -> usize {
        20 * self.entries() + 15 * self.nodes()
    }
}

pub const SCHEMA_WORDS: usize = 142_337;
pub const STEPS: usize = 24;

#[derive(Clone, Copy, Debug, PartialEq, Eq, Hash)]
pub struct Refusal {
    pub number: u64,
    pub place: u64,
}

pub type Answer<T> = Result<T, Refusal>;

pub fn refuse<T>(number: u64, place: usize) -> Answer<T> {
    Err(Refusal { number, place: place as u64 })
}

// ---------------------------------------------------------------- rows

pub fn depth_of(word: u64) -> usize {
    (word % 32) as usize
}

pub fn step_of(word: u64) -> Step {
    (word / 64 % (1 << 19)) as Step
}

pub fn mark_of(word: u64) -> bool {
    word / 32 % 2 == 1
}

pub fn entry_word(request: u64) -> u64 {
    request * 64
}

pub fn node_word(depth: usize, step: Step, mark: bool) -> u64 {
    depth as u64 + 32 * mark as u64 + 64 * step as u64
}

fn put_rows(trie: &Trie, depth: usize, out: &mut Vec<u64>) {
    for (step, node) in trie {
        out.push(node_word(depth, *step, node.mark));
        put_rows(&node.below, depth + 1, out);
    }
}

pub fn rows(manifest: &Manifest) -> Vec<u64> {
    let mut out = Vec::new();
    for (request, trie) in manifest {
        out.push(entry_word(*request));
        put_rows(trie, 1, &mut out);
    }
    out
}

pub fn rows_of_trie(request: u64, trie: &Trie) -> Vec<u64> {
    let mut out = vec![entry_word(request)];
    put_rows(trie, 1, &mut out);
    out
}

/// The manifest of lawful rows.
pub fn manifest_of(rows: &[u64]) -> Manifest {
    fn take(rows: &[u64], at: &mut usize, depth: usize) -> Trie {
        let mut trie = Trie::new();
        while *at < rows.len() && depth_of(rows[*at]) == depth {
            let word = rows[*at];
            *at += 1;
            let below = take(rows, at, depth + 1);
            trie.insert(step_of(word), Node { mark: mark_of(word), below });
        }
        trie
    }
    let (mut out, mut at) = (Manifest::new(), 0);
    while at < rows.len() {
        let request = rows[at] / 64;
        at += 1;
        out.insert(request, take(rows, &mut at, 1));
    }
    out
}

// ---------------------------------------------------------------- measures and positions

pub fn count(trie: &Trie) -> usize {
    trie.values().map(|n| 1 + count(&n.below)).sum()
}

pub fn count_all(manifest: &Manifest) -> usize {
    manifest.values().map(count).sum()
}

pub fn positions(trie: &Trie) -> Vec<(Vec<Step>, bool)> {
    fn walk(trie: &Trie, at: &mut Vec<Step>, out: &mut Vec<(Vec<Step>, bool)>) {
        for (step, node) in trie {
            at.push(*step);
            out.push((at.clone(), node.mark));
            walk(&node.below, at, out);
            at.pop();
        }
    }
    let mut out = Vec::new();
    walk(trie, &mut Vec::new(), &mut out);
    out
}

/// The smallest trie with these positions.
pub fn closed<'a>(positions: impl IntoIterator<Item = &'a (Vec<Step>, bool)>) -> Trie {
    let mut trie = Trie::new();
    for (position, mark) in positions {
        insert(&mut trie, position, *mark);
    }
    trie
}

pub fn insert(trie: &mut Trie, position: &[Step], mark: bool) {
    if let Some((first, rest)) = position.split_first() {
        let node = trie.entry(*first).or_default();
        if rest.is_empty() {
            node.mark |= mark;
        } else {
            insert(&mut node.below, rest, mark);
        }
    }
}
