//! The run `loads`: whole loads, the published Rust against the other side. Both are held against one definition (plain_load.rs), which can
//! take document 01's rule or the Rust's; where these part, the load is counted.

use crate::gen::Rng;
use crate::lends::{counted, Call, Lends};
use crate::load_gen::{self, hash_of, Case, LoadSchema};
use crate::model::*;
use crate::plain_load::*;
use crate::plain_typing;
use crate::runs::{shown, shrunk, Run, Tally};
use crate::rust_loads::{self, Answers, Ended, Log};
use crate::side::Side;
use crate::values::*;
use crate::{rust, scripts};
use std::collections::{BTreeMap, BTreeSet};
use std::time::Instant;

// ---------------------------------------------------------------- what the definition says of a load

/// A load told by the definition: its batches and how it ends, with the load as it stood then.
pub struct Story {
    pub batches: Vec<Vec<Asked>>,
    pub load: Load,
    /// each batch's answers
    pub answers: Vec<Vec<Option<Entity>>>,
    pub requests: Vec<BTreeSet<u32>>,
    pub sets: Vec<BTreeSet<u32>>,
    pub end: Result<Slice, (Stage, Refused)>,
}

#[derive(Clone, Copy, Debug, PartialEq, Eq)]
pub enum Stage {
    Begin,
    Batch,
    Ancestors,
    Sets,
}

/// The entry of a request in a manifest's rows: the number of its first node, and its nodes' rows.
pub fn entry_of(rows: &[u64], kind: u64) -> Option<(usize, &[u64])> {
    let at = rows.iter().position(|w| *w == entry_word(kind))?;
    let first = rows[..at].iter().filter(|w| *w % 32 != 0).count();
    let rest = &rows[at + 1..];
    Some((first, &rest[..rest.iter().position(|w| w % 32 == 0).unwrap_or(rest.len())]))
}

pub fn rows_with_tries(rows: &[Asked], pruned: &[Node]) -> Vec<(u32, Node)> {
    rows.iter().map(|row| (row.entity, pruned[row.node].clone())).collect()
}

pub fn story(loader: &Loader, pruned: &[Node], plan: &dyn Answers) -> Story {
    let mut story =
        Story { batches: Vec::new(), load: Load::default(), answers: Vec::new(), requests: Vec::new(), sets: Vec::new(), end: Ok(Slice::new()) };
    story.end = tell(&mut story, loader, pruned, plan);
    story
}

fn tell(story: &mut Story, loader: &Loader, pruned: &[Node], plan: &dyn Answers) -> Result<Slice, (Stage, Refused)> {
    story.load = loader.begin().map_err(|r| (Stage::Begin, r))?;
    while !story.load.waiting.is_empty() {
        let answers = plan.batch(story.batches.len(), &rows_with_tries(&story.load.waiting, pruned));
        story.batches.push(story.load.waiting.clone());
        let next = loader.answered(&story.load, &answers);
        story.answers.push(answers);
        story.load = next.map_err(|r| (Stage::Batch, r))?;
    }
    story.requests = loader.requests(&story.load).map_err(|r| (Stage::Ancestors, r))?;
    let asked: Vec<(u32, BTreeSet<u32>)> = story.load.asked.iter().zip(&story.requests).map(|(row, ids)| (row.entity, ids.clone())).collect();
    story.sets = plan.sets(&asked);
    loader.summed(story.load.sum, story.sets.iter().map(|s| s.len())).map_err(|r| (Stage::Sets, r))?;
    Ok(with_ancestors(&story.load.slice, story.load.asked.iter().map(|row| row.entity), story.sets.iter()))
}

// ---------------------------------------------------------------- the Rust against the definition

fn multiset(rows: &[(u32, Node)]) -> Vec<(u32, u64)> {
    let mut keys: Vec<(u32, u64)> = rows.iter().map(|(e, node)| (*e, hash_of(node))).collect();
    keys.sort();
    keys
}

/// Answers as the plan's, but in one batch only those of some rows: the others are absent.
struct Cut<'a> {
    plan: &'a dyn Answers,
    batch: usize,
    kept: BTreeSet<(u32, u64)>,
}

impl Answers for Cut<'_> {
    fn batch(&self, number: usize, rows: &[(u32, Node)]) -> Vec<Option<Entity>> {
        let mut all = self.plan.batch(number, rows);
        if number == self.batch {
            all.iter_mut().zip(rows).filter(|(_, (e, node))| !self.kept.contains(&(*e, hash_of(node)))).for_each(|(answer, _)| *answer = None);
        }
        all
    }

    fn sets(&self, requests: &[(u32, BTreeSet<u32>)]) -> Vec<BTreeSet<u32>> {
        self.plan.sets(requests)
    }
}

/// The first row of a batch that the Rust refuses, by the Rust alone: the shortest front of the batch whose answers it refuses, the rest being
/// absent. None where two rows look alike to the store, or where a front leads to a 14 of an ancestors walk, which looks like the batch's own.
fn row_by_fronts(run: &RustRun, loader: &Loader, pruned: &[Node], batch: usize, rows: &[(u32, Node)]) -> Option<(u64, u64)> {
    let keys: Vec<(u32, u64)> = rows.iter().map(|(e, node)| (*e, hash_of(node))).collect();
    if keys.iter().collect::<BTreeSet<_>>().len() < keys.len() {
        return None;
    }
    let refused = |n: usize| {
        let cut = Cut { plan: run.plan, batch, kept: keys[..n].iter().copied().collect() };
        if matches!(story(loader, pruned, &cut).end, Err((Stage::Ancestors, _))) {
            return None;
        }
        Some(match rust_loads::load(run.typed, run.request, &cut) {
            (Ended::Number(number), log) if log.batches.len() == batch + 1 && !log.asked => number,
            _ => 0,
        })
    };
    let (mut fine, mut bad) = (0, rows.len());
    while bad - fine > 1 {
        let mid = (fine + bad) / 2;
        if refused(mid)? == 0 { fine = mid } else { bad = mid }
    }
    Some((refused(bad)?, bad as u64 - 1))
}

/// What a load of the Rust needs.
pub struct RustRun<'a> {
    pub typed: &'a published::entity_manifest::EntityManifest,
    pub request: &'a cedar_policy_core::ast::Request,
    pub plan: &'a dyn Answers,
}

/// The Rust's load against a story by its own rule. Whether a refusal's row was found by the Rust too.
pub fn rust_as_told(run: &RustRun, loader: &Loader, pruned: &[Node], told: &Story) -> Result<(Ended, Log, bool), String> {
    let (ended, log) = rust_loads::load(run.typed, run.request, run.plan);
    if log.batches.len() != told.batches.len() {
        return Err(format!("the Rust asks {} batches, expected {}; it ends {ended:?}", log.batches.len(), told.batches.len()));
    }
    for (number, (theirs, rows)) in log.batches.iter().zip(&told.batches).enumerate() {
        if multiset(theirs) != multiset(&rows_with_tries(rows, pruned)) {
            let of = |rows: &[(u32, Node)]| rows.iter().map(|(e, _)| *e).collect::<Vec<_>>();
            return Err(format!("batch {number}: the Rust asks for {:?}, expected {:?}", of(theirs), of(&rows_with_tries(rows, pruned))));
        }
    }
    let mut found = false;
    let fine = match (&told.end, &ended) {
        (Err((_, Refused::Counts(expected, got))), Ended::Counts(e, g)) => (expected, got) == (e, g),
        (Err((Stage::Batch, Refused::At(number, place))), Ended::Number(theirs)) => {
            let rows = rows_with_tries(&told.load.waiting, pruned);
            let first = row_by_fronts(run, loader, pruned, told.batches.len() - 1, &rows);
            found = first.is_some();
            loader.occurring(&told.load, &told.answers[told.answers.len() - 1]).contains(theirs) && first.is_none_or(|first| first == (*number, *place)) && !log.asked
        }
        (Err((Stage::Begin | Stage::Ancestors, Refused::At(number, _))), Ended::Number(theirs)) => number == theirs && !log.asked,
        (Ok(_), Ended::Slice(slice)) => {
            let sorted = |all: &[(u32, BTreeSet<u32>)]| {
                let mut all = all.to_vec();
                all.sort();
                all
            };
            let requests: Vec<_> = told.load.asked.iter().map(|row| row.entity).zip(told.requests.iter().cloned()).collect();
            if sorted(&requests) != sorted(&log.requests) || !log.asked {
                return Err(format!("the Rust's ancestors requests are {:?}, expected {requests:?}", log.requests));
            }
            // answers pair with requests in the Rust's own order
            *slice == with_ancestors(&told.load.slice, log.requests.iter().map(|(e, _)| *e), log.sets.iter())
        }
        _ => false,
    };
    if fine { Ok((ended, log, found)) } else { Err(format!("the Rust ends {ended:?}, expected {:?}", told.end)) }
}

// ---------------------------------------------------------------- the other side against the definition

/// What the run counts beside the answers.
#[derive(Default)]
pub struct Counts {
    batches: u64,
    rows: u64,
    merged: u64,
    ids: u64,
    most_batches: u64,
    most_rows: u64,
    trips: Bounded,
    by_rust: u64,
    rows_found: u64,
    by_document: BTreeMap<&'static str, u64>,
}

fn put_lent(lends: &mut Lends, words: Vec<u64>, count: usize) {
    let all: Vec<u64> = [count as u64].into_iter().chain(words).collect();
    lends.lent.put(&all[..all.len().min(LENT_WORDS)], 64);
}

pub fn put_answers(lends: &mut Lends, answers: &[Option<Entity>]) {
    let mut words = Vec::new();
    answers.iter().for_each(|a| put_answer(a.as_ref(), &mut words));
    put_lent(lends, words, answers.len());
}

pub fn put_sets(lends: &mut Lends, sets: &[BTreeSet<u32>]) {
    let mut words = Vec::new();
    sets.iter().for_each(|s| put_set(s, &mut words));
    put_lent(lends, words, sets.len());
}

/// A call out of turn now and then; both sides must refuse it.
fn out_of_turn(side: &mut dyn Side, lends: &mut Lends, rng: &mut Rng) -> Result<(), String> {
    if rng.percent(4) {
        let call = *rng.pick(&[Call::Batch, Call::Answer, Call::Ancestors, Call::Sets, Call::Result]);
        let turn = lends.state.reference()[0];
        if [Call::Batch, Call::Answer, Call::Ancestors, Call::Sets, Call::Result][turn as usize - 1] != call {
            lends.call(side, call)?;
        }
    }
    Ok(())
}

/// The trips of a load that has begun, beside the bound that was told before it.
struct Trips {
    bound: Told,
    batches: u64,
    rows: u64,
    ancestors: u64,
    ended: bool,
}

impl Trips {
    /// A call of the load, and what it was told: its counters go by what was handed out, and stay within the bound.
    fn call(&mut self, side: &mut dyn Side, lends: &mut Lends, call: Call) -> Result<Told, String> {
        let told = lends.call(side, call)?;
        if told.number != 0 {
            return Ok(told);
        }
        match call {
            Call::Batch => {
                self.batches += 1;
                self.rows += told.values[0];
            }
            Call::Ancestors => self.ancestors += 1,
            _ => (),
        }
        self.ended = call == Call::Result;
        let Trips { bound: Told { values: [ancestors, batches, rows], .. }, .. } = *self;
        if told.values[1..] != [self.batches, self.rows] {
            return Err(format!("{call:?} tells {told:?} after {} batches and {} rows", self.batches, self.rows));
        }
        let outside = self.batches > batches || self.rows > rows || self.ancestors > ancestors || (self.ended && self.ancestors != ancestors);
        if outside {
            return Err(format!("{} batches, {} rows and {} ancestors calls, and the bound was {:?}", self.batches, self.rows, self.ancestors, self.bound));
        }
        Ok(told)
    }

    fn count(&self, counts: &mut Bounded) {
        let [_, batches, rows] = self.bound.values;
        counts.loads += 1;
        counts.ended += self.ended as u64;
        counts.with_rows += (rows > 0) as u64;
        counts.all_rows += (rows > 0 && self.rows == rows) as u64;
        counts.all_batches += (rows > 0 && self.batches == batches) as u64;
    }
}

/// How many loads were held to the bound on their trips, how many of them ended, and how many of those with a row to ask came to the bound.
#[derive(Default)]
struct Bounded {
    loads: u64,
    ended: u64,
    with_rows: u64,
    all_rows: u64,
    all_batches: u64,
}

/// A whole load by calls, held to the bound on its trips. A refused call of answers is made again with all absent, so that the load goes on.
fn by_calls(
    side: &mut dyn Side,
    lends: &mut Lends,
    rng: &mut Rng,
    rows: &[u64],
    pruned: &[Node],
    first: usize,
    case: &Case,
    counts: &mut Bounded,
) -> Result<Told, String> {
    let request = &case.request;
    lends.manifest.put(&counted(rows), 64);
    lends.context.put(&counted(&rows_of_fields(&request.context)), 64);
    lends.state.put(&[], STATE_WORDS);
    lends.batch.put(&[], 256);
    lends.requests.put(&[], 1_024);
    lends.slice.put(&[], 1_024);
    let bound = lends.call(side, Call::Bound(request.kind))?;
    let mut trips = Trips { bound, batches: 0, rows: 0, ancestors: 0, ended: false };
    let told = trips.call(side, lends, Call::Begin([request.kind, request.principal as u64, request.resource as u64]))?;
    if told.number != 0 {
        return Ok(told);
    }
    let told = after_begin(side, lends, rng, pruned, first, case, &mut trips)?;
    trips.count(counts);
    Ok(told)
}

/// The calls of a load that has begun.
fn after_begin(side: &mut dyn Side, lends: &mut Lends, rng: &mut Rng, pruned: &[Node], first: usize, case: &Case, trips: &mut Trips) -> Result<Told, String> {
    let mut first_refusal = None;
    for number in 0.. {
        if lends.state.reference()[0] != 1 {
            break;
        }
        out_of_turn(side, lends, rng)?;
        let told = trips.call(side, lends, Call::Batch)?;
        out_of_turn(side, lends, rng)?;
        let row = |w: &u64| Asked { entity: *w as u32 % 65_536, node: (w >> 16) as usize - first };
        let asked: Vec<Asked> = lends.batch.other()[..told.values[0] as usize].iter().map(row).collect();
        let answers = case.plan.batch(number, &rows_with_tries(&asked, pruned));
        put_answers(lends, &answers);
        let told = trips.call(side, lends, Call::Answer)?;
        if told.number != 0 {
            first_refusal = first_refusal.or(Some(told));
            put_answers(lends, &vec![None; asked.len()]);
            trips.call(side, lends, Call::Answer)?;
        }
    }
    if lends.state.reference()[0] == 3 {
        out_of_turn(side, lends, rng)?;
        let told = trips.call(side, lends, Call::Ancestors)?;
        if told.number != 0 {
            return Ok(first_refusal.unwrap_or(told));
        }
        out_of_turn(side, lends, rng)?;
        let count = told.values[0] as usize;
        let words = lends.requests.other();
        let (mut at, mut asked) = (1 + count, Vec::new());
        for head in &words[1..=count] {
            let ids = (head >> 16) as usize;
            asked.push((*head as u32 % 65_536, words[at..at + ids].iter().map(|w| *w as u32).collect::<BTreeSet<u32>>()));
            at += ids;
        }
        put_sets(lends, &case.plan.sets(&asked));
        let told = trips.call(side, lends, Call::Sets)?;
        if told.number != 0 {
            first_refusal = first_refusal.or(Some(told));
            put_sets(lends, &[]);
            trips.call(side, lends, Call::Sets)?;
        }
    }
    out_of_turn(side, lends, rng)?;
    let told = trips.call(side, lends, Call::Result)?;
    Ok(first_refusal.unwrap_or(told))
}

/// What a case comes to: what the load is answered.
fn case_load(side: &mut dyn Side, lends: &mut Lends, seed: u64, schema: &LoadSchema, case: &Case, counts: &mut Counts) -> Result<Told, String> {
    let bare = rows(&case.manifest);
    let rust_typed = rust_loads::to_typed(&schema.rust, &rust::manifest(&case.manifest));
    let plain_typed = plain_typing::typed(&schema.lines, &case.manifest);
    if rust_typed.is_ok() != plain_typed.is_ok() {
        return Err("typing differs".into());
    }
    let untyped = case.untyped || plain_typed.is_err();
    let lent = if untyped { bare } else { plain_typed.unwrap_or_default() };
    let entry = entry_of(&lent, case.request.kind);
    let (first, nodes) = entry.unwrap_or((0, &[]));
    let (tree, pruned) = (Tree::of(nodes), load_gen::pruned(&schema.lines, nodes));
    let told = by_calls(side, lends, &mut Rng::new(seed, "turns", case.plan.seed), &lent, &pruned, first, case, &mut counts.trips)?;
    let loader = |rule| Loader { tree: &tree, request: &case.request, rule };
    if rows_of_fields(&case.request.context).len() > 8_192 {
        // no load: 1 at 0
        *counts.by_document.entry("a context of over 8,192 rows").or_default() += 1;
        return Ok(told);
    }
    let document = story(&loader(Rule::Document), &pruned, &case.plan);
    let expected: Told = match &document.end {
        Err((_, refused)) => (*refused).into(),
        Ok(slice) => {
            let words = slice_words(slice);
            if lends.slice.other()[..words.len()] != words {
                return Err("the slice is not the definition's".into());
            }
            Told { number: 0, values: [slice.len() as u64, document.load.batches, document.load.asked.len() as u64] }
        }
    };
    if expected != told {
        return Err(format!("a load by calls comes to {told:?}, the definition to {expected:?}"));
    }
    let (batches, asked) = (document.batches.len(), document.batches.iter().map(|b| b.len()).sum::<usize>());
    counts.batches += batches as u64;
    counts.rows += asked as u64;
    counts.merged += (document.load.asked.len() - document.load.asked.iter().map(|r| r.entity).collect::<BTreeSet<_>>().len()) as u64;
    counts.ids += document.requests.iter().map(|ids| ids.len() as u64).sum::<u64>();
    counts.most_batches = counts.most_batches.max(batches as u64);
    counts.most_rows = counts.most_rows.max(asked as u64);
    let Ok(typed) = rust_typed.as_ref().ok().filter(|_| !untyped).ok_or(()) else {
        *counts.by_document.entry("a manifest without types").or_default() += 1;
        return Ok(told);
    };
    let lenient = story(&loader(Rule::Rust), &pruned, &case.plan);
    let run = RustRun { typed, request: &rust_loads::rust_request(&case.request), plan: &case.plan };
    if entry.is_none() {
        let (ended, log) = rust_loads::load(run.typed, run.request, run.plan);
        counts.by_rust += 1;
        return if ended == Ended::Slice(Slice::new()) && log.batches.is_empty() && !log.asked { Ok(told) } else { Err(format!("no entry, and the Rust ends {ended:?}")) };
    }
    let (ended, _, found) = rust_as_told(&run, &loader(Rule::Rust), &pruned, &lenient)?;
    counts.rows_found += found as u64;
    if document.end == lenient.end && document.batches == lenient.batches && document.requests == lenient.requests {
        counts.by_rust += 1;
        // straight: the other side's words against the Rust's slice, where no set of ids is left out
        if let (Ended::Slice(slice), true) = (&ended, case.plan.sets_by >= 0) {
            if rows_in_slice(lends) != slice_words(slice) {
                return Err("the slice is not the Rust's".into());
            }
        }
        return Ok(told);
    }
    let why = match document.end {
        Err((_, Refused::At(14, _))) => "14 for children on a set or a plain value",
        Err((_, Refused::At(15, _))) => "15",
        _ => return Err(format!("document 01's rule gives {:?}, the Rust's {:?}", document.end, lenient.end)),
    };
    *counts.by_document.entry(why).or_default() += 1;
    Ok(told)
}

fn rows_in_slice(lends: &Lends) -> Vec<u64> {
    let words = lends.slice.other();
    let mut at = 1;
    for _ in 0..words[0] {
        at += 1 + (words[at] >> 16 & 65_535) as usize + (words[at] >> 32) as usize;
    }
    words[..at].to_vec()
}

impl Run<'_> {
    pub fn loads(&mut self, count: u64) {
        let (began, mut t, mut lends, mut counts) = (Instant::now(), Tally::default(), Lends::new(), Counts::default());
        let limits = load_gen::limit_schema();
        let mut drawn = load_gen::limit_schema();
        for number in 0..count {
            if !self.wanted("loads", number) {
                continue;
            }
            if number % 20 == 0 || self.only.is_some() {
                drawn = load_gen::schema(&mut Rng::new(self.seed, "loads schema", number / 20));
            }
            let rng = &mut Rng::new(self.seed, "loads", number);
            let limit = rng.below(60) == 0;
            let schema = if limit { &limits } else { &drawn };
            let mut case = if limit { load_gen::limit_case(rng, schema) } else { load_gen::case(rng, schema) };
            if rng.percent(1) {
                // an entry that reads nothing: no batch, and its ancestors call
                case.manifest.insert(case.request.kind, Trie::new());
            }
            t.cases += 1;
            match case_load(self.side, &mut lends, self.seed, schema, &case, &mut counts) {
                Ok(told) => *t.answers.entry(told.number).or_default() += 1,
                Err(why) => {
                    let seed = self.seed;
                    self.differ(&mut t, "loads", number, why, |me| {
                        let least = least_case(me.side, &mut lends, seed, schema, case);
                        format!("{}\n    with schema {}", scripts::of_case(schema, &least), shown(schema.text.as_bytes()))
                    })
                }
            }
        }
        self.report("loads", &t, began);
        let Counts { batches, rows, merged, ids, most_batches, most_rows, trips, by_rust, rows_found, by_document } = counts;
        println!("{:<12} {batches} batches (at most {most_batches} in a load), {rows} rows (at most {most_rows}), {merged} of an entity asked before; {ids} ancestor ids asked", "");
        let Bounded { loads, ended, with_rows, all_rows, all_batches } = trips;
        println!("{:<12} {loads} loads held to their bound on trips, {ended} to their end; of {with_rows} with a row in it {all_rows} asked all its rows, {all_batches} all its batches", "");
        println!("{:<12} {by_rust} as the Rust, the row of {rows_found} refusals found by the Rust too; by document 01's rule alone: {by_document:?}", "");
    }
}

/// Fewer nodes, then less of the context, as long as it differs.
fn least_case(side: &mut dyn Side, lends: &mut Lends, seed: u64, schema: &LoadSchema, case: Case) -> Case {
    let again = |items: &[(u64, (Vec<Step>, bool))]| {
        let mut m = Manifest::new();
        items.iter().for_each(|(r, (p, mark))| insert(m.entry(*r).or_default(), p, *mark));
        m
    };
    let mut case = case;
    let mut fails = |case: &Case| case_load(side, lends, seed, schema, case, &mut Counts::default()).is_err();
    let items: Vec<(u64, (Vec<Step>, bool))> = case.manifest.iter().flat_map(|(r, trie)| positions(trie).into_iter().map(|p| (*r, p))).collect();
    let with = |case: &Case, manifest: Manifest, context: Fields| Case {
        manifest,
        request: Request { context, ..case.request.clone() },
        plan: case.plan.clone(),
        untyped: case.untyped,
    };
    let least = shrunk(items, &mut |items| fails(&with(&case, again(items), case.request.context.clone())));
    case = with(&case, again(&least), case.request.context.clone());
    let fields: Vec<(u32, Value)> = case.request.context.clone().into_iter().collect();
    let least = shrunk(fields, &mut |fields| fails(&with(&case, case.manifest.clone(), fields.iter().cloned().collect())));
    with(&case, case.manifest.clone(), least.into_iter().collect())
}

/// The typed rows of a manifest, its own rows where typing is refused.
pub fn lent_rows(schema: &LoadSchema, case: &Case) -> Vec<u64> {
    let bare = rows(&case.manifest);
    if case.untyped {
        return bare;
    }
    plain_typing::typed(&schema.lines, &case.manifest).unwrap_or(bare)
}
