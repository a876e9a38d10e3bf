//! Benchmarks of typing and loading. See oracle/README.md for what is timed.

use crate::bench::{show, time, time_rust};
use crate::gen::Rng;
use crate::lends::counted;
use crate::load_gen::LoadSchema;
use crate::loads::{rows_with_tries, story, Story};
use crate::model::*;
use crate::plain_load::*;
use crate::rust_loads::{self, Answers};
use crate::side::Side;
use crate::typing::wide_trie;
use crate::values::*;
use crate::{load_gen, plain_typing, rust};
use published::entity_manifest::slicing::probe;
use std::collections::BTreeSet;

fn lent(words: usize, content: &[u64]) -> Vec<u64> {
    let mut all = content.to_vec();
    all.resize(words, 0x5555_5555_5555_5555);
    all
}

// ---------------------------------------------------------------- typing

/// Three entity types with entities, records, sets and numbers, an action and a context.
const TYPES: &str = "T\t0\t3\nT\t1\t9\t1\nT\t2\t9\t2\nT\t3\t9\t3\nT\t4\t6\t1\nT\t5\t7\nF\t1\t0\nF\t2\t2\nT\t6\t7\nF\t0\t5\nF\t3\t3\nF\t9\t0\nT\t7\t8\nF\t1\t0\nT\t8\t7\nF\t1\t1\nF\t2\t6\nE\t1\nF\t0\t0\nF\t1\t2\nF\t2\t6\nF\t3\t4\nF\t4\t1\nE\t2\nF\t0\t3\nF\t1\t0\nF\t2\t5\nF\t5\t0\nE\t3\nF\t0\t1\nF\t1\t6\nF\t2\t0\nF\t7\t4\nL\t500\t7\nC\t500\t8\n";

/// A manifest of n nodes over eight request types, one node in forty unknown to the schema.
fn typing_input(rng: &mut Rng, schema: &LoadSchema, nodes: usize) -> Manifest {
    let kinds: Vec<u64> = (0..8).map(|n| request(1 + n % 3, 500, 1 + n / 3)).collect();
    let each = nodes / 8 - nodes / 320;
    let tries = kinds.iter().map(|kind| {
        let mut trie = wide_trie(rng, &schema.lines, *kind, each, 12);
        let places = positions(&trie);
        for n in 0..nodes / 320 {
            let (place, _) = rng.pick(&places);
            if place.len() < 12 && schema.lines.is_entity(plain_type(schema, *kind, place)) {
                let unknown: Vec<Step> = place.iter().copied().chain([step(F, 100 + n as u32)]).collect();
                insert(&mut trie, &unknown, false);
            }
        }
        (*kind, trie)
    });
    tries.collect()
}

fn plain_type(schema: &LoadSchema, kind: u64, place: &[Step]) -> usize {
    place.iter().fold(0, |ty, s| schema.lines.step_type(kind, ty, *s).unwrap_or(0))
}

/// Nanoseconds of the Rust and of the other side, and how many nodes there are.
fn time_typing(side: &mut dyn Side, rng: &mut Rng, schema: &LoadSchema, nodes: usize) -> (f64, f64, usize) {
    let manifest = typing_input(rng, schema, nodes);
    let m = rust::manifest(&manifest);
    let base = time_rust(|| (), |()| probe::to_typed(&m, &schema.rust.whole).expect("a benchmark's input is refused"));
    let words = (lent(SCHEMA_WORDS, &counted(&schema.items)), lent(Kind::Manifest.words(), &counted(&rows(&manifest))));
    let mut out = lent(Kind::Manifest.words(), &[]);
    let ours = time(Box::new(|| side.to_typed(&words.0, &words.1, &mut out).map_or_else(|r| r.number, |_| 0)));
    (base, ours, count_all(&manifest))
}

// ---------------------------------------------------------------- loads

/// Answers of an equal size for every entity: entities below it, three numbers, a record of two, a parent.
struct Even {
    rows: u32,
}

impl Even {
    /// Of n rows a tenth are literals 10,000 and up; each names four entities of its own and the next literal; these name one each.
    fn entity(&self, id: u32) -> Entity {
        let tenth = self.rows / 10;
        let mut fields = Fields::from([
            (20, Value::Plain(id % 7)),
            (21, Value::Plain(3)),
            (22, Value::Plain(4)),
            (23, Value::Record(Fields::from([(1, Value::Plain(1)), (2, Value::Extension(2))]))),
        ]);
        if (10_000..10_000 + tenth).contains(&id) {
            let own = id - 10_000;
            fields.extend((0..4).map(|f| (f, Value::Entity(20_000 + 4 * own + f))));
            fields.insert(4, Value::Entity(10_000 + (own + 1) % tenth));
        } else if (20_000..30_000).contains(&id) {
            fields.insert(0, Value::Entity(id + 10_000));
        }
        Entity { parents: BTreeSet::from([1]), fields }
    }
}

impl Answers for Even {
    fn batch(&self, _number: usize, rows: &[(u32, Node)]) -> Vec<Option<Entity>> {
        rows.iter().map(|(e, _)| Some(self.entity(*e))).collect()
    }

    fn sets(&self, requests: &[(u32, BTreeSet<u32>)]) -> Vec<BTreeSet<u32>> {
        requests.iter().map(|(_, ids)| ids.clone()).collect()
    }
}

/// A tenth of the rows in the first batch, half of them in the second, of which a fifth are of entities answered before, the rest in the third;
/// each literal's ancestors are asked for one id.
fn load_input(rows: u32) -> (LoadSchema, Manifest, Request) {
    let tenth = rows / 10;
    let mut text = String::from("T\t0\t3\nT\t1\t4\nT\t2\t9\t1\nT\t3\t7\nF\t1\t0\nF\t2\t1\nT\t4\t8\nT\t5\t7\nE\t1\n");
    (0..5).for_each(|f| text += &format!("F\t{f}\t2\n"));
    text += "F\t20\t0\nF\t21\t0\nF\t22\t0\nF\t23\t3\n";
    (0..tenth).for_each(|n| text += &format!("L\t{}\t2\n", 10_000 + n));
    text += "C\t500\t5\n";
    let kind = request(1, 500, 1);
    let mut trie = Trie::new();
    for n in 0..tenth {
        let root = step(E, 10_000 + n);
        for f in 0..4 {
            insert(&mut trie, &[root, step(F, f), step(F, 0)], false);
        }
        insert(&mut trie, &[root, step(F, 4)], false);
        insert(&mut trie, &[root, step(F, 23), step(F, 1)], false);
        insert(&mut trie, &[root, step(E, 10_000 + (n + 1) % tenth)], true);
    }
    (LoadSchema::of(text), Manifest::from([(kind, trie)]), Request { kind, principal: 1, resource: 2, context: Fields::new() })
}

/// Nanoseconds of the Rust and of the other side, and the load as the definition tells it.
fn time_load(side: &mut dyn Side, rows: u32) -> (f64, f64, Story) {
    let (schema, manifest, request) = load_input(rows);
    let plan = Even { rows };
    let typed = rust_loads::to_typed(&schema.rust, &rust::manifest(&manifest)).expect("a benchmark's manifest is refused");
    let asked = rust_loads::rust_request(&request);
    // the answers in the order in which this manifest's maps give the rows
    let (ended, log) = rust_loads::load(&typed, &asked, &plan);
    assert!(matches!(ended, rust_loads::Ended::Slice(_)), "a benchmark's load is refused: {ended:?}");
    let answers: Vec<Vec<_>> = log
        .batches
        .iter()
        .zip(&log.answers)
        .map(|(rows, answers)| rows.iter().zip(answers).map(|((e, _), a)| a.as_ref().map(|a| rust_loads::rust_entity(rust::entity(*e), a))).collect())
        .collect();
    let sets: Vec<std::collections::HashSet<_>> = log.sets.iter().map(|set| set.iter().map(|e| rust::entity(*e)).collect()).collect();
    let base = time_rust(|| (answers.clone(), sets.clone()), |(answers, sets)| probe::load_at_hand(&typed, &asked, answers, sets).expect("a benchmark's load"));

    let words = plain_typing::typed(&schema.lines, &manifest).expect("a benchmark's manifest");
    let (tree, pruned) = (Tree::of(&words[1..]), load_gen::pruned(&schema.lines, &words[1..]));
    let told = story(&Loader { tree: &tree, request: &request, rule: Rule::Document }, &pruned, &plan);
    let manifest = lent(Kind::Manifest.words(), &counted(&words));
    let context = lent(CONTEXT_WORDS, &[0]);
    let given = |count: usize, put: &dyn Fn(&mut Vec<u64>)| {
        let mut words = vec![count as u64];
        put(&mut words);
        lent(LENT_WORDS, &words)
    };
    let answers: Vec<Vec<u64>> = told
        .batches
        .iter()
        .enumerate()
        .map(|(n, rows)| {
            let answers = plan.batch(n, &rows_with_tries(rows, &pruned));
            given(answers.len(), &|out| answers.iter().for_each(|a| put_answer(a.as_ref(), out)))
        })
        .collect();
    let sets = given(told.sets.len(), &|out| told.sets.iter().for_each(|s| put_set(s, out)));
    let (mut state, mut batch, mut requests, mut slice) = (lent(STATE_WORDS, &[]), lent(BATCH_WORDS, &[]), lent(REQUESTS_WORDS, &[]), lent(SLICE_WORDS, &[]));
    let ours = time(Box::new(|| {
        let mut most = side.load_begin(&manifest, [request.kind, 1, 2], &context, &mut state).number;
        for words in &answers {
            most = most.max(side.load_batch(&mut state, &mut batch).number);
            most = most.max(side.load_answer(&mut state, words).number);
        }
        most = most.max(side.load_ancestors(&mut state, &mut requests).number);
        most = most.max(side.load_ancestors_answer(&mut state, &sets).number);
        most.max(side.load_result(&state, &mut slice).number)
    }));
    (base, ours, told)
}

fn merged(told: &Story) -> usize {
    told.load.asked.len() - told.load.slice.len()
}

pub fn run(side: &mut dyn Side, seed: u64) {
    let rng = &mut Rng::new(seed, "bench loads", 0);
    let (name, schema) = (side.name(), LoadSchema::of(TYPES.into()));
    let (base, ours, nodes) = time_typing(side, rng, &schema, 4_000);
    show(&format!("typing of {nodes} nodes, 8 request types"), "Rust", base, name, ours);
    let (base, ours, told) = time_load(side, 200);
    let what = format!("load of {} rows in {} batches, {} merged", told.load.asked.len(), told.batches.len(), merged(&told));
    show(&what, "Rust", base, name, ours);

    println!("nanoseconds per node of typing n nodes, and per row of a load of n rows in three batches, a tenth of them merged");
    println!("{:>8} {:>12} {:>12} {:>8} {:>8} {:>12} {:>12} {:>8}", "nodes", "Rust", name, "ratio", "rows", "Rust", name, "ratio");
    for (n, rows) in [(500, 50), (1_000, 100), (2_000, 200), (4_000, 400)] {
        let (base, ours, nodes) = time_typing(side, rng, &schema, n);
        let (load_base, load_ours, told) = time_load(side, rows);
        let (per, per_row) = (|ns: f64| ns / nodes as f64, |ns: f64| ns / told.load.asked.len() as f64);
        println!(
            "{nodes:>8} {:>12.1} {:>12.1} {:>8.2} {:>8} {:>12.1} {:>12.1} {:>8.2}",
            per(base),
            per(ours),
            ours / base,
            told.load.asked.len(),
            per_row(load_base),
            per_row(load_ours),
            load_ours / load_base
        );
    }
}
