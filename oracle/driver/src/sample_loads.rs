//! The sample of the published Rust's typings and loads.

use crate::gen::Rng;
use crate::load_gen::{self, Case, LoadSchema};
use crate::loads::{entry_of, lent_rows, rust_as_told, story, RustRun, Stage, Story};
use crate::model::*;
use crate::plain_load::*;
use crate::rust_loads::{self, Ended};
use crate::sample::{escaped, growing, listing, About, Sample};
use crate::typing::by_fronts;
use crate::{rust, scripts};
use published::types::Type;

pub const OF_TYPINGS: About = About {
    name: "typing",
    files: "src/entity_manifest/type_annotations.rs",
    functions: "EntityManifest::to_typed; its two errors are 9 and 10, its assert is 11, each at the shortest front of the listing that it refuses.",
    questions: "manifests of up to 12 nodes an entry that follow the types of a small schema, some with what does not fit (load_gen.rs).",
    columns: "As in data/cases, all of the kind type; the Rust's answers are the last lines of the file stdout, from typing.stdout. A type has its number in the schema, in which no two types are alike; roots p and r have 1025 and 1026.",
};

pub const OF_LOADS: About = About {
    name: "loader",
    files: "src/entity_manifest/loader.rs",
    functions: "load_entities over the manifest typed by to_typed; panics are 13 and 14, at the row by which the Rust first refuses the batch; a wrong count is 12.",
    questions: "loads of small manifests by drawn schemas, answered by the entity and the trie that is asked for (load_gen.rs).",
    columns: "As in data/cases, the manifest as typing leaves it; the Rust's answers are the last lines of the file stdout, from loader.stdout. Its batches and requests are sets: they stand there in document 01's order.",
};

// ---------------------------------------------------------------- typings

const SMALL: [&str; 3] = [
    "T\t0\t3\nT\t1\t9\t1\nT\t2\t7\nF\t1\t0\nF\t2\t1\nT\t3\t6\t1\nT\t4\t8\nF\t1\t2\nT\t5\t10\nE\t1\nF\t1\t1\nF\t2\t2\nF\t3\t3\nF\t4\t5\nL\t7\t1\nL\t500\t4\nC\t500\t2\n",
    "T\t0\t4\nT\t1\t9\t1\nT\t2\t9\t2\nT\t3\t7\nF\t1\t2\nT\t4\t9\t1\t2\nE\t1\nF\t1\t2\nF\t2\t0\nE\t2\nF\t1\t1\nF\t2\t3\nF\t3\t4\nL\t8\t2\nC\t500\t3\n",
    "T\t0\t2\nT\t1\t5\nT\t2\t9\t3\nT\t3\t7\nF\t0\t0\nF\t1\t1\nT\t4\t7\nF\t1\t3\nF\t2\t2\nT\t5\t8\nE\t3\nF\t1\t4\nF\t2\t2\nL\t7\t2\nL\t9\t4\nL\t500\t5\nC\t500\t4\n",
];

const TYPINGS: usize = 162;

/// The number of a Rust's type in a schema of which no two types are alike.
fn number_of(schema: &LoadSchema, step: Step, ty: Option<&Type>) -> usize {
    match step / 65_536 {
        1 => 1_025,
        3 => 1_026,
        _ => 1 + schema.rust.types.iter().position(|t| Some(t) == ty).expect("a type of the schema"),
    }
}

/// What the Rust makes of a manifest, as typing_cases shows it.
fn typed_by_rust(schema: &LoadSchema, manifest: &Manifest) -> (u64, String) {
    match rust_loads::to_typed(&schema.rust, &rust::manifest(manifest)) {
        Err(_) => {
            let Refusal { number, place } = by_fronts(schema, &rows(manifest));
            (number, format!("refused {number} at {place}"))
        }
        Ok(typed) => {
            let kept = rust_loads::typed_rows(&typed);
            let bare: Vec<u64> = kept.iter().map(|(word, _)| *word).collect();
            let mut text = format!("{} rows", kept.len());
            for (line, (word, ty)) in crate::sample::listed(&manifest_of(&bare)).iter().zip(&kept) {
                text += &format!("\n{line}");
                if word % 32 != 0 {
                    text += &format!(" type {}", number_of(schema, step_of(*word), *ty));
                }
            }
            (0, text)
        }
    }
}

pub fn typings(seed: u64) -> Sample {
    let mut out = Sample::default();
    let schemas = SMALL.map(|text| LoadSchema::of(text.into()));
    for n in 0..TYPINGS {
        let (schema, wanted) = (&schemas[n % 3], [0, 0, 9, 0, 10, 11][n / 3 % 6]);
        // the first of some draws that comes to the wanted number; of those that are typed rather one with a dropped node
        for draw in 0..1_000 {
            let rng = &mut Rng::new(seed, "sample typings", (n * 1_000 + draw) as u64);
            let nodes = growing(2, 12, n, TYPINGS);
            let follow = load_gen::Follow { wild: *rng.pick(&[0, 10, 30]), deep: 6, ..load_gen::follow(rng) };
            let mut manifest = Manifest::new();
            for _ in 0..rng.from(1, 1 + n / 70) {
                let kind = load_gen::a_request(rng, &schema.lines);
                manifest.insert(kind, load_gen::trie(rng, &schema.lines, kind, nodes, &follow));
            }
            let (number, answer) = typed_by_rust(schema, &manifest);
            let dropped = answer.split(' ').next() != Some(&rows(&manifest).len().to_string());
            if number == wanted && count_all(&manifest) > 0 && (number != 0 || dropped == (n % 2 == 0) || draw > 300) {
                let name = out.next();
                out.lines.push(format!("type\ttyping {name}\t{}\t{}", escaped(&schema.text), listing(&manifest)));
                out.shown.push(format!("typing {name}: {answer}"));
                break;
            }
        }
    }
    out
}

// ---------------------------------------------------------------- loads

const LOADS: usize = 150;

/// What loader_cases shows of a load: each call, and what it hands out.
fn shown_calls(told: &Story, nodes: usize, first: usize, slice: Option<&Slice>) -> Option<String> {
    const SHOWN: usize = 64;
    let mut out = Vec::new();
    let refused = |refused: &Refused| match refused {
        Refused::At(number, place) => format!("refused {number} at {place}"),
        Refused::Counts(expected, got) => format!("refused 12: {expected} expected, {got} got"),
    };
    if let Err((Stage::Begin, r)) = &told.end {
        return Some(format!("begin {};", refused(r)));
    }
    out.push(format!("begin {nodes} 0 0"));
    let mut asked = 0;
    for (n, rows) in told.batches.iter().enumerate() {
        asked += rows.len();
        let shown: String = rows.iter().map(|row| format!(" {}@{}", row.entity, row.node + first)).collect();
        out.push(format!("batch {} {} {asked}:{shown}", rows.len(), n + 1));
        match &told.end {
            Err((Stage::Batch, r)) if n + 1 == told.batches.len() => out.push(format!("answer {}", refused(r))),
            _ => out.push(format!("answer {} {} {asked}", told.batches.get(n + 1).map_or(0, |b| b.len()), n + 1)),
        }
        if rows.len() > SHOWN {
            return None;
        }
    }
    let batches = told.batches.len();
    match &told.end {
        Err((Stage::Batch, _)) => (),
        Err((_, r)) => out.push(format!("ancestors {}", refused(r))),
        Ok(_) => {
            let heads: String = told.load.asked.iter().zip(&told.requests).map(|(row, ids)| format!(" {}:{}", row.entity, ids.len())).collect();
            let ids: String = told.requests.iter().flatten().map(|id| format!(" {id}")).collect();
            out.push(format!("ancestors {} {batches} {asked}:{heads}{ids}", told.requests.len()));
            out.push(format!("sets {} {batches} {asked}", told.sets.len().min(asked)));
            let slice = slice?;
            let entities: String = slice
                .iter()
                .map(|(id, entity)| {
                    let parents: String = entity.parents.iter().map(|p| format!(" {p}")).collect();
                    let rows: String = crate::values::rows_of_fields(&entity.fields).into_iter().map(|w| format!(" {}", scripts::value_item(w))).collect();
                    format!(" #{id}{parents}{rows}")
                })
                .collect();
            out.push(format!("result {} {batches} {asked}:{entities}", slice.len()));
            if told.requests.len() + told.requests.iter().map(|ids| ids.len()).sum::<usize>() > SHOWN || slice_words(slice).len() > SHOWN {
                return None;
            }
        }
    }
    Some(out.join("; ") + ";")
}

/// A case as a line without its name, and what the program shows of it, if the Rust loads it as document 01 does and its answer has a place; with the
/// number that it comes to.
fn load_by_rust(schema: &LoadSchema, case: &Case) -> Option<(u64, Story, String, String)> {
    let typed = rust_loads::to_typed(&schema.rust, &rust::manifest(&case.manifest)).ok().filter(|_| case.plan.sets_by >= 0)?;
    let rows = lent_rows(schema, case);
    let (first, nodes) = entry_of(&rows, case.request.kind)?;
    let (tree, pruned) = (Tree::of(nodes), load_gen::pruned(&schema.lines, nodes));
    let loader = |rule| Loader { tree: &tree, request: &case.request, rule };
    let (document, lenient) = (story(&loader(Rule::Document), &pruned, &case.plan), story(&loader(Rule::Rust), &pruned, &case.plan));
    if document.end != lenient.end || document.batches != lenient.batches {
        return None;
    }
    let request = rust_loads::rust_request(&case.request);
    let run = RustRun { typed: &typed, request: &request, plan: &case.plan };
    let (ended, _, found) = rust_as_told(&run, &loader(Rule::Rust), &pruned, &lenient).ok()?;
    let (number, slice) = match (&document.end, &ended) {
        (Ok(_), Ended::Slice(slice)) => (0, Some(slice)),
        (Err((Stage::Batch, Refused::At(number, _))), _) if found => (*number, None),
        (Err((Stage::Begin, _)), _) => (14, None),
        (Err((Stage::Ancestors, _)), _) if document.load.asked.len() == 1 => (14, None),
        (_, Ended::Counts(..)) => (12, None),
        _ => return None,
    };
    let shown = shown_calls(&document, nodes.len(), first, slice)?;
    let line = scripts::line(&rows, &case.request, &document);
    Some((number, document, line, shown))
}

pub fn loads(seed: u64) -> Sample {
    let mut out = Sample::default();
    for n in 0..LOADS {
        let wanted = [0, 0, 13, 0, 14, 0, 0, 12][n % 8];
        for draw in 0..1_000 {
            let rng = &mut Rng::new(seed, "sample loads", (n * 1_000 + draw) as u64);
            let schema = load_gen::schema(rng);
            let case = load_gen::case(rng, &schema);
            let nodes = count_all(&case.manifest);
            if nodes > growing(3, 16, n, LOADS) || case.untyped {
                continue;
            }
            let Some((number, told, line, shown)) = load_by_rust(&schema, &case) else { continue };
            // rather one with several batches, a row of an entity asked before, or ids asked for
            let entities: std::collections::BTreeSet<u32> = told.load.asked.iter().map(|row| row.entity).collect();
            let worthy = [told.batches.len() > 1, entities.len() < told.load.asked.len(), told.requests.iter().any(|ids| !ids.is_empty())];
            if number == wanted && line.len() + shown.len() < 640 && (number != 0 || worthy[n / 2 % 3] || n < 12 || draw > 600) {
                let name = out.next();
                out.lines.push(format!("load {name}\t{line}"));
                out.shown.push(format!("load {name}: {shown}"));
                break;
            }
        }
    }
    out
}
