//! The run `typings`: manifests typed by a schema, the published Rust against the other side.

use crate::gen::{self, Rng};
use crate::lends::{counted, Call, Lends};
use crate::load_gen::{self, LoadSchema};
use crate::model::*;
use crate::plain_typing;
use crate::runs::{shown, shrunk, text_of, Run, Tally};
use crate::side::Side;
use crate::{rust, rust_loads};
use std::time::Instant;

/// A manifest that the schema may refuse.
fn a_manifest(rng: &mut Rng, schema: &LoadSchema) -> Manifest {
    let mut m = Manifest::new();
    let follow = load_gen::Follow { wild: *rng.pick(&[0, 0, 0, 1, 4, 15]), ..load_gen::follow(rng) };
    let (entries, most) = match rng.below(1_000) {
        0..=2 => (rng.from(60, 64), 4),
        3..=4 => (*rng.pick(&[1, 2, 3]), 4_096),
        _ => (*rng.pick(&[1, 1, 2, 3]), *rng.pick(&[4, 10, 25])),
    };
    let names: Vec<u32> = schema.lines.entities.keys().copied().chain([1]).collect();
    let actions: Vec<u32> = schema.lines.contexts.keys().copied().chain([500]).collect();
    for n in 0..entries {
        let (p, r) = (*rng.pick(&names) as u64, *rng.pick(&names) as u64);
        let kind = request(p, if rng.percent(95) { *rng.pick(&actions) as u64 } else { n as u64 }, if entries > 9 { n as u64 } else { r });
        let nodes = (4_096 - count_all(&m)).min(if most > 1_000 { most } else { rng.from(0, most) });
        let along = rng.percent(80);
        let trie = if most > 1_000 {
            wide_trie(rng, &schema.lines, kind, nodes, 12)
        } else if along {
            load_gen::trie(rng, &schema.lines, kind, nodes, &follow)
        } else {
            let shape = gen::shape(rng);
            gen::trie(rng, nodes, &shape)
        };
        m.insert(kind, trie);
    }
    m
}

/// Many nodes along the types, level by level, and ancestors below them.
pub fn wide_trie(rng: &mut Rng, lines: &plain_typing::Lines, kind: u64, nodes: usize, deep: usize) -> Trie {
    let mut open: Vec<(Vec<Step>, usize)> = [1, 3, 4, 2].iter().filter_map(|k| lines.step_type(kind, 0, step(*k, 0)).map(|ty| (vec![step(*k, 0)], ty))).collect();
    open.retain(|(_, ty)| lines.is_typed(kind, *ty));
    let (mut trie, mut made) = (Trie::new(), 0);
    let mut at = 0;
    while at < open.len() && made < nodes {
        let (place, ty) = open[at].clone();
        at += 1;
        insert(&mut trie, &place, rng.percent(5));
        made += 1;
        if place.len() >= deep {
            continue;
        }
        let mut next: Vec<Step> = lines.fields(kind, ty).iter().map(|(f, _)| step(F, *f)).collect();
        if lines.is_entity(ty) && rng.percent(20) {
            next.push(step(3, 0));
        }
        for s in next {
            if let Some(u) = lines.step_type(kind, ty, s).filter(|u| lines.is_typed(kind, *u)) {
                open.push((place.iter().copied().chain([s]).collect(), u));
            }
        }
    }
    trie
}

/// The first refusal in listing order by the Rust alone: the shortest front of the listing that it refuses. A leaf type's node is refused
/// with its first child.
pub fn by_fronts(schema: &LoadSchema, rows: &[u64]) -> Refusal {
    let answer = |n: usize| rust_loads::to_typed(&schema.rust, &rust::manifest(&manifest_of(&rows[..n])));
    let (mut fine, mut bad) = (0, rows.len());
    while bad - fine > 1 {
        let mid = (fine + bad) / 2;
        if answer(mid).is_ok() { fine = mid } else { bad = mid }
    }
    let number = answer(bad).err().unwrap_or(0);
    let nodes = rows[..bad].iter().filter(|w| *w % 32 != 0).count();
    Refusal { number, place: (nodes - if number == 11 { 2 } else { 1 }) as u64 }
}

fn case_typing(side: &mut dyn Side, lends: &mut Lends, schema: &LoadSchema, manifest: &Manifest) -> Result<Answer<usize>, String> {
    let rows = rows(manifest);
    lends.put_schema(&schema.items);
    lends.manifest.put(&counted(&rows), 64);
    lends.typed.put(&[], rows.len() + 64);
    let told = lends.call(side, Call::Type)?;
    let all = plain_typing::typed(&schema.lines, manifest);
    match (rust_loads::to_typed(&schema.rust, &rust::manifest(manifest)), all) {
        (Ok(typed), Ok(_)) => {
            let kept = plain_typing::rows_in(lends.typed.other()).unwrap_or(&[]).to_vec();
            rust_loads::same_types(&schema.rust, &kept, &typed).map(|_| Ok(rows.len() - kept.len()))
        }
        (Err(number), Err(refusals)) => {
            let first = Refusal { number: told.number, place: told.values[0] };
            if refusals.iter().all(|r| r.number != number) {
                return Err(format!("the Rust refuses with {number}, and these occur: {refusals:?}"));
            }
            let fronts = by_fronts(schema, &rows);
            if first != fronts {
                return Err(format!("{first:?}, by the Rust on fronts of the listing {fronts:?}"));
            }
            Ok(Err(first))
        }
        (Ok(_), Err(refusals)) => Err(format!("the Rust types it, expected {:?}", refusals[0])),
        (Err(number), Ok(_)) => Err(format!("the Rust refuses with {number}, expected done")),
    }
}

impl Run<'_> {
    /// Which nodes stay and their types; a refusal's number and place.
    pub fn typings(&mut self, count: u64) {
        let (began, mut t, mut lends) = (Instant::now(), Tally::default(), Lends::new());
        let (mut schema, mut nodes, mut dropped) = (load_gen::limit_schema(), 0, 0);
        for case in 0..count {
            if !self.wanted("typings", case) {
                continue;
            }
            if case % 50 == 0 || self.only.is_some() {
                let rng = &mut Rng::new(self.seed, "typings schema", case / 50);
                schema = match rng.below(10) {
                    0 => load_gen::limit_schema(),
                    1..=2 => LoadSchema::of(gen::schema(rng)),
                    _ => load_gen::schema(rng),
                };
            }
            let rng = &mut Rng::new(self.seed, "typings", case);
            let manifest = a_manifest(rng, &schema);
            t.cases += 1;
            match case_typing(self.side, &mut lends, &schema, &manifest) {
                Ok(answer) => {
                    t.answer(&answer);
                    dropped += answer.unwrap_or(0);
                    nodes += count_all(&manifest);
                }
                Err(why) => self.differ(&mut t, "typings", case, why, |me| {
                    let items: Vec<(u64, (Vec<Step>, bool))> = manifest.iter().flat_map(|(r, trie)| positions(trie).into_iter().map(|p| (*r, p))).collect();
                    let again = |items: &[(u64, (Vec<Step>, bool))]| {
                        let mut m = Manifest::new();
                        items.iter().for_each(|(r, (p, mark))| insert(m.entry(*r).or_default(), p, *mark));
                        m
                    };
                    let least = shrunk(items, &mut |items| case_typing(me.side, &mut lends, &schema, &again(items)).is_err());
                    format!("{}\n    with schema {}", shown(&text_of(&rows(&again(&least)))), shown(schema.text.as_bytes()))
                }),
            }
        }
        self.report("typings", &t, began);
        println!("{:<12} {nodes} nodes, {dropped} of them dropped; a refusal's number and place by the Rust on fronts of the listing", "");
    }
}
