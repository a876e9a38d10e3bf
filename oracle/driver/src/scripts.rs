//! Loads in the form of crates/loader_cases/data/cases: a line of a manifest, a request, a context and calls; and what that program shows of them.

use crate::load_gen::{self, Case, LoadSchema};
use crate::loads::{entry_of, lent_rows, story, Stage, Story};
use crate::model::*;
use crate::plain_load::*;
use crate::runs::cut;
use crate::values::*;
use std::collections::BTreeSet;

fn items(words: impl IntoIterator<Item = String>) -> String {
    words.into_iter().collect::<Vec<_>>().join(" ")
}

fn request_numbers(kind: u64) -> String {
    format!("{}.{}.{}", kind >> 32, kind >> 16 & 65_535, kind & 65_535)
}

/// A row of a manifest; its type is not said.
fn row_item(word: u64) -> String {
    if word % 32 == 0 {
        return format!("q.{}", request_numbers(word / 64));
    }
    let step = step_of(word);
    let letter = LETTERS[step as usize / 65_536].to_ascii_uppercase() as char;
    format!("{}.{}.{letter}.{}", if mark_of(word) { 'M' } else { 'N' }, word % 32, step % 65_536)
}

pub fn value_item(word: u64) -> String {
    format!("{}.{}.{}.{}", word >> 35, word >> 19 & 65_535, KINDS[(word >> 16 & 7) as usize] as char, word & 65_535)
}

fn answer_items(answer: &Option<Entity>) -> String {
    let Some(Entity { parents, fields }) = answer else { return "i.0".into() };
    let rows = rows_of_fields(fields);
    let head = format!("h.{}.{}", parents.len(), rows.len());
    items([head].into_iter().chain(parents.iter().map(|p| format!("i.{p}"))).chain(rows.into_iter().map(value_item)))
}

fn set_items(ids: &BTreeSet<u32>) -> String {
    items([format!("i.{}", ids.len())].into_iter().chain(ids.iter().map(|id| format!("i.{id}"))))
}

/// The calls of a load up to its first refusal or its result.
pub fn calls(told: &Story) -> Vec<String> {
    let mut out = vec!["begin".to_string()];
    for answers in &told.answers {
        out.push("batch".into());
        out.push(items([format!("answer i.{}", answers.len())].into_iter().chain(answers.iter().map(answer_items))));
    }
    if !matches!(told.end, Err((Stage::Begin | Stage::Batch, _))) {
        out.push("ancestors".into());
        if !matches!(told.end, Err((Stage::Ancestors, _))) {
            out.push(items([format!("sets i.{}", told.sets.len())].into_iter().chain(told.sets.iter().map(set_items))));
            out.push("result".into());
        }
    }
    out
}

/// A line without the case's name.
pub fn line(rows: &[u64], request: &Request, told: &Story) -> String {
    let manifest = items([format!("i.{}", rows.len())].into_iter().chain(rows.iter().map(|w| row_item(*w))));
    let asked = format!("t.{} i.{} i.{}", request_numbers(request.kind), request.principal, request.resource);
    let context = rows_of_fields(&request.context);
    let context = items([format!("i.{}", context.len())].into_iter().chain(context.into_iter().map(value_item)));
    [manifest, asked, context].into_iter().chain(calls(told)).collect::<Vec<_>>().join("\t")
}

/// A case as a script, its answers those to the batches that document 01 gives.
pub fn of_case(schema: &LoadSchema, case: &Case) -> String {
    let rows = lent_rows(schema, case);
    let nodes = entry_of(&rows, case.request.kind).map_or(&[][..], |(_, nodes)| nodes);
    let (tree, pruned) = (Tree::of(nodes), load_gen::pruned(&schema.lines, nodes));
    let told = story(&Loader { tree: &tree, request: &case.request, rule: Rule::Document }, &pruned, &case.plan);
    cut(line(&rows, &case.request, &told), 6_000)
}
