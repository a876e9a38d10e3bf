//! A sample of the published Rust's answers as data files, which the programs trie_cases, manifest_cases, steps_cases, typing_cases and
//! loader_cases replay (their data/oracle; of the last two see sample_loads.rs).
//! Generators give the questions; every answer is made by the Rust's own functions and written here, row by row, from the Rust's result.

use crate::gen::{self, Rng};
use crate::model::*;
use crate::plain;
use crate::runs::rust_union;
use crate::sample_loads;
use crate::rust::{self, Ran, Schema};
use std::collections::BTreeMap;
use std::fs;
use std::path::Path;

/// The programs read a file into so many bytes.
const ROOM: usize = 65_536;

/// A data file: its lines after the header, how many cases they are, and where the answers do not stand in it the lines that the program is to write.
#[derive(Default)]
pub struct Sample {
    pub lines: Vec<String>,
    pub shown: Vec<String>,
    cases: usize,
}

impl Sample {
    /// The number of the next case.
    pub fn next(&mut self) -> usize {
        self.cases += 1;
        self.cases
    }
}

/// A manifest as the lines of its listing.
pub fn listed(manifest: &Manifest) -> Vec<String> {
    let mut out = Vec::new();
    for (request, trie) in manifest {
        out.push(format!("A\t{}\t{}\t{}", request >> 32, request >> 16 & 65_535, request & 65_535));
        for (position, mark) in positions(trie) {
            let last = position[position.len() - 1];
            let letter = LETTERS[last as usize / 65_536] as char;
            out.push(format!("N\t{}\t{letter}\t{}\t{}", position.len(), last % 65_536, mark as u8));
        }
    }
    out
}

pub fn escaped(text: &str) -> String {
    text.replace('\t', "\\t").replace('\n', "\\n")
}

pub fn listing(manifest: &Manifest) -> String {
    listed(manifest).iter().map(|line| escaped(line) + "\\n").collect()
}

fn one(request: u64, trie: &Trie) -> Manifest {
    Manifest::from([(request, trie.clone())])
}

/// One of each of `count` equal parts of a list.
fn spread<T: Clone>(rng: &mut Rng, list: &[T], count: usize) -> Vec<T> {
    if list.len() <= count {
        return list.to_vec();
    }
    let at = |n: usize| n * list.len() / count;
    (0..count).map(|n| list[rng.from(at(n), at(n + 1) - 1)].clone()).collect()
}

/// From `low` to `high`, slowly at first, as n goes from 0 to `count`.
pub fn growing(low: usize, high: usize, n: usize, count: usize) -> usize {
    low + (high - low) * n * n / (count * count)
}

// ---------------------------------------------------------------- unions

const UNIONS: usize = 60;

fn put_union(out: &mut Sample, kind: Kind, a: &Manifest, b: &Manifest) {
    let Ok(union) = rust_union(kind, a, b) else { return };
    let number = out.next();
    out.lines.push("case".into());
    for (letter, manifest) in [("a", a), ("b", b), ("u", &union)] {
        out.lines.extend(listed(manifest).iter().map(|line| format!("{letter}\t{line}")));
    }
    let kind = if kind == Kind::Contribution { "contribution" } else { "manifest" };
    out.lines.push(format!("rust\t{kind}\tpair {number}"));
}

/// Pairs of small tries that share a root and of which each has what the other has not, by their nodes.
fn worthy_pairs(tries: &[Trie]) -> BTreeMap<usize, Vec<(&Trie, &Trie)>> {
    let mut out: BTreeMap<usize, Vec<_>> = BTreeMap::new();
    for a in tries {
        for b in tries.iter().filter(|b| a.keys().any(|root| b.contains_key(root))) {
            let union = rust::union(a, b);
            if union != *a && union != *b {
                out.entry(count(a) + count(b)).or_default().push((a, b));
            }
        }
    }
    out
}

fn unions(seed: u64) -> Sample {
    let (mut out, tries, r) = (Sample::default(), gen::small_tries(), request(10, 500, 20));
    let least: Vec<&Trie> = tries.iter().filter(|t| count(t) <= 1).collect();
    for a in &least {
        for b in &least {
            put_union(&mut out, Kind::Contribution, &one(r, a), &one(r, b));
        }
    }
    for (nodes, pairs) in worthy_pairs(&tries) {
        let rng = &mut Rng::new(seed, "sample pairs", nodes as u64);
        for (a, b) in spread(rng, &pairs, 24) {
            put_union(&mut out, Kind::Contribution, &one(r, a), &one(r, b));
        }
    }
    for n in 0..UNIONS {
        let rng = &mut Rng::new(seed, "sample unions", n as u64);
        let (shape, nodes) = (gen::shape(rng), growing(4, 36, n, UNIONS));
        let x = gen::trie(rng, nodes, &shape);
        let y = if rng.percent(70) { gen::cousin(rng, &x, &shape) } else { gen::trie(rng, nodes, &shape) };
        let r = gen::a_request(rng, 3);
        if n % 3 < 2 {
            put_union(&mut out, Kind::Contribution, &one(r, &x), &one(r, &y));
        } else {
            // one request type in both, and beside it a small trie under another
            let [(s, left), (t, right)] = [0, 1].map(|_| (gen::a_request(rng, 3), gen::trie(rng, 3, &shape)));
            put_union(&mut out, Kind::Manifest, &Manifest::from([(s, left), (r, x)]), &Manifest::from([(t, right), (r, y)]));
        }
    }
    out
}

// ---------------------------------------------------------------- builds

const LISTS: usize = 66;

/// The list's own order, another one, and one with repeats.
fn orders(rng: &mut Rng, length: usize) -> Vec<Vec<usize>> {
    let first: Vec<usize> = (0..length).collect();
    let mut other: Vec<usize> = first.iter().rev().copied().collect();
    if length > 2 && rng.percent(70) {
        rng.shuffle(&mut other);
    }
    let mut repeats = first.clone();
    repeats.extend((0..rng.from(1, length)).map(|_| rng.below(length)));
    rng.shuffle(&mut repeats);
    let mut out = vec![first, other, repeats];
    out.dedup();
    out
}

fn builds(seed: u64) -> Sample {
    let (mut out, tries) = (Sample::default(), gen::small_tries());
    for n in 0..LISTS {
        let rng = &mut Rng::new(seed, "sample builds", n as u64);
        let shape = gen::shape(rng);
        let (length, types) = (rng.from(1, (2 + n / 8).min(6)), rng.from(1, (1 + n / 8).min(4)));
        let requests: Vec<u64> = (0..types).map(|_| gen::a_request(rng, 4)).collect();
        let mut list: Vec<(u64, Trie)> = Vec::new();
        for k in 0..length {
            let x = match list.last() {
                _ if n < LISTS / 2 => rng.pick(&tries).clone(),
                Some((_, y)) if rng.percent(40) => gen::cousin(rng, &y.clone(), &shape),
                _ => {
                    let nodes = rng.from(1, growing(2, 14, n, LISTS));
                    gen::trie(rng, nodes, &shape)
                }
            };
            // each request type once, then any
            list.push((if k < types { requests[k] } else { *rng.pick(&requests) }, x));
        }
        for (k, (r, x)) in list.iter().enumerate() {
            out.lines.push(format!("hold\t{k}\t{}", listing(&one(*r, x))));
        }
        for order in orders(rng, length) {
            let taken: Vec<(u64, &Trie)> = order.iter().map(|k| (list[*k].0, &list[*k].1)).collect();
            let (built, numbers) = rust::build(&taken);
            if numbers.iter().any(|number| *number != 0) {
                continue;
            }
            let named: String = order.iter().map(|k| format!("\t{k}")).collect();
            let number = out.next();
            out.lines.push(format!("rust\tbuild {number}{named}\t\t{}", listing(&built)));
        }
    }
    out
}

// ---------------------------------------------------------------- steps

const LONG: usize = 84;

/// A number, a record of it, a set of these, a record of both, an entity.
const SMALL_SCHEMA: &str = "T\t0\t3\nT\t1\t7\nF\t1\t0\nT\t2\t6\t1\nT\t3\t7\nF\t1\t1\nF\t2\t2\nT\t4\t9\t3\n";
const SMALL_LINES: [&str; 18] = [
    "var\tp", "var\tr", "lit\t9", "none", "attr\t1", "attr\t2", "drop", "set", "rec", "rec\t1", "rec\t1\t2", "union", "in", "full\t0", "full\t1",
    "full\t2", "full\t3", "full\t4",
];

fn schema_of(text: &str) -> Schema {
    Schema::of(&plain::read_schema(text.as_bytes()).expect("a schema that a generator made"))
}

/// Whether an answer is the Rust's alone: a trie, or a panic. Other refusals are judged by our limits.
fn is_own(answer: &Answer<Trie>) -> bool {
    answer.as_ref().map_or_else(|r| matches!(r.number, 7 | 8), |_| true)
}

fn number_of(answer: &Answer<Trie>) -> u64 {
    answer.as_ref().map_or_else(|r| r.number, |_| 0)
}

fn put_steps(out: &mut Sample, schema: &str, lines: &[String], answer: &Answer<Trie>) {
    let steps = String::from_utf8(gen::text_of(lines)).expect("steps are ASCII");
    let said = match answer {
        Ok(trie) => listing(&one(request(10, 500, 20), trie)),
        Err(refusal) => format!("refused {} at {}", refusal.number, refusal.place),
    };
    let number = out.next();
    out.lines.push(format!("steps {number}\t{}\t{}\t{said}", escaped(schema), escaped(&steps)));
}

type Answered = (Vec<String>, Answer<Trie>);

/// All texts of one line more than these, by their answer; those that may go on are given back.
fn longer(schema: &Schema, texts: &[Vec<String>], found: &mut BTreeMap<u64, Vec<Answered>>) -> Vec<Vec<String>> {
    let mut out = Vec::new();
    for text in texts {
        for line in SMALL_LINES {
            let lines: Vec<String> = text.iter().cloned().chain([line.to_string()]).collect();
            let Ran::Answer(answer) = rust::steps(schema, &gen::text_of(&lines)) else { continue };
            let is_unfinished = answer.as_ref().is_err_and(|r| r.number == 6 && r.place as usize == lines.len());
            if is_unfinished || answer.is_ok() {
                out.push(lines.clone());
            }
            if is_own(&answer) {
                found.entry(number_of(&answer)).or_default().push((lines, answer));
            }
        }
    }
    out
}

/// One text for each different answer that has nodes.
fn different(rng: &mut Rng, answered: Vec<Answered>) -> Vec<Answered> {
    let mut by_answer: BTreeMap<String, Vec<Answered>> = BTreeMap::new();
    for (lines, answer) in answered {
        if let Ok(trie) = &answer {
            if !trie.is_empty() {
                by_answer.entry(listing(&one(0, trie))).or_default().push((lines, answer));
            }
        }
    }
    by_answer.values().map(|same| rng.pick(same).clone()).collect()
}

/// A text of about this length with this answer: 0 for a listing of some nodes.
fn long_text(rng: &mut Rng, length: usize, number: u64) -> Option<(String, Vec<String>, Answer<Trie>)> {
    for _ in 0..20_000 {
        let schema = gen::schema(rng);
        if schema.len() > 160 {
            continue;
        }
        let types = schema_of(&schema);
        let lines = gen::steps(rng, &types.plain, length, if number == 0 { 0 } else { 10 });
        if lines.len() < length - length / 5 || lines.len() > length + 4 {
            continue;
        }
        let Ran::Answer(answer) = rust::steps(&types, &gen::text_of(&lines)) else { continue };
        if number_of(&answer) == number && answer.as_ref().map_or(true, |t| (3..=40).contains(&count(t))) {
            return Some((schema, lines, answer));
        }
    }
    None
}

fn steps(seed: u64) -> Sample {
    let (mut out, schema) = (Sample::default(), schema_of(SMALL_SCHEMA));
    let mut texts = vec![Vec::new()];
    for length in 1..=4 {
        let mut found = BTreeMap::new();
        texts = longer(&schema, &texts, &mut found);
        for (number, mut answered) in found {
            let rng = &mut Rng::new(seed, "sample small steps", length * 10 + number);
            if length > 2 && number == 0 {
                answered = different(rng, answered);
            }
            for (lines, answer) in spread(rng, &answered, if number == 0 { 20 } else { 7 }) {
                put_steps(&mut out, SMALL_SCHEMA, &lines, &answer);
            }
        }
    }
    for n in 0..LONG {
        let rng = &mut Rng::new(seed, "sample steps", n as u64);
        if let Some((schema, lines, answer)) = long_text(rng, growing(5, 60, n, LONG - 1), [0, 7, 0, 8][n % 4]) {
            put_steps(&mut out, &schema, &lines, &answer);
        }
    }
    out
}

// ---------------------------------------------------------------- files

/// What a file says of itself: the functions of the Rust that answer, the generators that ask, the columns.
pub struct About {
    pub name: &'static str,
    pub files: &'static str,
    pub functions: &'static str,
    pub questions: &'static str,
    pub columns: &'static str,
}

const OF_TRIES: About = About {
    name: "trie",
    files: "src/entity_manifest.rs",
    functions: "RootAccessTrie::union of two contributions, RootAccessTrie::union_mut of the entries of two manifests.",
    questions: "pairs of tries, all of at most one node, some of two to six, then random ones (gen.rs).",
    columns: "a, b, u: a row of the left and the right state and of the Rust's union. rust: kind and name of the case. case: begins anew.",
};

const OF_MANIFESTS: About = About {
    name: "manifest",
    files: "src/entity_manifest.rs",
    functions: "RootAccessTrie::union_mut of each contribution into its entry of an EntityManifest.",
    questions: "1 to 6 contributions, small ones and random ones (gen.rs), in two orders and with repeats.",
    columns: "hold: number, contribution. rust: name, the numbers that are added, an empty field, the Rust's manifest. Texts in escapes.",
};

const OF_STEPS: About = About {
    name: "steps",
    files: "src/entity_manifest.rs and src/entity_manifest/analysis.rs",
    functions: "EntityManifestAnalysisResult's (`in` by document 01's rule, `set` and `rec` as their arms end); a panic is 7 or 8 at its step.",
    questions: "some texts of 1 to 4 steps, then random ones of 5 to 60 (gen.rs).",
    columns: "name, schema text, step text, the Rust's trie under request type 10, 500, 20 or its refusal. Texts in escapes.",
};

fn put_file(folder: &Path, seed: u64, about: &About, sample: &Sample) -> Result<(), String> {
    let About { name, files, functions, questions, columns } = about;
    let mut text = format!(
        "# {} answers of the published Rust: cedar-policy-validator 4.4.1, {files}, compiled unchanged.
# Its functions: {functions}
# Questions, by oracle/driver/src/sample.rs with seed {seed}: {questions}
# Made by `oracle/run --plain sample FOLDER` (oracle/README.md); anew by that and `cp FOLDER/{name} crates/{name}_cases/data/oracle`.
# {columns}
",
        sample.cases
    );
    for line in &sample.lines {
        text += line;
        text.push('\n');
    }
    if text.len() >= ROOM {
        return Err(format!("{name} has {} bytes, and the programs read less than {ROOM}", text.len()));
    }
    let path = folder.join(name);
    fs::write(&path, &text).map_err(|e| format!("{}: {e}", path.display()))?;
    println!("{}: {} cases, {} bytes", path.display(), sample.cases, text.len());
    if !sample.shown.is_empty() {
        let path = folder.join(format!("{name}.stdout"));
        fs::write(&path, sample.shown.join("\n") + "\n").map_err(|e| format!("{}: {e}", path.display()))?;
        println!("{}: what the program is to write of these cases", path.display());
    }
    Ok(())
}

pub fn run(folder: &Path, seed: u64) -> Result<u64, String> {
    fs::create_dir_all(folder).map_err(|e| format!("{}: {e}", folder.display()))?;
    put_file(folder, seed, &OF_TRIES, &unions(seed))?;
    put_file(folder, seed, &OF_MANIFESTS, &builds(seed))?;
    put_file(folder, seed, &OF_STEPS, &steps(seed))?;
    put_file(folder, seed, &sample_loads::OF_TYPINGS, &sample_loads::typings(seed))?;
    put_file(folder, seed, &sample_loads::OF_LOADS, &sample_loads::loads(seed))?;
    Ok(0)
}
