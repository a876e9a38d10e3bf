//! The runs: the published Rust against the other side, case by case. A difference prints its smallest input and counts.

use crate::gen::{self, Rng};
use crate::model::*;
use crate::rust::{self, Ran};
use crate::side::Side;
use crate::{plain, rust::Schema};
use published::entity_manifest::slicing::probe;
use std::collections::BTreeMap;
use std::time::Instant;

pub struct Run<'a> {
    pub side: &'a mut dyn Side,
    pub seed: u64,
    /// one case of one run alone
    pub only: Option<(String, u64)>,
    pub differences: u64,
}

/// What a run counts.
#[derive(Default)]
pub struct Tally {
    pub cases: u64,
    pub by_rust: u64,
    pub too_large: u64,
    pub differences: u64,
    /// answers by number, 0 for done
    pub answers: BTreeMap<u64, u64>,
}

impl Tally {
    pub fn answer<T>(&mut self, a: &Answer<T>) {
        *self.answers.entry(a.as_ref().map_or_else(|r| r.number, |_| 0)).or_default() += 1;
    }
}

/// Leaves out parts, ever smaller ones, as long as it still fails, and for no more than some seconds.
pub fn shrunk<T: Clone>(mut items: Vec<T>, fails: &mut dyn FnMut(&[T]) -> bool) -> Vec<T> {
    let (mut part, began) = (items.len().div_ceil(2), Instant::now());
    while part > 0 {
        let mut at = 0;
        while at < items.len() {
            if began.elapsed().as_secs() >= 8 {
                return items;
            }
            let mut less = items.clone();
            less.drain(at..(at + part).min(items.len()));
            if fails(&less) {
                items = less;
            } else {
                at += part;
            }
        }
        part = if part == 1 { 0 } else { part.div_ceil(2) };
    }
    items
}

pub fn text_of(rows: &[u64]) -> Vec<u8> {
    let mut out = Vec::new();
    plain::write(rows, &mut out);
    out
}

pub fn shown(text: &[u8]) -> String {
    cut(String::from_utf8_lossy(text).escape_debug().to_string(), 1_500)
}

pub fn cut(s: String, most: usize) -> String {
    match s.char_indices().nth(most) {
        Some((at, _)) => format!("{} .. ({} bytes)", &s[..at], s.len()),
        None => s,
    }
}

fn said<T>(a: &Answer<T>, f: impl Fn(&T) -> String) -> String {
    match a {
        Ok(x) => f(x),
        Err(r) => format!("refused {} at {}", r.number, r.place),
    }
}

pub fn rows_said(a: &Answer<Vec<u64>>) -> String {
    said(a, |rows| if rows.iter().all(|w| w % 32 != 0 || w / 64 < 1 << 48) { shown(&text_of(rows)) } else { format!("{rows:x?}") })
}

/// A difference, or what was wrong with a lent buffer.
pub fn compared(what: &str, expected: &Answer<Vec<u64>>, got: &Answer<Vec<u64>>) -> Result<(), String> {
    if expected == got {
        return Ok(());
    }
    Err(format!("{what}\n    expected {}\n    got      {}", cut(rows_said(expected), 500), cut(rows_said(got), 500)))
}

pub fn no_faults(side: &mut dyn Side) -> Result<(), String> {
    match side.faults().as_slice() {
        [] => Ok(()),
        faults => Err(faults.join("; ")),
    }
}

// ---------------------------------------------------------------- single cases

/// The union of two states by the Rust's functions, 5 and 4 judged on it.
pub fn rust_union(kind: Kind, a: &Manifest, b: &Manifest) -> Answer<Manifest> {
    let union = if kind == Kind::Contribution && a.keys().eq(b.keys()) {
        a.iter().zip(b.values()).map(|((r, x), y)| (*r, rust::union(x, y))).collect()
    } else {
        let mut m = rust::manifest(a);
        for (r, t) in b {
            probe::add(&mut m, rust::request_type(*r), rust::trie(t));
        }
        rust::model_manifest(&m)
    };
    if union.len() > kind.entries() {
        refuse(5, 0)
    } else if count_all(&union) > kind.nodes() {
        refuse(4, 0)
    } else {
        Ok(union)
    }
}

/// `more`: also written, read back and asked for places, and contributions added to a manifest.
fn case_union(side: &mut dyn Side, kind: Kind, a: &Manifest, b: &Manifest, more: bool) -> Result<Answer<()>, String> {
    let (x, y) = (rows(a), rows(b));
    let union = rust_union(kind, a, b);
    let expected = union.as_ref().map(rows).map_err(|r| *r);
    compared("union", &expected, &side.union(kind, &x, &y))?;
    no_faults(side)?;
    if kind == Kind::Contribution && more {
        let expected = rust_union(Kind::Manifest, a, b).map(|m| rows(&m));
        compared("add", &expected, &side.add(&x, &y))?;
        no_faults(side)?;
    }
    if let (Ok(union), Ok(expected), true) = (&union, &expected, more) {
        let text = text_of(expected);
        let written = side.write(kind, expected);
        if written.as_ref() != Ok(&text) {
            return Err(format!("write\n    expected {}\n    got      {}", shown(&text), said(&written, |t| shown(t))));
        }
        compared("read", &Ok(expected.clone()), &side.read(kind, &text))?;
        if rust::from_listing(&text).map(|m| rust::listing(&m)).as_ref() != Ok(&text) {
            return Err(format!("the bridge: a listing is not the same as a manifest of the Rust and back: {}", shown(&text)));
        }
        // places that are there, and others beside them
        for (r, t) in union {
            let all = positions(t);
            let mut asked: Vec<(Vec<u64>, u64)> = vec![(vec![*r], 1), (vec![r ^ 1], union.contains_key(&(r ^ 1)) as u64), (vec![], 0)];
            let every = 1 + all.len() / 4;
            for (n, (p, mark)) in all.iter().enumerate().filter(|(n, _)| n % every == 0) {
                let place: Vec<u64> = [*r].into_iter().chain(p.iter().map(|s| *s as u64)).collect();
                let mut beside = place.clone();
                *beside.last_mut().unwrap() ^= 1 + (n as u64 % 3);
                let steps: Vec<Step> = beside[1..].iter().map(|s| *s as u32).collect();
                let there = all.iter().find(|(q, _)| *q == steps).map_or(0, |(_, m)| 1 + *m as u64);
                asked.push((beside, there));
                asked.push((place, 1 + *mark as u64));
            }
            for (place, there) in asked {
                let got = side.has(kind, expected, &place);
                if got != Ok(there) {
                    return Err(format!("has {place:?}: expected {there}, got {}", said(&got, |n| n.to_string())));
                }
            }
        }
        no_faults(side)?;
    }
    Ok(expected.map(|_| ()))
}

fn case_build(side: &mut dyn Side, list: &[(u64, Trie)], orders: &[Vec<usize>]) -> Result<Answer<()>, String> {
    let mut listing: Option<Vec<u8>> = None;
    let mut answer = Ok(());
    for order in orders {
        let taken: Vec<(u64, &Trie)> = order.iter().map(|n| (list[*n].0, &list[*n].1)).collect();
        let (expected, numbers) = rust::build(&taken);
        let mut m = side.empty().map_err(|r| format!("empty_manifest is refused: {}", r.number))?;
        for ((r, t), number) in taken.iter().zip(&numbers) {
            let got = side.add(&m, &rows_of_trie(*r, t));
            let n = got.as_ref().map_or_else(|r| r.number, |_| 0);
            if n != *number || got.as_ref().is_err_and(|r| r.place != 0) {
                return Err(format!("add in order {order:?}: expected {number}, got {}", rows_said(&got)));
            }
            if let Ok(next) = got {
                m = next;
            } else {
                answer = got.map(|_| ());
            }
        }
        compared(&format!("build in order {order:?}"), &Ok(rows(&expected)), &Ok(m.clone()))?;
        no_faults(side)?;
        let text = side.write(Kind::Manifest, &m).map_err(|r| format!("a manifest that was built is refused by write: {}", r.number))?;
        if text != text_of(&rows(&expected)) {
            return Err(format!("the listing of a build in order {order:?}\n    got {}", shown(&text)));
        }
        if numbers.iter().all(|n| *n == 0) {
            match &listing {
                Some(first) if *first != text => return Err(format!("two orders of one list have two listings: {order:?}")),
                _ => listing = Some(text),
            }
        }
        no_faults(side)?;
    }
    Ok(answer)
}

/// What is expected, and whether the Rust gave it.
pub fn expected_steps(schema: &Schema, request: u64, text: &[u8]) -> (Answer<Vec<u64>>, bool) {
    match rust::steps(schema, text) {
        Ran::Answer(a) => (a.map(|t| rows_of_trie(request, &t)), true),
        Ran::TooLarge => (plain::analyse(&schema.plain, request, text), false),
    }
}

fn case_steps(side: &mut dyn Side, items: &[u64], schema: &Schema, request: u64, text: &[u8]) -> Result<(Answer<()>, bool), String> {
    let (expected, by_rust) = expected_steps(schema, request, text);
    compared("analyse", &expected, &side.analyse(items, request, text))?;
    no_faults(side)?;
    Ok((expected.map(|_| ()), by_rust))
}

#[derive(Clone, Copy, Debug)]
enum Text {
    Manifest,
    Contribution,
    Schema,
    Steps,
}

fn case_text(side: &mut dyn Side, what: Text, items: &[u64], schema: &Schema, text: &[u8]) -> Result<Answer<()>, String> {
    let r = request(10, 500, 20);
    let (expected, got) = match what {
        Text::Manifest => (plain::read(Kind::Manifest, text), side.read(Kind::Manifest, text)),
        Text::Contribution => (plain::read(Kind::Contribution, text), side.read(Kind::Contribution, text)),
        Text::Schema => (plain::read_schema(text), side.read_schema(text)),
        Text::Steps => (expected_steps(schema, r, text).0, side.analyse(items, r, text)),
    };
    if expected != got {
        let say = |a: &Answer<Vec<u64>>| said(a, |rows| format!("{} rows: {rows:?}", rows.len()));
        return Err(format!("{what:?}\n    expected {}\n    got      {}", cut(say(&expected), 600), cut(say(&got), 600)));
    }
    no_faults(side)?;
    if let (Text::Manifest | Text::Contribution, Ok(rows)) = (what, &got) {
        let kind = if matches!(what, Text::Manifest) { Kind::Manifest } else { Kind::Contribution };
        if side.write(kind, rows).as_deref() != Ok(text) {
            return Err("a text that was read is not what is written again".into());
        }
    }
    Ok(expected.map(|_| ()))
}

fn case_state(side: &mut dyn Side, kind: Kind, state: &[u64], other: &[u64]) -> Result<Answer<()>, String> {
    let expected = plain::union(kind, state, other);
    compared("union of a damaged state", &expected, &side.union(kind, state, other))?;
    compared("union with a damaged state", &plain::union(kind, other, state), &side.union(kind, other, state))?;
    if kind == Kind::Contribution {
        compared("add of a damaged contribution", &plain::add(&[], state), &side.add(&[], state))?;
    } else {
        let c = [entry_word(5)];
        compared("add to a damaged manifest", &plain::add(state, &c), &side.add(state, &c))?;
    }
    let (w, lawful) = (side.write(kind, state), plain::lawful(kind, state));
    if w.is_ok() != lawful || (lawful && w != Ok(text_of(state))) || (!lawful && w != refuse(1, 0)) {
        return Err(format!("write of a damaged state: lawful {lawful}, got {}", said(&w, |t| shown(t))));
    }
    let h = side.has(kind, state, &[5]);
    if h != plain::has(kind, state, &[5]) {
        return Err(format!("has of a damaged state: {h:?}"));
    }
    no_faults(side)?;
    Ok(expected.map(|_| ()))
}

// ---------------------------------------------------------------- runs

/// The numbers that come up more often than a few times are shown by the run.
fn table(t: &Tally) -> String {
    t.answers.iter().map(|(n, c)| if *n == 0 { format!("done {c}") } else { format!("{n}: {c}") }).collect::<Vec<_>>().join(", ")
}

impl Run<'_> {
    pub fn wanted(&self, run: &str, case: u64) -> bool {
        self.only.as_ref().is_none_or(|(r, c)| r == run && *c == case)
    }

    /// Without our library the plain side stands for it, and against itself it shows nothing.
    fn plain_alone(&self) -> bool {
        self.side.name() == "plain"
    }

    /// What the plain side is worth where the Rust has no answer.
    pub fn by_plain(&self) -> &'static str {
        if self.plain_alone() { "nothing shown: the plain side against itself" } else { "held against the plain side" }
    }

    /// Says of a run that it would hold the plain side against itself.
    pub fn nothing_shown(&self, name: &str) -> bool {
        if self.plain_alone() {
            println!("{name:<12} nothing shown: the plain side against itself");
        }
        self.plain_alone()
    }

    pub fn differ(&mut self, t: &mut Tally, run: &str, case: u64, why: String, input: impl FnOnce(&mut Self) -> String) {
        t.differences += 1;
        self.differences += 1;
        // the first few are shrunk and shown
        if t.differences <= 3 {
            let input = input(self);
            self.side.faults();
            println!("DIFFERENCE in {run}, case {case}: {why}\n    smallest input: {input}\n    again: driver {run} {case} seed={}", self.seed);
        }
    }

    pub fn report(&self, name: &str, t: &Tally, began: Instant) {
        println!("{name:<12} {:>7} cases, {} differences, {:.1} s; {}", t.cases, t.differences, began.elapsed().as_secs_f64(), table(t));
    }

    fn one_union(&mut self, t: &mut Tally, run: &str, case: u64, kind: Kind, a: Manifest, b: Manifest, more: bool) {
        t.cases += 1;
        match case_union(self.side, kind, &a, &b, more) {
            Ok(answer) => t.answer(&answer),
            Err(why) => self.differ(t, run, case, why, |me| {
                type Item = (bool, u64, Vec<Step>, bool);
                let split = |items: &[Item]| {
                    let mut both = [Manifest::new(), Manifest::new()];
                    for (right, r, p, m) in items {
                        insert(both[*right as usize].entry(*r).or_default(), p, *m);
                    }
                    both
                };
                let mut items: Vec<Item> = Vec::new();
                for (right, m) in [(false, &a), (true, &b)] {
                    for (r, trie) in m {
                        items.push((right, *r, vec![], false));
                        items.extend(positions(trie).into_iter().map(|(p, m)| (right, *r, p, m)));
                    }
                }
                let least = shrunk(items, &mut |items| {
                    let [a, b] = split(items);
                    let lawful = kind == Kind::Manifest || (a.len() == 1 && b.len() == 1);
                    lawful && case_union(me.side, kind, &a, &b, more).is_err()
                });
                let [a, b] = split(&least);
                format!("{kind:?} {} with {}", shown(&text_of(&rows(&a))), shown(&text_of(&rows(&b))))
            }),
        }
    }

    /// All pairs of the small tries, as contributions; every eighth also added, written, read and asked for places.
    pub fn pairs(&mut self) {
        let (began, mut t, tries) = (Instant::now(), Tally::default(), gen::small_tries());
        let r = request(10, 500, 20);
        let mut case = 0;
        for a in &tries {
            for b in &tries {
                if self.wanted("pairs", case) {
                    let one = |t: &Trie| Manifest::from([(r, t.clone())]);
                    self.one_union(&mut t, "pairs", case, Kind::Contribution, one(a), one(b), case % 8 == 0);
                }
                case += 1;
            }
        }
        self.report("pairs", &t, began);
    }

    /// Random pairs, and pairs whose union comes to 1,024 or 4,096 nodes or 64 request types.
    pub fn unions(&mut self, count: u64) {
        let (began, mut t) = (Instant::now(), Tally::default());
        for case in 0..count {
            if !self.wanted("unions", case) {
                continue;
            }
            let rng = &mut Rng::new(self.seed, "unions", case);
            let (kind, a, b) = match rng.below(200) {
                0..=1 => {
                    let (kind, limit) = if rng.percent(70) { (Kind::Contribution, 1_024) } else { (Kind::Manifest, 4_096) };
                    let nodes = limit - 2 + rng.below(5);
                    let (x, y) = gen::pair_of_union(rng, nodes, limit);
                    let r = gen::a_request(rng, 3);
                    (kind, Manifest::from([(r, x)]), Manifest::from([(r, y)]))
                }
                2 => {
                    // request types around 64, in both
                    let types: Vec<u64> = (0..rng.from(62, 67)).map(|n| request(n as u64 % 5, n as u64, 7)).collect();
                    let (mut a, mut b) = (Manifest::new(), Manifest::new());
                    for r in types {
                        let shape = gen::shape(rng);
                        let n = rng.below(4);
                        let x = gen::trie(rng, n, &shape);
                        let in_a = a.len() < 64 && rng.percent(70);
                        if in_a {
                            a.insert(r, x.clone());
                        }
                        if b.len() < 64 && (!in_a || rng.percent(30)) {
                            let y = gen::cousin(rng, &x, &shape);
                            b.insert(r, y);
                        }
                    }
                    (Kind::Manifest, a, b)
                }
                n => {
                    let shape = gen::shape(rng);
                    let nodes = rng.upto(0, &[4, 10, 30, 30, 100]);
                    let x = gen::trie(rng, nodes, &shape);
                    let y = if rng.percent(70) { gen::cousin(rng, &x, &shape) } else { gen::trie(rng, nodes, &shape) };
                    let (r, s) = (gen::a_request(rng, 3), gen::a_request(rng, 3));
                    let other = rng.percent(5);
                    if n < 120 {
                        (Kind::Contribution, Manifest::from([(r, x)]), Manifest::from([(if other { s } else { r }, y)]))
                    } else {
                        let mut a = Manifest::from([(r, x.clone())]);
                        if rng.percent(50) {
                            a.insert(s, y.clone());
                        }
                        (Kind::Manifest, a, Manifest::from([(if other { s } else { r }, y), (gen::a_request(rng, 3), x)]))
                    }
                }
            };
            if [&a, &b].iter().any(|m| count_all(m) > kind.nodes()) {
                continue;
            }
            self.one_union(&mut t, "unions", case, kind, a, b, true);
        }
        self.report("unions", &t, began);
    }

    /// A manifest from a list, in several orders and with repeats.
    pub fn builds(&mut self, count: u64) {
        let (began, mut t) = (Instant::now(), Tally::default());
        for case in 0..count {
            if !self.wanted("builds", case) {
                continue;
            }
            let rng = &mut Rng::new(self.seed, "builds", case);
            let shape = gen::shape(rng);
            let mut list: Vec<(u64, Trie)> = Vec::new();
            let mut orders = 3;
            match rng.below(400) {
                0 => {
                    // nodes around 4,096
                    orders = 2;
                    let nodes = rng.from(4_093, 4_099);
                    list = gen::list_of_union(rng, nodes);
                }
                1..=2 => {
                    // request types around 64
                    for n in 0..rng.from(62, 67) {
                        let nodes = rng.below(3);
                        list.push((request(n as u64 % 7, 3, n as u64), gen::trie(rng, nodes, &shape)));
                    }
                }
                _ => {
                    let (types, most) = (*rng.pick(&[1, 2, 3]), *rng.pick(&[3, 8, 25]));
                    for _ in 0..rng.from(1, 8) {
                        let nodes = rng.below(most);
                        let x = match list.last() {
                            Some((_, y)) if rng.percent(40) => gen::cousin(rng, &y.clone(), &shape),
                            _ => gen::trie(rng, nodes, &shape),
                        };
                        list.push((gen::a_request(rng, types), x));
                    }
                }
            }
            list.retain(|(_, x)| crate::model::count(x) <= 1_024);
            let mut all: Vec<Vec<usize>> = vec![(0..list.len()).collect()];
            for n in 1..orders {
                let mut order: Vec<usize> = (0..list.len()).collect();
                if n == 2 {
                    order.extend((0..list.len()).filter(|_| rng.percent(50)).collect::<Vec<_>>());
                }
                rng.shuffle(&mut order);
                all.push(order);
            }
            t.cases += 1;
            match case_build(self.side, &list, &all) {
                Ok(answer) => t.answer(&answer),
                Err(why) => self.differ(&mut t, "builds", case, why, |me| {
                    let mut texts = Vec::new();
                    for order in &all {
                        let less = shrunk(order.clone(), &mut |o| case_build(me.side, &list, &[o.to_vec()]).is_err());
                        if case_build(me.side, &list, &[less.clone()]).is_err() {
                            texts = less.iter().map(|n| shown(&text_of(&rows_of_trie(list[*n].0, &list[*n].1)))).collect();
                            break;
                        }
                    }
                    if texts.is_empty() { format!("{} contributions, orders {all:?}", list.len()) } else { texts.join(" then ") }
                }),
            }
        }
        self.report("builds", &t, began);
    }

    /// Each schema serves for 50 step texts.
    pub fn schema(&mut self, case: u64, run: &str) -> (Vec<u8>, Vec<u64>, Schema, bool) {
        let rng = &mut Rng::new(self.seed, &format!("{run} schema"), case / 50);
        let limit = case / 50 % 7 == 3;
        let text = if limit { gen::limit_schema(rng) } else { gen::schema(rng) }.into_bytes();
        let items = plain::read_schema(&text).expect("a schema that the generator makes");
        let schema = Schema::of(&items);
        (text, items, schema, limit)
    }

    pub fn steps(&mut self, count: u64) {
        let (began, mut t) = (Instant::now(), Tally::default());
        let (mut text, mut items, mut schema, mut limit) = self.schema(0, "steps");
        let mut lines_run = 0;
        for case in 0..count {
            if !self.wanted("steps", case) {
                continue;
            }
            if case % 50 == 0 || self.only.is_some() {
                (text, items, schema, limit) = self.schema(case, "steps");
                let got = self.side.read_schema(&text);
                if let Err(why) = compared("read_schema", &Ok(items.clone()), &got).and_then(|_| no_faults(self.side)) {
                    self.differ(&mut t, "steps", case, why, |_| shown(&text));
                }
            }
            let rng = &mut Rng::new(self.seed, "steps", case);
            let lines = if rng.percent(if limit { 60 } else { 8 }) {
                gen::limit_steps(rng, &schema.plain)
            } else {
                let (length, risk) = (rng.upto(1, &[5, 12, 25, 40]), *rng.pick(&[0, 0, 10, 60]));
                gen::steps(rng, &schema.plain, length, risk)
            };
            lines_run += lines.len();
            let r = gen::a_request(rng, 3);
            t.cases += 1;
            match case_steps(self.side, &items, &schema, r, &gen::text_of(&lines)) {
                Ok((answer, by_rust)) => {
                    t.answer(&answer);
                    t.by_rust += by_rust as u64;
                    t.too_large += !by_rust as u64;
                }
                Err(why) => self.differ(&mut t, "steps", case, why, |me| {
                    let least = shrunk(lines, &mut |l| case_steps(me.side, &items, &schema, r, &gen::text_of(l)).is_err());
                    format!("{}\n    with schema {}", shown(&gen::text_of(&least)), shown(&text))
                }),
            }
        }
        self.report("steps", &t, began);
        println!("{:<12} {lines_run} lines; {} answered by the Rust, {} too large for it ({})", "", t.by_rust, t.too_large, self.by_plain());
    }

    /// Damaged copies of good texts: any reply, no crash; and the reply is the one that the plain reader gives.
    pub fn damaged(&mut self, count: u64) {
        let (began, mut t) = (Instant::now(), Tally::default());
        let (mut text, mut items, mut schema, _) = self.schema(0, "damaged");
        let mut left_out = 0;
        for case in 0..count {
            if !self.wanted("damaged", case) {
                continue;
            }
            if case % 50 == 0 || self.only.is_some() {
                (text, items, schema, _) = self.schema(case, "damaged");
            }
            let rng = &mut Rng::new(self.seed, "damaged", case);
            let mut whole = false;
            let (what, good) = match rng.below(20) {
                0..=7 if rng.percent(6) => {
                    // past a limit before any damage: 24 steps, 64 request types, 4,096 or 1,024 nodes
                    let mut shape = gen::shape(rng);
                    let (mut what, mut m) = (Text::Manifest, Manifest::new());
                    match rng.below(20) {
                        0..=11 => {
                            (shape.deep, shape.long) = (rng.from(24, 26), 97);
                            let nodes = rng.from(24, 60);
                            m.insert(gen::a_request(rng, 4), gen::trie(rng, nodes, &shape));
                            if rng.percent(50) {
                                what = Text::Contribution;
                            }
                        }
                        12..=15 => {
                            for n in 0..rng.from(62, 67) {
                                let nodes = rng.below(2);
                                m.insert(request(n as u64 % 9, n as u64, 1), gen::trie(rng, nodes, &shape));
                            }
                        }
                        16..=18 => {
                            what = Text::Contribution;
                            let nodes = rng.from(1_022, 1_027);
                            m.insert(gen::a_request(rng, 4), gen::trie(rng, nodes, &gen::Shape { fields: 60, deep: 20, ..shape }));
                        }
                        _ => {
                            let wide = gen::Shape { fields: 60, deep: 20, ..shape };
                            let mut left = rng.from(4_094, 4_099);
                            for n in 0.. {
                                let nodes = left.min(rng.from(500, 2_500));
                                m.insert(request(n, 1, 1), gen::trie(rng, nodes, &wide));
                                left -= nodes;
                                if left == 0 {
                                    break;
                                }
                            }
                        }
                    }
                    whole = rng.percent(60);
                    (what, text_of(&rows(&m)))
                }
                0..=7 => {
                    let shape = gen::shape(rng);
                    let mut m = Manifest::new();
                    let most = if rng.percent(1) { 1_500 } else { 12 };
                    for _ in 0..rng.from(0, 4) {
                        let nodes = rng.below(most);
                        m.insert(gen::a_request(rng, 4), gen::trie(rng, nodes, &shape));
                    }
                    (Text::Manifest, text_of(&rows(&m)))
                }
                8..=10 => {
                    let shape = gen::shape(rng);
                    let nodes = if rng.percent(1) { rng.from(1_020, 1_028) } else { rng.below(20) };
                    let x = gen::trie(rng, nodes, &shape);
                    (Text::Contribution, text_of(&rows_of_trie(gen::a_request(rng, 4), &x)))
                }
                11..=13 => (Text::Schema, text.clone()),
                _ => {
                    let length = rng.from(1, 15);
                    (Text::Steps, gen::text_of(&gen::steps(rng, &schema.plain, length, 5)))
                }
            };
            let bad = if whole { good } else { gen::damaged(rng, &good) };
            if self.plain_alone() && !matches!(what, Text::Steps) {
                left_out += 1;
                continue;
            }
            t.cases += 1;
            match case_text(self.side, what, &items, &schema, &bad) {
                Ok(answer) => t.answer(&answer),
                Err(why) => self.differ(&mut t, "damaged", case, why, |me| {
                    let by_lines: Vec<Vec<u8>> = bad.split_inclusive(|b| *b == b'\n').map(|l| l.to_vec()).collect();
                    let less = shrunk(by_lines, &mut |l| case_text(me.side, what, &items, &schema, &l.concat()).is_err()).concat();
                    let least = shrunk(less, &mut |l| case_text(me.side, what, &items, &schema, l).is_err());
                    format!("{what:?} {}{}", shown(&least), if matches!(what, Text::Steps) { format!("\n    with schema {}", shown(&text)) } else { String::new() })
                }),
            }
        }
        self.report("damaged", &t, began);
        if left_out > 0 {
            println!("{:<12} {left_out} listings, contributions and schemas left out ({})", "", self.by_plain());
        }
    }

    /// Schemas at their limits, and damaged words of schemas.
    pub fn schemas(&mut self, count: u64) {
        if self.nothing_shown("schemas") {
            return;
        }
        let (began, mut t) = (Instant::now(), Tally::default());
        let r = request(10, 500, 20);
        for (case, (what, text)) in gen::limit_schemas().into_iter().enumerate() {
            let expected = plain::read_schema(text.as_bytes());
            let got = self.side.read_schema(text.as_bytes());
            t.cases += 1;
            t.answer(&expected);
            let mut same = expected == got;
            if let (Ok(items), true) = (&expected, same) {
                let text = format!("var\tp\nattr\t1\nfull\t{}\n", items.iter().filter(|w| **w % 16 <= 10).count().saturating_sub(1));
                let schema = Schema::of(items);
                same = expected_steps(&schema, r, text.as_bytes()).0 == self.side.analyse(items, r, text.as_bytes());
            }
            if let Err(why) = if same { no_faults(self.side) } else { Err(format!("expected {}", said(&expected, |i| format!("{} items", i.len())))) } {
                self.differ(&mut t, "schemas", case as u64, why, |_| what);
            }
        }
        let lines = b"var\tp\nattr\t1\n";
        for case in 0..count {
            if !self.wanted("schemas", case) {
                continue;
            }
            let (text, items, ..) = self.schema(50 * case, "schemas");
            let rng = &mut Rng::new(self.seed, "schemas", case);
            let bad = gen::damaged_rows(rng, &items);
            let request = if rng.percent(5) { 1 << rng.from(46, 63) } else { r };
            let expected = |items: &[u64]| if plain::lawful_schema(items) { plain::analyse(&plain::Types::of(items), request, lines) } else { refuse(1, 0) };
            let differs = |side: &mut dyn Side, items: &[u64]| {
                let want = expected(items);
                compared("analyse with a damaged schema", &want, &side.analyse(items, request, lines)).and_then(|_| no_faults(side)).map(|_| want)
            };
            t.cases += 1;
            match differs(self.side, &bad) {
                Ok(answer) => t.answer(&answer),
                Err(why) => self.differ(&mut t, "schemas", case, why, |me| {
                    let least = shrunk(bad.clone(), &mut |items| differs(me.side, items).is_err());
                    format!("request {request}, items {least:x?}, from {}", shown(&text))
                }),
            }
        }
        self.report("schemas", &t, began);
    }

    /// States with damaged words, and the lengths of buffers.
    pub fn states(&mut self, count: u64) {
        if self.nothing_shown("states") {
            return;
        }
        let (began, mut t) = (Instant::now(), Tally::default());
        for case in 0..count {
            if !self.wanted("states", case) {
                continue;
            }
            let rng = &mut Rng::new(self.seed, "states", case);
            let shape = gen::shape(rng);
            let kind = *rng.pick(&[Kind::Contribution, Kind::Manifest]);
            let nodes = if rng.percent(2) { kind.nodes() - 1 + rng.below(3) } else { rng.below(12) };
            let r = gen::a_request(rng, 3);
            let good = rows_of_trie(r, &gen::trie(rng, nodes, &shape));
            let state = if rng.percent(95) { gen::damaged_rows(rng, &good) } else { good.clone() };
            let other = rows_of_trie(r, &gen::trie(rng, 3, &shape));
            t.cases += 1;
            match case_state(self.side, kind, &state, &other) {
                Ok(answer) => t.answer(&answer),
                Err(why) => self.differ(&mut t, "states", case, why, |me| {
                    let least = shrunk(state, &mut |s| case_state(me.side, kind, s, &other).is_err());
                    format!("{kind:?} {least:x?} with {other:x?}")
                }),
            }
        }
        let calls = self.side.lengths();
        if let Err(why) = no_faults(self.side) {
            self.differ(&mut t, "states", 0, why, |_| "buffers of other lengths".into());
        }
        self.report("states", &t, began);
        println!("{:<12} {calls} calls with short or long buffers", "");
    }
}
