//! Policy texts: lists of them added in several orders with repeats, held against the Rust, and what one order leaves against the others.

use crate::bench::{show, time, time_rust};
use crate::gen::{self, Rng};
use crate::model::*;
use crate::plain::{self, lines, Found, Line, Types};
use crate::runs::{compared, expected_steps, no_faults, rows_said, rust_union, shown, shrunk, text_of, Run, Tally};
use crate::rust::{self, Schema};
use crate::side::Side;
use published::entity_manifest::slicing::probe;
use std::collections::HashMap;
use std::time::Instant;

/// The request type of an `A` line; no other line has one.
fn request_in(line: &[u8]) -> Option<u64> {
    match line.split(|b| *b == b'\t').collect::<Vec<_>>().as_slice() {
        [b"A", p, a, r] => Some(request(plain::decimal(p)? as u64, plain::decimal(a)? as u64, plain::decimal(r)? as u64)),
        _ => None,
    }
}

// ---------------------------------------------------------------- the plain side

/// A policy text added line by line: what the plain side answers.
pub fn plain_add_policy(types: &Types, manifest: &[u64], text: &[u8]) -> Answer<Vec<u64>> {
    fn closed(m: Vec<u64>, begun: Option<(u64, Vec<Found>)>, place: usize) -> Answer<Vec<u64>> {
        match begun {
            None => Ok(m),
            Some((request, stack)) => match stack.as_slice() {
                [one] => {
                    let mut rows = vec![entry_word(request)];
                    rows.extend(one.trie.iter().map(|(p, mark)| node_word(p.len(), *p.last().unwrap(), *mark)));
                    plain::add(&m, &rows).map_err(|r| Refusal { place: place as u64, ..r })
                }
                _ => refuse(6, place),
            },
        }
    }
    if !plain::lawful(Kind::Manifest, manifest) {
        return refuse(1, 0);
    }
    let (mut m, mut begun, mut count) = (manifest.to_vec(), None, 0);
    for (place, line) in lines(text).enumerate() {
        if let Some(request) = line.and_then(request_in) {
            m = closed(m, begun.take(), place)?;
            begun = Some((request, Vec::new()));
        } else {
            let step = line.and_then(|l| Line::parse(types.kind.len(), l));
            let (Some(step), Some((_, stack))) = (step, begun.as_mut()) else { return refuse(1, place) };
            plain::apply(types, stack, &step).or_else(|n| refuse(n, place))?;
        }
        count = place + 1;
    }
    closed(m, begun, count)
}

// ---------------------------------------------------------------- the Rust

/// A policy text as the Rust sees it: its contributions with the line at which each ends, up to the first that is refused.
struct Policy {
    contributions: Vec<(usize, Manifest)>,
    refusal: Option<Refusal>,
    by_rust: u64,
    too_large: u64,
}

fn policy(schema: &Schema, text: &[u8]) -> Policy {
    let mut found = Policy { contributions: Vec::new(), refusal: None, by_rust: 0, too_large: 0 };
    // the parts of the text: a request type, the line behind its `A` line, and the step lines
    let mut parts: Vec<(u64, usize, Vec<u8>)> = Vec::new();
    for (place, line) in text.split_inclusive(|b| *b == b'\n').enumerate() {
        match (line.strip_suffix(b"\n").and_then(request_in), parts.last_mut()) {
            (Some(request), _) => parts.push((request, place + 1, Vec::new())),
            (None, Some((_, _, steps))) => steps.extend(line),
            (None, None) => {
                found.refusal = Some(Refusal { number: 1, place: place as u64 });
                return found;
            }
        }
    }
    for (request, first, steps) in parts {
        let (answer, by_rust) = expected_steps(schema, request, &steps);
        found.by_rust += by_rust as u64;
        found.too_large += !by_rust as u64;
        match answer {
            Ok(rows) => found.contributions.push((first + lines(&steps).count(), manifest_of(&rows))),
            Err(r) => {
                found.refusal = Some(Refusal { place: r.place + first as u64, ..r });
                return found;
            }
        }
    }
    found
}

/// A policy added to a manifest by the Rust's union, 5 and 4 judged on its result.
fn added(policy: &Policy, manifest: &Manifest) -> Answer<Manifest> {
    let mut m = manifest.clone();
    for (end, contribution) in &policy.contributions {
        m = rust_union(Kind::Manifest, &m, contribution).map_err(|r| Refusal { place: *end as u64, ..r })?;
    }
    policy.refusal.map_or(Ok(m), Err)
}

// ---------------------------------------------------------------- the run

/// A list of texts added to an empty manifest in each of these orders: each answer as by the Rust, what was refused left out, and the same bytes
/// written after every order in which adding came to no limit.
fn case(side: &mut dyn Side, items: &[u64], schema: &Schema, texts: &[Vec<u8>], orders: &[Vec<usize>], t: &mut Tally) -> Result<(), String> {
    let policies: Vec<Policy> = texts.iter().map(|text| policy(schema, text)).collect();
    t.by_rust += policies.iter().map(|p| p.by_rust).sum::<u64>();
    t.too_large += policies.iter().map(|p| p.too_large).sum::<u64>();
    let mut listing: Option<Vec<u8>> = None;
    for order in orders {
        let mut expected = Manifest::new();
        let mut m = side.empty().map_err(|r| format!("empty_manifest is refused: {}", r.number))?;
        let mut at_limit = false;
        for n in order {
            let answer = added(&policies[*n], &expected);
            let got = side.add_policy(items, &m, &texts[*n]);
            compared(&format!("add_policy of text {n} in order {order:?}"), &answer.as_ref().map(rows).map_err(|r| *r), &got)?;
            no_faults(side)?;
            t.answer(&got);
            match (answer, got) {
                (Ok(next), Ok(rows)) => (expected, m) = (next, rows),
                (Err(r), _) => at_limit |= matches!(r.number, 4 | 5) && policies[*n].refusal != Some(r),
                (Ok(_), got) => return Err(format!("add_policy: {}", rows_said(&got))),
            }
        }
        let written = side.write(Kind::Manifest, &m).map_err(|r| format!("a manifest that was built is refused by write: {}", r.number))?;
        no_faults(side)?;
        if written != text_of(&rows(&expected)) {
            return Err(format!("the listing after order {order:?}\n    got {}", shown(&written)));
        }
        match &listing {
            _ if at_limit => (),
            Some(first) if *first != written => return Err(format!("two orders of one list have two listings: {order:?}")),
            _ => listing = Some(written),
        }
    }
    Ok(())
}

fn a_policy(rng: &mut Rng, types: &Types, requests: usize, contributions: usize, length: usize, risk: usize) -> Vec<u8> {
    let mut text = Vec::new();
    for _ in 0..contributions {
        text.extend(a_line(gen::a_request(rng, requests)));
        let length = rng.from(1, length);
        text.extend(gen::text_of(&gen::steps(rng, types, length, risk)));
    }
    text
}

pub fn a_line(request: u64) -> Vec<u8> {
    text_of(&[entry_word(request)])
}

/// Chains of 24 nodes of one request type, so that some lists come to 4,096 nodes.
fn chains(request: u64, from: usize, count: usize) -> Vec<u8> {
    let mut text = a_line(request);
    for n in from..from + count {
        text.extend(format!("lit\t{n}\n").bytes());
        text.extend((1..24).flat_map(|f| format!("attr\t{f}\n").into_bytes()));
        if n > from {
            text.extend(b"union\n");
        }
    }
    text
}

fn a_list(rng: &mut Rng, types: &Types) -> Vec<Vec<u8>> {
    match rng.below(1_000) {
        0 => {
            // nodes around 4,096: chains that share some, over three request types
            (0..rng.from(14, 17)).map(|n| chains(request(n as u64 % 3, 500, 20), 11 * (n / 3), rng.from(12, 14))).collect()
        }
        1..=5 => {
            // request types around 64, one or two a text
            let (mut list, mut n) = (Vec::new(), 0);
            let most = rng.from(62, 67) as u64;
            while n < most {
                let mut text = Vec::new();
                for _ in 0..rng.from(1, 2) {
                    text.extend(a_line(request(n % 7, 3, n)));
                    text.extend(gen::text_of(&gen::steps(rng, types, 3, 0)));
                    n += 1;
                }
                list.push(text);
            }
            list
        }
        _ => {
            let (requests, length) = (*rng.pick(&[1, 2, 3]), *rng.pick(&[4, 10, 20]));
            let mut list: Vec<Vec<u8>> = Vec::new();
            for _ in 0..rng.from(1, 6) {
                let contributions = rng.upto(0, &[1, 2, 2, 4]);
                let text = match rng.below(20) {
                    0 => a_policy(rng, types, requests, contributions, length, 60),
                    1 => {
                        let good = a_policy(rng, types, requests, contributions, length, 0);
                        gen::damaged(rng, &good)
                    }
                    2 => {
                        let mut text = a_line(gen::a_request(rng, requests));
                        text.extend(gen::text_of(&gen::limit_steps(rng, types)));
                        text
                    }
                    3 => {
                        // two of the texts before it in one
                        let (a, b) = (list.first().cloned().unwrap_or_default(), list.last().cloned().unwrap_or_default());
                        [a, b].concat()
                    }
                    _ => a_policy(rng, types, requests, contributions, length, 0),
                };
                list.push(text);
            }
            list
        }
    }
}

impl Run<'_> {
    /// Lists of policy texts, each in three orders, the third with repeats.
    pub fn policies(&mut self, count: u64) {
        let (began, mut t) = (Instant::now(), Tally::default());
        let (mut text, mut items, mut schema, _) = self.schema(0, "policies");
        let (mut given, mut bytes) = (0, 0);
        for number in 0..count {
            if !self.wanted("policies", number) {
                continue;
            }
            if number % 50 == 0 || self.only.is_some() {
                (text, items, schema, _) = self.schema(number, "policies");
            }
            let rng = &mut Rng::new(self.seed, "policies", number);
            let list = a_list(rng, &schema.plain);
            let mut orders: Vec<Vec<usize>> = vec![(0..list.len()).collect()];
            for n in 1..3 {
                let mut order: Vec<usize> = (0..list.len()).collect();
                if n == 2 {
                    order.extend((0..list.len()).filter(|_| rng.percent(50)).collect::<Vec<_>>());
                }
                rng.shuffle(&mut order);
                orders.push(order);
            }
            given += list.len();
            bytes += list.iter().map(Vec::len).sum::<usize>();
            t.cases += 1;
            if let Err(why) = case(self.side, &items, &schema, &list, &orders, &mut t) {
                self.differ(&mut t, "policies", number, why, |me| {
                    let mut fails = |texts: &[Vec<u8>]| {
                        let all: Vec<Vec<usize>> = vec![(0..texts.len()).collect(), (0..texts.len()).rev().chain(0..texts.len()).collect()];
                        case(me.side, &items, &schema, texts, &all, &mut Tally::default()).is_err()
                    };
                    let least = shrunk(list.clone(), &mut fails);
                    if !fails(&least) {
                        return format!("{} texts, orders {orders:?}", list.len());
                    }
                    let texts: Vec<String> = least.iter().map(|text| shown(text)).collect();
                    format!("{}\n    with schema {}", texts.join(" then "), shown(&text))
                });
            }
        }
        self.report("policies", &t, began);
        println!("{:<12} {given} texts of {bytes} bytes; {} contributions analysed by the Rust, {} too large for it ({})", "", t.by_rust, t.too_large, self.by_plain());
    }
}

// ---------------------------------------------------------------- the benchmark

/// Policies of about so many steps over 16 request types, one contribution each, that a manifest takes.
fn bench_texts(rng: &mut Rng, types: &Types, count: usize, length: usize) -> (Vec<Vec<u8>>, usize, usize) {
    let (mut texts, mut m, mut steps) = (Vec::new(), Vec::new(), 0);
    while texts.len() < count {
        let n = texts.len() as u64 % 16;
        let lines = gen::steps(rng, types, length, 0);
        if lines.len() < length || lines.len() > length + length / 4 {
            continue;
        }
        let mut text = a_line(request(n % 4, 500 + n, 20));
        text.extend(gen::text_of(&lines));
        if let Ok(next) = plain_add_policy(types, &m, &text) {
            steps += lines.len();
            texts.push(text);
            m = next;
        }
    }
    (texts, steps / count, m.iter().filter(|w| *w % 32 != 0).count())
}

/// The same texts by the Rust: each line read by the driver, its step taken, and the trie added to the manifest.
fn rust_policies(schema: &Schema, texts: &[Vec<u8>]) -> f64 {
    time_rust(
        || (),
        |()| {
            let mut m = probe::manifest(HashMap::new());
            for text in texts {
                let (mut request, mut stack) = (0, Vec::new());
                for line in lines(text).flatten() {
                    match request_in(line) {
                        Some(r) => request = r,
                        None => rust::apply(schema, &mut stack, &Line::parse(schema.types.len(), line).unwrap()),
                    }
                }
                probe::add(&mut m, rust::request_type(request), stack.pop().unwrap().into_global_trie());
            }
            m
        },
    )
}

pub fn bench(side: &mut dyn Side, items: &[u64], schema: &Schema, rng: &mut Rng) {
    let name = side.name();
    for length in [56, 18] {
        let (texts, steps, nodes) = bench_texts(rng, &schema.plain, 200, length);
        let what = format!("200 policies of {steps} steps, 16 types, {nodes} nodes in the end");
        show(&what, "Rust", rust_policies(schema, &texts), name, time(side.ready_policies(items, &texts)));
    }
    println!("microseconds per policy, n policies of about 60 steps added to an empty manifest");
    println!("{:>8} {:>12} {:>12} {:>8}", "n", "Rust", name, "ratio");
    for n in [25, 50, 100, 200, 400] {
        let (texts, _, nodes) = bench_texts(rng, &schema.plain, n, 56);
        let (base, ours) = (rust_policies(schema, &texts), time(side.ready_policies(items, &texts)));
        let per = |ns: f64| ns / 1e3 / n as f64;
        println!("{n:>8} {:>12.1} {:>12.1} {:>8.2}  ({nodes} nodes in the end)", per(base), per(ours), ours / base);
    }
}
