//! Benchmarks: the published Rust and the other side on the same inputs, in one run. See oracle/README.md for what is timed.

use crate::clock::Instant;
use crate::gen::{self, Rng, Shape};
use crate::model::*;
use crate::plain::{lines, Line};
use crate::side::{Plain, Ready, Side};
use crate::{plain, policies, rust};
use published::entity_manifest::slicing::probe;
use std::collections::HashMap;
use std::hint::black_box;
use std::time::Duration;

pub const ROUNDS: usize = 15;

fn median(mut times: Vec<Duration>) -> f64 {
    times.sort();
    times[times.len() / 2].as_nanos() as f64
}

/// Nanoseconds of one call, the median of rounds that each take a few milliseconds.
pub fn time(mut ready: Ready) -> f64 {
    let one = Instant::now();
    assert_eq!(ready(), 0, "a benchmark's input is refused");
    let calls = (5_000_000 / one.elapsed().as_nanos().max(1)).clamp(1, 2_000) as u32;
    let rounds = (0..ROUNDS).map(|_| {
        let began = Instant::now();
        for _ in 0..calls {
            black_box(ready());
        }
        began.elapsed() / calls
    });
    median(rounds.collect())
}

/// The Rust consumes what it works on: `make` gives it fresh copies and results are dropped, both outside the time.
pub fn time_rust<T, R>(mut make: impl FnMut() -> T, mut f: impl FnMut(T) -> R) -> f64 {
    let rounds = (0..ROUNDS).map(|_| {
        let inputs: Vec<T> = (0..4).map(|_| make()).collect();
        let mut results = Vec::with_capacity(4);
        let began = Instant::now();
        for x in inputs {
            results.push(black_box(f(x)));
        }
        let took = began.elapsed() / 4;
        drop(results);
        took
    });
    median(rounds.collect())
}

pub fn show(what: &str, base: &str, base_ns: f64, side: &str, side_ns: f64) {
    if base == side {
        println!("{what:<58} nothing shown: the plain side against itself");
        return;
    }
    println!("{what:<58} {base} {:>9.1} us, {side} {:>9.1} us, {side} takes {:.2} of it", base_ns / 1e3, side_ns / 1e3, side_ns / base_ns);
}

/// Two tries of n nodes, of which `own` are drawn for each apart and the others are shared.
fn pair(rng: &mut Rng, n: usize, own: usize) -> (Trie, Trie) {
    let shape = Shape { fields: 40, deep: 12, roots: 5, marks: 5, long: 30 };
    let base = gen::trie(rng, n - own, &shape);
    (gen::grow(rng, &base, own, &shape), gen::grow(rng, &base, own, &shape))
}

pub fn run(side: &mut dyn Side, seed: u64) {
    let rng = &mut Rng::new(seed, "bench", 0);
    let r = request(10, 500, 20);
    let name = side.name();
    let mut plain_side = Plain::default();
    println!("benchmarks: medians of {ROUNDS} rounds, processor time; our buffers are not cleared between calls, the Rust's copies and drops are not timed");

    // two tries of 2,000 nodes: nothing in common but by chance, half of it, and nearly all
    let shape = Shape { fields: 40, deep: 12, roots: 5, marks: 5, long: 30 };
    for (shared, own) in [("none", 2_000), ("half", 1_000), ("79 of 80", 25)] {
        let (a, b) = pair(rng, 2_000, own);
        let (x, y) = (rust::trie(&a), rust::trie(&b));
        let base = time_rust(|| x.clone(), |x| x.union(&y));
        let (ra, rb) = (rows_of_trie(r, &a), rows_of_trie(r, &b));
        show(&format!("union of two tries of 2,000 nodes, {shared} shared"), "Rust", base, name, time(side.ready_union(&ra, &rb)));
    }

    // 200 contributions of about 50 nodes over 16 request types, in all fewer than 4,096 nodes
    let bases: Vec<(u64, Trie)> = (0..16).map(|n| (request(n % 4, 500 + n, 20), gen::trie(rng, 200, &shape))).collect();
    let list: Vec<(u64, Trie)> = (0..200)
        .map(|n| {
            let (r, whole) = &bases[n % 16];
            let all = positions(whole);
            let some: Vec<_> = (0..20).map(|_| all[rng.below(all.len())].clone()).collect();
            (*r, closed(&some))
        })
        .collect();
    let nodes: usize = list.iter().map(|(_, t)| count(t)).sum();
    let typed: Vec<_> = list.iter().map(|(r, t)| (rust::request_type(*r), rust::trie(t))).collect();
    let base = time_rust(
        || typed.clone(),
        |list| {
            let mut m = probe::manifest(HashMap::new());
            for (r, t) in list {
                probe::add(&mut m, r, t);
            }
            m
        },
    );
    let states: Vec<Vec<u64>> = list.iter().map(|(r, t)| rows_of_trie(*r, t)).collect();
    let what = format!("200 contributions of {} nodes on average, 16 types", nodes / 200);
    show(&what, "Rust", base, name, time(side.ready_build(&states)));

    // the listing of 4,000 nodes; the published Rust has none, so the plain parser and writer stand for Rust
    let m: Manifest = (0..8).map(|n| (request(n, 500, 20), gen::trie(rng, 500, &shape))).collect();
    let all = rows(&m);
    let mut text = Vec::new();
    plain::write(&all, &mut text);
    let what = format!("listing of {} nodes read ({} bytes)", count_all(&m), text.len());
    show(&what, "plain", time(plain_side.ready_read(&text)), name, time(side.ready_read(&text)));
    show("the same written", "plain", time(plain_side.ready_write(&all)), name, time(side.ready_write(&all)));

    // 1,000 step lists of about 60 steps
    let items = plain::read_schema(b"T\t0\t3\nT\t1\t7\nF\t1\t0\nF\t2\t0\nT\t2\t6\t1\nT\t3\t8\nF\t1\t1\nF\t3\t0\nT\t4\t7\nF\t1\t1\nF\t2\t2\n").unwrap();
    let schema = rust::Schema::of(&items);
    let mut texts = Vec::new();
    let mut total = 0;
    while texts.len() < 1_000 {
        let l = gen::steps(rng, &schema.plain, 56, 0);
        let t = gen::text_of(&l);
        if (50..=70).contains(&l.len()) && plain::analyse(&schema.plain, r, &t).is_ok() {
            total += l.len();
            texts.push(t);
        }
    }
    let base = time_rust(
        || (),
        |()| {
            let made: Vec<_> = texts
                .iter()
                .map(|text| {
                    let mut stack = Vec::new();
                    for line in lines(text) {
                        rust::apply(&schema, &mut stack, &Line::parse(schema.types.len(), line.unwrap()).unwrap());
                    }
                    stack
                })
                .collect();
            made
        },
    );
    let what = format!("1,000 step lists of {} steps on average", total / 1_000);
    show(&what, "Rust", base, name, time(side.ready_analyse(&items, r, &texts)));

    policies::bench(side, &items, &schema, rng);

    println!("nanoseconds per node of one trie, two tries of n nodes united that share 79 of 80; listing of n nodes read, written");
    if name == "plain" {
        println!("reading and writing: nothing shown, the plain side against itself");
    }
    println!("{:>8} {:>12} {:>12} {:>8} {:>12} {:>12} {:>12} {:>12}", "n", "Rust", name, "ratio", "plain read", name, "plain write", name);
    for n in [250, 500, 1_000, 2_000, 4_000] {
        let (a, b) = pair(rng, n, n / 80);
        let (x, y) = (rust::trie(&a), rust::trie(&b));
        let base = time_rust(|| x.clone(), |x| x.union(&y));
        let (ra, rb) = (rows_of_trie(r, &a), rows_of_trie(r, &b));
        let ours = time(side.ready_union(&ra, &rb));
        let mut text = Vec::new();
        plain::write(&ra, &mut text);
        let per = |ns: f64| ns / n as f64;
        println!(
            "{n:>8} {:>12.1} {:>12.1} {:>8.2} {:>12.1} {:>12.1} {:>12.1} {:>12.1}",
            per(base),
            per(ours),
            ours / base,
            per(time(plain_side.ready_read(&text))),
            per(time(side.ready_read(&text))),
            per(time(plain_side.ready_write(&ra))),
            per(time(side.ready_write(&ra)))
        );
    }
}
