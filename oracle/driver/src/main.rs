//! Holds our library against the published Rust. See oracle/README.md.

mod bench;
mod bench_loads;
mod cases;
mod clock;
mod gen;
#[cfg(feature = "terbagyl")]
mod library;
#[cfg(feature = "terbagyl")]
mod library_loads;
mod lends;
mod load_damage;
mod load_gen;
mod load_side;
mod loads;
mod model;
mod plain;
mod plain_load;
mod plain_typing;
mod policies;
mod runs;
mod rust;
mod rust_loads;
mod sample;
mod sample_loads;
mod scripts;
mod side;
mod smoke;
mod typing;
mod values;

use std::path::Path;
use std::process::exit;
use std::time::Instant;

const USAGE: &str = "driver [all | runs | bench | smoke | cases FOLDER | sample FOLDER | RUN [CASE]] [seed=N] [part=N]
  all     runs, then bench (what is done without words)
  RUN     pairs, unions, builds, policies, steps, damaged, states, schemas, typings, loads, load_damage: one of them, or one case of it by its number
  cases   the vectors cases*, stdout* of a folder through the published Rust
  sample  writes the data files trie, manifest, steps, typing and loader of the published Rust's answers
  seed    where the generators begin (1)
  part    a part of the counts: 10 for a tenth";

#[cfg(feature = "terbagyl")]
fn the_side() -> Box<dyn side::Side> {
    Box::new(library::Library::new())
}

#[cfg(not(feature = "terbagyl"))]
fn the_side() -> Box<dyn side::Side> {
    Box::new(side::Plain::default())
}

fn work() -> u64 {
    let (mut seed, mut part, mut words) = (1, 1, Vec::new());
    for word in std::env::args().skip(1) {
        match word.split_once('=').map(|(k, v)| (k, v.parse::<u64>())) {
            Some(("seed", Ok(n))) => seed = n,
            Some(("part", Ok(n))) if n > 0 => part = n,
            _ => words.push(word),
        }
    }
    let words: Vec<&str> = words.iter().map(|w| w.as_str()).collect();
    let what = words.first().copied().unwrap_or("all");
    let told = match words.as_slice() {
        ["cases", folder] => Some(cases::run(Path::new(folder))),
        ["sample", folder] => Some(sample::run(Path::new(folder), seed)),
        _ => None,
    };
    if let Some(told) = told {
        return told.unwrap_or_else(|e| {
            println!("cannot: {e}");
            1
        });
    }
    let mut side = the_side();
    println!("the published Rust against: {}; seed {seed}", side.name());
    if side.name() == "plain" {
        println!("our library is not linked: of listings written and read nothing is shown, the plain side against itself");
    }
    let only = words.get(1).and_then(|c| c.parse().ok()).map(|c| (what.to_string(), c));
    let began = Instant::now();
    let mut run = runs::Run { side: &mut *side, seed, only, differences: 0 };
    let all = matches!(what, "all" | "runs");
    let mut known = all || what == "bench";
    if all || what == "smoke" {
        known = true;
        run.differences += smoke::run();
    }
    for (name, count) in [("pairs", 0), ("unions", 20_000), ("builds", 20_000), ("policies", 20_000), ("steps", 100_000), ("damaged", 100_000), ("states", 20_000), ("schemas", 5_000), ("typings", 100_000), ("loads", 50_000), ("load_damage", 100_000)] {
        if !all && what != name {
            continue;
        }
        known = true;
        let count = if run.only.is_some() { count } else { count / part };
        match name {
            "pairs" => run.pairs(),
            "unions" => run.unions(count),
            "builds" => run.builds(count),
            "policies" => run.policies(count),
            "steps" => run.steps(count),
            "damaged" => run.damaged(count),
            "states" => run.states(count),
            "typings" => run.typings(count),
            "loads" => run.loads(count),
            "load_damage" => run.load_damage(count),
            _ => run.schemas(count),
        }
    }
    let differences = run.differences;
    if !known {
        println!("{USAGE}");
        return 1;
    }
    if all {
        println!("differences: {differences}, in {:.0} s", began.elapsed().as_secs_f64());
    }
    if matches!(what, "all" | "bench") {
        bench::run(&mut *side, seed);
        bench_loads::run(&mut *side, seed);
    }
    differences
}

fn main() {
    rust::hush();
    // a call of our library takes up to 860 KB of stack
    let differences = std::thread::Builder::new().stack_size(256 << 20).spawn(work).unwrap().join().unwrap_or(1);
    exit((differences > 0) as i32);
}
