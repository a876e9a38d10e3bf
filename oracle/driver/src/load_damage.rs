//! The run `load_damage`: calls of typing and loading with damaged states, answers, sets, contexts, requests, manifests and schemas, with buffers
//! too short or longer, and out of turn. The Rust has none of this: the plain side is the reference.

use crate::gen::Rng;
use crate::lends::{counted, Call, Lends};
use crate::load_gen::{self, Case, LoadSchema};
use crate::load_side::Twin;
use crate::loads::{entry_of, lent_rows, put_answers, put_sets, rows_with_tries};
use crate::model::*;
use crate::plain_load::*;
use crate::runs::{shown, shrunk, Run, Tally};
use crate::rust_loads::Answers;
use crate::scripts;
use crate::side::Side;
use crate::values::*;
use std::collections::{BTreeMap, BTreeSet};
use std::time::Instant;

#[derive(Clone, Copy, Debug, PartialEq, Eq)]
enum Buffer {
    Schema,
    Manifest,
    Typed,
    Context,
    State,
    Batch,
    Lent,
    Requests,
    Slice,
}

/// What is done to a load before its next call.
#[derive(Clone, Debug)]
struct Damage {
    call: Call,
    pokes: Vec<(Buffer, usize, u64)>,
    lengths: Vec<(Buffer, isize)>,
}

fn twin(lends: &mut Lends, buffer: Buffer) -> &mut Twin {
    match buffer {
        Buffer::Schema => &mut lends.schema,
        Buffer::Manifest => &mut lends.manifest,
        Buffer::Typed => &mut lends.typed,
        Buffer::Context => &mut lends.context,
        Buffer::State => &mut lends.state,
        Buffer::Batch => &mut lends.batch,
        Buffer::Lent => &mut lends.lent,
        Buffer::Requests => &mut lends.requests,
        Buffer::Slice => &mut lends.slice,
    }
}

fn buffers(call: Call) -> &'static [Buffer] {
    match call {
        Call::Type => &[Buffer::Schema, Buffer::Manifest, Buffer::Typed],
        Call::Bound(_) => &[Buffer::Manifest],
        Call::Begin(_) => &[Buffer::Manifest, Buffer::Context, Buffer::State],
        Call::Batch => &[Buffer::State, Buffer::Batch],
        Call::Answer | Call::Sets => &[Buffer::State, Buffer::Lent],
        Call::Ancestors => &[Buffer::State, Buffer::Requests],
        Call::Result => &[Buffer::State, Buffer::Slice],
    }
}

/// A load on its way: what its next good call needs.
struct Way<'a> {
    case: &'a Case,
    pruned: Vec<Node>,
    first: usize,
    batches: usize,
}

impl Way<'_> {
    fn begin(&self) -> Call {
        let Request { kind, principal, resource, .. } = self.case.request;
        Call::Begin([kind, principal as u64, resource as u64])
    }

    /// The call whose turn it is, its input lent.
    fn next(&self, lends: &mut Lends) -> Call {
        match lends.state.reference()[0] {
            1 => Call::Batch,
            2 => Call::Answer,
            3 => Call::Ancestors,
            4 => Call::Sets,
            _ => Call::Result,
        }
    }

    /// After a call that was not refused: what answers it.
    fn after(&mut self, lends: &mut Lends, call: Call, told: Told) {
        let count = told.values[0] as usize;
        match call {
            Call::Batch => {
                let row = |w: &u64| ((*w as u32) % 65_536, ((w >> 16) as usize).checked_sub(self.first));
                // after damage a node can be another than those of the case
                let known = |(entity, node): (u32, Option<usize>)| node.filter(|n| *n < self.pruned.len()).map(|node| Asked { entity, node });
                let asked: Vec<Asked> = lends.batch.reference()[..count].iter().map(row).filter_map(known).collect();
                let answers = self.case.plan.batch(self.batches, &rows_with_tries(&asked, &self.pruned));
                self.batches += 1;
                put_answers(lends, &answers);
            }
            Call::Ancestors => {
                let words = lends.requests.reference();
                let (mut at, mut asked) = (1 + count, Vec::new());
                for head in &words[1..=count] {
                    let ids = (head >> 16) as usize;
                    asked.push((*head as u32 % 65_536, words[at..at + ids].iter().map(|w| *w as u32).collect::<BTreeSet<u32>>()));
                    at += ids;
                }
                put_sets(lends, &self.case.plan.sets(&asked));
            }
            _ => (),
        }
    }
}

fn other_word(rng: &mut Rng, word: u64) -> u64 {
    match rng.below(10) {
        0 => word ^ 1 << rng.below(64),
        1..=2 => word ^ 1 << rng.below(26),
        3 => word.wrapping_add(1),
        4 => word.wrapping_sub(1),
        5 => rng.below(6) as u64,
        6 => 0,
        7 => rng.next(),
        8 => word ^ 1 << (16 * rng.below(4)),
        _ => rng.next() >> rng.below(64),
    }
}

/// Places of a buffer at which a word counts.
fn a_place(rng: &mut Rng, lends: &mut Lends, buffer: Buffer) -> usize {
    let words = twin(lends, buffer).reference();
    let upto = |rng: &mut Rng, n: u64| rng.below((n as usize).clamp(1, words.len()));
    match buffer {
        Buffer::State => {
            let used = |count: u64, from: usize, end: usize, sets: bool| {
                let size = if sets { sets_of(count, &words[from..end]).map(|x| x.1) } else { answers_of(count, &words[from..end]).map(|x| x.1) };
                size.unwrap_or(1) as u64
            };
            match rng.below(10) {
                0..=3 => rng.below(9),
                4..=5 => 9 + upto(rng, words[5].min(4_097)),
                6 => 4_106 + upto(rng, words[6].min(8_192)),
                7..=8 => 12_298 + upto(rng, used(words[7], 12_298, 24_586, false)),
                _ => 24_586 + upto(rng, used(words[8], 24_586, STATE_WORDS, true)),
            }
        }
        Buffer::Lent => {
            if rng.percent(20) {
                return 0;
            }
            let size = answers_of(words[0], &words[1..]).map(|x| x.1).or_else(|_| sets_of(words[0], &words[1..]).map(|x| x.1));
            1 + rng.below(size.unwrap_or(3).max(1))
        }
        _ => upto(rng, words[0].saturating_add(1)),
    }
}

fn a_damage(rng: &mut Rng, lends: &mut Lends, way: &Way) -> Damage {
    let in_turn = way.next(lends);
    let call = match rng.below(20) {
        0..=1 => Call::Type,
        2 => Call::Bound(way.case.request.kind),
        3..=4 => way.begin(),
        5..=6 => *rng.pick(&[Call::Batch, Call::Answer, Call::Ancestors, Call::Sets, Call::Result]),
        _ => in_turn,
    };
    let call = match call {
        Call::Bound(kind) if rng.percent(20) => Call::Bound(*rng.pick(&[1 << 48, u64::MAX, kind + (1 << 16), kind ^ 1, kind + (1 << 48), (1 << 48) - 1])),
        Call::Begin(request) if rng.percent(20) => {
            let mut request = request;
            let at = rng.below(3);
            request[at] = *rng.pick(&[1 << 48, 65_536, u64::MAX, request[at] + (1 << 16), request[at] ^ 1, 65_535]);
            Call::Begin(request)
        }
        call => call,
    };
    let lent = buffers(call);
    let mut damage = Damage { call, pokes: Vec::new(), lengths: Vec::new() };
    if rng.percent(8) {
        let buffer = *rng.pick(lent);
        let by = *rng.pick(&[-1, -1, -2, -1_000_000, 1, 7]);
        damage.lengths.push((buffer, by));
    }
    // what is read: the first, and for some calls the second too
    let read = match call {
        Call::Type | Call::Begin(_) | Call::Answer | Call::Sets => &lent[..2],
        _ => &lent[..1],
    };
    for _ in 0..*rng.pick(&[0, 1, 1, 1, 1, 2, 3]) {
        let buffer = *rng.pick(read);
        let at = a_place(rng, lends, buffer);
        let word = twin(lends, buffer).reference()[at];
        damage.pokes.push((buffer, at, if rng.percent(10) { twin(lends, buffer).reference()[at.saturating_sub(1)] } else { other_word(rng, word) }));
    }
    damage
}

/// A case up to its damage, the damaged call, and some good ones after it. With what was done, and what was answered.
fn case_damage(
    side: &mut dyn Side,
    lends: &mut Lends,
    schema: &LoadSchema,
    case: &Case,
    after: usize,
    draw: &mut dyn FnMut(&mut Lends, &Way) -> Damage,
) -> (Damage, Result<Told, String>) {
    let rows = lent_rows(schema, case);
    let (first, nodes) = entry_of(&rows, case.request.kind).unwrap_or((0, &[]));
    let mut way = Way { case, pruned: load_gen::pruned(&schema.lines, nodes), first, batches: 0 };
    lends.put_schema(&schema.items);
    lends.manifest.put(&counted(&rows), 64);
    lends.context.put(&counted(&rows_of_fields(&case.request.context)), 64);
    lends.state.put(&[5, 0, 0, 0, 0, 0, 0, 0, 0], STATE_WORDS);
    put_answers(lends, &[None]);
    for buffer in [Buffer::Typed, Buffer::Batch, Buffer::Requests, Buffer::Slice] {
        twin(lends, buffer).put(&[], 512);
    }
    let none = Damage { call: way.begin(), pokes: Vec::new(), lengths: Vec::new() };
    for number in 0..after {
        let call = if number == 0 { way.begin() } else { way.next(lends) };
        match lends.call(side, call) {
            Ok(told) if told.number == 0 => way.after(lends, call, told),
            Ok(_) => break,
            Err(why) => return (none, Err(why)),
        }
    }
    let damage = draw(lends, &way);
    if damage.call == Call::Type {
        // typed once it would be typed again
        lends.manifest.put(&counted(&crate::model::rows(&case.manifest)), 64);
    }
    for (buffer, at, word) in &damage.pokes {
        twin(lends, *buffer).set(*at, *word);
    }
    for (buffer, by) in &damage.lengths {
        twin(lends, *buffer).other_length(*by);
    }
    if damage.pokes.iter().any(|(buffer, ..)| *buffer == Buffer::Schema) {
        lends.spoil_schema();
    }
    let told = lends.call(side, damage.call);
    damage.lengths.iter().for_each(|(buffer, _)| twin(lends, *buffer).other_length(0));
    if let Ok(Told { number: 0, .. }) = told {
        let mut last = (damage.call, told.clone());
        for _ in 0..3 {
            let (call, Ok(told)) = last else { break };
            if told.number != 0 || matches!(call, Call::Type | Call::Bound(_)) {
                break;
            }
            way.after(lends, call, told);
            let call = way.next(lends);
            last = (call, lends.call(side, call));
        }
        if let (_, Err(why)) = last {
            return (damage, Err(why));
        }
    }
    (damage, told)
}

fn name_of(call: Call) -> &'static str {
    match call {
        Call::Type => "type",
        Call::Bound(_) => "trip_bound",
        Call::Begin(_) => "begin",
        Call::Batch => "batch",
        Call::Answer => "answer",
        Call::Ancestors => "ancestors",
        Call::Sets => "ancestors_answer",
        Call::Result => "result",
    }
}

impl Run<'_> {
    pub fn load_damage(&mut self, count: u64) {
        if self.nothing_shown("load_damage") {
            return;
        }
        let (began, mut t, mut lends) = (Instant::now(), Tally::default(), Lends::new());
        let mut calls: BTreeMap<&str, u64> = BTreeMap::new();
        let limits = load_gen::limit_schema();
        let mut drawn = load_gen::limit_schema();
        for number in 0..count {
            if !self.wanted("load_damage", number) {
                continue;
            }
            if number % 20 == 0 || self.only.is_some() {
                drawn = load_gen::schema(&mut Rng::new(self.seed, "load_damage schema", number / 20));
            }
            let rng = &mut Rng::new(self.seed, "load_damage", number);
            let limit = rng.below(500) == 0;
            let schema = if limit { &limits } else { &drawn };
            let case = if limit { load_gen::limit_case(rng, schema) } else { load_gen::case(rng, schema) };
            let after = rng.upto(0, &[2, 4, 8]);
            t.cases += 1;
            let (damage, told) = case_damage(self.side, &mut lends, schema, &case, after, &mut |lends, way| a_damage(rng, lends, way));
            *calls.entry(name_of(damage.call)).or_default() += 1;
            match told {
                Ok(told) => *t.answers.entry(told.number).or_default() += 1,
                Err(why) => self.differ(&mut t, "load_damage", number, why, |me| {
                    let mut fails = |damage: &Damage| case_damage(me.side, &mut lends, schema, &case, after, &mut |_, _| damage.clone()).1.is_err();
                    let pokes = shrunk(damage.pokes.clone(), &mut |pokes| fails(&Damage { pokes: pokes.to_vec(), ..damage.clone() }));
                    let damage = Damage { pokes, ..damage };
                    format!("after {after} good calls {damage:x?} in {}\n    with schema {}", scripts::of_case(schema, &case), shown(schema.text.as_bytes()))
                }),
            }
        }
        self.report("load_damage", &t, began);
        println!("{:<12} the damaged calls: {calls:?}", "");
    }
}
