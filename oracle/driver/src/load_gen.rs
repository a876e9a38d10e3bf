//! Generators for typing and loading: schemas whose types lead on, manifests that follow them, requests, and plans by which a store answers.
//! An answer is worked out from the entity and the pruned trie that asks for it, so that it does not depend on the order of rows.

use crate::gen::Rng;
use crate::model::*;
use crate::plain;
use crate::plain_load::{Request, Tree};
use crate::plain_typing::Lines;
use crate::rust::Schema;
use crate::rust_loads::Answers;
use crate::values::*;
use std::collections::{BTreeMap, BTreeSet};
use std::rc::Rc;

pub const ACTION: u32 = 500;

/// A schema in all the forms that the runs need.
pub struct LoadSchema {
    pub text: String,
    pub items: Vec<u64>,
    pub lines: Rc<Lines>,
    pub rust: Schema,
}

impl LoadSchema {
    pub fn of(text: String) -> Self {
        let items = plain::read_schema(text.as_bytes()).expect("a schema that the generator makes");
        LoadSchema { lines: Rc::new(Lines::of(&items)), rust: Schema::of(&items), items, text }
    }
}

// ---------------------------------------------------------------- schemas

/// Entities of the type named n have the ids 10 n, 10 n + 1, ..
fn an_entity(rng: &mut Rng, name: u32, pool: usize) -> u32 {
    10 * name + rng.below(pool) as u32
}

pub fn schema(rng: &mut Rng) -> LoadSchema {
    let names = rng.from(2, 4);
    let mut text = String::from("T\t0\t3\nT\t1\t4\n");
    (0..names).for_each(|n| text += &format!("T\t{}\t9\t{}\n", 2 + n, n + 1));
    let mut count = 2 + names;
    let entities: Vec<usize> = (2..count).collect();
    let odd = *rng.pick(&[0, 0, 0, 12]);
    for _ in 0..rng.from(2, 8) {
        let n = count;
        match rng.below(10) {
            0..=2 => text += &format!("T\t{n}\t6\t{}\n", rng.pick(&entities)),
            3 => text += &format!("T\t{n}\t6\t{}\n", rng.below(n)),
            4..=7 => {
                text += &format!("T\t{n}\t7\n");
                let fields: BTreeSet<usize> = (0..rng.from(1, 4)).map(|_| rng.below(6)).collect();
                fields.iter().for_each(|f| text += &format!("F\t{f}\t{}\n", if rng.percent(40) { *rng.pick(&entities) } else { rng.below(n) }));
            }
            _ if rng.percent(odd) => match rng.below(4) {
                0 => text += &format!("T\t{n}\t10\n"),
                1 => text += &format!("T\t{n}\t9\t1\t2\n"),
                2 => text += &format!("T\t{n}\t9\t60\n"),
                _ => text += &format!("T\t{n}\t{}\n", rng.below(3)),
            },
            _ => text += &format!("T\t{n}\t5\n"),
        }
        count += 1;
    }
    text += &format!("T\t{count}\t8\n");
    let fields: BTreeSet<usize> = (0..rng.below(3)).map(|_| rng.below(6)).collect();
    fields.iter().for_each(|f| text += &format!("F\t{f}\t{}\n", rng.below(count)));
    let (action, context) = (count, count + 1);
    text += &format!("T\t{context}\t7\n");
    let fields: BTreeSet<usize> = (0..rng.from(1, 5)).map(|_| rng.below(6)).collect();
    fields.iter().for_each(|f| text += &format!("F\t{f}\t{}\n", if rng.percent(30) { *rng.pick(&entities) } else { rng.below(count) }));
    for name in 1..=names {
        text += &format!("E\t{name}\n");
        let fields: BTreeSet<usize> = (0..rng.from(1, 6)).map(|_| rng.below(6)).collect();
        fields.iter().for_each(|f| text += &format!("F\t{f}\t{}\n", if rng.percent(50) { *rng.pick(&entities) } else { rng.below(context) }));
    }
    for name in 1..=names {
        text += &format!("L\t{}\t{}\n", 10 * name, 1 + name);
    }
    if rng.percent(95) {
        text += &format!("L\t{ACTION}\t{action}\n");
    }
    if rng.percent(95) {
        text += &format!("C\t{ACTION}\t{context}\n");
    }
    LoadSchema::of(text)
}

/// One entity type: 64 entities, a set of entities, a record; for manifests and values at the limits.
pub fn limit_schema() -> LoadSchema {
    let mut text = String::from("T\t0\t3\nT\t1\t9\t1\nT\t2\t6\t1\nT\t3\t8\nT\t4\t7\nF\t0\t1\nF\t1\t2\nF\t2\t0\nT\t5\t6\t0\nE\t1\n");
    (0..61).for_each(|f| text += &format!("F\t{f}\t1\n"));
    text += "F\t61\t2\nF\t62\t4\nF\t63\t5\nL\t10\t1\nL\t500\t3\nC\t500\t4\n";
    LoadSchema::of(text)
}

// ---------------------------------------------------------------- manifests

pub struct Follow {
    pub deep: usize,
    /// percent: a step into an ancestors trie; a mark where one is due; something that does not fit
    pub roots: usize,
    pub marks: usize,
    pub wild: usize,
}

pub fn follow(rng: &mut Rng) -> Follow {
    Follow { deep: *rng.pick(&[2, 3, 5, 8, 24]), roots: *rng.pick(&[0, 10, 30]), marks: *rng.pick(&[0, 30, 70]), wild: *rng.pick(&[0, 0, 0, 4, 15]) }
}

/// A trie that goes the way of the types.
pub fn trie(rng: &mut Rng, lines: &Lines, request: u64, nodes: usize, follow: &Follow) -> Trie {
    let mut places: Vec<(Vec<Step>, Option<usize>)> = Vec::new();
    let (mut trie, mut tries) = (Trie::new(), 10 * nodes + 20);
    while places.len() < nodes && tries > 0 {
        tries -= 1;
        let above = match places.last() {
            Some(last) if rng.percent(45) => Some(last.clone()),
            Some(_) if rng.percent(80) => Some(rng.pick(&places).clone()),
            _ => None,
        };
        let (above, ty) = match above {
            Some((place, Some(ty))) if place.len() < follow.deep => (place, Some(ty)),
            Some(_) => continue,
            None => (Vec::new(), None),
        };
        let wild = rng.percent(follow.wild);
        let fields: Vec<u32> = ty.map_or(Vec::new(), |ty| lines.fields(request, ty).iter().map(|(f, _)| *f).collect());
        let next = if ty.is_none_or(|ty| lines.is_entity(ty) && rng.percent(follow.roots)) || (wild && rng.percent(30)) {
            match rng.below(8) {
                0..=2 => step(1, 0),
                3..=4 => step(3, 0),
                5 => step(4, 0),
                6 => step(2, 0),
                _ => step(E, lines.literals.keys().nth(rng.below(lines.literals.len().max(1))).copied().unwrap_or(10)),
            }
        } else if wild || fields.is_empty() {
            if !wild {
                continue;
            }
            step(F, rng.below(7) as u32)
        } else {
            // rather a field that is an entity
            let picked = [*rng.pick(&fields), *rng.pick(&fields)];
            let leads_on = |f: u32| lines.step_type(request, ty.unwrap(), step(F, f)).is_some_and(|u| lines.is_entity(u));
            step(F, if leads_on(picked[1]) { picked[1] } else { picked[0] })
        };
        let place: Vec<Step> = above.into_iter().chain([next]).collect();
        if places.iter().any(|(p, _)| *p == place) {
            continue;
        }
        let own = lines.step_type(request, ty.unwrap_or(0), next).filter(|u| lines.is_typed(request, *u));
        if own.is_none() && !wild {
            continue;
        }
        let due = own.is_some_and(|u| lines.is_entity(u) || lines.is_entity_set(u));
        let mark = rng.percent(if due { follow.marks } else { follow.wild });
        insert(&mut trie, &place, mark);
        places.push((place, own));
    }
    trie
}

pub fn a_request(rng: &mut Rng, lines: &Lines) -> u64 {
    let names: Vec<u32> = lines.entities.keys().copied().collect();
    request(*rng.pick(&names) as u64, ACTION as u64, *rng.pick(&names) as u64)
}

// ---------------------------------------------------------------- plans

/// How a store answers.
#[derive(Clone)]
pub struct Plan {
    pub seed: u64,
    pub lines: Rc<Lines>,
    /// how many entities a type has, and how many elements a set
    pub pool: usize,
    pub elements: (usize, usize),
    /// percent: an entity is absent, a field is; an answer differs by the trie that asks for it
    pub absent: usize,
    pub missing: usize,
    pub differs: usize,
    /// in a thousand: a value that does not fit its type
    pub wrong: usize,
    /// all fields, those of the trie, or these and some more
    pub sliced: usize,
    pub parents: usize,
    /// of a batch so many answers more or less
    pub miscounted: Option<(usize, isize)>,
    pub sets_by: isize,
    /// values beside the others: the entity, how many, and as parents
    pub bulk: Vec<(u32, usize, bool)>,
}

pub fn hash_of(node: &Node) -> u64 {
    rows_of_trie(0, &Trie::from([(65_536, node.clone())])).iter().fold(0xcbf2_9ce4_8422_2325, |h: u64, w| (h ^ w).wrapping_mul(0x0100_0000_01b3) ^ (h >> 29))
}

fn sliced(rng: &mut Rng, fields: &Fields, node: &Node, surplus: usize) -> Fields {
    let mut out = Fields::new();
    for (f, value) in fields {
        match (node.below.get(&step(F, *f)), value) {
            (Some(child), Value::Record(inner)) => {
                let inner = sliced(rng, inner, child, surplus);
                out.insert(*f, Value::Record(inner));
            }
            (Some(_), value) => {
                out.insert(*f, value.clone());
            }
            (None, value) if rng.percent(surplus) => {
                out.insert(*f, value.clone());
            }
            _ => (),
        }
    }
    out
}

impl Plan {
    fn wild(&self, rng: &mut Rng, deep: usize) -> Value {
        match rng.below(if deep > 2 { 4 } else { 8 }) {
            0..=1 => Value::Plain(rng.below(3) as u32),
            2 => Value::Extension(rng.below(3) as u32),
            3 => Value::Entity(rng.from(10, 45) as u32),
            4..=5 => Value::Set((0..rng.below(4)).map(|_| self.wild(rng, deep + 1)).collect()),
            _ => Value::Record((0..rng.below(4)).map(|_| (rng.below(6) as u32, self.wild(rng, deep + 1))).collect()),
        }
    }

    fn value(&self, rng: &mut Rng, ty: usize) -> Value {
        if rng.below(1_000) < self.wrong {
            return self.wild(rng, 0);
        }
        let types = &self.lines.types;
        match types.kind[ty] {
            0..=3 => Value::Plain(rng.below(4) as u32),
            4 => Value::Extension(rng.below(4) as u32),
            5 => Value::Set((0..rng.below(3)).map(|_| self.wild(rng, 1)).collect()),
            6 => {
                let (element, size) = (types.value[ty] as usize, rng.from(self.elements.0, self.elements.1));
                if size > 100 {
                    return Value::Set((0..size as u32).map(|n| if self.lines.is_entity(element) { Value::Entity(n) } else { Value::Plain(n) }).collect());
                }
                Value::Set((0..size).map(|_| self.value(rng, element)).collect())
            }
            7 => Value::Record(self.record(rng, &types.attrs[ty].clone())),
            8 => Value::Entity(ACTION),
            9 => Value::Entity(an_entity(rng, types.value[ty] % 65_536 % 100, self.pool)),
            _ => Value::Entity(rng.from(10, 45) as u32),
        }
    }

    pub fn record(&self, rng: &mut Rng, fields: &[(u32, usize)]) -> Fields {
        let mut out = Fields::new();
        for (f, ty) in fields {
            let value = self.value(rng, *ty);
            if !rng.percent(self.missing) {
                out.insert(*f, value);
            }
        }
        out
    }

    fn base(&self, entity: u32) -> Option<Entity> {
        let rng = &mut Rng::new(self.seed, "entity", entity as u64);
        if rng.percent(self.absent) {
            return None;
        }
        let parents = (0..rng.below(self.parents + 1)).map(|_| rng.from(10, 45) as u32).collect();
        let empty = Vec::new();
        let of_literal = || self.lines.literals.get(&entity).and_then(|ty| self.lines.types.attrs.get(*ty));
        let fields = self.lines.entities.get(&(entity / 10)).or_else(of_literal).unwrap_or(&empty);
        let mut made = Entity { parents, fields: self.record(rng, fields) };
        for (_, count, as_parents) in self.bulk.iter().filter(|(e, ..)| *e == entity) {
            if *as_parents {
                made.parents.extend(1_000..1_000 + *count as u32);
            } else {
                made.fields.insert(60_000, Value::Set((0..*count as u32).map(Value::Plain).collect()));
            }
        }
        Some(made)
    }

    pub fn entity(&self, entity: u32, node: &Node) -> Option<Entity> {
        let mut made = self.base(entity)?;
        let rng = &mut Rng::new(self.seed ^ hash_of(node), "answer", entity as u64);
        if rng.percent(self.differs) {
            match rng.below(6) {
                0 => return None,
                1 => {
                    made.parents.insert(rng.from(10, 45) as u32);
                }
                2 if made.fields.len() > 1 => {
                    let at = rng.below(made.fields.len());
                    let key = *made.fields.keys().nth(at).unwrap();
                    made.fields.remove(&key);
                }
                3..=4 => {
                    // a field drawn again by its type
                    let fields = self.lines.entities.get(&(entity / 10)).cloned().unwrap_or_default();
                    if !fields.is_empty() {
                        let (f, ty) = *rng.pick(&fields);
                        made.fields.insert(f, self.value(rng, ty));
                    }
                }
                _ => {
                    let value = self.wild(rng, 0);
                    made.fields.insert(rng.below(6) as u32, value);
                }
            }
        }
        if self.sliced > 0 {
            made.fields = sliced(rng, &made.fields, node, if self.sliced == 1 { 0 } else { 30 });
        }
        Some(made)
    }
}

impl Answers for Plan {
    fn batch(&self, number: usize, rows: &[(u32, Node)]) -> Vec<Option<Entity>> {
        let mut all: Vec<Option<Entity>> = rows.iter().map(|(e, node)| self.entity(*e, node)).collect();
        if let Some((at, by)) = self.miscounted {
            if at == number {
                all.resize(all.len().saturating_add_signed(by), None);
            }
        }
        all
    }

    fn sets(&self, requests: &[(u32, BTreeSet<u32>)]) -> Vec<BTreeSet<u32>> {
        let mut all: Vec<BTreeSet<u32>> = requests
            .iter()
            .map(|(entity, ids)| {
                let salt = ids.iter().fold(*entity as u64, |h, id| h.wrapping_mul(31).wrapping_add(*id as u64));
                let rng = &mut Rng::new(self.seed, "set", salt);
                let mut some: BTreeSet<u32> = ids.iter().copied().filter(|_| rng.percent(70)).collect();
                if rng.percent(15) {
                    some.insert(rng.from(10, 70) as u32);
                }
                some
            })
            .collect();
        let length = all.len().saturating_add_signed(self.sets_by);
        all.resize(length, BTreeSet::from([77, 78]));
        all
    }
}

// ---------------------------------------------------------------- cases

pub struct Case {
    pub manifest: Manifest,
    pub request: Request,
    pub plan: Plan,
    /// lent as it is, not typed
    pub untyped: bool,
}

fn plan(rng: &mut Rng, schema: &LoadSchema) -> Plan {
    Plan {
        seed: rng.next(),
        lines: schema.lines.clone(),
        pool: *rng.pick(&[1, 2, 3]),
        elements: (0, 3),
        absent: *rng.pick(&[0, 5, 30]),
        missing: *rng.pick(&[0, 10, 40]),
        differs: *rng.pick(&[0, 0, 0, 3, 20]),
        wrong: *rng.pick(&[0, 0, 0, 20, 100]),
        sliced: rng.below(3),
        parents: *rng.pick(&[0, 2, 4]),
        miscounted: rng.percent(3).then(|| (rng.below(3), *rng.pick(&[-1, 1, 2, -3]))),
        sets_by: *rng.pick(&[0, 0, 0, 0, 0, 0, 0, 0, -1, -2, 1, 2]),
        bulk: Vec::new(),
    }
}

fn request_for(rng: &mut Rng, kind: u64, plan: &Plan) -> Request {
    let named = |rng: &mut Rng, name: u64| an_entity(rng, name as u32 % 65_536 % 100, plan.pool);
    let (principal, resource) = (named(rng, kind >> 32), named(rng, kind & 65_535));
    let mut context = Fields::new();
    if let Some(ty) = plan.lines.contexts.get(&ACTION) {
        context = plan.record(rng, &plan.lines.types.attrs[*ty]);
    }
    Request { kind, principal, resource, context }
}

pub fn case(rng: &mut Rng, schema: &LoadSchema) -> Case {
    let plan = plan(rng, schema);
    let (follow, most) = (follow(rng), rng.upto(1, &[4, 8, 16, 16, 40]));
    let mut manifest = Manifest::new();
    for _ in 0..*rng.pick(&[1, 1, 1, 2, 3]) {
        let kind = a_request(rng, &schema.lines);
        manifest.insert(kind, trie(rng, &schema.lines, kind, most, &follow));
    }
    let asked: Vec<u64> = manifest.keys().copied().collect();
    let kind = if rng.percent(2) { a_request(rng, &schema.lines) ^ 0x1_0000 } else { *rng.pick(&asked) };
    Case { request: request_for(rng, kind, &plan), manifest, plan, untyped: rng.percent(4) }
}

/// Around one limit: 24 steps, 4,096 rows, 8,192 values and parents, 256 ids of one request, 8,192 rows of a context.
pub fn limit_case(rng: &mut Rng, schema: &LoadSchema) -> Case {
    let kind = request(1, ACTION as u64, 1);
    let mut plan = Plan { pool: 3, absent: 0, missing: 0, differs: 0, wrong: 0, miscounted: None, elements: (0, 2), ..plan(rng, schema) };
    let mut trie = Trie::new();
    let (p, r, c) = (step(1, 0), step(3, 0), step(4, 0));
    let mut context = None;
    match rng.below(20) {
        0..=5 => {
            // a chain down to 24 steps, often with ancestors at its end
            let long = rng.from(20, 24);
            let mut place = vec![*rng.pick(&[p, r, c])];
            while place.len() < long {
                place.push(if rng.percent(3) && place.len() > 1 { r } else { step(F, if place == [c] { 0 } else { rng.below(3) as u32 }) });
            }
            insert(&mut trie, &place, rng.percent(50));
        }
        6..=11 => {
            // sums around 8,192 in one answer or in two, as values or as parents
            let (whole, parents) = (8_192 + rng.below(4) - 2, rng.percent(30));
            plan.sliced = 0;
            plan.bulk = if rng.percent(50) { vec![(10, whole - 70, parents)] } else { vec![(10, 4_000, parents), (11, whole - 4_000 - 140, rng.percent(30))] };
            (plan.elements, plan.parents, plan.pool) = ((2, 2), 0, 2);
            insert(&mut trie, &[p], false);
            insert(&mut trie, &[r], false);
            for f in 0..rng.below(3) as u32 {
                insert(&mut trie, &[p, step(F, f)], false);
            }
        }
        12..=15 => {
            // around 256 ids: a set, and some more beside it
            plan.elements = (251 + rng.below(5), 256 + rng.below(4));
            insert(&mut trie, &[p, r, step(F, 61)], true);
            for f in 0..rng.below(5) as u32 {
                insert(&mut trie, &[p, r, step(F, f)], true);
                insert(&mut trie, &[r, step(F, f)], false);
            }
            insert(&mut trie, &[r, step(F, 61)], false);
            if rng.percent(40) {
                insert(&mut trie, &[p, c, step(F, 1)], true);
            }
        }
        16..=18 => {
            // a context around 8,192 rows, which does not count
            insert(&mut trie, &[c, step(F, 0)], false);
            insert(&mut trie, &[p, c, step(F, 1)], rng.percent(30));
            let many = 8_192 + rng.below(3) as u32 - 4;
            context = Some(Fields::from([(0, Value::Entity(10)), (1, Value::Set((0..many).map(Value::Entity).collect())), (2, Value::Plain(1))]));
        }
        _ => {
            // 4,096 rows: roots, their 61 entities, and as many below each of these
            let mut left = rng.from(4_094, 4_096);
            let steps = || (0..61).map(|f| step(F, f));
            let places = [p, r].into_iter().flat_map(|root| {
                let below = steps().flat_map(move |f| [vec![root, f]].into_iter().chain(steps().map(move |g| vec![root, f, g])));
                [vec![root]].into_iter().chain(below)
            });
            for place in places {
                if left == 0 {
                    break;
                }
                insert(&mut trie, &place, false);
                left -= 1;
            }
            plan.sliced = 1;
            plan.parents = 0;
        }
    }
    let mut asked = request_for(rng, kind, &plan);
    if let Some(context) = context {
        asked.context = context;
    }
    if !plan.bulk.is_empty() {
        (asked.principal, asked.resource) = (10, 11);
    }
    Case { manifest: Manifest::from([(kind, trie)]), request: asked, plan, untyped: false }
}

// ---------------------------------------------------------------- pruned tries

/// The pruned trie of each node of an entry, as `prune_child_entity_dereferences` gives it; nodes without types are pruned nowhere.
pub fn pruned(lines: &Lines, rows: &[u64]) -> Vec<Node> {
    let tree = Tree::of(rows);
    let is_entity = |node: usize| (rows[node] >> 25) as usize > 0 && lines.is_entity((rows[node] >> 25) as usize - 1);
    fn whole(tree: &Tree, node: usize) -> Node {
        let n = &tree.nodes[node];
        Node { mark: n.mark, below: n.fields.iter().chain(&n.roots).map(|(s, child)| (*s, whole(tree, *child))).collect() }
    }
    fn one(tree: &Tree, node: usize, is_entity: &dyn Fn(usize) -> bool, first: bool) -> Node {
        let n = &tree.nodes[node];
        let mut below: BTreeMap<Step, Node> = n.roots.iter().map(|(s, child)| (*s, whole(tree, *child))).collect();
        if first || !is_entity(node) {
            below.extend(n.fields.iter().map(|(s, child)| (*s, one(tree, *child, is_entity, false))));
        }
        Node { mark: n.mark, below }
    }
    (0..tree.nodes.len()).map(|node| one(&tree, node, &is_entity, true)).collect()
}
