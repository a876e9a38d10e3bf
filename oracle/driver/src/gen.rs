//! Generators. Each case has its own numbers, drawn from the seed, the run's name and the case's number, so that one case can be run alone.

use crate::model::*;
use crate::plain::{self, Types};
use std::collections::BTreeSet;

/// splitmix64
pub struct Rng(u64);

impl Rng {
    pub fn new(seed: u64, run: &str, case: u64) -> Self {
        let mut at = seed;
        for b in run.bytes() {
            at = (at ^ b as u64).wrapping_mul(0x0100_0000_01b3);
        }
        let mut rng = Rng(at ^ case.wrapping_mul(0x9e37_79b9_7f4a_7c15));
        rng.next();
        rng
    }

    pub fn next(&mut self) -> u64 {
        self.0 = self.0.wrapping_add(0x9e37_79b9_7f4a_7c15);
        let mut z = self.0;
        z = (z ^ (z >> 30)).wrapping_mul(0xbf58_476d_1ce4_e5b9);
        z = (z ^ (z >> 27)).wrapping_mul(0x94d0_49bb_1331_11eb);
        z ^ (z >> 31)
    }

    pub fn below(&mut self, n: usize) -> usize {
        (self.next() % n as u64) as usize
    }

    pub fn from(&mut self, low: usize, high: usize) -> usize {
        low + self.below(high - low + 1)
    }

    /// From `low` to one of these.
    pub fn upto(&mut self, low: usize, highs: &[usize]) -> usize {
        let high = *self.pick(highs);
        self.from(low, high)
    }

    pub fn percent(&mut self, n: usize) -> bool {
        self.below(100) < n
    }

    pub fn pick<'a, T>(&mut self, list: &'a [T]) -> &'a T {
        &list[self.below(list.len())]
    }

    pub fn shuffle<T>(&mut self, list: &mut [T]) {
        for n in (1..list.len()).rev() {
            list.swap(n, self.below(n + 1));
        }
    }
}

// ---------------------------------------------------------------- tries

/// All tries of at most three nodes over the roots p and r and the fields 0 and 1, with all marks: 457 of them.
pub fn small_tries() -> Vec<Trie> {
    let (roots, steps) = ([step(1, 0), step(3, 0)], [step(F, 0), step(F, 1), step(1, 0), step(3, 0)]);
    let mut shapes: BTreeSet<Vec<Vec<Step>>> = [vec![]].into();
    for _ in 0..3 {
        for shape in shapes.clone() {
            let mut next: Vec<Vec<Step>> = roots.iter().map(|r| vec![*r]).collect();
            for p in &shape {
                next.extend(steps.iter().map(|s| p.iter().copied().chain([*s]).collect()));
            }
            for p in next {
                if !shape.contains(&p) && shape.len() < 3 {
                    let mut grown = shape.clone();
                    grown.push(p);
                    grown.sort();
                    shapes.insert(grown);
                }
            }
        }
    }
    let mut out = Vec::new();
    for shape in shapes {
        for marks in 0..1u32 << shape.len() {
            let places: Vec<_> = shape.iter().enumerate().map(|(n, p)| (p.clone(), marks >> n & 1 == 1)).collect();
            out.push(closed(&places));
        }
    }
    out
}

pub struct Shape {
    pub fields: usize,
    pub deep: usize,
    /// percent: a step into an ancestors trie; a mark; going on below the last node
    pub roots: usize,
    pub marks: usize,
    pub long: usize,
}

pub fn shape(rng: &mut Rng) -> Shape {
    Shape {
        fields: *rng.pick(&[1, 2, 3, 5, 10, 60]),
        deep: *rng.pick(&[2, 3, 4, 6, 10, 24, 24]),
        roots: *rng.pick(&[0, 5, 15, 40]),
        marks: *rng.pick(&[0, 5, 20, 50]),
        long: *rng.pick(&[0, 20, 60, 90]),
    }
}

fn an_id(rng: &mut Rng, n: usize) -> u32 {
    if rng.percent(3) { *rng.pick(&[0, 9, 10, 99, 999, 9_999, 10_000, 65_534, 65_535]) } else { rng.below(n) as u32 }
}

fn a_root(rng: &mut Rng, n: usize) -> Step {
    match rng.below(7) {
        0..=1 => step(1, 0),
        2 => step(2, 0),
        3 => step(3, 0),
        4 => step(4, 0),
        _ => step(E, an_id(rng, n)),
    }
}

/// `trie` with `more` nodes more, if the shape has room for them.
pub fn grow(rng: &mut Rng, trie: &Trie, more: usize, shape: &Shape) -> Trie {
    let mut places: Vec<(Vec<Step>, bool)> = positions(trie);
    let mut seen: BTreeSet<Vec<Step>> = places.iter().map(|(p, _)| p.clone()).collect();
    let (want, mut tries) = (places.len() + more, 40 * more + 100);
    let mut fields = shape.fields;
    while places.len() < want {
        tries -= 1;
        if tries == 0 {
            // no room is left: a wider one
            fields *= 4;
            tries = 40 * more + 100;
            if fields > 60_000 {
                break;
            }
        }
        let above = if places.is_empty() || rng.percent(8) {
            Vec::new()
        } else if rng.percent(shape.long) {
            places.last().unwrap().0.clone()
        } else {
            rng.pick(&places).0.clone()
        };
        if above.len() >= shape.deep {
            continue;
        }
        let next = if above.is_empty() || rng.percent(shape.roots) { a_root(rng, fields) } else { step(F, an_id(rng, fields)) };
        let place: Vec<Step> = above.into_iter().chain([next]).collect();
        if seen.insert(place.clone()) {
            let mark = rng.percent(shape.marks);
            places.push((place, mark));
        }
    }
    closed(&places)
}

pub fn trie(rng: &mut Rng, nodes: usize, shape: &Shape) -> Trie {
    grow(rng, &Trie::new(), nodes, shape)
}

/// Another trie that shares much with this one.
pub fn cousin(rng: &mut Rng, of: &Trie, shape: &Shape) -> Trie {
    let keep = rng.from(0, 100);
    let mut places = positions(of);
    places.retain(|_| rng.percent(keep));
    places.iter_mut().for_each(|(_, mark)| *mark ^= rng.percent(10));
    let more = rng.below(4);
    grow(rng, &closed(&places), more, shape)
}

/// Two tries whose union has exactly `nodes` nodes, each of at most `most`.
pub fn pair_of_union(rng: &mut Rng, nodes: usize, most: usize) -> (Trie, Trie) {
    let mut shape = shape(rng);
    shape.deep = shape.deep.max(4);
    shape.fields = shape.fields.max(5);
    let own = rng.from(nodes.saturating_sub(most), most.min(nodes));
    // the union is left + own of the right; the right has also some of the left
    let whole = trie(rng, nodes, &shape);
    let places = positions(&whole);
    let left = nodes - own;
    // a set closed under prefixes: by length, then drawn
    let mut order: Vec<usize> = (0..places.len()).collect();
    rng.shuffle(&mut order);
    order.sort_by_key(|n| places[*n].0.len());
    let a: Vec<_> = order[..left].iter().map(|n| places[*n].clone()).collect();
    let rest: Vec<_> = order[left..].iter().map(|n| places[*n].clone()).collect();
    (closed(&a), closed(&rest))
}

/// Contributions whose union, over several request types, has exactly `nodes` nodes.
pub fn list_of_union(rng: &mut Rng, nodes: usize) -> Vec<(u64, Trie)> {
    let (mut list, mut left) = (Vec::new(), nodes);
    let wide = Shape { fields: 60, deep: 8, ..shape(rng) };
    for n in 0.. {
        let some = left.min(rng.from(500, 1_000));
        let whole = trie(rng, some, &wide);
        let r = request(n % 3, n, 7);
        // two parts that share some, and together are the whole
        let (mut a, mut b) = (Vec::new(), Vec::new());
        for place in positions(&whole) {
            match rng.below(3) {
                0 => a.push(place),
                1 => b.push(place),
                _ => {
                    a.push(place.clone());
                    b.push(place);
                }
            }
        }
        list.push((r, closed(&a)));
        list.push((r, closed(&b)));
        left -= some;
        if left == 0 {
            return list;
        }
    }
    list
}

/// Schemas at each limit and one past it, and the largest one.
pub fn limit_schemas() -> Vec<(String, String)> {
    let types = |n: usize| (0..n).map(|t| format!("T\t{t}\t3\n")).collect::<String>();
    let attributes = |n: usize, ty: usize| (0..n).map(|f| format!("F\t{f}\t{ty}\n")).collect::<String>();
    let lines = |letter: &str, n: usize, rest: &str| (0..n).map(|k| format!("{letter}\t{k}{rest}\n")).collect::<String>();
    let mut out = Vec::new();
    for more in 0..2 {
        let mut put = |what: &str, text: String| out.push((format!("{what}, {more} too many"), text));
        put("1,024 types", types(1_024 + more));
        put("64 attributes of a record", types(1) + "T\t1\t7\n" + &attributes(64 + more, 0));
        put("64 attributes of an action", types(1) + "T\t1\t8\n" + &attributes(64 + more, 0));
        put("64 attributes of an entity type", types(1) + "E\t5\n" + &attributes(64 + more, 0));
        put("1,024 entity types", lines("E", 1_024 + more, ""));
        put("8,192 literals", types(1) + &lines("L", 8_192 + more, "\t0"));
        put("1,024 actions", types(1) + &lines("C", 1_024 + more, "\t0"));
    }
    // the first type of the largest can have no attributes
    let mut all = String::from("T\t0\t7\n");
    for t in 1..1_024 {
        all += &format!("T\t{t}\t7\n{}", attributes(64, 0));
    }
    for e in 0..1_024 {
        all += &format!("E\t{e}\n{}", attributes(64, 1_023));
    }
    all += &(lines("L", 8_192, "\t1023") + &lines("C", 1_024, "\t1023"));
    out.push(("the largest schema".into(), all));
    out
}

pub fn a_request(rng: &mut Rng, types: usize) -> u64 {
    let n = |rng: &mut Rng| an_id(rng, types) as u64;
    request(n(rng), n(rng), n(rng))
}

// ---------------------------------------------------------------- schemas

pub fn schema(rng: &mut Rng) -> String {
    let mut text = String::new();
    let count = rng.upto(1, &[3, 8, 16, 40]);
    let record = *rng.pick(&[20, 50, 80]);
    for n in 0..count {
        if n == 0 || !rng.percent(record) {
            match rng.below(8) {
                0 if n > 0 => text += &format!("T\t{n}\t6\t{}\n", rng.below(n)),
                1 if n > 0 => text += &format!("T\t{n}\t6\t{}\n", n - 1),
                2 => text += &format!("T\t{n}\t9\t{}\n", rng.below(20)),
                3 => text += &format!("T\t{n}\t9\t3\t{}\n", rng.from(4, 65_535)),
                4 => text += &format!("T\t{n}\t10\n"),
                5 => text += &format!("T\t{n}\t5\n"),
                _ => text += &format!("T\t{n}\t{}\n", rng.below(5)),
            }
        } else {
            text += &format!("T\t{n}\t{}\n", if rng.percent(75) { 7 } else { 8 });
            let most = if rng.percent(5) { 64 } else { 4 };
            let fields: BTreeSet<u32> = (0..rng.from(0, most)).map(|_| an_id(rng, if most == 64 { 200 } else { 5 })).collect();
            for f in fields {
                // the newest types often, so that tries grow deep
                let t = if rng.percent(60) { n - 1 - rng.below(n.min(2)) } else { rng.below(n) };
                text += &format!("F\t{f}\t{t}\n");
            }
        }
    }
    for n in 0..rng.below(4) {
        text += &format!("E\t{}\n", n * 7);
        for f in 0..rng.below(4) {
            text += &format!("F\t{f}\t{}\n", rng.below(count));
        }
    }
    for n in 0..rng.below(4) {
        text += &format!("L\t{}\t{}\n", n * 100, rng.below(count));
    }
    for n in 0..rng.below(3) {
        text += &format!("C\t{}\t{}\n", n * 100, rng.below(count));
    }
    text
}

/// Records whose tries come to the limits: chains of 20 to 25, trees of about 1,024 nodes, one that doubles without end.
pub fn limit_schema(rng: &mut Rng) -> String {
    let mut text = String::from("T\t0\t3\n");
    match rng.below(4) {
        0 => {
            for n in 1..rng.from(20, 26) {
                text += &format!("T\t{n}\t7\nF\t{}\t{}\n", n % 3, n - 1);
            }
        }
        1 => {
            // 2^n - 2 nodes
            for n in 1..rng.from(8, 30) {
                text += &format!("T\t{n}\t7\nF\t1\t{}\nF\t2\t{}\n", n - 1, n - 1);
            }
        }
        2 => {
            // w + w * v nodes
            for (n, w) in [(1, rng.from(13, 16)), (2, rng.from(62, 64))] {
                text += &format!("T\t{n}\t7\n");
                for f in 0..w {
                    text += &format!("F\t{f}\t{}\n", n - 1);
                }
            }
            let n = 3;
            text += &format!("T\t{n}\t7\nF\t1\t2\n");
            for f in 2..rng.from(2, 64) {
                text += &format!("F\t{f}\t{}\n", rng.below(2));
            }
        }
        _ => {
            text += "T\t1\t7\nF\t1\t0\nT\t2\t6\t1\nT\t3\t7\nF\t1\t1\nF\t2\t2\nT\t4\t6\t3\nT\t5\t8\nF\t1\t3\n";
        }
    }
    text
}

// ---------------------------------------------------------------- step texts

fn a_line(rng: &mut Rng, types: usize, results: usize) -> String {
    let top = if results >= 2 { 30 } else if results == 1 { 19 } else { 7 };
    match rng.below(top) {
        0..=3 => format!("var\t{}", rng.pick(&["p", "p", "r", "a", "c"])),
        4..=5 => format!("lit\t{}", rng.pick(&[0, 4, 9, 65_535])),
        6 => "none".into(),
        7..=12 => format!("attr\t{}", rng.pick(&[0, 1, 1, 2, 2, 3, 40, 65_535])),
        13 => "set".into(),
        14 => "drop".into(),
        15..=16 if types > 0 => format!("full\t{}", rng.below(types)),
        15..=17 => format!("rec\t{}", rng.below(4)),
        18 => "rec".into(),
        19..=22 => "union".into(),
        23..=26 => "in".into(),
        _ => {
            let most = results.min(4);
            let mut ids: BTreeSet<usize> = BTreeSet::new();
            while ids.len() < 2.max(most) {
                ids.insert(rng.below(6));
            }
            "rec".to_string() + &ids.iter().map(|n| format!("\t{n}")).collect::<String>()
        }
    }
}

/// Lines that mostly succeed: of a line that the plain side refuses, `risk` in a hundred are kept.
pub fn steps(rng: &mut Rng, types: &Types, length: usize, risk: usize) -> Vec<String> {
    let (mut stack, mut lines, mut tries) = (Vec::new(), Vec::new(), 0);
    while (lines.len() < length || stack.len() != 1) && tries < 6 * length + 50 {
        tries += 1;
        let line = if lines.len() >= length && stack.len() > 1 {
            rng.pick(&["union", "in", "in", "rec\t1\t2"]).to_string()
        } else {
            a_line(rng, types.kind.len(), stack.len())
        };
        let parsed = plain::Line::parse(types.kind.len(), line.as_bytes());
        if parsed.is_some_and(|l| plain::apply(types, &mut stack, &l).is_ok()) {
            lines.push(line);
        } else if rng.percent(risk) {
            lines.push(line);
            break;
        }
    }
    lines
}

/// Step texts that come to one limit.
pub fn limit_steps(rng: &mut Rng, types: &Types) -> Vec<String> {
    let mut lines: Vec<String> = Vec::new();
    let root = |rng: &mut Rng| rng.pick(&["var\tp", "var\tr", "var\tc", "lit\t7"]).to_string();
    let kind = rng.below(9);
    // around 1,024 nodes without a large type takes a thousand lines: not so often
    let long = kind == 7 && types.size.iter().all(|n| *n < 500 || *n >= 1_000);
    match if long && rng.percent(70) { 8 } else { kind } {
        0 => {
            // 24 steps by attr
            lines.push(root(rng));
            for _ in 0..rng.from(21, 25) {
                lines.push(format!("attr\t{}", rng.below(3)));
            }
        }
        1 => {
            // 24 steps by `in`
            let left = rng.from(0, 23);
            lines.push(root(rng));
            lines.extend((0..left).map(|n| format!("attr\t{n}")));
            lines.push(root(rng));
            let right = (22 + rng.below(3)).saturating_sub(left);
            lines.extend((0..right).map(|n| format!("attr\t{n}")));
            lines.push("in".into());
        }
        2 => {
            // 32 results
            let count = rng.from(30, 34);
            lines.extend((0..count).map(|_| rng.pick(&["var\tp", "none", "lit\t3", "var\ta"]).to_string()));
            if rng.percent(40) {
                let ids: Vec<String> = (0..count.min(rng.from(30, 33))).map(|n| format!("\t{n}")).collect();
                lines.push(format!("rec{}", ids.concat()));
            } else {
                lines.extend((1..count).map(|_| rng.pick(&["union", "union", "in"]).to_string()));
            }
        }
        3 => {
            // 256 path nodes by wrapping
            lines.push(root(rng));
            let count = rng.from(252, 258);
            lines.extend((0..count).map(|_| rng.pick(&["set", "rec\t1"]).to_string()));
            if rng.percent(30) {
                lines.push("drop".into());
            }
        }
        4 => {
            // 256 path nodes by unions: 2 n - 1 of n paths
            lines.push(root(rng));
            for n in 1..rng.from(126, 130) {
                lines.push(if rng.percent(10) { "none".into() } else { format!("lit\t{}", n % 50) });
                lines.push("union".into());
            }
            if rng.percent(70) {
                lines.push(format!("attr\t{}", rng.below(3)));
            }
        }
        5 => {
            // 1,024 nodes: paths by paths. l left paths and r right ones, each right path with a field: l * 2 r and more
            let l = rng.from(10, 24);
            let r = (1_024 / l).saturating_sub(l) / 2 + rng.below(3);
            let r = r.clamp(1, 100);
            for (count, base, field) in [(l, 0, 1), (r, 100, 2)] {
                for n in 0..count {
                    lines.push(format!("lit\t{}", base + n));
                    if n > 0 {
                        lines.push("union".into());
                    }
                }
                lines.push(format!("attr\t{field}"));
            }
            lines.push("in".into());
        }
        6 => {
            // 24 steps and 1,024 nodes at once: 20 paths of 21 to 24 steps, and about 15 ancestors of two nodes below each
            let (l, long, r) = (20, rng.from(20, 22), rng.from(13, 17));
            for (count, base, fields) in [(l, 0, long), (r, 100, 1)] {
                for n in 0..count {
                    lines.push(format!("lit\t{}", base + n));
                    if n > 0 {
                        lines.push("union".into());
                    }
                }
                lines.extend((0..fields).map(|f| format!("attr\t{f}")));
            }
            lines.push("in".into());
        }
        7 => {
            // around 1,024 nodes exactly: a type's trie and chains beside it, united at once or one by one
            let t = (0..types.kind.len()).filter(|t| types.size[*t] < 1_000).max_by_key(|t| types.size[*t]).unwrap_or(0);
            let mut left = rng.from(1_022, 1_027);
            lines.push("var\tp".into());
            if let Some(size) = types.size.get(t) {
                lines.push(format!("full\t{t}"));
                left -= if *size == 0 { 0 } else { 1 + size };
            }
            let (mut n, at_once) = (0, rng.percent(30) && left < 700);
            while left > 1 {
                let mut long = left.min(24);
                if left - long == 1 {
                    long -= 1;
                }
                lines.push(format!("lit\t{n}"));
                lines.extend((1..long).map(|f| format!("attr\t{}", f % 7)));
                if !at_once {
                    lines.push("union".into());
                }
                left -= long;
                n += 1;
            }
            if at_once {
                lines.push(format!("rec{}", (0..=n).map(|f| format!("\t{f}")).collect::<String>()));
            }
        }
        _ => {
            // the types' own limits, often where their depth comes to 24 steps too
            for n in 0..rng.from(1, 3) {
                let t = types.kind.len().saturating_sub(1 + rng.below(types.kind.len().clamp(1, 3)));
                let deep = types.depth.get(t).copied().unwrap_or(0);
                let fields = if rng.percent(50) { rng.below(6) } else { (22 + rng.below(3)).saturating_sub(deep) };
                lines.push(root(rng));
                lines.extend((0..fields).map(|_| format!("attr\t{}", rng.below(4))));
                if rng.percent(15) {
                    lines.push(rng.pick(&["set", "rec\t1", "drop"]).to_string());
                }
                if !types.kind.is_empty() {
                    lines.push(format!("full\t{t}"));
                }
                if n > 0 {
                    lines.push("union".into());
                }
            }
        }
    }
    lines
}

pub fn text_of(lines: &[String]) -> Vec<u8> {
    lines.iter().flat_map(|l| l.bytes().chain([b'\n'])).collect()
}

// ---------------------------------------------------------------- damage

/// A copy of a text, damaged in one to four places.
pub fn damaged(rng: &mut Rng, text: &[u8]) -> Vec<u8> {
    let mut out = text.to_vec();
    for _ in 0..rng.upto(1, &[1, 1, 2, 4]) {
        let mut lines: Vec<Vec<u8>> = out.split_inclusive(|b| *b == b'\n').map(|l| l.to_vec()).collect();
        let some = |rng: &mut Rng, n: usize| rng.below(n.max(1));
        match rng.below(14) {
            0 if !out.is_empty() => {
                let at = some(rng, out.len());
                out[at] = *rng.pick(b"\t\n\r \0019fparceAN-+x\xff");
            }
            1 if !out.is_empty() => {
                let at = some(rng, out.len());
                out[at] ^= 1 << rng.below(8);
            }
            2 if !out.is_empty() => {
                let at = some(rng, out.len());
                out.remove(at);
            }
            3 => {
                let at = rng.below(out.len() + 1);
                out.insert(at, *rng.pick(b"\t\n\r 0019fparceANTFELC\x80"));
            }
            4 => out.truncate(rng.below(out.len() + 1)),
            5 if !lines.is_empty() => {
                let at = some(rng, lines.len());
                lines.remove(at);
                out = lines.concat();
            }
            6 if !lines.is_empty() => {
                let at = some(rng, lines.len());
                let line = lines[at].clone();
                let to = rng.below(lines.len() + 1);
                lines.insert(to, line);
                out = lines.concat();
            }
            7 if lines.len() > 1 => {
                let (a, b) = (some(rng, lines.len()), some(rng, lines.len()));
                lines.swap(a, b);
                out = lines.concat();
            }
            8..=11 if !lines.is_empty() => {
                // one field of a line by another
                let at = some(rng, lines.len());
                let mut fields: Vec<Vec<u8>> = lines[at].strip_suffix(b"\n").unwrap_or(&lines[at]).split(|b| *b == b'\t').map(|f| f.to_vec()).collect();
                let which = some(rng, fields.len());
                let other: &[&[u8]] = &[
                    b"0", b"1", b"2", b"3", b"24", b"25", b"00", b"01", b"65535", b"65536", b"99999", b"100000", b"", b"-1", b"+1", b"f", b"p", b"e", b"c",
                    b"A", b"N", b"attr", b"union", b"in", b"set", b"full", b"rec", b"T", b"F",
                ];
                fields[which] = rng.pick(other).to_vec();
                lines[at] = fields.join(&b'\t');
                lines[at].push(b'\n');
                out = lines.concat();
            }
            12 if !lines.is_empty() => {
                let at = some(rng, lines.len());
                let more: &[&[u8]] = &[b"\t", b"\t0", b"\r", b" ", b"\0"];
                let mut line = lines[at].strip_suffix(b"\n").unwrap_or(&lines[at]).to_vec();
                line.extend(*rng.pick(more));
                line.push(b'\n');
                lines[at] = line;
                out = lines.concat();
            }
            _ => {
                // lines of an own, more or less lawful
                let more: &[&[u8]] = &[b"A\t1\t2\t3\n", b"N\t1\tp\t0\t0\n", b"N\t2\tf\t1\t1\n", b"N\t25\tf\t1\t0\n", b"union\n", b"none\n", b"in\n", b"\n", b"T\t0\t3\n", b"F\t1\t0\n"];
                let to = rng.below(lines.len() + 1);
                lines.insert(to, rng.pick(more).to_vec());
                out = lines.concat();
            }
        }
    }
    out
}

/// Rows with one to three words damaged, lost or said twice.
pub fn damaged_rows(rng: &mut Rng, rows: &[u64]) -> Vec<u64> {
    let mut out = rows.to_vec();
    for _ in 0..rng.from(1, 3) {
        if out.is_empty() {
            out.push(rng.next() >> rng.below(64));
            continue;
        }
        let at = rng.below(out.len());
        match rng.below(6) {
            0 => out[at] ^= 1 << rng.below(64),
            1 => out[at] ^= 1 << rng.below(26),
            2 => {
                out.remove(at);
            }
            3 => out.insert(at, out[at]),
            4 => {
                let other = rng.below(out.len());
                out.swap(at, other);
            }
            _ => out[at] = rng.next() >> rng.below(64),
        }
    }
    out
}
