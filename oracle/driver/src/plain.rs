//! A second side, written from document 01 and docs/FORMS.md alone and independent of the published Rust: it answers where our library is
//! not linked, is the reference for texts and damaged states (which the published Rust has not), and the plain parser and writer of the
//! benchmarks. A trie is a sorted map from positions to marks.

use crate::model::*;
use std::collections::BTreeMap;
use std::rc::Rc;

// ---------------------------------------------------------------- texts

/// Each line without its LF; `None` for a last line that lacks it.
pub fn lines(text: &[u8]) -> impl Iterator<Item = Option<&[u8]>> {
    text.split_inclusive(|b| *b == b'\n').map(|l| l.strip_suffix(b"\n"))
}

pub fn decimal(field: &[u8]) -> Option<u32> {
    if field.is_empty() || field.len() > 5 || (field.len() > 1 && field[0] == b'0') {
        return None;
    }
    let mut n = 0;
    for b in field {
        if !b.is_ascii_digit() {
            return None;
        }
        n = n * 10 + (b - b'0') as u32;
    }
    (n <= 65_535).then_some(n)
}

fn letter(field: &[u8]) -> Option<u32> {
    match field {
        [b] => LETTERS.iter().position(|l| l == b).map(|k| k as u32),
        _ => None,
    }
}

/// A line of a listing as a row (its depth not held to 24), or `None` where it is not of its form.
fn line_row(line: &[u8]) -> Option<(usize, u64, bool)> {
    let mut fields = line.split(|b| *b == b'\t');
    let row = match fields.next()? {
        b"A" => {
            let (p, a, r) = (decimal(fields.next()?)?, decimal(fields.next()?)?, decimal(fields.next()?)?);
            (0, request(p as u64, a as u64, r as u64), false)
        }
        b"N" => {
            let depth = decimal(fields.next()?)? as usize;
            let kind = letter(fields.next()?)?;
            let id = decimal(fields.next()?)?;
            let mark = match fields.next()? {
                b"0" => false,
                b"1" => true,
                _ => return None,
            };
            if depth == 0 || (depth == 1 && kind == F) || ((1..5).contains(&kind) && id != 0) {
                return None;
            }
            (depth, step(kind, id) as u64, mark)
        }
        _ => return None,
    };
    fields.next().is_none().then_some(row)
}

/// What stands before the next row: the last step at each depth, and how many rows there are.
struct Before {
    kind: Kind,
    path: [u64; STEPS + 1],
    depth: usize,
    entries: usize,
    nodes: usize,
}

impl Before {
    fn new(kind: Kind) -> Self {
        Before { kind, path: [0; STEPS + 1], depth: 0, entries: 0, nodes: 0 }
    }

    /// The number that refuses a row of its form, by 2, 3, 5, 4.
    fn judge(&mut self, depth: usize, value: u64) -> u64 {
        if depth == 0 {
            if self.entries > 0 && value <= self.path[0] {
                return 2;
            }
            if self.entries == self.kind.entries() {
                return 5;
            }
            self.entries += 1;
        } else {
            if self.entries == 0 || depth > self.depth + 1 || (depth <= self.depth && value <= self.path[depth]) {
                return 2;
            }
            if depth > STEPS {
                return 3;
            }
            if self.nodes == self.kind.nodes() {
                return 4;
            }
            self.nodes += 1;
        }
        self.path[depth] = value;
        self.depth = depth;
        0
    }
}

pub fn read(kind: Kind, text: &[u8]) -> Answer<Vec<u64>> {
    let (mut rows, mut before) = (Vec::new(), Before::new(kind));
    for (place, line) in lines(text).enumerate() {
        let Some((depth, value, mark)) = line.and_then(line_row) else { return refuse(1, place) };
        if kind == Kind::Contribution && depth == 0 && before.entries == 1 {
            return refuse(1, place);
        }
        match before.judge(depth, value) {
            0 => rows.push(if depth == 0 { entry_word(value) } else { node_word(depth, value as u32, mark) }),
            n => return refuse(n, place),
        }
    }
    if kind == Kind::Contribution && before.entries == 0 {
        return refuse(1, 0);
    }
    Ok(rows)
}

fn put(n: u64, out: &mut Vec<u8>) {
    if n >= 10 {
        put(n / 10, out);
    }
    out.push(b'0' + (n % 10) as u8);
}

pub fn write(rows: &[u64], out: &mut Vec<u8>) {
    for word in rows {
        let mut fields = |letter: u8, numbers: [u64; 2], rest: u64, kind: Option<u8>| {
            out.extend([letter, b'\t']);
            put(numbers[0], out);
            out.push(b'\t');
            if let Some(kind) = kind {
                out.extend([kind, b'\t']);
            }
            put(numbers[1], out);
            out.push(b'\t');
            put(rest, out);
            out.push(b'\n');
        };
        if word % 32 == 0 {
            let r = word / 64;
            fields(b'A', [r >> 32, (r >> 16) % 65_536], r % 65_536, None);
        } else {
            let s = step_of(*word);
            fields(b'N', [word % 32, (s % 65_536) as u64], mark_of(*word) as u64, Some(LETTERS[(s / 65_536) as usize]));
        }
    }
}

// ---------------------------------------------------------------- states

pub fn lawful(kind: Kind, rows: &[u64]) -> bool {
    if rows.len() >= kind.words() || (kind == Kind::Contribution && rows.is_empty()) {
        return false;
    }
    let mut before = Before::new(kind);
    rows.iter().all(|w| {
        let (depth, s) = (depth_of(*w), step_of(*w));
        if depth == 0 {
            return !mark_of(*w) && w / 64 < 1 << 48 && before.judge(0, w / 64) == 0;
        }
        let (k, id) = (s / 65_536, s % 65_536);
        let shaped = w >> 36 == 0 && w >> 25 <= 1_026 && k <= 5 && !(depth == 1 && k == F) && !((1..5).contains(&k) && id != 0);
        shaped && before.judge(depth, s as u64) == 0
    })
}

/// The rows of either, in order: of two next rows the deeper first, then the smaller step.
pub fn merged(a: &[u64], b: &[u64], out: &mut Vec<u64>) {
    let key = |w: &u64| ((32 - w % 32) << 48) + if w % 32 == 0 { w / 64 } else { step_of(*w) as u64 };
    let (mut i, mut j) = (0, 0);
    while i < a.len() && j < b.len() {
        let (x, y) = (key(&a[i]), key(&b[j]));
        out.push(if x < y { a[i] } else if y < x { b[j] } else { a[i] | b[j] & 32 });
        i += (x <= y) as usize;
        j += (y <= x) as usize;
    }
    out.extend(&a[i..]);
    out.extend(&b[j..]);
}

fn within(kind: Kind, rows: Vec<u64>) -> Answer<Vec<u64>> {
    let entries = rows.iter().filter(|w| **w % 32 == 0).count();
    if entries > kind.entries() {
        refuse(5, 0)
    } else if rows.len() - entries > kind.nodes() {
        refuse(4, 0)
    } else {
        Ok(rows)
    }
}

pub fn union(kind: Kind, a: &[u64], b: &[u64]) -> Answer<Vec<u64>> {
    if !lawful(kind, a) || !lawful(kind, b) {
        return refuse(1, 0);
    }
    let mut out = Vec::with_capacity(a.len() + b.len());
    merged(a, b, &mut out);
    within(kind, out)
}

pub fn add(manifest: &[u64], contribution: &[u64]) -> Answer<Vec<u64>> {
    if !lawful(Kind::Manifest, manifest) || !lawful(Kind::Contribution, contribution) {
        return refuse(1, 0);
    }
    let mut out = Vec::with_capacity(manifest.len() + contribution.len());
    merged(manifest, contribution, &mut out);
    within(Kind::Manifest, out)
}

/// 0 missing, 1 there, 2 there and marked.
pub fn has(kind: Kind, rows: &[u64], place: &[u64]) -> Answer<u64> {
    if !lawful(kind, rows) {
        return refuse(1, 0);
    }
    let mut at = Vec::new();
    for w in rows {
        at.truncate(depth_of(*w));
        at.push(if w % 32 == 0 { w / 64 } else { step_of(*w) as u64 });
        if at == place {
            return Ok(1 + mark_of(*w) as u64);
        }
    }
    Ok(0)
}

// ---------------------------------------------------------------- schema

pub fn read_schema(text: &[u8]) -> Answer<Vec<u64>> {
    let item = |tag: u64, value: u32, key: u32| tag + 16 * value as u64 + ((key as u64) << 40);
    let (mut items, mut types, mut counts, mut section) = (Vec::new(), 0u32, [0u32; 4], 0);
    // attributes: the types they may name lie below `bound`; the last field; how many. `last`: the last key of the section
    let (mut bound, mut last_field, mut attributes, mut last) = (None, -1i64, 0, -1i64);
    for (place, line) in lines(text).enumerate() {
        let parsed = line.and_then(|line| {
            let mut fields = line.split(|b| *b == b'\t');
            let letter = fields.next()?;
            Some((letter, fields.map(decimal).collect::<Option<Vec<u32>>>()?))
        });
        let Some((letter, ns)) = parsed else { return refuse(1, place) };
        let mine = match letter {
            b"T" => 0,
            b"E" => 1,
            b"L" => 2,
            b"C" => 3,
            b"F" => section,
            _ => return refuse(1, place),
        };
        if mine < section {
            return refuse(1, place);
        }
        if mine > section {
            (section, last) = (mine, -1);
        }
        let made = match (letter, ns.as_slice()) {
            (b"T", [n, kind, more @ ..]) => {
                let value = match (kind, more) {
                    (6, [element]) if element < n => Some(*element),
                    (9, [first, rest @ ..]) if more.windows(2).all(|w| w[0] < w[1]) => Some(first + if rest.is_empty() { 0 } else { 65_536 }),
                    (0..=5 | 7 | 8 | 10, []) => Some(0),
                    _ => None,
                };
                (bound, last_field, attributes) = (matches!(kind, 7 | 8).then_some(*n), -1, 0);
                value.filter(|_| *n == types && *n < 1_024).map(|v| {
                    types += 1;
                    item(*kind as u64, v, *n)
                })
            }
            (b"F", [field, ty]) => {
                let good = bound.is_some_and(|b| *ty < b) && *field as i64 > last_field && attributes < 64;
                (last_field, attributes) = (*field as i64, attributes + 1);
                good.then(|| item(12, *ty, *field))
            }
            (b"E", [name]) => {
                (bound, last_field, attributes) = (Some(types), -1, 0);
                counts[1] += 1;
                let good = *name as i64 > last && counts[1] <= 1_024;
                last = *name as i64;
                good.then(|| item(11, 0, *name))
            }
            (b"L" | b"C", [key, ty]) => {
                bound = None;
                counts[mine] += 1;
                let good = *key as i64 > last && *ty < types && counts[mine] <= if mine == 2 { 8_192 } else { 1_024 };
                last = *key as i64;
                good.then(|| item(11 + mine as u64, *ty, *key))
            }
            _ => None,
        };
        match made {
            Some(item) => items.push(item),
            None => return refuse(1, place),
        }
    }
    Ok(items)
}

/// Whether items are those of some text: each is written as a line, and the lines are read again.
pub fn lawful_schema(items: &[u64]) -> bool {
    let mut text = Vec::new();
    for w in items {
        let (tag, value, key) = (w % 16, w / 16 % (1 << 36), w >> 40);
        let line = match tag {
            6 => format!("T\t{key}\t6\t{value}\n"),
            9 if value >= 65_536 => format!("T\t{key}\t9\t{}\t{}\n", value - 65_536, value - 65_535),
            9 => format!("T\t{key}\t9\t{value}\n"),
            0..=10 => format!("T\t{key}\t{tag}\n"),
            11 => format!("E\t{key}\n"),
            12 => format!("F\t{key}\t{value}\n"),
            13 => format!("L\t{key}\t{value}\n"),
            14 => format!("C\t{key}\t{value}\n"),
            _ => return false,
        };
        text.extend(line.bytes());
    }
    read_schema(&text).as_deref() == Ok(items)
}

/// The types of a lawful schema, and for each the depth and the size of its trie (the size no further than `CAP`).
#[derive(Default, Clone, Debug)]
pub struct Types {
    pub kind: Vec<u64>,
    pub value: Vec<u32>,
    pub attrs: Vec<Vec<(u32, usize)>>,
    pub depth: Vec<usize>,
    pub size: Vec<usize>,
}

pub const CAP: usize = 1_000_000;

impl Types {
    pub fn of(items: &[u64]) -> Self {
        let mut t = Types::default();
        let mut own = false;
        for w in items {
            let (tag, value, key) = (w % 16, (w / 16 % (1 << 36)) as u32, (w >> 40) as u32);
            match tag {
                0..=10 => {
                    own = true;
                    t.kind.push(tag);
                    t.value.push(value);
                    t.attrs.push(Vec::new());
                }
                12 if own => t.attrs.last_mut().unwrap().push((key, value as usize)),
                12 => (),
                _ => own = false,
            }
        }
        for n in 0..t.kind.len() {
            let (mut depth, mut size) = (0, 0);
            for (_, u) in &t.attrs[n] {
                depth = depth.max(1 + t.depth[*u]);
                size = (size + 1 + t.size[*u]).min(CAP);
            }
            t.depth.push(depth);
            t.size.push(size);
        }
        t
    }
}

// ---------------------------------------------------------------- steps

#[derive(Clone, Debug, PartialEq, Eq)]
pub enum Line {
    Root(Step),
    None,
    Attr(u32),
    Union,
    Drop,
    Full(usize),
    In,
    Set,
    Rec(Vec<u32>),
}

impl Line {
    pub fn parse(types: usize, line: &[u8]) -> Option<Line> {
        let mut fields = line.split(|b| *b == b'\t');
        let word = fields.next()?;
        let rest: Vec<&[u8]> = fields.collect();
        Some(match (word, rest.as_slice()) {
            (b"none", []) => Line::None,
            (b"union", []) => Line::Union,
            (b"drop", []) => Line::Drop,
            (b"in", []) => Line::In,
            (b"set", []) => Line::Set,
            (b"var", [v]) => match letter(v) {
                Some(k @ 1..=4) => Line::Root(step(k, 0)),
                _ => return None,
            },
            (b"lit", [id]) => Line::Root(step(E, decimal(id)?)),
            (b"attr", [id]) => Line::Attr(decimal(id)?),
            (b"full", [t]) => Line::Full(decimal(t).filter(|t| (*t as usize) < types)? as usize),
            (b"rec", ids) if ids.len() <= 32 => {
                let ids = ids.iter().map(|f| decimal(f)).collect::<Option<Vec<u32>>>()?;
                if ids.windows(2).any(|w| w[0] >= w[1]) {
                    return None;
                }
                Line::Rec(ids)
            }
            _ => return None,
        })
    }

    /// How many results it takes.
    pub fn takes(&self) -> usize {
        match self {
            Line::Root(_) | Line::None => 0,
            Line::Attr(_) | Line::Drop | Line::Full(_) | Line::Set => 1,
            Line::Union | Line::In => 2,
            Line::Rec(ids) => ids.len(),
        }
    }
}

#[derive(Debug, Clone, PartialEq, Eq)]
pub enum Paths {
    Empty,
    Path(Vec<Step>),
    Union(Rc<Paths>, Rc<Paths>),
    Rec(Vec<(u32, Rc<Paths>)>),
    Set(Rc<Paths>),
}

pub type Places = BTreeMap<Vec<Step>, bool>;

#[derive(Clone, Debug)]
pub struct Found {
    pub trie: Places,
    pub paths: Rc<Paths>,
    nodes: usize,
}

fn size(w: &Paths) -> usize {
    match w {
        Paths::Empty | Paths::Path(_) => 1,
        Paths::Union(a, b) => 1 + size(a) + size(b),
        Paths::Rec(fields) => 1 + fields.iter().map(|(_, w)| size(w)).sum::<usize>(),
        Paths::Set(w) => 1 + size(w),
    }
}

fn each<'a>(w: &'a Paths, out: &mut Vec<&'a Vec<Step>>) {
    match w {
        Paths::Empty => (),
        Paths::Path(p) => out.push(p),
        Paths::Union(a, b) => {
            each(a, out);
            each(b, out);
        }
        Paths::Rec(fields) => fields.iter().for_each(|(_, w)| each(w, out)),
        Paths::Set(w) => each(w, out),
    }
}

fn with_attr(w: &Rc<Paths>, f: u32) -> Result<Rc<Paths>, u64> {
    Ok(match &**w {
        Paths::Empty => w.clone(),
        Paths::Path(p) => Rc::new(Paths::Path(p.iter().copied().chain([step(F, f)]).collect())),
        Paths::Union(a, b) => Rc::new(Paths::Union(with_attr(a, f)?, with_attr(b, f)?)),
        Paths::Rec(fields) => fields.iter().find(|(name, _)| *name == f).map_or(w, |(_, x)| x).clone(),
        Paths::Set(_) => return Err(7),
    })
}

fn typed<'a>(t: &Types, w: &'a Paths, ty: usize, out: &mut Vec<(&'a Vec<Step>, usize)>) -> Result<(), u64> {
    match w {
        Paths::Empty => (),
        Paths::Path(p) => out.push((p, ty)),
        Paths::Union(a, b) => {
            typed(t, a, ty, out)?;
            typed(t, b, ty, out)?;
        }
        Paths::Rec(fields) => {
            if t.kind[ty] != 7 {
                return Err(8);
            }
            for (name, u) in &t.attrs[ty] {
                let (_, x) = fields.iter().find(|(f, _)| f == name).ok_or(8u64)?;
                typed(t, x, *u, out)?;
            }
        }
        Paths::Set(x) => {
            if t.kind[ty] != 6 {
                return Err(8);
            }
            typed(t, x, t.value[ty] as usize, out)?;
        }
    }
    Ok(())
}

fn type_places(t: &Types, ty: usize, at: &mut Vec<Step>, out: &mut Vec<(Vec<Step>, bool)>) {
    for (field, u) in &t.attrs[ty] {
        at.push(step(F, *field));
        out.push((at.clone(), false));
        type_places(t, *u, at, out);
        at.pop();
    }
}

fn add_prefixes(trie: &mut Places, path: &[Step]) {
    for n in 1..=path.len() {
        if !trie.contains_key(&path[..n]) {
            trie.insert(path[..n].to_vec(), false);
        }
    }
}

fn unite(into: &mut Places, other: &Places) {
    for (p, m) in other {
        match into.get_mut(p) {
            Some(mark) => *mark |= m,
            None => {
                into.insert(p.clone(), *m);
            }
        }
    }
}

/// A leaf to be put at the end of a path: its depth, its count, and its places.
struct Leaf<'a> {
    depth: usize,
    size: usize,
    places: &'a dyn Fn() -> Vec<(Vec<Step>, bool)>,
}

/// 3 over all paths before 4 over all.
fn put_all(trie: &mut Places, todo: &[(&Vec<Step>, Leaf)]) -> Result<(), u64> {
    let todo: Vec<_> = todo.iter().filter(|(p, leaf)| p.len() > 1 || leaf.size > 0).collect();
    if todo.iter().any(|(p, leaf)| p.len() + leaf.depth > STEPS) {
        return Err(3);
    }
    if todo.iter().any(|(p, leaf)| p.len() + leaf.size > 1_024) {
        return Err(4);
    }
    for (p, leaf) in todo {
        add_prefixes(trie, p);
        for (below, mark) in (leaf.places)() {
            *trie.entry(p.iter().chain(&below).copied().collect()).or_default() |= mark;
        }
        if trie.len() > 1_024 {
            return Err(4);
        }
    }
    Ok(())
}

/// One step on the stack; a refusal leaves it as it was.
pub fn apply(t: &Types, stack: &mut Vec<Found>, line: &Line) -> Result<(), u64> {
    let takes = line.takes();
    if stack.len() < takes || stack.len() - takes + 1 > 32 {
        return Err(6);
    }
    let took = &stack[stack.len() - takes..];
    let empty = || Rc::new(Paths::Empty);
    let (trie, paths, nodes) = match line {
        Line::Root(root) => (Places::new(), Rc::new(Paths::Path(vec![*root])), 1),
        Line::None => (Places::new(), empty(), 1),
        Line::Drop => (took[0].trie.clone(), empty(), 1),
        Line::Set => (took[0].trie.clone(), Rc::new(Paths::Set(took[0].paths.clone())), took[0].nodes + 1),
        Line::Union => {
            let mut trie = took[0].trie.clone();
            unite(&mut trie, &took[1].trie);
            let paths = Rc::new(Paths::Union(took[0].paths.clone(), took[1].paths.clone()));
            (trie, paths, 1 + took[0].nodes + took[1].nodes)
        }
        Line::Rec(ids) => {
            let mut trie = Places::new();
            took.iter().for_each(|x| unite(&mut trie, &x.trie));
            let fields = ids.iter().zip(took).map(|(f, x)| (*f, x.paths.clone())).collect();
            (trie, Rc::new(Paths::Rec(fields)), 1 + took.iter().map(|x| x.nodes).sum::<usize>())
        }
        Line::Attr(f) => {
            let paths = with_attr(&took[0].paths, *f)?;
            let nodes = size(&paths);
            if nodes > 256 {
                return Err(15);
            }
            let (mut trie, mut all) = (took[0].trie.clone(), Vec::new());
            each(&paths, &mut all);
            let todo: Vec<_> = all.into_iter().map(|p| (p, Leaf { depth: 0, size: 0, places: &Vec::new })).collect();
            put_all(&mut trie, &todo)?;
            (trie, paths, nodes)
        }
        Line::Full(ty) => {
            let mut all = Vec::new();
            typed(t, &took[0].paths, *ty, &mut all)?;
            let makers: Vec<_> = all
                .iter()
                .map(|(_, u)| {
                    move || {
                        let mut out = Vec::new();
                        type_places(t, *u, &mut Vec::new(), &mut out);
                        out
                    }
                })
                .collect();
            let todo: Vec<_> =
                all.iter().zip(&makers).map(|((p, u), m)| (*p, Leaf { depth: t.depth[*u], size: t.size[*u], places: m })).collect();
            let mut trie = took[0].trie.clone();
            put_all(&mut trie, &todo)?;
            (trie, empty(), 1)
        }
        Line::In => {
            let (mut left, mut right, mut above) = (Vec::new(), Vec::new(), Places::new());
            each(&took[0].paths, &mut left);
            each(&took[1].paths, &mut right);
            for p in right {
                add_prefixes(&mut above, p);
                above.insert(p.clone(), true);
            }
            let places = || above.iter().map(|(p, m)| (p.clone(), *m)).collect();
            let depth = above.keys().map(|p| p.len()).max().unwrap_or(0);
            let todo: Vec<_> = left.into_iter().map(|p| (p, Leaf { depth, size: above.len(), places: &places })).collect();
            let mut trie = took[0].trie.clone();
            unite(&mut trie, &took[1].trie);
            put_all(&mut trie, &todo)?;
            (trie, empty(), 1)
        }
    };
    if nodes > 256 {
        return Err(15);
    }
    if trie.keys().any(|p| p.len() > STEPS) {
        return Err(3);
    }
    if trie.len() > 1_024 {
        return Err(4);
    }
    stack.truncate(stack.len() - takes);
    stack.push(Found { trie, paths, nodes });
    Ok(())
}

pub fn analyse(t: &Types, request: u64, text: &[u8]) -> Answer<Vec<u64>> {
    if request >= 1 << 48 {
        return refuse(1, 0);
    }
    let (mut stack, mut count) = (Vec::new(), 0);
    for (place, line) in lines(text).enumerate() {
        let Some(line) = line.and_then(|l| Line::parse(t.kind.len(), l)) else { return refuse(1, place) };
        if let Err(n) = apply(t, &mut stack, &line) {
            return refuse(n, place);
        }
        count = place + 1;
    }
    match stack.as_slice() {
        [one] => {
            let mut rows = vec![entry_word(request)];
            rows.extend(one.trie.iter().map(|(p, m)| node_word(p.len(), *p.last().unwrap(), *m)));
            Ok(rows)
        }
        _ => refuse(6, count),
    }
}
