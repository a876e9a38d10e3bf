//! Our static library by its C names. Nothing checks these declarations against the Rattle source: keep them equal by hand.
//! A slice passes as a pointer and a length. The result is 0 or the refusal's number; `value` receives the refusal's place, or the count of
//! bytes written, or 0, 1, 2 for missing, there, there and marked.

use crate::model::*;
use crate::side::{Ready, Side};

extern "C" {
    fn terbagyl_empty_manifest(out: *mut u64, out_len: usize, value: *mut u64) -> u64;
    fn terbagyl_add(manifest: *mut u64, manifest_len: usize, contribution: *const u64, contribution_len: usize, value: *mut u64) -> u64;
    fn terbagyl_add_policy(schema: *const u64, schema_len: usize, text: *const u8, text_len: usize, manifest: *mut u64, manifest_len: usize, value: *mut u64) -> u64;
    fn terbagyl_union_manifests(a: *const u64, a_len: usize, b: *const u64, b_len: usize, out: *mut u64, out_len: usize, value: *mut u64) -> u64;
    fn terbagyl_union_contributions(a: *const u64, a_len: usize, b: *const u64, b_len: usize, out: *mut u64, out_len: usize, value: *mut u64) -> u64;
    fn terbagyl_has_in_manifest(state: *const u64, state_len: usize, place: *const u64, place_len: usize, value: *mut u64) -> u64;
    fn terbagyl_has_in_contribution(state: *const u64, state_len: usize, place: *const u64, place_len: usize, value: *mut u64) -> u64;
    fn terbagyl_read_manifest(text: *const u8, text_len: usize, out: *mut u64, out_len: usize, value: *mut u64) -> u64;
    fn terbagyl_read_contribution(text: *const u8, text_len: usize, out: *mut u64, out_len: usize, value: *mut u64) -> u64;
    fn terbagyl_write_manifest(state: *const u64, state_len: usize, out: *mut u8, out_len: usize, value: *mut u64) -> u64;
    fn terbagyl_write_contribution(state: *const u64, state_len: usize, out: *mut u8, out_len: usize, value: *mut u64) -> u64;
    fn terbagyl_read_schema(text: *const u8, text_len: usize, out: *mut u64, out_len: usize, value: *mut u64) -> u64;
    fn terbagyl_analyse(
        schema: *const u64,
        schema_len: usize,
        request: u64,
        text: *const u8,
        text_len: usize,
        out: *mut u64,
        out_len: usize,
        value: *mut u64,
    ) -> u64;
}

const GUARD: usize = 16;

trait Element: Copy + Eq {
    fn noise(n: usize) -> Self;
}

impl Element for u64 {
    fn noise(n: usize) -> u64 {
        (n as u64 + 1).wrapping_mul(0x9e37_79b9_7f4a_7c15)
    }
}

impl Element for u8 {
    fn noise(n: usize) -> u8 {
        (n as u8).wrapping_mul(167) ^ 0xa5
    }
}

/// A buffer that is lent: noise before, behind and in it, and a copy of it all from before the call.
struct Lent<T> {
    all: Vec<T>,
    copy: Vec<T>,
    len: usize,
    used: usize,
}

impl<T: Element> Lent<T> {
    fn new(len: usize) -> Self {
        let all: Vec<T> = (0..len + 2 * GUARD).map(T::noise).collect();
        Lent { copy: all.clone(), all, len, used: 0 }
    }

    /// Noise again, then these at the start.
    fn put(&mut self, parts: &[&[T]]) {
        for at in GUARD..GUARD + self.used {
            self.all[at] = T::noise(at);
        }
        let mut at = GUARD;
        for part in parts {
            self.all[at..at + part.len()].copy_from_slice(part);
            at += part.len();
        }
        let most = self.used.max(at - GUARD);
        self.used = at - GUARD;
        self.copy[GUARD..GUARD + most].copy_from_slice(&self.all[GUARD..GUARD + most]);
    }

    fn start(&self) -> *const T {
        self.all[GUARD..].as_ptr()
    }

    fn start_mut(&mut self) -> *mut T {
        self.all[GUARD..].as_mut_ptr()
    }

    fn content(&self) -> &[T] {
        &self.all[GUARD..GUARD + self.len]
    }

    fn unchanged(&self) -> bool {
        self.all == self.copy
    }

    fn mend(&mut self) {
        self.all.copy_from_slice(&self.copy);
    }

    /// Only the first `n` elements were written.
    fn only_first(&mut self, n: usize) -> bool {
        self.used = self.used.max(n);
        n <= self.len && self.all[..GUARD] == self.copy[..GUARD] && self.all[GUARD + n..] == self.copy[GUARD + n..]
    }
}

impl Lent<u64> {
    /// A state: the count of rows, and the rows. One longer than its buffer can only be said by its count.
    fn put_state(&mut self, rows: &[u64]) {
        let room = rows.len().min(self.len - 1);
        self.put(&[&[rows.len() as u64], &rows[..room]]);
    }
}

pub struct Library {
    manifests: [Lent<u64>; 3],
    contributions: [Lent<u64>; 3],
    texts: [Lent<u8>; 2],
    schema: Lent<u64>,
    schema_out: Lent<u64>,
    schema_rows: Option<Vec<u64>>,
    faults: Vec<String>,
}

const VALUE: u64 = 0x5a5a_5a5a_5a5a_5a5a;

impl Library {
    pub fn new() -> Self {
        let three = |kind: Kind| [Lent::new(kind.words()), Lent::new(kind.words()), Lent::new(kind.words())];
        Library {
            manifests: three(Kind::Manifest),
            contributions: three(Kind::Contribution),
            texts: [Lent::new(Kind::Contribution.bytes()), Lent::new(Kind::Manifest.bytes())],
            schema: Lent::new(SCHEMA_WORDS),
            schema_out: Lent::new(SCHEMA_WORDS),
            schema_rows: None,
            faults: Vec::new(),
        }
    }
}

fn states(l: &mut Library, kind: Kind) -> &mut [Lent<u64>; 3] {
    if kind == Kind::Manifest { &mut l.manifests } else { &mut l.contributions }
}

/// What a call left in an output of words.
fn words_left(what: &str, out: &mut Lent<u64>, number: u64, value: u64, faults: &mut Vec<String>) -> Answer<Vec<u64>> {
    if number != 0 {
        if !out.unchanged() {
            faults.push(format!("{what}: refused {number} at {value}, and a lent buffer or what lies beside it was changed"));
        }
        return Err(Refusal { number, place: value });
    }
    if value != 0 {
        faults.push(format!("{what}: done, and the value is {value}, not 0"));
    }
    let count = out.content()[0] as usize;
    if count >= out.len {
        faults.push(format!("{what}: done, and the count of rows is {count}"));
        return Ok(Vec::new());
    }
    if !out.only_first(count + 1) {
        faults.push(format!("{what}: done, and something behind the {count} rows or beside the buffer was changed"));
    }
    Ok(out.content()[1..=count].to_vec())
}

/// An input text with noise on both sides.
fn guarded(text: &[u8]) -> Lent<u8> {
    let mut lent = Lent::new(text.len());
    lent.put(&[text]);
    lent
}

impl Side for Library {
    fn name(&self) -> &'static str {
        "terbagyl"
    }

    fn empty(&mut self) -> Answer<Vec<u64>> {
        let out = &mut self.manifests[2];
        out.put(&[]);
        let mut value = VALUE;
        // SAFETY: the pointer and length are those of one live buffer, which nothing else refers to during the call.
        let number = unsafe { terbagyl_empty_manifest(out.start_mut(), out.len, &mut value) };
        words_left("empty_manifest", out, number, value, &mut self.faults)
    }

    fn add(&mut self, manifest: &[u64], contribution: &[u64]) -> Answer<Vec<u64>> {
        let (m, c) = (&mut self.manifests[2], &mut self.contributions[0]);
        m.put_state(manifest);
        c.put_state(contribution);
        let mut value = VALUE;
        // SAFETY: as above; the two buffers are apart.
        let number = unsafe { terbagyl_add(m.start_mut(), m.len, c.start(), c.len, &mut value) };
        if !c.unchanged() {
            self.faults.push("add: the contribution was changed".into());
        }
        words_left("add", m, number, value, &mut self.faults)
    }

    fn add_policy(&mut self, schema: &[u64], manifest: &[u64], text: &[u8]) -> Answer<Vec<u64>> {
        if self.schema_rows.as_deref() != Some(schema) {
            self.schema.put_state(schema);
            self.schema_rows = Some(schema.to_vec());
        }
        let text = guarded(text);
        let (s, m) = (&self.schema, &mut self.manifests[2]);
        m.put_state(manifest);
        let mut value = VALUE;
        // SAFETY: as above; the three buffers are apart.
        let number = unsafe { terbagyl_add_policy(s.start(), s.len, text.start(), text.len, m.start_mut(), m.len, &mut value) };
        if !text.unchanged() || !s.unchanged() {
            self.faults.push("add_policy: the text or the schema was changed".into());
        }
        words_left("add_policy", m, number, value, &mut self.faults)
    }

    fn union(&mut self, kind: Kind, a: &[u64], b: &[u64]) -> Answer<Vec<u64>> {
        let [x, y, out] = states(self, kind);
        x.put_state(a);
        y.put_state(b);
        out.put(&[]);
        let call = if kind == Kind::Manifest { terbagyl_union_manifests } else { terbagyl_union_contributions };
        let mut value = VALUE;
        // SAFETY: as above; the three buffers are apart.
        let number = unsafe { call(x.start(), x.len, y.start(), y.len, out.start_mut(), out.len, &mut value) };
        let mut faults = Vec::new();
        if !x.unchanged() || !y.unchanged() {
            faults.push("union: an input was changed".into());
        }
        let answer = words_left("union", out, number, value, &mut faults);
        self.faults.extend(faults);
        answer
    }

    fn has(&mut self, kind: Kind, state: &[u64], place: &[u64]) -> Answer<u64> {
        let x = &mut states(self, kind)[0];
        x.put_state(state);
        let call = if kind == Kind::Manifest { terbagyl_has_in_manifest } else { terbagyl_has_in_contribution };
        let mut value = VALUE;
        // SAFETY: as above; nothing is written but the value.
        let number = unsafe { call(x.start(), x.len, place.as_ptr(), place.len(), &mut value) };
        if !x.unchanged() {
            self.faults.push("has: the state was changed".into());
        }
        if number != 0 { Err(Refusal { number, place: value }) } else { Ok(value) }
    }

    fn read(&mut self, kind: Kind, text: &[u8]) -> Answer<Vec<u64>> {
        let text = guarded(text);
        let out = &mut states(self, kind)[2];
        out.put(&[]);
        let call = if kind == Kind::Manifest { terbagyl_read_manifest } else { terbagyl_read_contribution };
        let mut value = VALUE;
        // SAFETY: as above.
        let number = unsafe { call(text.start(), text.len, out.start_mut(), out.len, &mut value) };
        let mut faults = Vec::new();
        if !text.unchanged() {
            faults.push("read: the text was changed".into());
        }
        let answer = words_left("read", out, number, value, &mut faults);
        self.faults.extend(faults);
        answer
    }

    fn write(&mut self, kind: Kind, state: &[u64]) -> Answer<Vec<u8>> {
        let (x, out, call): (_, _, unsafe extern "C" fn(_, _, _, _, _) -> u64) = if kind == Kind::Manifest {
            (&mut self.manifests[0], &mut self.texts[1], terbagyl_write_manifest)
        } else {
            (&mut self.contributions[0], &mut self.texts[0], terbagyl_write_contribution)
        };
        x.put_state(state);
        out.put(&[]);
        let mut value = VALUE;
        // SAFETY: as above.
        let number = unsafe { call(x.start(), x.len, out.start_mut(), out.len, &mut value) };
        if !x.unchanged() {
            self.faults.push("write: the state was changed".into());
        }
        if number != 0 {
            if !out.unchanged() {
                self.faults.push(format!("write: refused {number}, and the text was changed"));
            }
            return Err(Refusal { number, place: value });
        }
        let bytes = value as usize;
        if !out.only_first(bytes) {
            self.faults.push(format!("write: {bytes} bytes, and something behind them or beside the text was changed"));
        }
        Ok(out.content()[..bytes.min(out.len)].to_vec())
    }

    fn read_schema(&mut self, text: &[u8]) -> Answer<Vec<u64>> {
        let text = guarded(text);
        let out = &mut self.schema_out;
        out.put(&[]);
        let mut value = VALUE;
        // SAFETY: as above.
        let number = unsafe { terbagyl_read_schema(text.start(), text.len, out.start_mut(), out.len, &mut value) };
        if !text.unchanged() {
            self.faults.push("read_schema: the text was changed".into());
        }
        words_left("read_schema", out, number, value, &mut self.faults)
    }

    fn analyse(&mut self, schema: &[u64], request: u64, text: &[u8]) -> Answer<Vec<u64>> {
        if self.schema_rows.as_deref() != Some(schema) {
            self.schema.put_state(schema);
            self.schema_rows = Some(schema.to_vec());
        }
        let text = guarded(text);
        let (s, out) = (&self.schema, &mut self.contributions[2]);
        out.put(&[]);
        let mut value = VALUE;
        // SAFETY: as above.
        let number =
            unsafe { terbagyl_analyse(s.start(), s.len, request, text.start(), text.len, out.start_mut(), out.len, &mut value) };
        if !text.unchanged() || !s.unchanged() {
            self.faults.push("analyse: the text or the schema was changed".into());
        }
        words_left("analyse", out, number, value, &mut self.faults)
    }

    fn faults(&mut self) -> Vec<String> {
        if !self.faults.is_empty() {
            // what was changed must not be found again by the next call
            self.manifests.iter_mut().chain(&mut self.contributions).for_each(Lent::mend);
            self.texts.iter_mut().for_each(Lent::mend);
            self.schema.mend();
            self.schema_out.mend();
        }
        std::mem::take(&mut self.faults)
    }

    /// Each call with each of its buffers one element short: 31 at 0, nothing changed. Then all of them longer: served.
    fn lengths(&mut self) -> u64 {
        let mut calls = 0;
        let row = entry_word(request(10, 500, 20));
        let (ml, cl, sl) = (Kind::Manifest.words(), Kind::Contribution.words(), SCHEMA_WORDS);
        for short in 0..4usize {
            // of the buffers of a call, the one numbered `short` lacks an element; 3: all have five more
            let len = |which: usize, len: usize| if short == 3 { len + 5 } else { len - (which == short) as usize };
            let state = |which: usize, full: usize, rows: &[u64]| {
                let mut lent: Lent<u64> = Lent::new(len(which, full));
                lent.put_state(rows);
                lent
            };
            let mut check = |name: &str, buffers: usize, number: u64, value: u64, unchanged: bool| {
                calls += 1;
                let expected = if short < buffers { (31, 0) } else { (0, value) };
                if (number, value) != expected || (number != 0 && !unchanged) {
                    self.faults.push(format!("lengths: {name} with buffer {short} short: {number} at {value}, unchanged {unchanged}"));
                }
            };
            let mut value = VALUE;
            // SAFETY (all calls of this function): pointers and lengths are those of live buffers that are apart.
            unsafe {
                let mut out = state(0, ml, &[]);
                let n = terbagyl_empty_manifest(out.start_mut(), out.len, &mut value);
                check("empty_manifest", 1, n, value, out.unchanged());

                let (s, mut m, policy) = (state(0, sl, &[]), state(1, ml, &[]), guarded(b"A\t10\t500\t20\nnone\n"));
                let n = terbagyl_add_policy(s.start(), s.len, policy.start(), policy.len, m.start_mut(), m.len, &mut value);
                check("add_policy", 2, n, value, s.unchanged() && m.unchanged());

                let (mut m, c) = (state(0, ml, &[]), state(1, cl, &[row]));
                let n = terbagyl_add(m.start_mut(), m.len, c.start(), c.len, &mut value);
                check("add", 2, n, value, m.unchanged() && c.unchanged());

                for (name, full, call) in [
                    ("union_manifests", ml, terbagyl_union_manifests as unsafe extern "C" fn(_, _, _, _, _, _, _) -> u64),
                    ("union_contributions", cl, terbagyl_union_contributions),
                ] {
                    let (a, b, mut out) = (state(0, full, &[row]), state(1, full, &[row]), state(2, full, &[]));
                    let n = call(a.start(), a.len, b.start(), b.len, out.start_mut(), out.len, &mut value);
                    check(name, 3, n, value, a.unchanged() && b.unchanged() && out.unchanged());
                }
                for (name, full, call) in [
                    ("has_in_manifest", ml, terbagyl_has_in_manifest as unsafe extern "C" fn(_, _, _, _, _) -> u64),
                    ("has_in_contribution", cl, terbagyl_has_in_contribution),
                ] {
                    let a = state(0, full, &[row]);
                    let n = call(a.start(), a.len, [row / 64].as_ptr(), 1, &mut value);
                    check(name, 1, n, value, a.unchanged());
                }
                let text = guarded(b"A\t10\t500\t20\n");
                for (name, full, call) in [
                    ("read_manifest", ml, terbagyl_read_manifest as unsafe extern "C" fn(_, _, _, _, _) -> u64),
                    ("read_contribution", cl, terbagyl_read_contribution),
                ] {
                    let mut out = state(0, full, &[]);
                    let n = call(text.start(), text.len, out.start_mut(), out.len, &mut value);
                    check(name, 1, n, value, out.unchanged());
                }
                for (name, kind, call) in [
                    ("write_manifest", Kind::Manifest, terbagyl_write_manifest as unsafe extern "C" fn(_, _, _, _, _) -> u64),
                    ("write_contribution", Kind::Contribution, terbagyl_write_contribution),
                ] {
                    let (a, mut out) = (state(0, kind.words(), &[row]), Lent::<u8>::new(len(1, kind.bytes())));
                    let n = call(a.start(), a.len, out.start_mut(), out.len, &mut value);
                    check(name, 2, n, value, a.unchanged() && out.unchanged());
                }
                let (none, steps) = (guarded(b""), guarded(b"none\n"));
                let mut out = state(0, sl, &[]);
                let n = terbagyl_read_schema(none.start(), none.len, out.start_mut(), out.len, &mut value);
                check("read_schema", 1, n, value, out.unchanged());

                let (s, mut out) = (state(0, sl, &[]), state(1, cl, &[]));
                let n = terbagyl_analyse(s.start(), s.len, row / 64, steps.start(), steps.len, out.start_mut(), out.len, &mut value);
                check("analyse", 2, n, value, s.unchanged() && out.unchanged());
            }
        }
        calls
    }

    fn ready_union<'a>(&'a mut self, a: &'a [u64], b: &'a [u64]) -> Ready<'a> {
        let [x, y, out] = &mut self.manifests;
        x.put_state(a);
        y.put_state(b);
        Box::new(move || {
            let mut value = 0;
            out.used = out.len;
            // SAFETY: as above.
            unsafe { terbagyl_union_manifests(x.start(), x.len, y.start(), y.len, out.start_mut(), out.len, &mut value) }
        })
    }

    fn ready_build<'a>(&'a mut self, list: &'a [Vec<u64>]) -> Ready<'a> {
        let m = &mut self.manifests[2];
        let list: Vec<Lent<u64>> = list
            .iter()
            .map(|rows| {
                let mut lent = Lent::new(Kind::Contribution.words());
                lent.put_state(rows);
                lent
            })
            .collect();
        Box::new(move || {
            let mut value = 0;
            m.used = m.len;
            // SAFETY: as above.
            unsafe {
                let mut most = terbagyl_empty_manifest(m.start_mut(), m.len, &mut value);
                for c in &list {
                    most = most.max(terbagyl_add(m.start_mut(), m.len, c.start(), c.len, &mut value));
                }
                most
            }
        })
    }

    fn ready_policies<'a>(&'a mut self, schema: &'a [u64], texts: &'a [Vec<u8>]) -> Ready<'a> {
        self.schema.put_state(schema);
        self.schema_rows = Some(schema.to_vec());
        let (s, m) = (&self.schema, &mut self.manifests[2]);
        Box::new(move || {
            let mut value = 0;
            m.used = m.len;
            // SAFETY: as above.
            unsafe {
                let mut most = terbagyl_empty_manifest(m.start_mut(), m.len, &mut value);
                for t in texts {
                    most = most.max(terbagyl_add_policy(s.start(), s.len, t.as_ptr(), t.len(), m.start_mut(), m.len, &mut value));
                }
                most
            }
        })
    }

    fn ready_read<'a>(&'a mut self, text: &'a [u8]) -> Ready<'a> {
        let out = &mut self.manifests[2];
        Box::new(move || {
            let mut value = 0;
            out.used = out.len;
            // SAFETY: as above.
            unsafe { terbagyl_read_manifest(text.as_ptr(), text.len(), out.start_mut(), out.len, &mut value) }
        })
    }

    fn ready_write<'a>(&'a mut self, rows: &'a [u64]) -> Ready<'a> {
        let (x, out) = (&mut self.manifests[0], &mut self.texts[1]);
        x.put_state(rows);
        Box::new(move || {
            let mut value = 0;
            out.used = out.len;
            // SAFETY: as above.
            unsafe { terbagyl_write_manifest(x.start(), x.len, out.start_mut(), out.len, &mut value) }
        })
    }

    fn ready_analyse<'a>(&'a mut self, schema: &'a [u64], request: u64, texts: &'a [Vec<u8>]) -> Ready<'a> {
        self.schema.put_state(schema);
        self.schema_rows = Some(schema.to_vec());
        let (s, out) = (&self.schema, &mut self.contributions[2]);
        Box::new(move || {
            out.used = out.len;
            texts
                .iter()
                .map(|t| {
                    let mut value = 0;
                    // SAFETY: as above.
                    unsafe { terbagyl_analyse(s.start(), s.len, request, t.as_ptr(), t.len(), out.start_mut(), out.len, &mut value) }
                })
                .max()
                .unwrap_or(0)
        })
    }
}
