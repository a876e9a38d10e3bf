//! Values and entities as trees, and as the rows of docs/FORMS.md, 'Value' and 'Answers in'.

use std::collections::{BTreeMap, BTreeSet};

/// Their order is that of a set's elements: by kind n x e s r, then by number or by what is inside, of which the shorter comes first.
#[derive(Clone, Debug, PartialEq, Eq, PartialOrd, Ord)]
pub enum Value {
    Plain(u32),
    Extension(u32),
    Entity(u32),
    Set(BTreeSet<Value>),
    Record(Fields),
}

pub type Fields = BTreeMap<u32, Value>;

#[derive(Clone, Debug, PartialEq, Eq, Default)]
pub struct Entity {
    pub parents: BTreeSet<u32>,
    pub fields: Fields,
}

// ---------------------------------------------------------------- rows

pub const KINDS: &[u8; 5] = b"nxesr";

pub fn value_word(depth: u64, key: u64, kind: u64, number: u64) -> u64 {
    number + (kind << 16) + (key << 19) + (depth << 35)
}

fn depth_of(word: u64) -> u64 {
    word >> 35
}

fn put_value(value: &Value, depth: u64, key: u64, out: &mut Vec<u64>) {
    match value {
        Value::Plain(n) => out.push(value_word(depth, key, 0, *n as u64)),
        Value::Extension(n) => out.push(value_word(depth, key, 1, *n as u64)),
        Value::Entity(n) => out.push(value_word(depth, key, 2, *n as u64)),
        Value::Set(elements) => {
            out.push(value_word(depth, key, 3, 0));
            elements.iter().enumerate().for_each(|(n, x)| put_value(x, depth + 1, n as u64, out));
        }
        Value::Record(fields) => {
            out.push(value_word(depth, key, 4, 0));
            put_fields(fields, depth + 1, out);
        }
    }
}

fn put_fields(fields: &Fields, depth: u64, out: &mut Vec<u64>) {
    fields.iter().for_each(|(f, x)| put_value(x, depth, *f as u64, out));
}

pub fn rows_of_fields(fields: &Fields) -> Vec<u64> {
    let mut out = Vec::new();
    put_fields(fields, 1, &mut out);
    out
}

fn take_value(words: &[u64], at: &mut usize, depth: u64) -> Option<Value> {
    let (number, kind) = (words[*at] as u32 % 65_536, words[*at] >> 16 & 7);
    *at += 1;
    match (kind, number) {
        (0, n) => Some(Value::Plain(n)),
        (1, n) => Some(Value::Extension(n)),
        (2, n) => Some(Value::Entity(n)),
        (3, 0) => {
            let mut elements = BTreeSet::new();
            while *at < words.len() && depth_of(words[*at]) > depth {
                let key = words[*at] >> 19 & 65_535;
                if depth_of(words[*at]) > depth + 1 || key != elements.len() as u64 {
                    return None;
                }
                let next = take_value(words, at, depth + 1)?;
                if elements.last().is_some_and(|last| *last >= next) {
                    return None;
                }
                elements.insert(next);
            }
            Some(Value::Set(elements))
        }
        (4, 0) => take_fields(words, at, depth + 1).map(Value::Record),
        _ => None,
    }
}

fn take_fields(words: &[u64], at: &mut usize, depth: u64) -> Option<Fields> {
    let mut fields = Fields::new();
    while *at < words.len() && depth_of(words[*at]) >= depth {
        let key = (words[*at] >> 19 & 65_535) as u32;
        if depth_of(words[*at]) > depth || fields.last_key_value().is_some_and(|(last, _)| *last >= key) {
            return None;
        }
        let value = take_value(words, at, depth)?;
        fields.insert(key, value);
    }
    Some(fields)
}

/// The record of rows, where they are of their form.
pub fn fields_of(words: &[u64]) -> Option<Fields> {
    let mut at = 0;
    take_fields(words, &mut at, 1).filter(|_| at == words.len())
}

// ---------------------------------------------------------------- answers, sets of ids

pub fn put_answer(answer: Option<&Entity>, out: &mut Vec<u64>) {
    let Some(Entity { parents, fields }) = answer else { return out.push(0) };
    let rows = rows_of_fields(fields);
    out.push(1 + ((parents.len() as u64) << 16) + ((rows.len() as u64) << 32));
    out.extend(parents.iter().map(|p| *p as u64));
    out.extend(rows);
}

pub fn put_set(ids: &BTreeSet<u32>, out: &mut Vec<u64>) {
    out.push(ids.len() as u64);
    out.extend(ids.iter().map(|e| *e as u64));
}

fn id_set(words: &[u64]) -> Option<BTreeSet<u32>> {
    let good = words.iter().all(|w| *w < 65_536) && words.windows(2).all(|w| w[0] < w[1]);
    good.then(|| words.iter().map(|w| *w as u32).collect())
}

/// An answer at the front of words, and how many of them it takes.
fn answer_at(words: &[u64]) -> Option<(Option<Entity>, usize)> {
    let head = *words.first()?;
    if head == 0 {
        return Some((None, 1));
    }
    let (parents, rows) = ((head >> 16 & 65_535) as usize, (head >> 32) as usize);
    if head % 65_536 != 1 || words.len() < 1 + parents + rows {
        return None;
    }
    let (parents, fields) = words[1..1 + parents + rows].split_at(parents);
    Some((Some(Entity { parents: id_set(parents)?, fields: fields_of(fields)? }), 1 + parents.len() + rows))
}

fn set_at(words: &[u64]) -> Option<(BTreeSet<u32>, usize)> {
    let count = usize::try_from(*words.first()?).ok().filter(|n| *n < words.len())?;
    Some((id_set(&words[1..=count])?, 1 + count))
}

fn many<T>(count: u64, words: &[u64], at_front: impl Fn(&[u64]) -> Option<(T, usize)>) -> Result<(Vec<T>, usize), u64> {
    let (mut all, mut at) = (Vec::new(), 0);
    for place in 0..count {
        let (one, size) = at_front(&words[at..]).ok_or(place)?;
        all.push(one);
        at += size;
    }
    Ok((all, at))
}

/// So many answers one after the other, and how many words they take; or the place of the first that is not of its form.
pub fn answers_of(count: u64, words: &[u64]) -> Result<(Vec<Option<Entity>>, usize), u64> {
    many(count, words, answer_at)
}

pub fn sets_of(count: u64, words: &[u64]) -> Result<(Vec<BTreeSet<u32>>, usize), u64> {
    many(count, words, set_at)
}

pub fn size_of(answer: &Option<Entity>) -> usize {
    answer.as_ref().map_or(0, |e| e.parents.len() + rows_of_fields(&e.fields).len())
}
