use std::collections::{BTreeMap, BTreeSet};
use std::iter;

/// A value that a request's context or an entity's attribute has.
///
/// Names and entities are ids; a primitive or an extension value is an id that stands for it, and two are equal where their ids are. The elements of
/// a set stand in any order and may be repeated: two values are equal where they are as sets. Values are walked by recursion, so deep
/// as they are nested.
///
/// ```
/// use terbagyl::Value;
///
/// let clinics = Value::Set(vec![Value::Entity(902), Value::Entity(901), Value::Entity(902)]);
/// assert_eq!(clinics, Value::Set(vec![Value::Entity(901), Value::Entity(902)]));
/// ```
#[derive(Clone, Debug)]
pub enum Value {
    /// A primitive value.
    Primitive(u16),
    /// An extension value.
    Extension(u16),
    /// An entity, by its id.
    Entity(u16),
    /// A set.
    Set(Vec<Value>),
    /// A record: its fields by name.
    Record(BTreeMap<u16, Value>),
}

impl PartialEq for Value {
    /// Equal values have equal rows.
    fn eq(&self, other: &Value) -> bool {
        let rows = |value: &Value| {
            let mut rows = Vec::new();
            push_value(value, 1, 0, &mut rows);
            rows
        };
        rows(self) == rows(other)
    }
}

impl Eq for Value {}

/// An entity as a store has it, or as it was loaded.
///
/// ```
/// use terbagyl::{Entity, Value};
///
/// // in the clinic 901, with the role 1
/// let aray = Entity::new([901], [(3, Value::Entity(901)), (7, Value::Primitive(1))]);
/// assert!(aray.parents.contains(&901));
/// ```
#[derive(Clone, Debug, Default, PartialEq, Eq)]
pub struct Entity {
    /// The ids of its parents.
    pub parents: BTreeSet<u16>,
    /// Its attributes by name.
    pub attributes: BTreeMap<u16, Value>,
}

impl Entity {
    /// The entity with these parents and attributes.
    pub fn new(parents: impl IntoIterator<Item = u16>, attributes: impl IntoIterator<Item = (u16, Value)>) -> Entity {
        Entity { parents: parents.into_iter().collect(), attributes: attributes.into_iter().collect() }
    }
}

const PRIMITIVE: u64 = 0;
const EXTENSION: u64 = 1;
const ENTITY: u64 = 2;
const SET: u64 = 3;
const RECORD: u64 = 4;

fn row(depth: u64, key: u16, kind: u64, number: u16) -> u64 {
    depth << 35 | u64::from(key) << 19 | kind << 16 | u64::from(number)
}

/// The rows of a record's fields, in preorder.
pub(crate) fn rows_of(fields: &BTreeMap<u16, Value>) -> Vec<u64> {
    let mut rows = Vec::new();
    push_fields(fields, 1, &mut rows);
    rows
}

fn push_fields(fields: &BTreeMap<u16, Value>, depth: u64, rows: &mut Vec<u64>) {
    for (&name, value) in fields {
        push_value(value, depth, name, rows);
    }
}

fn push_value(value: &Value, depth: u64, key: u16, rows: &mut Vec<u64>) {
    match value {
        Value::Primitive(id) => rows.push(row(depth, key, PRIMITIVE, *id)),
        Value::Extension(id) => rows.push(row(depth, key, EXTENSION, *id)),
        Value::Entity(id) => rows.push(row(depth, key, ENTITY, *id)),
        Value::Set(elements) => {
            rows.push(row(depth, key, SET, 0));
            push_elements(elements, depth + 1, rows);
        }
        Value::Record(fields) => {
            rows.push(row(depth, key, RECORD, 0));
            push_fields(fields, depth + 1, rows);
        }
    }
}

/// Elements ascend by their rows, their own keys left aside, and none stands twice. Then they are keyed 0, 1, 2 .. (a set with more
/// elements than keys is longer than any buffer, and is cut off before that).
fn push_elements(elements: &[Value], depth: u64, rows: &mut Vec<u64>) {
    let mut runs: Vec<Vec<u64>> = elements
        .iter()
        .map(|element| {
            let mut run = Vec::new();
            push_value(element, depth, 0, &mut run);
            run
        })
        .collect();
    runs.sort();
    runs.dedup();
    for (key, run) in runs.iter().enumerate() {
        rows.push(run[0] | u64::from(key as u16) << 19);
        rows.extend_from_slice(&run[1..]);
    }
}

/// The fields that rows are of.
pub(crate) fn fields_of(mut rows: &[u64]) -> BTreeMap<u16, Value> {
    take_fields(&mut rows, 1)
}

fn take_fields(rows: &mut &[u64], depth: u64) -> BTreeMap<u16, Value> {
    iter::from_fn(|| take_value(rows, depth)).collect()
}

/// The value whose own row is next and has this depth, with its key.
fn take_value(rows: &mut &[u64], depth: u64) -> Option<(u16, Value)> {
    let (&own, rest) = rows.split_first()?;
    if own >> 35 != depth {
        return None;
    }
    *rows = rest;
    let number = own as u16;
    let value = match own >> 16 & 7 {
        PRIMITIVE => Value::Primitive(number),
        EXTENSION => Value::Extension(number),
        ENTITY => Value::Entity(number),
        SET => Value::Set(iter::from_fn(|| take_value(rows, depth + 1)).map(|(_, element)| element).collect()),
        _ => Value::Record(take_fields(rows, depth + 1)),
    };
    Some(((own >> 19) as u16, value))
}

#[cfg(test)]
mod tests {
    use super::*;

    #[test]
    fn the_value_of_the_page_of_forms() {
        let set = Value::Set(vec![Value::Entity(9), Value::Entity(7), Value::Entity(9)]);
        let record = Value::Record(BTreeMap::from([(1, Value::Entity(42)), (2, set)]));
        let fields = BTreeMap::from([(3, Value::Primitive(17)), (5, record)]);
        let rows = rows_of(&fields);
        let written: Vec<_> = rows.iter().map(|w| (w >> 35, w >> 19 & 0xffff, w >> 16 & 7, w & 0xffff)).collect();
        assert_eq!(written, [(1, 3, 0, 17), (1, 5, 4, 0), (2, 1, 2, 42), (2, 2, 3, 0), (3, 0, 2, 7), (3, 1, 2, 9)]);
        assert_eq!(fields_of(&rows), fields);
    }

    #[test]
    fn elements_ascend_by_all_their_rows() {
        let of = |ids: &[u16]| Value::Set(ids.iter().map(|&id| Value::Primitive(id)).collect());
        let set = Value::Set(vec![of(&[2, 1]), of(&[1]), of(&[]), of(&[1, 2]), Value::Extension(0)]);
        let Value::Set(elements) = fields_of(&rows_of(&BTreeMap::from([(1, set)])))[&1].clone() else { panic!("a set") };
        assert_eq!(elements, [Value::Extension(0), of(&[]), of(&[1]), of(&[1, 2])]);
    }
}
