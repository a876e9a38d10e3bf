//! The clinic of examples/README.md: policy texts to a listing, questions, typing, and loads.

use std::collections::BTreeMap;

use terbagyl::{
    load, AncestorsRequest, Asked, Entity, Held, Load, Manifest, Next, Refusal, Request, RequestType, Row, Schema, Step, Store, TripBound,
    Value,
};

const SCHEMA: &[u8] = include_bytes!("../../../examples/clinic/schema");
const ROLE: &[u8] = include_bytes!("../../../examples/clinic/role.policy");
const SAME_CLINIC: &[u8] = include_bytes!("../../../examples/clinic/same-clinic.policy");
const AUDIOGRAM: &[u8] = include_bytes!("../../../examples/clinic/audiogram.policy");
const LICENCE: &[u8] = include_bytes!("../../../examples/clinic/licence.policy");
const HEAD_OFFICE: &[u8] = include_bytes!("../../../examples/clinic/head-office.policy");
const SUBSTITUTE: &[u8] = include_bytes!("../../../examples/clinic/substitute.policy");

/// Case *L of document 01.
const CASE_L: &str = "A\t10\t500\t20\nN\t1\tp\t0\t0\nN\t2\tf\t7\t0\nN\t2\tr\t0\t0\nN\t3\tf\t3\t1\nN\t1\tr\t0\t0\nN\t2\tf\t3\t0\n";

const OPEN_FITTING: RequestType = RequestType::new(10, 500, 20);

fn schema() -> Schema {
    Schema::read(SCHEMA).unwrap()
}

fn built(texts: &[&[u8]]) -> Manifest {
    let schema = schema();
    let mut manifest = Manifest::new();
    for text in texts {
        manifest.add_policy(&schema, text).unwrap();
    }
    manifest
}

/// Aray, 701, asks to open the fitting 801.
fn request() -> Request {
    Request::new(OPEN_FITTING, 701, 801)
}

/// Entities, and the ancestors of each.
struct Records(BTreeMap<u16, (Entity, Vec<u16>)>);

impl Store for Records {
    fn entity(&mut self, id: u16) -> Option<Entity> {
        self.0.get(&id).map(|(entity, _)| entity.clone())
    }

    fn ancestors(&mut self, id: u16, asked: &[u16]) -> Vec<u16> {
        let Some((_, ancestors)) = self.0.get(&id) else { return Vec::new() };
        asked.iter().copied().filter(|id| ancestors.contains(id)).collect()
    }
}

fn aray() -> Entity {
    Entity::new([901], [(3, Value::Entity(901)), (7, Value::Primitive(1))])
}

/// As examples/clinic/store.
fn store() -> Records {
    Records(BTreeMap::from([
        (701, (aray(), vec![901, 950])),
        (801, (Entity::new([], [(3, Value::Entity(901))]), vec![])),
        (901, (Entity::new([950], []), vec![950])),
        (950, (Entity::default(), vec![])),
    ]))
}

#[test]
fn case_l_from_policy_texts() {
    let manifest = built(&[ROLE, SAME_CLINIC]);
    assert_eq!(manifest.listing(), CASE_L);
    assert_eq!(Manifest::read(CASE_L).unwrap(), manifest);
}

#[test]
fn order_and_repeats_change_nothing() {
    let first = built(&[ROLE, SAME_CLINIC, AUDIOGRAM]);
    for texts in [
        &[SAME_CLINIC, ROLE, AUDIOGRAM][..],
        &[AUDIOGRAM, SAME_CLINIC, ROLE],
        &[ROLE, ROLE, AUDIOGRAM, SAME_CLINIC, ROLE, AUDIOGRAM, SAME_CLINIC],
    ] {
        let other = built(texts);
        assert_eq!(other, first);
        assert_eq!(other.listing(), first.listing());
    }
    let parts = [built(&[ROLE]), built(&[AUDIOGRAM]), built(&[SAME_CLINIC])];
    let union = parts.iter().fold(Manifest::new(), |all, part| part.union(&all).unwrap());
    assert_eq!(union, first);
}

#[test]
fn has_tells_missing_there_and_marked() {
    use Step::*;
    let manifest = built(&[ROLE, SAME_CLINIC]);
    for (position, held) in [
        (&[][..], Held::There),
        (&[Principal], Held::There),
        (&[Principal, Field(7)], Held::There),
        (&[Principal, Field(3)], Held::Missing),
        (&[Principal, Resource, Field(3)], Held::Marked),
        (&[Field(7)], Held::Missing),
        (&[Context], Held::Missing),
    ] {
        assert_eq!(manifest.has(OPEN_FITTING, position), held, "{position:?}");
    }
    assert_eq!(manifest.has(RequestType::new(10, 501, 20), &[]), Held::Missing);
}

#[test]
fn rows_say_the_same_as_has() {
    let manifest = built(&[ROLE, SAME_CLINIC, AUDIOGRAM]);
    let mut nodes = 0;
    for entry in manifest.entries() {
        for (position, node) in entry.positions() {
            let held = if node.marked { Held::Marked } else { Held::There };
            assert_eq!(manifest.has(entry.request_type(), &position), held);
            assert_eq!((node.number, node.depth), (nodes, position.len()));
            nodes += 1;
        }
    }
    assert_eq!(nodes, manifest.listing().lines().filter(|line| line.starts_with('N')).count());
    assert_eq!(manifest.nodes().count(), nodes);
}

#[test]
fn typing_drops_what_the_schema_lacks() {
    let typed = built(&[LICENCE]).typed(&schema()).unwrap();
    assert_eq!(typed.listing(), built(&[ROLE]).listing());
    assert!(typed.nodes().all(|(_, node)| node.node_type.is_some()));
    assert_ne!(typed, built(&[ROLE]));
    let refusal = built(&[ROLE, HEAD_OFFICE]).typed(&schema()).unwrap_err();
    assert_eq!((refusal.number, refusal.place), (Refusal::MISSING, 2));
}

#[test]
fn the_load_of_the_readme() {
    let manifest = built(&[ROLE, SAME_CLINIC]);
    let slice = load(&manifest, &request(), &mut store()).unwrap();
    assert_eq!((slice.batches, slice.rows), (2, 3));
    let expected = BTreeMap::from([(701, aray()), (801, Entity::new([], [(3, Value::Entity(901))])), (901, Entity::new([950], []))]);
    assert_eq!(slice.entities, expected);
}

#[test]
fn loads_stay_within_their_bound() {
    let bounds = |texts: &[&[u8]]| built(texts).trip_bound(OPEN_FITTING);
    // principal, role, resource and clinic; the clinic of the resource in the principal's ancestors trie is not counted
    assert_eq!(bounds(&[ROLE, SAME_CLINIC]), TripBound { rows: 4, batches: 2, ancestors: 1 });
    assert_eq!(bounds(&[ROLE]), TripBound { rows: 2, batches: 2, ancestors: 1 });
    assert_eq!(bounds(&[AUDIOGRAM]), TripBound { rows: 0, batches: 0, ancestors: 0 });
    for texts in [&[ROLE][..], &[ROLE, SAME_CLINIC], &[ROLE, SUBSTITUTE], &[SUBSTITUTE, AUDIOGRAM], &[AUDIOGRAM]] {
        let (manifest, bound) = (built(texts), bounds(texts));
        let slice = load(&manifest, &request(), &mut store()).unwrap();
        assert!(slice.rows <= bound.rows && slice.batches <= bound.batches, "{} rows in {} batches, {bound:?}", slice.rows, slice.batches);
    }
    // an entry that reads nothing has its ancestors call and no batch
    let empty = Manifest::read("A\t10\t500\t20\n").unwrap();
    assert_eq!(empty.trip_bound(OPEN_FITTING), TripBound { rows: 0, batches: 0, ancestors: 1 });
    assert_eq!(empty.trip_bound(RequestType::new(65_535, 65_535, 65_535)), TripBound { rows: 0, batches: 0, ancestors: 0 });
    assert_eq!(Manifest::new().trip_bound(OPEN_FITTING), TripBound { rows: 0, batches: 0, ancestors: 0 });
}

#[test]
fn the_load_of_the_readme_call_by_call() {
    let mut store = store();
    let Next::Batch(load) = Load::begin(&built(&[ROLE, SAME_CLINIC]), &request()).unwrap() else { panic!("no batch") };
    assert_eq!(load.asked(), Asked { batches: 0, rows: 0 });
    let load = load.ask();
    assert_eq!(load.rows(), [Row { entity: 701, node: 0 }, Row { entity: 801, node: 4 }]);
    assert_eq!(load.asked(), Asked { batches: 1, rows: 2 });
    let Next::Batch(load) = load.answer(&[store.entity(701), store.entity(801)]).unwrap() else { panic!("no second batch") };
    let load = load.ask();
    assert_eq!(load.rows(), [Row { entity: 901, node: 5 }]);
    let Next::Ancestors(load) = load.answer(&[store.entity(901)]).unwrap() else { panic!("a third batch") };
    let load = load.ask().unwrap();
    let asked = |entity, asked: &[u16]| AncestorsRequest { entity, asked: asked.to_vec() };
    assert_eq!(load.requests(), [asked(701, &[901]), asked(801, &[]), asked(901, &[])]);
    let load = load.answer(&[vec![901], vec![], vec![]]).unwrap();
    assert_eq!(load.slice().entities[&701], aray());
    assert_eq!(load.asked(), Asked { batches: 2, rows: 3 });
}

#[test]
fn the_clinics_stall_goes_on() {
    let manifest = built(&[ROLE, SUBSTITUTE]);
    let moved = Entity { parents: [901, 902].into(), ..aray() };
    let Next::Batch(load) = Load::begin(&manifest, &request()).unwrap() else { panic!("no batch") };
    let load = load.ask();
    assert_eq!(load.rows(), [Row { entity: 701, node: 0 }, Row { entity: 701, node: 2 }]);
    let stalled = load.answer(&[Some(aray()), Some(moved.clone())]).unwrap_err();
    assert_eq!((stalled.refusal.number, stalled.refusal.place), (Refusal::MERGE, 1));
    assert_eq!(stalled.to_string(), "refused 13 at 1: two answers to one entity do not agree");

    // refused again, by another number, and still as it was
    let stalled = stalled.load.answer(&[Some(aray())]).unwrap_err();
    assert_eq!(stalled.to_string(), "refused 12 at 0: another count of answers than of rows, expected 2, got 1");
    assert_eq!(stalled.load.rows().len(), 2);

    let Next::Batch(load) = stalled.load.answer(&[Some(moved.clone()), Some(moved.clone())]).unwrap() else { panic!("no second batch") };
    let load = load.ask();
    assert_eq!(load.rows(), [Row { entity: 901, node: 3 }]);
    let Next::Ancestors(load) = load.answer(&[None]).unwrap() else { panic!("a third batch") };
    let slice = load.ask().unwrap().answer(&[]).unwrap().slice();
    assert_eq!(slice.entities, BTreeMap::from([(701, moved)]));
    assert_eq!((slice.batches, slice.rows), (2, 3));
}

#[test]
fn no_entry_is_an_empty_slice_and_no_trip() {
    struct Nobody;
    impl Store for Nobody {
        fn entity(&mut self, id: u16) -> Option<Entity> {
            panic!("{id} was asked for")
        }
        fn ancestors(&mut self, id: u16, _: &[u16]) -> Vec<u16> {
            panic!("ancestors of {id} were asked for")
        }
    }
    let slice = load(&built(&[AUDIOGRAM]), &request(), &mut Nobody).unwrap();
    assert_eq!((slice.entities.len(), slice.batches, slice.rows), (0, 0, 0));
    // an entry that reads the context alone has no rows, but its ancestors' turn
    let context = Manifest::read("A\t10\t500\t20\nN\t1\tc\t0\t0\nN\t2\tf\t7\t0\n").unwrap();
    let slice = load(&context, &request(), &mut Nobody).unwrap();
    assert_eq!((slice.entities.len(), slice.batches, slice.rows), (0, 0, 0));
}

#[test]
fn values_are_loaded_as_they_were_answered() {
    let record = Value::Record(BTreeMap::from([(1, Value::Extension(4)), (2, Value::Record(BTreeMap::new()))]));
    let set = Value::Set(vec![record.clone(), Value::Set(vec![]), Value::Primitive(9), Value::Primitive(2), record.clone()]);
    let all = Entity::new([1, 2, 65_535], [(0, set), (7, Value::Primitive(65_535)), (9, record), (65_535, Value::Entity(65_535))]);
    let mut store = Records(BTreeMap::from([(701, (all.clone(), vec![]))]));
    let mut request = request();
    request.context = all.attributes.clone();
    let slice = load(&built(&[ROLE]), &request, &mut store).unwrap();
    assert_eq!(slice.entities, BTreeMap::from([(701, all)]));
}

#[test]
fn the_context_names_entities() {
    let manifest = Manifest::read("A\t10\t500\t20\nN\t1\tc\t0\t0\nN\t2\tf\t1\t0\nN\t3\tf\t3\t0\n").unwrap();
    let mut request = request();
    request.context = BTreeMap::from([(1, Value::Record(BTreeMap::from([(3, Value::Entity(801))])))]);
    let slice = load(&manifest, &request, &mut store()).unwrap();
    assert_eq!(slice.entities.keys().collect::<Vec<_>>(), [&801]);
}

#[test]
fn buffers_are_of_their_threads_own() {
    fn is_shared<T: Send + Sync>() {}
    is_shared::<Schema>();
    is_shared::<Manifest>();
    is_shared::<terbagyl::Contribution>();
    is_shared::<Load<terbagyl::turn::Batch>>();
    let schema = schema();
    std::thread::scope(|scope| {
        for _ in 0..4 {
            scope.spawn(|| {
                let mut manifest = Manifest::new();
                manifest.add_policy(&schema, SAME_CLINIC).unwrap();
                manifest.add_policy(&schema, ROLE).unwrap();
                assert_eq!(manifest.listing(), CASE_L);
            });
        }
    });
}
