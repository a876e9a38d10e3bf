//! Each of the four published files is called once: case *L of document 01 from expressions to the typed manifest, and a load over it.

use crate::model::*;
use crate::{plain, rust};
use cedar_policy_core::ast::{BinaryOp, Context, Entity, EntityUID, EntityUIDEntry, Expr, ExprKind, Literal, PartialValue, PolicySet, Request, Value, Var};
use published::entity_manifest::slicing::probe::{self, Store};
use published::entity_manifest::{compute_entity_manifest, AccessTrie};
use published::typecheck::{policy, PolicyCheck, RequestEnv};
use published::types::{Primitive, Type};
use smol_str::SmolStr;
use std::collections::{BTreeMap, HashMap, HashSet};
use std::sync::Arc;

const L: &str = "A\t10\t500\t20\nN\t1\tp\t0\t0\nN\t2\tf\t7\t0\nN\t2\tr\t0\t0\nN\t3\tf\t3\t1\nN\t1\tr\t0\t0\nN\t2\tf\t3\t0\n";
const SCHEMA: &str = "T\t0\t3\nT\t1\t9\t30\nT\t2\t8\nT\t3\t7\nE\t10\nF\t7\t0\nE\t20\nF\t3\t1\nE\t30\nL\t500\t2\nC\t500\t3\n";

type Typed = Expr<Option<Type>>;

struct House {
    batches: Vec<Vec<EntityUID>>,
    asked: Vec<(EntityUID, HashSet<EntityUID>)>,
}

impl Store for House {
    fn load_entities(&mut self, rows: &[(EntityUID, AccessTrie)]) -> Vec<Option<Entity>> {
        self.batches.push(rows.iter().map(|(e, _)| e.clone()).collect());
        rows.iter()
            .map(|(e, _)| {
                // the resource, 2, names 3 in field 3
                let mut attrs: HashMap<SmolStr, PartialValue> = HashMap::new();
                if *e == rust::entity(2) {
                    let value = Value::new(Literal::EntityUID(Arc::new(rust::entity(3))), None);
                    attrs.insert(rust::name(3), PartialValue::Value(value));
                }
                Some(Entity::new_with_attr_partial_value(e.clone(), attrs, HashSet::new(), HashSet::new(), []))
            })
            .collect()
    }

    fn load_ancestors(&mut self, requests: &[(EntityUID, HashSet<EntityUID>)]) -> Vec<HashSet<EntityUID>> {
        self.asked = requests.to_vec();
        requests.iter().map(|(_, ids)| ids.clone()).collect()
    }
}

pub fn run() -> u64 {
    let items = plain::read_schema(SCHEMA.as_bytes()).unwrap();
    let schema = rust::Schema::of(&items);
    let r = rust::request_type(request(10, 500, 20));
    let entity = |n: u32| Some(Type::named_entity_reference(rust::entity_type(n)));
    let var = |v: Var, n: u32| Arc::new(Typed::new(ExprKind::Var(v), entity(n)));
    let number = Some(Type::Primitive { primitive_type: Primitive::Long });
    let first = Typed::new(ExprKind::GetAttr { expr: var(Var::Principal, 10), attr: rust::name(7) }, number);
    let field = Arc::new(Typed::new(ExprKind::GetAttr { expr: var(Var::Resource, 20), attr: rust::name(3) }, entity(30)));
    let second = Typed::new(ExprKind::BinaryApp { op: BinaryOp::In, arg1: var(Var::Principal, 10), arg2: field }, Some(Type::True));
    let one = |e: Typed| policy(vec![(RequestEnv { request_type: Some(r.clone()) }, PolicyCheck::Success(e))]);
    let manifest = compute_entity_manifest(&schema.whole, &PolicySet { list: vec![one(first), one(second)] }).expect("a manifest");
    let mut text = Vec::new();
    plain::write(&rows(&rust::model_manifest(&manifest)), &mut text);
    let mut wrong = 0;
    let mut check = |what: &str, holds: bool| {
        wrong += !holds as u64;
        println!("smoke        {what}: {}", if holds { "holds" } else { "DIFFERS" });
    };
    check("case *L from expressions, by compute_entity_manifest", text == L.as_bytes());
    let typed = manifest.per_action()[&r].trie().values().all(|n| probe::node_type(n).is_some());
    check("its nodes have types", typed);

    let known = |n: u32| EntityUIDEntry::Known(rust::entity(n));
    let request = Request {
        principal: known(1),
        action: known(500),
        resource: known(2),
        context: Some(Context::Value(Arc::new(BTreeMap::new()))),
        request_type: Some(r),
    };
    let mut house = House { batches: Vec::new(), asked: Vec::new() };
    let slice = probe::load_entities(&manifest, &request, &mut house).expect("a slice");
    // resource.3 is an entity, so it makes a row of its own
    let rows: Vec<usize> = house.batches.iter().map(|b| b.len()).collect();
    check("a load over it: batches of 2 and 1 rows", rows == [2, 1]);
    let asked = house.asked.iter().any(|(e, ids)| *e == rust::entity(1) && *ids == HashSet::from([rust::entity(3)]));
    check("the principal's ancestors asked for: 3", asked);
    check("a slice of 3 entities", slice.iter().count() == 3);
    let untyped = probe::manifest(HashMap::from([(rust::request_type(request_number()), rust::trie(&rust::model_manifest(&manifest)[&request_number()]))]));
    let panics = rust::caught(|| probe::load_entities(&untyped, &request, &mut House { batches: vec![], asked: vec![] }).is_ok()).is_err();
    check("without types the Rust's loader panics (docs/DIFFERENCES.md)", panics);
    wrong
}

fn request_number() -> u64 {
    request(10, 500, 20)
}
