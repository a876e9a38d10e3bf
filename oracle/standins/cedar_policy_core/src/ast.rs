use smol_str::SmolStr;
use std::collections::{BTreeMap, BTreeSet, HashMap, HashSet};
use std::fmt::{Debug, Display, Formatter};
use std::sync::Arc;

// ---------------------------------------------------------------- names and ids

#[derive(Debug, Clone, PartialEq, Eq, PartialOrd, Ord, Hash)]
pub struct EntityType(SmolStr);

impl EntityType {
    pub fn new(name: impl Into<SmolStr>) -> Self {
        EntityType(name.into())
    }

    pub fn name(&self) -> &SmolStr {
        &self.0
    }
}

impl Display for EntityType {
    fn fmt(&self, f: &mut Formatter<'_>) -> std::fmt::Result {
        write!(f, "{}", self.0)
    }
}

#[derive(Debug, Clone, PartialEq, Eq, PartialOrd, Ord, Hash)]
pub struct EntityUID {
    ty: EntityType,
    eid: SmolStr,
}

impl EntityUID {
    pub fn new(ty: EntityType, eid: impl Into<SmolStr>) -> Self {
        EntityUID { ty, eid: eid.into() }
    }

    pub fn entity_type(&self) -> &EntityType {
        &self.ty
    }

    pub fn eid(&self) -> &SmolStr {
        &self.eid
    }
}

impl Display for EntityUID {
    fn fmt(&self, f: &mut Formatter<'_>) -> std::fmt::Result {
        write!(f, "{}::{:?}", self.ty, self.eid)
    }
}

#[derive(Debug, Clone, Copy, PartialEq, Eq, PartialOrd, Ord, Hash)]
pub enum Var {
    Principal,
    Action,
    Resource,
    Context,
}

impl Display for Var {
    fn fmt(&self, f: &mut Formatter<'_>) -> std::fmt::Result {
        f.write_str(match self {
            Var::Principal => "principal",
            Var::Action => "action",
            Var::Resource => "resource",
            Var::Context => "context",
        })
    }
}

#[derive(Debug, Clone, PartialEq, Eq, PartialOrd, Ord, Hash)]
pub struct RequestType {
    pub principal: EntityType,
    pub action: EntityUID,
    pub resource: EntityType,
}

// ---------------------------------------------------------------- values

#[derive(Debug, Clone, PartialEq, Eq, PartialOrd, Ord, Hash)]
pub struct Loc;

#[derive(Debug, Clone, PartialEq, Eq, PartialOrd, Ord, Hash)]
pub enum Literal {
    Bool(bool),
    Long(i64),
    String(SmolStr),
    EntityUID(Arc<EntityUID>),
}

#[derive(Debug, Clone, PartialEq, Eq, PartialOrd, Ord, Hash)]
pub struct Value {
    pub value: ValueKind,
    pub loc: Option<Loc>,
}

#[derive(Debug, Clone, PartialEq, Eq, PartialOrd, Ord, Hash)]
pub enum ValueKind {
    Lit(Literal),
    Set(Set),
    Record(Arc<BTreeMap<SmolStr, Value>>),
    ExtensionValue(Arc<SmolStr>),
}

#[derive(Debug, Clone, PartialEq, Eq, PartialOrd, Ord, Hash)]
pub struct Set {
    pub authoritative: Arc<BTreeSet<Value>>,
}

impl Set {
    pub fn new(elements: impl IntoIterator<Item = Value>) -> Self {
        Set { authoritative: Arc::new(elements.into_iter().collect()) }
    }

    pub fn iter(&self) -> impl Iterator<Item = &Value> {
        self.authoritative.iter()
    }
}

impl Value {
    pub fn new(value: impl Into<ValueKind>, loc: Option<Loc>) -> Self {
        Value { value: value.into(), loc }
    }

    pub fn value_kind(&self) -> &ValueKind {
        &self.value
    }
}

impl From<Literal> for ValueKind {
    fn from(l: Literal) -> Self {
        ValueKind::Lit(l)
    }
}

impl Display for ValueKind {
    fn fmt(&self, f: &mut Formatter<'_>) -> std::fmt::Result {
        write!(f, "{self:?}")
    }
}

#[derive(Debug, Clone, PartialEq, Eq)]
pub enum PartialValue {
    Value(Value),
    Residual(SmolStr),
}

// ---------------------------------------------------------------- entities and requests

#[derive(Debug, Clone)]
pub struct Entity {
    uid: EntityUID,
    attrs: HashMap<SmolStr, PartialValue>,
    indirect_ancestors: HashSet<EntityUID>,
    parents: HashSet<EntityUID>,
    tags: HashMap<SmolStr, PartialValue>,
}

impl Entity {
    pub fn new_with_attr_partial_value(
        uid: EntityUID,
        attrs: HashMap<SmolStr, PartialValue>,
        indirect_ancestors: HashSet<EntityUID>,
        parents: HashSet<EntityUID>,
        tags: impl IntoIterator<Item = (SmolStr, PartialValue)>,
    ) -> Self {
        Entity { uid, attrs, indirect_ancestors, parents, tags: tags.into_iter().collect() }
    }

    pub fn uid(&self) -> &EntityUID {
        &self.uid
    }

    pub fn get(&self, attr: &str) -> Option<&PartialValue> {
        self.attrs.get(attr)
    }

    pub fn attrs(&self) -> impl Iterator<Item = (&SmolStr, &PartialValue)> {
        self.attrs.iter()
    }

    pub fn parents(&self) -> impl Iterator<Item = &EntityUID> {
        self.parents.iter()
    }

    pub fn add_parent(&mut self, uid: EntityUID) {
        self.indirect_ancestors.remove(&uid);
        self.parents.insert(uid);
    }

    #[allow(clippy::type_complexity)]
    pub fn into_inner(
        self,
    ) -> (
        EntityUID,
        HashMap<SmolStr, PartialValue>,
        HashSet<EntityUID>,
        HashSet<EntityUID>,
        HashMap<SmolStr, PartialValue>,
    ) {
        (self.uid, self.attrs, self.indirect_ancestors, self.parents, self.tags)
    }
}

#[derive(Debug, Clone)]
pub enum Context {
    Value(Arc<BTreeMap<SmolStr, Value>>),
    RestrictedResidual(SmolStr),
}

#[derive(Debug, Clone)]
pub enum EntityUIDEntry {
    Known(EntityUID),
    Unknown,
}

impl EntityUIDEntry {
    pub fn uid(&self) -> Option<&EntityUID> {
        match self {
            EntityUIDEntry::Known(uid) => Some(uid),
            EntityUIDEntry::Unknown => None,
        }
    }
}

/// In the real crate a request's types are those of its entities; here they are said beside them, since our ids have no type of their own.
#[derive(Debug, Clone)]
pub struct Request {
    pub principal: EntityUIDEntry,
    pub action: EntityUIDEntry,
    pub resource: EntityUIDEntry,
    pub context: Option<Context>,
    pub request_type: Option<RequestType>,
}

impl Request {
    pub fn principal(&self) -> &EntityUIDEntry {
        &self.principal
    }

    pub fn action(&self) -> &EntityUIDEntry {
        &self.action
    }

    pub fn resource(&self) -> &EntityUIDEntry {
        &self.resource
    }

    pub fn context(&self) -> Option<&Context> {
        self.context.as_ref()
    }

    pub fn to_request_type(&self) -> Option<RequestType> {
        self.request_type.clone()
    }
}

// ---------------------------------------------------------------- expressions and policies

#[derive(Debug, Clone, Copy, PartialEq, Eq)]
pub enum UnaryOp {
    Not,
    Neg,
    IsEmpty,
}

#[derive(Debug, Clone, Copy, PartialEq, Eq)]
pub enum BinaryOp {
    Eq,
    Less,
    LessEq,
    Add,
    Sub,
    Mul,
    In,
    Contains,
    ContainsAll,
    ContainsAny,
    GetTag,
    HasTag,
}

#[derive(Debug, Clone, Copy, PartialEq, Eq)]
pub enum SlotId {
    Principal,
    Resource,
}

impl SlotId {
    pub fn is_principal(&self) -> bool {
        *self == SlotId::Principal
    }

    pub fn is_resource(&self) -> bool {
        *self == SlotId::Resource
    }
}

#[derive(Debug, Clone)]
pub struct Expr<T> {
    expr_kind: ExprKind<T>,
    data: T,
}

impl<T> Expr<T> {
    pub fn new(expr_kind: ExprKind<T>, data: T) -> Self {
        Expr { expr_kind, data }
    }

    pub fn expr_kind(&self) -> &ExprKind<T> {
        &self.expr_kind
    }

    pub fn data(&self) -> &T {
        &self.data
    }
}

#[derive(Debug, Clone)]
pub enum ExprKind<T> {
    Lit(Literal),
    Var(Var),
    Slot(SlotId),
    Unknown(SmolStr),
    If { test_expr: Arc<Expr<T>>, then_expr: Arc<Expr<T>>, else_expr: Arc<Expr<T>> },
    And { left: Arc<Expr<T>>, right: Arc<Expr<T>> },
    Or { left: Arc<Expr<T>>, right: Arc<Expr<T>> },
    UnaryApp { op: UnaryOp, arg: Arc<Expr<T>> },
    BinaryApp { op: BinaryOp, arg1: Arc<Expr<T>>, arg2: Arc<Expr<T>> },
    ExtensionFunctionApp { fn_name: SmolStr, args: Arc<Vec<Expr<T>>> },
    GetAttr { expr: Arc<Expr<T>>, attr: SmolStr },
    HasAttr { expr: Arc<Expr<T>>, attr: SmolStr },
    Like { expr: Arc<Expr<T>>, pattern: SmolStr },
    Is { expr: Arc<Expr<T>>, entity_type: EntityType },
    Set(Arc<Vec<Expr<T>>>),
    Record(Arc<BTreeMap<SmolStr, Expr<T>>>),
}

/// A template stands for what the typechecker would make of it: see `typecheck` in the crate `published`.
pub struct Template {
    pub checked: Arc<dyn std::any::Any + Send + Sync>,
}

pub struct Policy {
    template: Template,
}

impl Policy {
    pub fn new(template: Template) -> Self {
        Policy { template }
    }

    pub fn template(&self) -> &Template {
        &self.template
    }
}

#[derive(Default)]
pub struct PolicySet {
    pub list: Vec<Policy>,
}

impl PolicySet {
    pub fn policies(&self) -> impl Iterator<Item = &Policy> {
        self.list.iter()
    }
}
