use std::collections::BTreeMap;
use std::error::Error;
use std::fmt;

use crate::buffer::{never_refused, Buffer};
use crate::manifest::Manifest;
use crate::place::RequestType;
use crate::raw;
use crate::refusal::Refusal;
use crate::value::{fields_of, rows_of, Entity, Value};

/// A request: its type, who asks, for what, and the context.
///
/// ```
/// use terbagyl::{Request, RequestType, Value};
///
/// let mut request = Request::new(RequestType::new(10, 500, 20), 701, 801);
/// request.context.insert(1, Value::Entity(901));
/// ```
#[derive(Clone, Debug, PartialEq, Eq)]
pub struct Request {
    /// Its type.
    pub request_type: RequestType,
    /// The principal, an entity id.
    pub principal: u16,
    /// The resource, an entity id.
    pub resource: u16,
    /// The fields of the context by name.
    pub context: BTreeMap<u16, Value>,
}

impl Request {
    /// The request of these with an empty context.
    pub fn new(request_type: RequestType, principal: u16, resource: u16) -> Request {
        Request { request_type, principal, resource, context: BTreeMap::new() }
    }
}

/// A row of a batch: an entity, and the node that asks for it by its number among all nodes of the manifest.
#[derive(Clone, Copy, Debug, PartialEq, Eq, Hash)]
pub struct Row {
    /// The entity that is asked for.
    pub entity: u16,
    /// The node.
    pub node: usize,
}

/// An ancestors request: which of some ids are ancestors of an entity.
#[derive(Clone, Debug, PartialEq, Eq, Hash)]
pub struct AncestorsRequest {
    /// The entity.
    pub entity: u16,
    /// The ids, ascending; there may be none.
    pub asked: Vec<u16>,
}

/// What a load came to: the entities that were answered, each with its attributes, parents and answered ancestors.
#[derive(Clone, Debug, PartialEq, Eq)]
pub struct Slice {
    /// The entities by id.
    pub entities: BTreeMap<u16, Entity>,
    /// How many batches were asked.
    pub batches: u64,
    /// How many rows were asked.
    pub rows: u64,
}

/// How many batches and rows a load has asked so far.
#[derive(Clone, Copy, Debug, PartialEq, Eq)]
pub struct Asked {
    /// Batches that were handed out.
    pub batches: u64,
    /// Rows of these.
    pub rows: u64,
}

/// Whose turn a load is: the states of [`Load`].
pub mod turn {
    use super::{AncestorsRequest, Row};

    /// A batch waits: [`Load::ask`](super::Load::ask) hands it out.
    #[derive(Clone, Debug)]
    pub struct Batch(pub(super) ());

    /// A batch is out, and its answers are awaited.
    #[derive(Clone, Debug)]
    pub struct Answers(pub(super) Vec<Row>);

    /// No row waits any more, and the ancestors are to be asked for.
    #[derive(Clone, Debug)]
    pub struct Ancestors(pub(super) ());

    /// The ancestors requests are out, and their answers are awaited.
    #[derive(Clone, Debug)]
    pub struct AncestorsAnswers(pub(super) Vec<AncestorsRequest>);

    /// The load has ended, and has its slice.
    #[derive(Clone, Debug)]
    pub struct Ended(pub(super) ());
}

/// A load in one of its turns. Each call takes it and gives it back in the turn that comes next, so that a call out of turn cannot be written:
///
/// | turn | call | then |
/// |---|---|---|
/// | | `Load::begin` | [`Next`] |
/// | [`turn::Batch`] | `ask` | [`turn::Answers`] |
/// | [`turn::Answers`] | `rows`, `answer` | [`Next`], or [`Stalled`] |
/// | [`turn::Ancestors`] | `ask` | [`turn::AncestorsAnswers`], or [`Stalled`] |
/// | [`turn::AncestorsAnswers`] | `requests`, `answer` | [`turn::Ended`], or [`Stalled`] |
/// | [`turn::Ended`] | `slice` | |
///
/// ```
/// use terbagyl::{Entity, Load, Manifest, Next, Refusal, Request, RequestType, Value};
///
/// let manifest = Manifest::read("A\t10\t500\t20\nN\t1\tp\t0\t0\nN\t2\tf\t7\t0\nN\t1\te\t701\t0\n")?;
/// let request = Request::new(RequestType::new(10, 500, 20), 701, 801);
/// let Next::Batch(load) = Load::begin(&manifest, &request)? else { panic!("nothing to ask for") };
/// let load = load.ask();
/// let asked: Vec<u16> = load.rows().iter().map(|row| row.entity).collect();
/// assert_eq!(asked, [701, 701]);
///
/// // two answers to one entity that do not agree: the load is given back, and goes on with better ones
/// let here = Some(Entity::new([901], [(7, Value::Primitive(1))]));
/// let moved = Some(Entity::new([901, 902], [(7, Value::Primitive(1))]));
/// let stalled = load.answer(&[here.clone(), moved]).unwrap_err();
/// assert_eq!((stalled.refusal.number, stalled.refusal.place), (Refusal::MERGE, 1));
/// let Next::Ancestors(load) = stalled.load.answer(&[here.clone(), here])? else { panic!("a second batch") };
/// let load = load.ask()?;
/// let slice = load.answer(&[vec![], vec![]])?.slice();
/// assert_eq!((slice.entities.len(), slice.batches, slice.rows), (1, 1, 2));
/// # Ok::<(), terbagyl::Refusal>(())
/// ```
///
/// A call out of turn does not compile:
///
/// ```compile_fail,E0599
/// use terbagyl::{turn, Load};
///
/// fn too_early(load: Load<turn::Answers>) {
///     load.slice();
/// }
/// ```
///
/// Nor does a second answer to one batch:
///
/// ```compile_fail,E0382
/// use terbagyl::{turn, Load};
///
/// fn twice(load: Load<turn::Answers>) {
///     let _ = load.answer(&[]);
///     let _ = load.answer(&[]);
/// }
/// ```
#[derive(Clone)]
pub struct Load<Turn> {
    state: Buffer<u64, { raw::LOAD }>,
    asked: Asked,
    turn: Turn,
}

impl<Turn> Load<Turn> {
    /// The batches and rows asked so far.
    pub fn asked(&self) -> Asked {
        self.asked
    }

    /// The same load in another turn.
    fn in_turn<Other>(self, asked: Asked, turn: Other) -> Load<Other> {
        Load { state: self.state, asked, turn }
    }
}

impl<Turn: fmt::Debug> fmt::Debug for Load<Turn> {
    fn fmt(&self, f: &mut fmt::Formatter<'_>) -> fmt::Result {
        f.debug_struct("Load").field("asked", &self.asked).field("turn", &self.turn).finish_non_exhaustive()
    }
}

/// The turn that comes after a load begins, and after answers are taken.
#[derive(Clone, Debug)]
pub enum Next {
    /// Rows wait.
    Batch(Load<turn::Batch>),
    /// No row waits: the ancestors are to be asked for.
    Ancestors(Load<turn::Ancestors>),
    /// The manifest has no entry for the request: nothing is read, and the slice is empty.
    Ended(Load<turn::Ended>),
}

impl Next {
    /// By the turn that the state's word 0 says.
    fn of<Turn>(load: Load<Turn>, asked: Asked) -> Next {
        match load.state[0] {
            1 => Next::Batch(load.in_turn(asked, turn::Batch(()))),
            3 => Next::Ancestors(load.in_turn(asked, turn::Ancestors(()))),
            _ => Next::Ended(load.in_turn(asked, turn::Ended(()))),
        }
    }
}

/// A load whose answers, or whose ancestors walk, were refused: it is as it was, and can go on with better answers.
#[derive(Clone, Debug)]
pub struct Stalled<Turn> {
    /// Why.
    pub refusal: Refusal,
    /// The load.
    pub load: Load<Turn>,
}

impl<Turn> Stalled<Turn> {
    fn new(refusal: Refusal, load: Load<Turn>) -> Self {
        Stalled { refusal, load }
    }
}

impl<Turn> From<Stalled<Turn>> for Refusal {
    fn from(stalled: Stalled<Turn>) -> Refusal {
        stalled.refusal
    }
}

impl<Turn> fmt::Display for Stalled<Turn> {
    fn fmt(&self, f: &mut fmt::Formatter<'_>) -> fmt::Result {
        self.refusal.fmt(f)
    }
}

impl<Turn: fmt::Debug> Error for Stalled<Turn> {
    fn source(&self) -> Option<&(dyn Error + 'static)> {
        Some(&self.refusal)
    }
}

fn asked(told: &raw::Told) -> Asked {
    Asked { batches: told.batches, rows: told.rows }
}

impl Load<turn::Batch> {
    /// Begins a load of what a manifest has a request read.
    ///
    /// Refused with 1 at 0 where the context has over 8,192 fields and elements, and with 14 at 0 where the manifest cannot read it.
    pub fn begin(manifest: &Manifest, request: &Request) -> Result<Next, Refusal> {
        let rows = rows_of(&request.context);
        let context = Buffer::holding(&[&[rows.len() as u64], &rows[..]].concat());
        let mut state = Buffer::new();
        let told =
            raw::load_begin(manifest.words(), request.request_type.word(), request.principal, request.resource, &context, &mut state)?;
        let asked = asked(&told);
        Ok(Next::of(Load { state, asked, turn: turn::Batch(()) }, asked))
    }

    /// Hands out the batch that waits.
    pub fn ask(mut self) -> Load<turn::Answers> {
        let mut words = Buffer::<u64, { raw::BATCH }>::new();
        let told = never_refused(raw::load_batch(&mut self.state, &mut words));
        let row = |&word: &u64| Row { entity: word as u16, node: (word >> 16) as usize };
        let rows = words[..told.count as usize].iter().map(row).collect();
        self.in_turn(asked(&told), turn::Answers(rows))
    }
}

impl Load<turn::Answers> {
    /// The rows of the batch. An entity may stand in several.
    pub fn rows(&self) -> &[Row] {
        &self.turn.0
    }

    /// Takes the answers, one for each row in order: an entity, or `None` where it is absent.
    ///
    /// Answers that come to over 24,576 words (a head, the parents and the attributes' rows each) are refused with 1 at the first that does
    /// not end within them, others by the numbers of docs/FORMS.md.
    pub fn answer(mut self, answers: &[Option<Entity>]) -> Result<Next, Stalled<turn::Answers>> {
        let mut words = vec![answers.len() as u64];
        for answer in answers {
            push_answer(answer.as_ref(), &mut words);
        }
        match raw::load_answer(&mut self.state, &Buffer::holding(&words)) {
            Ok(told) => Ok(Next::of(self, asked(&told))),
            Err(refusal) => Err(Stalled::new(refusal, self)),
        }
    }
}

/// An answer's head and what follows it. Counts that a head has no room for are longer than any buffer, and are cut off.
fn push_answer(answer: Option<&Entity>, words: &mut Vec<u64>) {
    let Some(entity) = answer else {
        words.push(0);
        return;
    };
    let rows = rows_of(&entity.attributes);
    let parents = entity.parents.len().min(0xffff) as u64;
    words.push(1 | parents << 16 | (rows.len() as u64) << 32);
    words.extend(entity.parents.iter().map(|&id| u64::from(id)));
    words.extend(rows);
}

impl Load<turn::Ancestors> {
    /// Hands out the ancestors requests, one for each row ever asked, in asking order.
    pub fn ask(mut self) -> Result<Load<turn::AncestorsAnswers>, Stalled<turn::Ancestors>> {
        let mut words = Buffer::<u64, { raw::REQUESTS }>::new();
        match raw::load_ancestors(&mut self.state, &mut words) {
            Ok(told) => Ok(self.in_turn(asked(&told), turn::AncestorsAnswers(requests_of(&words[..])))),
            Err(refusal) => Err(Stalled::new(refusal, self)),
        }
    }
}

/// The requests that words hold: their count, a head each, and then the ids of each.
fn requests_of(words: &[u64]) -> Vec<AncestorsRequest> {
    let (heads, mut ids) = words[1..].split_at(words[0] as usize);
    heads
        .iter()
        .map(|&head| {
            let (own, rest) = ids.split_at((head >> 16) as usize);
            ids = rest;
            AncestorsRequest { entity: head as u16, asked: own.iter().map(|&id| id as u16).collect() }
        })
        .collect()
}

impl Load<turn::AncestorsAnswers> {
    /// The requests.
    pub fn requests(&self) -> &[AncestorsRequest] {
        &self.turn.0
    }

    /// Takes the answers, a set of ids for each request in order; each id becomes a parent of the entity where that was loaded. Surplus
    /// sets and requests are passed over.
    pub fn answer(mut self, sets: &[Vec<u16>]) -> Result<Load<turn::Ended>, Stalled<turn::AncestorsAnswers>> {
        let mut words = vec![sets.len() as u64];
        for set in sets {
            let mut ids = set.clone();
            ids.sort_unstable();
            ids.dedup();
            words.push(ids.len() as u64);
            words.extend(ids.into_iter().map(u64::from));
        }
        match raw::load_ancestors_answer(&mut self.state, &Buffer::holding(&words)) {
            Ok(told) => Ok(self.in_turn(asked(&told), turn::Ended(()))),
            Err(refusal) => Err(Stalled::new(refusal, self)),
        }
    }
}

impl Load<turn::Ended> {
    /// What was loaded.
    pub fn slice(&self) -> Slice {
        let mut words = Buffer::<u64, { raw::SLICE }>::new();
        let told = never_refused(raw::load_result(&self.state, &mut words));
        Slice { entities: entities_of(&words[..]), batches: told.batches, rows: told.rows }
    }
}

/// The entities that words hold: their count, then each with its head, its parents and its attributes' rows.
fn entities_of(words: &[u64]) -> BTreeMap<u16, Entity> {
    let mut rest = &words[1..];
    (0..words[0])
        .map(|_| {
            let head = rest[0];
            let (parents, after) = rest[1..].split_at((head >> 16 & 0xffff) as usize);
            let (rows, after) = after.split_at((head >> 32) as usize);
            rest = after;
            let parents = parents.iter().map(|&id| id as u16).collect();
            (head as u16, Entity { parents, attributes: fields_of(rows) })
        })
        .collect()
}

/// What a load asks: entities by their ids, and which of some ids are ancestors of an entity.
///
/// [`load`] shows one. A store that can fail, or that answers a whole batch at once, is asked through [`Load`] instead.
pub trait Store {
    /// The entity of an id, or `None` where there is none. An id may be asked for more than once, and the answers have to agree.
    fn entity(&mut self, id: u16) -> Option<Entity>;

    /// Those of the asked ids, which may be none, that are ancestors of the entity.
    fn ancestors(&mut self, id: u16, asked: &[u16]) -> Vec<u16>;
}

/// Runs a whole load against a store.
///
/// ```
/// use terbagyl::{load, Entity, Manifest, Request, RequestType, Store, Value};
///
/// /// Aray, 701, is in the clinic 901.
/// struct Clinic;
///
/// impl Store for Clinic {
///     fn entity(&mut self, id: u16) -> Option<Entity> {
///         (id == 701).then(|| Entity::new([901], [(7, Value::Primitive(1))]))
///     }
///
///     fn ancestors(&mut self, id: u16, asked: &[u16]) -> Vec<u16> {
///         asked.iter().copied().filter(|&ancestor| id == 701 && (ancestor == 901 || ancestor == 950)).collect()
///     }
/// }
///
/// // principal.7, and whether the principal is in 950
/// let manifest = Manifest::read("A\t10\t500\t20\nN\t1\tp\t0\t0\nN\t2\tf\t7\t0\nN\t2\te\t950\t1\n")?;
/// let request = Request::new(RequestType::new(10, 500, 20), 701, 801);
/// let slice = load(&manifest, &request, &mut Clinic)?;
/// assert_eq!(slice.entities[&701], Entity::new([901, 950], [(7, Value::Primitive(1))]));
/// assert_eq!((slice.batches, slice.rows), (1, 1));
/// # Ok::<(), terbagyl::Refusal>(())
/// ```
pub fn load(manifest: &Manifest, request: &Request, store: &mut (impl Store + ?Sized)) -> Result<Slice, Refusal> {
    let mut next = Load::begin(manifest, request)?;
    loop {
        match next {
            Next::Batch(load) => {
                let load = load.ask();
                let answers: Vec<_> = load.rows().iter().map(|row| store.entity(row.entity)).collect();
                next = load.answer(&answers)?;
            }
            Next::Ancestors(load) => {
                let load = load.ask()?;
                let sets: Vec<_> = load.requests().iter().map(|request| store.ancestors(request.entity, &request.asked)).collect();
                return Ok(load.answer(&sets)?.slice());
            }
            Next::Ended(load) => return Ok(load.slice()),
        }
    }
}
