/// A request type: a principal of an entity type asks for an action on a resource of an entity type.
///
/// ```
/// use terbagyl::RequestType;
///
/// let open_fitting = RequestType::new(10, 500, 20);
/// assert!(open_fitting < RequestType::new(10, 501, 0)); // the order of a listing
/// ```
#[derive(Clone, Copy, Debug, PartialEq, Eq, PartialOrd, Ord, Hash)]
pub struct RequestType {
    /// The principal's entity type.
    pub principal_type: u16,
    /// The action, an entity id.
    pub action: u16,
    /// The resource's entity type.
    pub resource_type: u16,
}

impl RequestType {
    /// The request type of these three.
    pub const fn new(principal_type: u16, action: u16, resource_type: u16) -> Self {
        RequestType { principal_type, action, resource_type }
    }

    pub(crate) fn word(self) -> u64 {
        u64::from(self.principal_type) << 32 | u64::from(self.action) << 16 | u64::from(self.resource_type)
    }

    pub(crate) fn of_word(word: u64) -> Self {
        RequestType::new((word >> 32) as u16, (word >> 16) as u16, word as u16)
    }
}

/// A step of a position: a root, then fields; a root below the first step enters the ancestors trie of the node above.
///
/// Steps are ordered as siblings in a listing.
///
/// ```
/// use terbagyl::Step;
///
/// // whether the principal is in `resource.3`
/// let position = [Step::Principal, Step::Resource, Step::Field(3)];
/// assert!(Step::Field(9) < Step::Principal && Step::Literal(7) < Step::Literal(8));
/// ```
#[derive(Clone, Copy, Debug, PartialEq, Eq, PartialOrd, Ord, Hash)]
pub enum Step {
    /// A field, by its name.
    Field(u16),
    /// The root principal.
    Principal,
    /// The root action.
    Action,
    /// The root resource.
    Resource,
    /// The root context.
    Context,
    /// A literal entity, by its id.
    Literal(u16),
}

impl Step {
    pub(crate) fn word(self) -> u64 {
        let (kind, id) = match self {
            Step::Field(name) => (0, name),
            Step::Principal => (1, 0),
            Step::Action => (2, 0),
            Step::Resource => (3, 0),
            Step::Context => (4, 0),
            Step::Literal(entity) => (5, entity),
        };
        kind << 16 | u64::from(id)
    }

    pub(crate) fn of_word(word: u64) -> Self {
        match word >> 16 {
            0 => Step::Field(word as u16),
            1 => Step::Principal,
            2 => Step::Action,
            3 => Step::Resource,
            4 => Step::Context,
            _ => Step::Literal(word as u16),
        }
    }
}

/// Whether a place is there, and whether it is marked `is_ancestor`.
#[derive(Clone, Copy, Debug, PartialEq, Eq, Hash)]
pub enum Held {
    /// It is not there.
    Missing,
    /// It is there, and not marked.
    There,
    /// It is there and marked.
    Marked,
}

impl Held {
    pub(crate) fn of_word(word: u64) -> Self {
        match word {
            0 => Held::Missing,
            1 => Held::There,
            _ => Held::Marked,
        }
    }

    /// Whether the place is there, marked or not.
    pub fn is_there(self) -> bool {
        self != Held::Missing
    }
}

/// A place as words: its request type, and the steps of a position.
pub(crate) fn place(request_type: RequestType, position: &[Step]) -> Vec<u64> {
    std::iter::once(request_type.word()).chain(position.iter().map(|step| step.word())).collect()
}
