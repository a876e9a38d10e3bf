use std::error::Error;
use std::fmt;

/// Why a call was refused: a number of docs/FORMS.md, 'Numbers given back', and its place.
///
/// The place counts from 0. It is the line of a text that was read (at its end the number of lines), the node in typing, the row of an answer or
/// the ancestors request of a load, and 0 otherwise. After a refusal everything is as it was.
///
/// ```
/// use terbagyl::{Manifest, Refusal};
///
/// let refusal = Manifest::read("A\t10\t500\t20\nN\t1\tx\t0\t0\n").unwrap_err();
/// assert_eq!((refusal.number, refusal.place), (Refusal::FORM, 1));
/// assert_eq!(refusal.to_string(), "refused 1 at 1: a line or field is not of the stated form, or a lent state is not lawful");
/// ```
#[derive(Clone, Copy, Debug, PartialEq, Eq, Hash)]
pub struct Refusal {
    /// The number: one of this type's constants.
    pub number: u64,
    /// The place.
    pub place: u64,
    /// Beside [`Refusal::COUNT`] the two counts.
    pub counted: Option<Counted>,
}

/// How many answers were expected, and how many were got.
#[derive(Clone, Copy, Debug, PartialEq, Eq, Hash)]
pub struct Counted {
    /// One for each row.
    pub expected: u64,
    /// What was answered.
    pub got: u64,
}

impl Refusal {
    /// A line or field is not of the stated form, or a lent state is not lawful.
    pub const FORM: u64 = 1;
    /// Listing order, or depth more than one above the line before; `N` before any `A`.
    pub const ORDER: u64 = 2;
    /// A position would exceed 24 steps.
    pub const DEPTH: u64 = 3;
    /// Over 1,024 nodes in a contribution or 4,096 in a manifest.
    pub const NODES: u64 = 4;
    /// A 65th request type.
    pub const REQUEST_TYPES: u64 = 5;
    /// Too few results, over 32, or not one at the end.
    pub const RESULTS: u64 = 6;
    /// A set is dereferenced.
    pub const SET: u64 = 7;
    /// A literal against its type.
    pub const LITERAL: u64 = 8;
    /// The schema lacks an entity.
    pub const MISSING: u64 = 9;
    /// Any-entity, an entity type with several names, or an unknown one.
    pub const NOT_STRICT: u64 = 10;
    /// Children on a leaf type.
    pub const LEAF: u64 = 11;
    /// Another count of answers than of rows.
    pub const COUNT: u64 = 12;
    /// Two answers to one entity do not agree.
    pub const MERGE: u64 = 13;
    /// A value is not of a kind that the manifest can read there.
    pub const VALUE: u64 = 14;
    /// Over 256 path nodes in a result, 8,192 loaded values, parents and ancestor ids, or 256 ids in one ancestors request.
    pub const LIMIT: u64 = 15;
    /// A load call out of turn. [`Load`](crate::Load) makes such calls impossible to write.
    pub const TURN: u64 = 16;
    /// A lent buffer is too short. This crate lends buffers of the lengths asked for.
    pub const BUFFER: u64 = 31;

    /// What the number says, in the words of docs/FORMS.md.
    pub fn reason(&self) -> &'static str {
        match self.number {
            Self::FORM => "a line or field is not of the stated form, or a lent state is not lawful",
            Self::ORDER => "listing order, or depth more than one above the line before, or `N` before any `A`",
            Self::DEPTH => "a position would exceed 24 steps",
            Self::NODES => "over 1,024 nodes in a contribution or 4,096 in a manifest",
            Self::REQUEST_TYPES => "a 65th request type",
            Self::RESULTS => "too few results, over 32, or not one at the end",
            Self::SET => "a set is dereferenced",
            Self::LITERAL => "a literal against its type",
            Self::MISSING => "the schema lacks this entity",
            Self::NOT_STRICT => "not strict: any-entity, an entity type with several names, or an unknown one",
            Self::LEAF => "children on a leaf type",
            Self::COUNT => "another count of answers than of rows",
            Self::MERGE => "two answers to one entity do not agree",
            Self::VALUE => "a value is not of a kind that the manifest can read there",
            Self::LIMIT => {
                "over 256 path nodes in a result, 8,192 loaded values, parents and ancestor ids, or 256 distinct ids in one ancestors request"
            }
            Self::TURN => "a load call out of turn",
            Self::BUFFER => "a lent buffer is too short",
            _ => "a number that docs/FORMS.md does not have",
        }
    }
}

impl fmt::Display for Refusal {
    fn fmt(&self, f: &mut fmt::Formatter<'_>) -> fmt::Result {
        write!(f, "refused {} at {}: {}", self.number, self.place, self.reason())?;
        match self.counted {
            Some(Counted { expected, got }) => write!(f, ", expected {expected}, got {got}"),
            None => Ok(()),
        }
    }
}

impl Error for Refusal {}
