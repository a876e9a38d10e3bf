use std::fmt;

use crate::buffer::{never_refused, Buffer};
use crate::place::{place, Held, RequestType, Step};
use crate::raw;
use crate::refusal::Refusal;
use crate::rows::{Entries, Entry, Node};

/// A schema: the types of fields, literals and contexts.
///
/// ```
/// use terbagyl::Schema;
///
/// // type 0 is primitive, an entity of type 10 has a field 7 of it
/// let schema = Schema::read("T\t0\t3\nE\t10\nF\t7\t0\n")?;
/// assert_eq!(Schema::read("T\t1\t3\n").unwrap_err().place, 0); // types are numbered from 0
/// # Ok::<(), terbagyl::Refusal>(())
/// ```
#[derive(Clone)]
pub struct Schema(Buffer<u64, { raw::SCHEMA }>);

impl Schema {
    /// Reads a schema's text.
    pub fn read(text: impl AsRef<[u8]>) -> Result<Schema, Refusal> {
        let mut schema = Buffer::new();
        raw::read_schema(text.as_ref(), &mut schema)?;
        Ok(Schema(schema))
    }
}

impl fmt::Debug for Schema {
    fn fmt(&self, f: &mut fmt::Formatter<'_>) -> fmt::Result {
        write!(f, "Schema of {} lines", self.0.rows().len())
    }
}

/// What one policy reads for one request type.
///
/// ```
/// use terbagyl::{Contribution, Held, RequestType, Schema, Step};
///
/// let open_fitting = RequestType::new(10, 500, 20);
/// let role = Contribution::analyse(&Schema::read("")?, open_fitting, "var\tp\nattr\t7\n")?;
/// assert_eq!(role.listing(), "A\t10\t500\t20\nN\t1\tp\t0\t0\nN\t2\tf\t7\t0\n");
/// assert_eq!(role.has(open_fitting, &[Step::Principal, Step::Field(7)]), Held::There);
/// # Ok::<(), terbagyl::Refusal>(())
/// ```
#[derive(Clone)]
pub struct Contribution(Buffer<u64, { raw::CONTRIBUTION }>);

impl Contribution {
    /// Analyses a step text under a request type.
    pub fn analyse(schema: &Schema, request_type: RequestType, steps: impl AsRef<[u8]>) -> Result<Contribution, Refusal> {
        let mut contribution = Buffer::new();
        raw::analyse(&schema.0, request_type.word(), steps.as_ref(), &mut contribution)?;
        Ok(Contribution(contribution))
    }

    /// Reads the listing of a contribution.
    pub fn read(text: impl AsRef<[u8]>) -> Result<Contribution, Refusal> {
        let mut contribution = Buffer::new();
        raw::read_contribution(text.as_ref(), &mut contribution)?;
        Ok(Contribution(contribution))
    }

    /// What either of two contributions to one request type reads.
    ///
    /// ```
    /// use terbagyl::Contribution;
    ///
    /// let one = Contribution::read("A\t10\t500\t20\nN\t1\tp\t0\t0\n")?;
    /// let other = Contribution::read("A\t10\t500\t20\nN\t1\tp\t0\t1\n")?;
    /// assert_eq!(one.union(&other)?, other); // a mark stays
    /// # Ok::<(), terbagyl::Refusal>(())
    /// ```
    pub fn union(&self, other: &Contribution) -> Result<Contribution, Refusal> {
        let mut union = Buffer::new();
        raw::union_contributions(&self.0, &other.0, &mut union)?;
        Ok(Contribution(union))
    }

    /// Whether it has a position, as [`Manifest::has`].
    pub fn has(&self, request_type: RequestType, position: &[Step]) -> Held {
        Held::of_word(never_refused(raw::has_in_contribution(&self.0, &place(request_type, position))))
    }

    /// Its listing.
    pub fn listing(&self) -> String {
        let mut text = Buffer::<u8, { raw::CONTRIBUTION_TEXT }>::new();
        let bytes = never_refused(raw::write_contribution(&self.0, &mut text));
        ascii(&text[..bytes as usize])
    }

    /// Its one entry.
    pub fn entry(&self) -> Entry<'_> {
        Entries::of_rows(self.0.rows()).next().expect("a contribution has an entry")
    }
}

impl PartialEq for Contribution {
    /// The same rows, types of nodes among them.
    fn eq(&self, other: &Contribution) -> bool {
        self.0.rows() == other.0.rows()
    }
}

impl Eq for Contribution {}

impl fmt::Debug for Contribution {
    fn fmt(&self, f: &mut fmt::Formatter<'_>) -> fmt::Result {
        f.debug_tuple("Contribution").field(&self.listing()).finish()
    }
}

/// An entity manifest: what policies read, by request type.
///
/// Every `Manifest` is lawful: it begins empty or is read, and each change is all or nothing.
///
/// ```
/// use terbagyl::{Manifest, Schema};
///
/// let schema = Schema::read("")?;
/// let mut manifest = Manifest::new();
/// manifest.add_policy(&schema, "A\t10\t500\t20\nvar\tp\nattr\t7\n")?;
/// manifest.add_policy(&schema, "A\t10\t500\t20\nvar\tp\nvar\tr\nattr\t3\nin\n")?;
/// let listing = "A\t10\t500\t20\nN\t1\tp\t0\t0\nN\t2\tf\t7\t0\nN\t2\tr\t0\t0\nN\t3\tf\t3\t1\nN\t1\tr\t0\t0\nN\t2\tf\t3\t0\n";
/// assert_eq!(manifest.listing(), listing);
/// assert_eq!(Manifest::read(listing)?, manifest);
/// # Ok::<(), terbagyl::Refusal>(())
/// ```
#[derive(Clone)]
pub struct Manifest(Buffer<u64, { raw::MANIFEST }>);

impl Manifest {
    /// The empty manifest.
    pub fn new() -> Manifest {
        let mut manifest = Buffer::new();
        never_refused(raw::empty_manifest(&mut manifest));
        Manifest(manifest)
    }

    /// Reads a listing.
    pub fn read(text: impl AsRef<[u8]>) -> Result<Manifest, Refusal> {
        let mut manifest = Buffer::new();
        raw::read_manifest(text.as_ref(), &mut manifest)?;
        Ok(Manifest(manifest))
    }

    /// Adds all contributions of a policy text; after a refusal the manifest is as it was.
    ///
    /// Where all of some texts are accepted, they are in every order and with any of them repeated, and the listing is the same bytes.
    ///
    /// ```
    /// use terbagyl::{Manifest, Refusal, Schema};
    ///
    /// let schema = Schema::read("")?;
    /// let mut manifest = Manifest::new();
    /// manifest.add_policy(&schema, "A\t10\t500\t20\nvar\tp\nattr\t7\n")?;
    /// let before = manifest.clone();
    /// // the second contribution is refused, and the first is not kept either
    /// let refusal = manifest.add_policy(&schema, "A\t10\t501\t21\nvar\tr\nA\t10\t502\t21\nunion\n").unwrap_err();
    /// assert_eq!((refusal.number, refusal.place), (Refusal::RESULTS, 3));
    /// assert_eq!(manifest, before);
    /// # Ok::<(), Refusal>(())
    /// ```
    pub fn add_policy(&mut self, schema: &Schema, text: impl AsRef<[u8]>) -> Result<(), Refusal> {
        raw::add_policy(&schema.0, text.as_ref(), &mut self.0)
    }

    /// Adds a contribution; after a refusal the manifest is as it was.
    ///
    /// ```
    /// use terbagyl::{Contribution, Manifest};
    ///
    /// let mut manifest = Manifest::new();
    /// manifest.add(&Contribution::read("A\t10\t500\t20\n")?)?;
    /// assert_eq!(manifest.entries().count(), 1);
    /// # Ok::<(), terbagyl::Refusal>(())
    /// ```
    pub fn add(&mut self, contribution: &Contribution) -> Result<(), Refusal> {
        raw::add(&mut self.0, &contribution.0)
    }

    /// Adds all that another manifest reads; after a refusal the manifest is as it was.
    ///
    /// ```
    /// use terbagyl::Manifest;
    ///
    /// let mut manifest = Manifest::read("A\t10\t500\t20\n")?;
    /// manifest.unite(&Manifest::read("A\t10\t501\t21\n")?)?;
    /// assert_eq!(manifest.entries().count(), 2);
    /// # Ok::<(), terbagyl::Refusal>(())
    /// ```
    pub fn unite(&mut self, other: &Manifest) -> Result<(), Refusal> {
        raw::unite_manifests(&mut self.0, &other.0)
    }

    /// What either of two manifests reads. Where both have a node, this one's type stays.
    ///
    /// ```
    /// use terbagyl::Manifest;
    ///
    /// let one = Manifest::read("A\t10\t500\t20\n")?;
    /// let other = Manifest::read("A\t10\t501\t21\n")?;
    /// assert_eq!(other.union(&one)?.listing(), "A\t10\t500\t20\nA\t10\t501\t21\n");
    /// # Ok::<(), terbagyl::Refusal>(())
    /// ```
    pub fn union(&self, other: &Manifest) -> Result<Manifest, Refusal> {
        let mut union = Buffer::new();
        raw::union_manifests(&self.0, &other.0, &mut union)?;
        Ok(Manifest(union))
    }

    /// What stays when it is typed by a schema: each node has its type, and fields that their type lacks are dropped.
    ///
    /// ```
    /// use terbagyl::{Manifest, NodeType, Refusal, Schema};
    ///
    /// let schema = Schema::read("T\t0\t3\nE\t10\nF\t7\t0\n")?;
    /// let typed = Manifest::read("A\t10\t500\t20\nN\t1\tp\t0\t0\nN\t2\tf\t5\t0\nN\t2\tf\t7\t0\n")?.typed(&schema)?;
    /// assert_eq!(typed.listing(), "A\t10\t500\t20\nN\t1\tp\t0\t0\nN\t2\tf\t7\t0\n");
    /// let types: Vec<_> = typed.nodes().map(|(_, node)| node.node_type).collect();
    /// assert_eq!(types, [Some(NodeType::PrincipalType), Some(NodeType::Type(0))]);
    ///
    /// let literal = Manifest::read("A\t10\t500\t20\nN\t1\te\t600\t0\n")?;
    /// assert_eq!(literal.typed(&schema).unwrap_err().number, Refusal::MISSING);
    /// # Ok::<(), terbagyl::Refusal>(())
    /// ```
    pub fn typed(&self, schema: &Schema) -> Result<Manifest, Refusal> {
        let mut typed = Buffer::new();
        raw::to_typed(&schema.0, &self.0, &mut typed)?;
        Ok(Manifest(typed))
    }

    /// Whether it has a position under a request type, and whether it is marked. The empty position is the entry itself.
    ///
    /// **Each call checks the whole manifest**, up to 4,160 rows, before it looks for the place. For many questions walk the rows once, with
    /// [`entries`](Manifest::entries) or [`nodes`](Manifest::nodes), which make no call of the library:
    ///
    /// ```
    /// use std::collections::HashMap;
    /// use terbagyl::{Held, Manifest, RequestType, Step};
    ///
    /// let manifest = Manifest::read("A\t10\t500\t20\nN\t1\tp\t0\t0\nN\t2\tr\t0\t1\n")?;
    /// let open_fitting = RequestType::new(10, 500, 20);
    /// assert_eq!(manifest.has(open_fitting, &[Step::Principal, Step::Resource]), Held::Marked);
    ///
    /// // once, and then as many questions as there are
    /// let marks: HashMap<(RequestType, Vec<Step>), bool> = manifest
    ///     .entries()
    ///     .flat_map(|entry| entry.positions().map(move |(position, node)| ((entry.request_type(), position), node.marked)))
    ///     .collect();
    /// assert_eq!(marks.get(&(open_fitting, vec![Step::Principal, Step::Resource])), Some(&true));
    /// assert_eq!(marks.get(&(open_fitting, vec![Step::Principal])), Some(&false));
    /// assert_eq!(marks.get(&(open_fitting, vec![Step::Context])), None);
    /// # Ok::<(), terbagyl::Refusal>(())
    /// ```
    pub fn has(&self, request_type: RequestType, position: &[Step]) -> Held {
        Held::of_word(never_refused(raw::has_in_manifest(&self.0, &place(request_type, position))))
    }

    /// What a load for a request type takes at most, whatever the store answers, up to its end or to a refusal.
    ///
    /// ```
    /// use terbagyl::{Manifest, RequestType, TripBound};
    ///
    /// let manifest = Manifest::read("A\t10\t500\t20\nN\t1\tp\t0\t0\nN\t2\tf\t7\t0\nN\t2\tr\t0\t1\n")?;
    /// // the principal and its field 7, which may be another entity; the ancestors trie is not counted
    /// assert_eq!(manifest.trip_bound(RequestType::new(10, 500, 20)), TripBound { rows: 2, batches: 2, ancestors: 1 });
    /// assert_eq!(manifest.trip_bound(RequestType::new(10, 501, 20)), TripBound { rows: 0, batches: 0, ancestors: 0 });
    /// # Ok::<(), terbagyl::Refusal>(())
    /// ```
    pub fn trip_bound(&self, request_type: RequestType) -> TripBound {
        let told = never_refused(raw::trip_bound(&self.0, request_type.word()));
        TripBound { rows: told.rows, batches: told.batches, ancestors: told.count }
    }

    /// Its listing.
    pub fn listing(&self) -> String {
        let mut text = Buffer::<u8, { raw::MANIFEST_TEXT }>::new();
        let bytes = never_refused(raw::write_manifest(&self.0, &mut text));
        ascii(&text[..bytes as usize])
    }

    /// Its entries, ascending by request type, decoded as they are asked for.
    ///
    /// ```
    /// use terbagyl::{Manifest, RequestType};
    ///
    /// let manifest = Manifest::read("A\t10\t500\t20\nN\t1\tp\t0\t0\nA\t10\t501\t21\n")?;
    /// let sizes: Vec<_> = manifest.entries().map(|entry| (entry.request_type(), entry.nodes().len())).collect();
    /// assert_eq!(sizes, [(RequestType::new(10, 500, 20), 1), (RequestType::new(10, 501, 21), 0)]);
    /// # Ok::<(), terbagyl::Refusal>(())
    /// ```
    pub fn entries(&self) -> Entries<'_> {
        Entries::of_rows(self.0.rows())
    }

    /// Its nodes in the order of the listing, each with the request type of its entry, decoded as they are asked for.
    ///
    /// ```
    /// use terbagyl::{Manifest, Step};
    ///
    /// let manifest = Manifest::read("A\t10\t500\t20\nN\t1\tp\t0\t0\nN\t2\tf\t7\t0\n")?;
    /// let fields: Vec<_> = manifest.nodes().filter(|(_, node)| matches!(node.step, Step::Field(_))).collect();
    /// assert_eq!(fields[0].1.number, 1);
    /// # Ok::<(), terbagyl::Refusal>(())
    /// ```
    pub fn nodes(&self) -> impl Iterator<Item = (RequestType, Node)> + '_ {
        self.entries().flat_map(|entry| entry.nodes().map(move |node| (entry.request_type(), node)))
    }

    pub(crate) fn words(&self) -> &[u64; raw::MANIFEST] {
        &self.0
    }
}

impl Default for Manifest {
    fn default() -> Manifest {
        Manifest::new()
    }
}

impl PartialEq for Manifest {
    /// The same rows, types of nodes among them: a typed manifest is another than the untyped one of the same listing.
    fn eq(&self, other: &Manifest) -> bool {
        self.0.rows() == other.0.rows()
    }
}

impl Eq for Manifest {}

impl fmt::Debug for Manifest {
    fn fmt(&self, f: &mut fmt::Formatter<'_>) -> fmt::Result {
        f.debug_tuple("Manifest").field(&self.listing()).finish()
    }
}

/// What a load takes at most: see [`Manifest::trip_bound`].
#[derive(Clone, Copy, Debug, PartialEq, Eq, Hash)]
pub struct TripBound {
    /// Rows: the nodes of the entry that are in no ancestors trie.
    pub rows: u64,
    /// Batches: one more than the most field steps to one of these nodes, and none without a node.
    pub batches: u64,
    /// Ancestors calls, which come on top: 1, and 0 where there is no entry.
    pub ancestors: u64,
}

/// A listing as a string: it has letters, digits, tabs and LF alone.
fn ascii(text: &[u8]) -> String {
    String::from_utf8(text.to_vec()).expect("a listing is ASCII")
}
