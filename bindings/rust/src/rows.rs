//! The rows of a contribution or manifest, decoded without a call of the library.

use crate::place::{RequestType, Step};

/// The type that a node was given by [`Manifest::typed`](crate::Manifest::typed).
#[derive(Clone, Copy, Debug, PartialEq, Eq, Hash)]
pub enum NodeType {
    /// A type of the schema, by its number.
    Type(u16),
    /// The entity type of the entry's principal.
    PrincipalType,
    /// The entity type of the entry's resource.
    ResourceType,
}

/// A node of an entry.
#[derive(Clone, Copy, Debug, PartialEq, Eq, Hash)]
pub struct Node {
    /// Its number among all nodes of the manifest, from 0: what a batch's row and a refusal of typing name.
    pub number: usize,
    /// The length of its position, from 1.
    pub depth: usize,
    /// The last step of its position.
    pub step: Step,
    /// Whether it is marked `is_ancestor`.
    pub marked: bool,
    /// Its type, where it was typed.
    pub node_type: Option<NodeType>,
}

impl Node {
    fn of_row(number: usize, row: u64) -> Node {
        let node_type = match row >> 25 & 0x7ff {
            0 => None,
            1_025 => Some(NodeType::PrincipalType),
            1_026 => Some(NodeType::ResourceType),
            t => Some(NodeType::Type((t - 1) as u16)),
        };
        Node { number, depth: depth(row), step: Step::of_word(row >> 6 & 0x7_ffff), marked: row >> 5 & 1 == 1, node_type }
    }
}

/// 0 for an entry's row.
fn depth(row: u64) -> usize {
    (row & 31) as usize
}

/// An entry: a request type, and the nodes that are read for it.
#[derive(Clone, Copy, Debug)]
pub struct Entry<'a> {
    request_type: RequestType,
    first: usize,
    nodes: &'a [u64],
}

impl<'a> Entry<'a> {
    /// Its request type.
    pub fn request_type(&self) -> RequestType {
        self.request_type
    }

    /// Its nodes, in the order of the listing.
    pub fn nodes(&self) -> Nodes<'a> {
        Nodes { number: self.first, rows: self.nodes }
    }

    /// Its nodes, each with its whole position.
    ///
    /// ```
    /// use terbagyl::{Manifest, Step};
    ///
    /// let manifest = Manifest::read("A\t10\t500\t20\nN\t1\tp\t0\t0\nN\t2\tf\t7\t0\n")?;
    /// let entry = manifest.entries().next().unwrap();
    /// let positions: Vec<_> = entry.positions().map(|(position, _)| position).collect();
    /// assert_eq!(positions, [vec![Step::Principal], vec![Step::Principal, Step::Field(7)]]);
    /// # Ok::<(), terbagyl::Refusal>(())
    /// ```
    pub fn positions(&self) -> Positions<'a> {
        Positions { nodes: self.nodes(), position: Vec::new() }
    }
}

/// The nodes of an entry.
#[derive(Clone, Debug)]
pub struct Nodes<'a> {
    number: usize,
    rows: &'a [u64],
}

impl Iterator for Nodes<'_> {
    type Item = Node;

    fn next(&mut self) -> Option<Node> {
        let (&row, rest) = self.rows.split_first()?;
        let node = Node::of_row(self.number, row);
        self.number += 1;
        self.rows = rest;
        Some(node)
    }

    fn size_hint(&self) -> (usize, Option<usize>) {
        (self.rows.len(), Some(self.rows.len()))
    }
}

impl ExactSizeIterator for Nodes<'_> {}

/// The nodes of an entry, each with its position.
#[derive(Clone, Debug)]
pub struct Positions<'a> {
    nodes: Nodes<'a>,
    position: Vec<Step>,
}

impl Iterator for Positions<'_> {
    type Item = (Vec<Step>, Node);

    fn next(&mut self) -> Option<(Vec<Step>, Node)> {
        let node = self.nodes.next()?;
        self.position.truncate(node.depth - 1);
        self.position.push(node.step);
        Some((self.position.clone(), node))
    }
}

/// The entries of a manifest, ascending by request type.
#[derive(Clone, Debug)]
pub struct Entries<'a> {
    passed: usize,
    rows: &'a [u64],
}

impl<'a> Entries<'a> {
    pub(crate) fn of_rows(rows: &'a [u64]) -> Self {
        Entries { passed: 0, rows }
    }
}

impl<'a> Iterator for Entries<'a> {
    type Item = Entry<'a>;

    fn next(&mut self) -> Option<Entry<'a>> {
        let (&own, rest) = self.rows.split_first()?;
        let count = rest.iter().position(|&row| depth(row) == 0).unwrap_or(rest.len());
        let (nodes, rows) = rest.split_at(count);
        let entry = Entry { request_type: RequestType::of_word(own >> 6), first: self.passed, nodes };
        self.passed += count;
        self.rows = rows;
        Some(entry)
    }
}
