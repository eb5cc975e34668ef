//! Edges and junction trees, as rows.
#![forbid(unsafe_code)]

use crate::origin::Origin;

/// Numbers of an edge row: from, to, support, mark, sequence, place.
pub(crate) const EDGE: usize = 6;

/// Numbers of a node row: from, to, count, depth.
pub(crate) const NODE: usize = 4;

/// The kmer graph with its junction trees. It borrows the buffers of the [`Caller`](crate::Caller) that made it.
#[derive(Clone, Copy, Debug)]
pub struct Graph<'c> {
    pub(crate) edges: &'c [u32],
    pub(crate) nodes: &'c [u32],
}

/// An edge. Vertices are kmers, numbered from 0 as they were met; the symbolic vertex is the last, and the edge to it stands for the reference's end.
#[derive(Clone, Copy, Debug, PartialEq, Eq, Hash)]
pub struct Edge {
    /// The vertex that it leaves.
    pub from: u32,
    /// The vertex that it enters.
    pub to: u32,
    /// How often it was threaded or counted backwards; 0 for the symbolic edge.
    pub support: u32,
    /// Whether the reference was threaded over it.
    pub is_ref: bool,
    /// The first sequence that made it, and the place there. The symbolic edge has that of the reference's last kmer, behind which no base follows.
    pub origin: Origin,
}

/// A node of a junction tree.
#[derive(Clone, Copy, Debug, PartialEq, Eq, Hash)]
pub struct Node {
    /// The vertex that its edge leaves; of a root, the tree's vertex.
    pub from: u32,
    /// The vertex that its edge enters; of a root, the tree's vertex.
    pub to: u32,
    /// The evidence for it.
    pub count: u32,
    /// 0 for a root.
    pub depth: u32,
}

impl<'c> Graph<'c> {
    /// The edges, rising by their ends.
    pub fn edges(&self) -> impl ExactSizeIterator<Item = Edge> + DoubleEndedIterator + Clone + 'c {
        self.edges.chunks_exact(EDGE).map(|row| Edge {
            from: row[0],
            to: row[1],
            support: row[2],
            is_ref: row[3] != 0,
            origin: Origin { sequence: row[4], place: row[5] },
        })
    }

    /// The nodes: trees by their vertex, each from its root depth first in edge order.
    pub fn nodes(&self) -> impl ExactSizeIterator<Item = Node> + DoubleEndedIterator + Clone + 'c {
        self.nodes.chunks_exact(NODE).map(|row| Node { from: row[0], to: row[1], count: row[2], depth: row[3] })
    }
}
