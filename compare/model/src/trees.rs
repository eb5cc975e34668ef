//! "Evidence": the junction trees.

use crate::graph::{Ends, Graph, Stretch, Vertex};
use std::collections::BTreeMap;

pub type NodeId = usize;

#[derive(Default)]
struct Node {
    count: u32,
    children: BTreeMap<Ends, NodeId>,
}

#[derive(Default)]
pub struct Trees {
    nodes: Vec<Node>,
    roots: BTreeMap<Vertex, NodeId>,
}

impl Trees {
    /// The trees of all stretches longer than k over a graph without its symbolic edge; none where they have more than `most` nodes.
    pub fn grown(graph: &Graph, k: usize, stretches: &[Stretch], sink: Vertex, symbolic: Ends, most: usize) -> Option<Self> {
        let mut trees = Self::default();
        for stretch in stretches.iter().filter(|s| s.bytes.len() > k) {
            trees.walk(graph, k, stretch.bytes, sink, symbolic, most);
            if trees.nodes.len() > most {
                return None;
            }
        }
        Some(trees)
    }

    pub fn root(&self, v: Vertex) -> Option<NodeId> {
        self.roots.get(&v).copied()
    }

    pub fn len(&self) -> usize {
        self.nodes.len()
    }

    pub fn is_empty(&self) -> bool {
        self.nodes.is_empty()
    }

    /// The branches below a node with their counts, in edge order.
    pub fn branches(&self, node: NodeId) -> Vec<(Ends, u32)> {
        self.nodes[node].children.iter().map(|(&e, &c)| (e, self.nodes[c].count)).collect()
    }

    pub fn child(&self, node: NodeId, edge: Ends) -> Option<NodeId> {
        self.nodes[node].children.get(&edge).copied()
    }

    pub fn has_branch(&self, node: NodeId) -> bool {
        !self.nodes[node].children.is_empty()
    }

    /// The sum of the counts of a node's branches.
    pub fn total(&self, node: NodeId) -> u32 {
        self.nodes[node].children.values().map(|&c| self.nodes[c].count).sum()
    }

    /// Rows of edge, count and depth: roots by vertex, at depth 0 with that vertex as both ends, each tree depth first in edge order.
    pub fn rows(&self) -> Vec<[u32; 4]> {
        let mut rows = Vec::with_capacity(self.nodes.len());
        for (&v, &root) in &self.roots {
            let mut left = vec![((v, v), root, 0)];
            while let Some((ends, node, depth)) = left.pop() {
                rows.push([ends.0, ends.1, self.nodes[node].count, depth]);
                left.extend(self.nodes[node].children.iter().rev().map(|(&e, &c)| (e, c, depth + 1)));
            }
        }
        rows
    }

    fn walk(&mut self, graph: &Graph, k: usize, bytes: &[u8], sink: Vertex, symbolic: Ends, most: usize) {
        let mut here = graph.vertex_of(&bytes[..k]);
        let mut open = Vec::new();
        for &base in &bytes[k..] {
            let next = graph.follow(here, base).expect("threading made an edge for each base");
            let outs = graph.outs(here);
            if outs.len() >= 2 || outs.iter().any(|&to| graph.in_degree(to) >= 2) {
                open.push(self.opened(here));
            }
            if outs.len() != 1 {
                self.take_edge(&mut open, (here, next));
            }
            here = next;
            // Nodes only become more: what is above the maximum now is so at the end.
            if self.nodes.len() > most {
                return;
            }
        }
        if here == sink {
            self.take_edge(&mut open, symbolic);
        }
    }

    /// The root of a vertex's tree, its count risen.
    fn opened(&mut self, v: Vertex) -> NodeId {
        let root = match self.roots.get(&v) {
            Some(&root) => root,
            None => {
                let root = self.add();
                self.roots.insert(v, root);
                root
            }
        };
        self.nodes[root].count += 1;
        root
    }

    /// Every open tree takes the edge: the node left and the child reached each gain 1.
    fn take_edge(&mut self, open: &mut [NodeId], edge: Ends) {
        for node in open {
            let child = match self.child(*node, edge) {
                Some(child) => child,
                None => {
                    let child = self.add();
                    self.nodes[*node].children.insert(edge, child);
                    child
                }
            };
            self.nodes[*node].count += 1;
            self.nodes[child].count += 1;
            *node = child;
        }
    }

    fn add(&mut self) -> NodeId {
        self.nodes.push(Node::default());
        self.nodes.len() - 1
    }
}
