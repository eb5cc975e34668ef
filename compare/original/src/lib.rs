//! The original: the files of docs/src with their bodies unchanged (`unchanged`), and the patched copies (`patched`); see build.rs.

extern crate self as gatk_common;
extern crate self as gatk_core;

mod notes;
mod stubs;

use stubs::*;
pub use stubs::{GatkError, GatkResult, MappingQuality};

macro_rules! taken_over {
    ($($name:ident)*) => {
        $(
            #[allow(dead_code, unused_imports, unused_mut, unused_variables, clippy::all)]
            mod $name {
                include!(concat!(env!("OUT_DIR"), "/", stringify!($name), ".rs"));
            }
        )*
    };
}

taken_over!(assembly bio_ids kbest_haplotype junction_tree_graph junction_kbest junction_tree_graph_patched junction_kbest_patched);

pub use assembly::AssemblyRead;

/// A graph and its trees, in the order of the call for them.
#[derive(Clone, Debug, PartialEq)]
pub struct Rows {
    pub vertices: usize,
    /// from, to, support, mark
    pub edges: Vec<[u32; 4]>,
    /// from, to, count, depth
    pub nodes: Vec<[u32; 4]>,
}

/// A listed path.
#[derive(Clone, Debug, PartialEq)]
pub struct Path {
    pub score: u64,
    pub edges: Vec<(usize, usize)>,
    pub bases: Vec<u8>,
    pub is_ref: bool,
}

/// What the patched search tells beside its list.
#[derive(Clone, Debug)]
pub struct Told {
    pub paths: Vec<Path>,
    /// The closing number of each listed path.
    pub closings: Vec<usize>,
    pub pushes: usize,
    pub longest: usize,
    /// A penalty was wanted whose place the column lacks.
    pub place_missing: bool,
}

/// What can be asked of either graph.
macro_rules! graph_of {
    ($graph:ident) => {
        use crate::$graph as source;
        use crate::{AssemblyRead, Path, Rows};

        /// A graph with its trees.
        pub struct Graph(pub(crate) source::JunctionTreeLinkedGraph);

        /// The graph that `finish` makes.
        pub fn build(k: usize, quality: u8, reference: &[u8], reads: &[AssemblyRead]) -> Graph {
            Graph(source::harness_build(k, quality, reference, reads))
        }

        impl Graph {
            pub fn rows(&self) -> Rows {
                let mut edges: Vec<[u32; 4]> = self.0.graph.edges_sorted().iter().map(|e| self.edge_row(e)).collect();
                edges.sort();
                let mut nodes = Vec::new();
                for v in source::harness_tree_roots(&self.0) {
                    let tree = self.0.junction_tree_for_node(v).expect("a root has a tree");
                    node_rows(&tree.root, (v, v), 0, &mut nodes);
                }
                Rows { vertices: self.0.graph.node_count(), edges, nodes }
            }

            /// The kmer of each vertex.
            pub fn kmers(&self) -> Vec<Vec<u8>> {
                self.0.graph.nodes().iter().map(|node| node.kmer.to_vec()).collect()
            }

            fn edge_row(&self, e: &crate::assembly::KmerEdge) -> [u32; 4] {
                [e.from as u32, e.to as u32, e.support, u32::from(self.0.graph.edge_is_ref(e.from, e.to))]
            }
        }

        fn node_rows(node: &source::ThreadingNode, ends: (usize, usize), depth: u32, rows: &mut Vec<[u32; 4]>) {
            rows.push([ends.0 as u32, ends.1 as u32, node.evidence_count() as u32, depth]);
            for (&edge, child) in node.children() {
                node_rows(child, edge, depth + 1, rows);
            }
        }
    };
}

macro_rules! path_of {
    ($graph:expr, $path:expr) => {
        Path { score: $path.score.to_bits(), edges: $path.edges.clone(), bases: $path.bases(&$graph.0.graph), is_ref: $path.is_reference }
    };
}

/// The original with its bodies unchanged.
pub mod unchanged {
    graph_of!(junction_tree_graph);
    use crate::junction_kbest::{find_junction_best_haplotypes, JunctionKBestPath};

    impl Graph {
        /// The list, as the search hands it back.
        pub fn search(&self, paths: usize, threshold: i32, recover: bool) -> Vec<JunctionKBestPath> {
            find_junction_best_haplotypes(&self.0, paths, threshold, recover).expect("a reference was threaded")
        }

        /// The list.
        pub fn list(&self, paths: usize, threshold: i32, recover: bool) -> Vec<Path> {
            self.search(paths, threshold, recover).iter().map(|p| path_of!(self, p)).collect()
        }
    }
}

/// The copies that do not renumber vertices and that tell more.
pub mod patched {
    graph_of!(junction_tree_graph_patched);
    use crate::junction_kbest_patched::find_junction_best_haplotypes;
    use crate::{notes, Told};

    impl Graph {
        /// The list over a column, with pushes, closing numbers and longest waiting list.
        pub fn list(&self, paths: usize, threshold: i32, recover: bool, column: &[f64]) -> Told {
            notes::start(column);
            let (list, order, pushes) = find_junction_best_haplotypes(&self.0, paths, threshold, recover).expect("a reference was threaded");
            let (longest, place_missing) = notes::end();
            let mut taken = vec![false; order.len()];
            let mut closings = Vec::with_capacity(list.len());
            for path in &list {
                let same = |i: &usize| !taken[*i] && order[*i].score.to_bits() == path.score.to_bits() && order[*i].edges == path.edges;
                let place = (0..order.len()).find(same).expect("each listed path has closed");
                taken[place] = true;
                closings.push(place + 1);
            }
            Told { paths: list.iter().map(|p| path_of!(self, p)).collect(), closings, pushes, longest, place_missing }
        }
    }
}
