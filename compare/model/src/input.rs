//! What is handed in.

use std::ops::Range;

/// What is threaded. Reads lie one after the other in `bases`; read i ends, exclusive, at `ends[i]`.
#[derive(Clone, Debug, Default, PartialEq)]
pub struct Sample {
    pub k: u32,
    /// The minimum quality.
    pub quality: u8,
    pub reference: Vec<u8>,
    pub ends: Vec<u32>,
    pub bases: Vec<u8>,
    pub qualities: Vec<u8>,
}

/// Maxima of the graph and its trees. The symbolic vertex and edge count, and so do the roots.
#[derive(Clone, Copy, Debug, PartialEq)]
pub struct GraphMaxima {
    pub vertices: u32,
    pub edges: u32,
    pub nodes: u32,
}

impl GraphMaxima {
    /// The greatest that are allowed.
    pub const FULL: Self = Self { vertices: 4096, edges: 8192, nodes: 16384 };
}

/// Maxima of the search: edges in a path, active trees in a path, pushes.
#[derive(Clone, Copy, Debug, PartialEq)]
pub struct SearchMaxima {
    pub path_edges: u32,
    pub active: u32,
    pub pushes: u32,
}

impl SearchMaxima {
    /// The greatest that are allowed.
    pub const FULL: Self = Self { path_edges: 4096, active: 64, pushes: 32768 };
}

/// What the call for the list is given beside the sample.
#[derive(Clone, Debug)]
pub struct ListInput {
    pub paths: u32,
    pub threshold: i32,
    pub recover: bool,
    pub graph: GraphMaxima,
    pub search: SearchMaxima,
    pub column: Vec<f64>,
}

impl Sample {
    /// A sample without reads.
    pub fn new(k: u32, quality: u8, reference: &[u8]) -> Self {
        Self { k, quality, reference: reference.to_vec(), ..Self::default() }
    }

    /// Adds a read.
    pub fn push(&mut self, bases: &[u8], qualities: &[u8]) {
        self.bases.extend_from_slice(bases);
        self.qualities.extend_from_slice(qualities);
        self.ends.push(self.bases.len() as u32);
    }

    /// The places of each read in `bases`. Only for ends that pass refusal 4.
    pub fn reads(&self) -> Vec<Range<usize>> {
        let mut start = 0;
        let mut reads = Vec::with_capacity(self.ends.len());
        for &end in &self.ends {
            reads.push(start..end as usize);
            start = end as usize;
        }
        reads
    }
}

/// The column that the comparison uses: place n holds the Rust's own log10 of n, place 0 holds 0.
pub fn log10_column(places: usize) -> Vec<f64> {
    (0..places).map(|n| if n == 0 { 0.0 } else { std::hint::black_box(n as f64).log10() }).collect()
}
