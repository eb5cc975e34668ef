//! Buffers for the calls: what is handed in, what is written, and the workspace, each slice lent out of a watched buffer.

use crate::lent::Lent;
use punelavoh::ffi::{GraphAnswer, GraphCall, LengthsTold, ListAnswer, ListCall, OriginAnswer, OriginCall, PathRow, Settings, Workspace};
use punelavoh::Sample;

/// What is handed in, copied into watched buffers.
pub struct SampleBuffers {
    reference: Lent<u8>,
    ends: Lent<u32>,
    bases: Lent<u8>,
    qualities: Lent<u8>,
}

impl SampleBuffers {
    pub fn new(s: &Sample, seed: u32) -> Self {
        Self {
            reference: Lent::holding(s.reference, seed),
            ends: Lent::holding(s.ends, seed),
            bases: Lent::holding(s.bases, seed),
            qualities: Lent::holding(s.qualities, seed),
        }
    }

    pub fn sample(&self) -> Sample<'_> {
        Sample { reference: self.reference.slice(), ends: self.ends.slice(), bases: self.bases.slice(), qualities: self.qualities.slice() }
    }

    /// No call writes to what it is handed.
    pub fn still_holds(&self, s: &Sample) -> bool {
        self.reference.still_holds(s.reference)
            && self.ends.still_holds(s.ends)
            && self.bases.still_holds(s.bases)
            && self.qualities.still_holds(s.qualities)
    }

    pub fn origin(&self, k: u32, sequence: u32, place: u32) -> OriginAnswer {
        let Sample { reference, ends, bases, .. } = self.sample();
        OriginCall { k, reference, ends, bases, sequence, place }.call()
    }
}

/// The number slices of the workspace that the call for edges and trees is lent, in its order.
pub const GRAPH_WORKSPACE: [&str; 5] = ["vertices", "edges", "index", "nodes", "open"];

/// The lengths told of those.
pub fn graph_workspace(w: &Workspace) -> [usize; 5] {
    [w.vertices, w.edges, w.index, w.nodes, w.open]
}

/// The slices of the call for edges and trees.
pub struct GraphBuffers {
    pub edges: Lent<u32>,
    pub nodes: Lent<u32>,
    pub workspace: [Lent<u32>; 5],
}

impl GraphBuffers {
    pub fn new(edges: usize, nodes: usize, workspace: [usize; 5], seed: u32) -> Self {
        Self { edges: Lent::new(edges, seed), nodes: Lent::new(nodes, seed), workspace: workspace.map(|n| Lent::new(n, seed)) }
    }

    /// Slices of exactly the lengths told.
    pub fn told(told: &LengthsTold) -> Self {
        Self::new(told.edges, told.nodes, graph_workspace(&told.workspace), 0)
    }

    /// The call is given k, the minimum quality and the maxima of the graph.
    pub fn call(&mut self, settings: &Settings, sample: Sample) -> GraphAnswer {
        let [w_vertices, w_edges, w_index, w_nodes, w_open] = &mut self.workspace;
        GraphCall {
            k: settings.k,
            quality: settings.quality,
            reference: sample.reference,
            ends: sample.ends,
            bases: sample.bases,
            qualities: sample.qualities,
            maxima: settings.graph,
            edges: self.edges.slice_mut(),
            nodes: self.nodes.slice_mut(),
            w_vertices: w_vertices.slice_mut(),
            w_edges: w_edges.slice_mut(),
            w_index: w_index.slice_mut(),
            w_nodes: w_nodes.slice_mut(),
            w_open: w_open.slice_mut(),
        }
        .call()
    }
}

/// The slices of 32-bit numbers of the list's workspace, in the call's order, the columns of numbers last; active nodes and scores stand apart.
pub const LIST_WORKSPACE: [&str; 13] =
    ["vertices", "edges", "index", "nodes", "targets", "paths", "queue", "closed", "order", "marks", "walks", "closings", "edge counts"];

/// The lengths told of those.
pub fn list_workspace(w: &Workspace) -> [usize; 13] {
    [w.vertices, w.edges, w.index, w.nodes, w.targets, w.paths, w.queue, w.closed, w.order, w.marks, w.walks, w.columns, w.columns]
}

/// The lengths told of the two slices of scores: those of all paths, and those of the rows.
pub fn list_scores(w: &Workspace) -> [usize; 2] {
    [w.scores, w.columns]
}

/// The slices of the call for the list.
pub struct ListBuffers {
    pub rows: Lent<PathRow>,
    pub bases: Lent<u8>,
    pub sequences: Lent<u32>,
    pub places: Lent<u32>,
    pub workspace: [Lent<u32>; 13],
    pub active: Lent<u16>,
    pub scores: [Lent<f64>; 2],
}

impl ListBuffers {
    pub fn new(outputs: [usize; 4], workspace: [usize; 13], active: usize, scores: [usize; 2], seed: u32) -> Self {
        let [rows, bases, sequences, places] = outputs;
        Self {
            rows: Lent::new(rows, seed),
            bases: Lent::new(bases, seed),
            sequences: Lent::new(sequences, seed),
            places: Lent::new(places, seed),
            workspace: workspace.map(|n| Lent::new(n, seed)),
            active: Lent::new(active, seed),
            scores: scores.map(|n| Lent::new(n, seed)),
        }
    }

    /// Slices of exactly the lengths told.
    pub fn told(told: &LengthsTold) -> Self {
        let w = &told.workspace;
        Self::new([told.paths, told.bases, told.origins, told.origins], list_workspace(w), w.active, list_scores(w), 0)
    }

    pub fn call(&mut self, settings: &Settings, sample: Sample, column: &[f64]) -> ListAnswer {
        let [w_vertices, w_edges, w_index, w_nodes, w_targets, w_paths, w_queue, w_closed, w_order, w_marks, w_walks, row_closings, row_edges] =
            &mut self.workspace;
        let [w_scores, row_scores] = &mut self.scores;
        ListCall {
            settings: *settings,
            reference: sample.reference,
            ends: sample.ends,
            bases: sample.bases,
            qualities: sample.qualities,
            column,
            rows: self.rows.slice_mut(),
            out_bases: self.bases.slice_mut(),
            sequences: self.sequences.slice_mut(),
            places: self.places.slice_mut(),
            w_vertices: w_vertices.slice_mut(),
            w_edges: w_edges.slice_mut(),
            w_index: w_index.slice_mut(),
            w_nodes: w_nodes.slice_mut(),
            w_targets: w_targets.slice_mut(),
            w_paths: w_paths.slice_mut(),
            w_scores: w_scores.slice_mut(),
            w_active: self.active.slice_mut(),
            w_queue: w_queue.slice_mut(),
            w_closed: w_closed.slice_mut(),
            w_order: w_order.slice_mut(),
            w_marks: w_marks.slice_mut(),
            w_walks: w_walks.slice_mut(),
            row_scores: row_scores.slice_mut(),
            row_closings: row_closings.slice_mut(),
            row_edges: row_edges.slice_mut(),
        }
        .call()
    }
}
