//! What the tests share: the calls through `ffi` over fresh slices, as plain values, and random inputs.
#![allow(dead_code)] // each test uses a part of it

pub mod random;

use punelavoh::ffi::{Flag, GraphCall, LengthsCall, ListCall, PathRow};
use punelavoh::{Caller, Edge, Node, Origin, Sample, SearchMaxima, Settings};

/// A path, owned: score bits, closing number, flag, bases, origins.
pub type Path = (u64, u32, bool, Vec<u8>, Vec<Origin>);

/// A list, owned: paths, pushes, waiting mark; or a refusal's number.
pub type Listed = Result<(Vec<Path>, u32, u32), u32>;

/// Edges and nodes, owned; or a refusal's number.
pub type Drawn = Result<(Vec<Edge>, Vec<Node>), u32>;

pub fn listed(caller: &mut Caller, settings: &Settings, sample: &Sample, column: &[f64]) -> Listed {
    let list = caller.list(settings, sample, column).map_err(|refusal| refusal.number())?;
    let path =
        |row: punelavoh::Row| (row.score().to_bits(), row.closing(), row.is_ref(), row.bases().to_vec(), row.origins().collect::<Vec<Origin>>());
    Ok((list.rows().map(path).collect(), list.pushes(), list.waiting_mark()))
}

pub fn drawn(caller: &mut Caller, settings: &Settings, sample: &Sample) -> Drawn {
    let graph = caller.graph(settings, sample).map_err(|refusal| refusal.number())?;
    Ok((graph.edges().collect(), graph.nodes().collect()))
}

/// Not zero, so that an answer does not rest on what a buffer held.
const FILLED: u32 = 0xa5a5_a5a5;

fn numbers(length: usize) -> Vec<u32> {
    vec![FILLED; length]
}

/// The call for the list over slices of just the lengths told, read as 01 says.
pub fn fresh_list(s: &Settings, sample: &Sample, column: &[f64]) -> Listed {
    let told = LengthsCall { k: s.k, paths: s.asked, graph: s.graph, search: s.search }.call();
    let w = told.workspace;
    let row = PathRow { score: 7.0, closing: FILLED, edges: FILLED, is_ref: Flag::from(true), padding: [9; 7] };
    let mut rows = vec![row; told.paths];
    let (mut out_bases, mut sequences, mut places) = (vec![b'x'; told.bases], numbers(told.origins), numbers(told.origins));
    let answer = ListCall {
        settings: *s,
        reference: sample.reference,
        ends: sample.ends,
        bases: sample.bases,
        qualities: sample.qualities,
        column,
        rows: &mut rows,
        out_bases: &mut out_bases,
        sequences: &mut sequences,
        places: &mut places,
        w_vertices: &mut numbers(w.vertices),
        w_edges: &mut numbers(w.edges),
        w_index: &mut numbers(w.index),
        w_nodes: &mut numbers(w.nodes),
        w_targets: &mut numbers(w.targets),
        w_paths: &mut numbers(w.paths),
        w_scores: &mut vec![7.0; w.scores],
        w_active: &mut vec![7; w.active],
        w_queue: &mut numbers(w.queue),
        w_closed: &mut numbers(w.closed),
        w_order: &mut numbers(w.order),
        w_marks: &mut numbers(w.marks),
        w_walks: &mut numbers(w.walks),
        row_scores: &mut vec![7.0; w.columns],
        row_closings: &mut numbers(w.columns),
        row_edges: &mut numbers(w.columns),
    }
    .call();
    rows.truncate(answer.paths as usize);
    let origins: Vec<Origin> = sequences.iter().zip(&places).map(|(&sequence, &place)| Origin { sequence, place }).collect();
    let paths = rows.iter().enumerate().map(|(r, row)| path(s, r, row, &out_bases, &origins)).collect();
    match answer.refusal {
        0 => Ok((paths, answer.pushes, answer.mark)),
        number => Err(number),
    }
}

/// Row r, with its bases from r * (k + path_edges) and its origins from r * path_edges.
fn path(s: &Settings, r: usize, row: &PathRow, bases: &[u8], origins: &[Origin]) -> Path {
    let (k, stride, edges) = (s.k as usize, s.search.path_edges as usize, row.edges as usize);
    let (bases, origins) = (&bases[r * (k + stride)..][..k + edges], &origins[r * stride..][..edges]);
    (row.score.to_bits(), row.closing, row.is_ref.is_set(), bases.to_vec(), origins.to_vec())
}

/// The call for edges and trees over slices of just the lengths told.
pub fn fresh_graph(s: &Settings, sample: &Sample) -> Drawn {
    let told = LengthsCall { k: s.k, paths: 0, graph: s.graph, search: SearchMaxima { path_edges: 1, active: 1, pushes: 1 } }.call();
    let w = told.workspace;
    let (mut edges, mut nodes) = (numbers(told.edges), numbers(told.nodes));
    let answer = GraphCall {
        k: s.k,
        quality: s.quality,
        reference: sample.reference,
        ends: sample.ends,
        bases: sample.bases,
        qualities: sample.qualities,
        maxima: s.graph,
        edges: &mut edges,
        nodes: &mut nodes,
        w_vertices: &mut numbers(w.vertices),
        w_edges: &mut numbers(w.edges),
        w_index: &mut numbers(w.index),
        w_nodes: &mut numbers(w.nodes),
        w_open: &mut numbers(w.open),
    }
    .call();
    if answer.refusal != 0 {
        return Err(answer.refusal);
    }
    let edge = |r: &[u32]| {
        let origin = Origin { sequence: r[4], place: r[5] };
        Edge { from: r[0], to: r[1], support: r[2], is_ref: r[3] == 1, origin }
    };
    let node = |r: &[u32]| Node { from: r[0], to: r[1], count: r[2], depth: r[3] };
    let edges = edges.chunks(6).take(answer.edges as usize).map(edge).collect();
    Ok((edges, nodes.chunks(4).take(answer.nodes as usize).map(node).collect()))
}
