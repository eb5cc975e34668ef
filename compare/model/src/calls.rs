//! The calls: what each answers, as rows.

use crate::graph::{stretches, Ends, Graph, Origin, Vertex};
use crate::limits;
use crate::search::{list_order, search};
use crate::trees::Trees;
use crate::{GraphMaxima, ListInput, Refusal, Sample, SearchMaxima};

/// What the call for edges and trees writes.
#[derive(Clone, Debug, PartialEq)]
pub struct GraphRows {
    /// All vertices, isolated ones and the symbolic one too.
    pub vertices: u32,
    /// from, to, support, mark, sequence, place
    pub edges: Vec<[u32; 6]>,
    /// from, to, count, depth
    pub nodes: Vec<[u32; 4]>,
}

/// A row of the list, with what stands beside it.
#[derive(Clone, Debug, PartialEq)]
pub struct Row {
    pub score: f64,
    pub closing: u32,
    pub is_ref: bool,
    pub bases: Vec<u8>,
    pub origins: Vec<Origin>,
    /// The edges themselves; no call tells them.
    pub ends: Vec<Ends>,
}

/// The least maxima and column length under which a search is not refused.
#[derive(Clone, Copy, Debug, PartialEq)]
pub struct Least {
    pub search: SearchMaxima,
    pub column: u32,
}

/// What the call for the list answers and writes.
#[derive(Clone, Debug)]
pub struct Listed {
    pub rows: Vec<Row>,
    pub pushes: u32,
    /// The longest waiting list; a waiting mark lies between it and the pushes.
    pub longest: u32,
    pub least: Least,
}

/// Lengths told, of slices, but for the workspace.
#[derive(Clone, Copy, Debug, PartialEq)]
pub struct Told {
    pub edges: usize,
    pub nodes: usize,
    pub paths: usize,
    pub bases: usize,
    /// Of the sequences and of the places, each.
    pub origins: usize,
}

struct Built {
    graph: Graph,
    trees: Trees,
    sink: Vertex,
    symbolic: Ends,
}

/// The graph with its symbolic edge, and the trees; 8 and 9 from their sizes.
fn build(s: &Sample, maxima: &GraphMaxima) -> Result<Built, Refusal> {
    let stretches = stretches(s);
    let mut graph = Graph::threaded(s, &stretches);
    if graph.vertices() + 1 > maxima.vertices as usize || graph.edges.len() + 1 > maxima.edges as usize {
        return Err(8);
    }
    let k = s.k as usize;
    let last_place = s.reference.len() - k;
    let sink = graph.vertex_of(&s.reference[last_place..]);
    let symbolic = (sink, graph.vertices() as Vertex);
    let trees = Trees::grown(&graph, k, &stretches, sink, symbolic, maxima.nodes as usize).filter(|t| t.len() <= maxima.nodes as usize);
    let Some(trees) = trees else { return Err(9) };
    assert_eq!(graph.add_symbolic(sink, last_place as u32), symbolic);
    Ok(Built { graph, trees, sink, symbolic })
}

/// The call for edges and trees. `short`: a slice is lent that is shorter than told.
pub fn graph(s: &Sample, maxima: &GraphMaxima, short: bool) -> Result<GraphRows, Refusal> {
    limits::sample(s)?;
    limits::graph_maxima(maxima)?;
    limits::lent(short)?;
    let built = build(s, maxima)?;
    let row = |(ends, e): (&Ends, &crate::graph::Edge)| [ends.0, ends.1, e.support, u32::from(e.is_ref), e.origin.0, e.origin.1];
    Ok(GraphRows { vertices: built.graph.vertices() as u32, edges: built.graph.edges.iter().map(row).collect(), nodes: built.trees.rows() })
}

/// The call for the list. `short`: a slice is lent that is shorter than told.
pub fn list(s: &Sample, input: &ListInput, short: bool) -> Result<Listed, Refusal> {
    limits::sample(s)?;
    limits::paths(input.paths)?;
    limits::graph_maxima(&input.graph)?;
    limits::search_maxima(&input.search)?;
    limits::column(&input.column)?;
    limits::lent(short)?;
    let built = build(s, &input.graph)?;
    if input.paths == 0 {
        let search = SearchMaxima { path_edges: 1, active: 1, pushes: 1 };
        return Ok(Listed { rows: Vec::new(), pushes: 0, longest: 0, least: Least { search, column: 2 } });
    }
    let found = search(&built.graph, &built.trees, built.sink, built.symbolic, input);
    if let Some(number) = found.refusal {
        return Err(number);
    }
    let mut rows = Vec::with_capacity(found.closed.len());
    for (i, closed) in found.closed.into_iter().enumerate() {
        rows.push(Row {
            score: closed.score,
            closing: i as u32 + 1,
            is_ref: false,
            bases: built.graph.path_bases(0, &closed.edges),
            origins: closed.edges.iter().map(|e| built.graph.edges[e].origin).collect(),
            ends: closed.edges,
        });
    }
    rows.sort_by(|a, b| list_order((a.score, &a.bases, a.closing), (b.score, &b.bases, b.closing)));
    let least = Least {
        search: SearchMaxima { path_edges: found.met.path_edges.max(1), active: found.met.active.max(1), pushes: found.pushes },
        column: (found.met.place + 1).max(2),
    };
    Ok(Listed { rows, pushes: found.pushes, longest: found.longest, least })
}

/// How far a search went, and the sizes that its allowance is reckoned from. No call tells the pushes of a search that is refused.
#[derive(Clone, Copy, Debug, PartialEq)]
pub struct Effort {
    pub vertices: u32,
    pub edges: u32,
    pub nodes: u32,
    pub pushes: u32,
    pub longest: u32,
    pub closed: u32,
    /// The edges of the longest path made; where it is refused 11 for its edges, one more than the maximum.
    pub path_edges: u32,
    /// 10 to 12, where the search met one.
    pub refusal: Option<Refusal>,
}

/// The effort of a search for one path or more, under any maxima of the search, those beyond the limits too.
pub fn effort(s: &Sample, input: &ListInput) -> Result<Effort, Refusal> {
    limits::sample(s)?;
    let Built { graph, trees, sink, symbolic } = build(s, &input.graph)?;
    let found = search(&graph, &trees, sink, symbolic, input);
    Ok(Effort {
        vertices: graph.vertices() as u32,
        edges: graph.edges.len() as u32,
        nodes: trees.len() as u32,
        pushes: found.pushes,
        longest: found.longest,
        closed: found.closed.len() as u32,
        path_edges: found.met.path_edges,
        refusal: found.refusal,
    })
}

/// The call for the k+1 bytes at an origin: whether they lie in the read bases, and where they start there or in the reference.
pub fn origin(k: u32, reference: &[u8], ends: &[u32], bases: &[u8], origin: Origin) -> Result<(bool, usize), Refusal> {
    limits::k(k)?;
    limits::reference(k, reference)?;
    limits::ends(ends, bases)?;
    let (sequence, place) = (origin.0 as usize, origin.1 as usize);
    let (start, end) = match sequence {
        0 => (0, reference.len()),
        1 if !ends.is_empty() => (0, ends[0] as usize),
        n if n <= ends.len() => (ends[n - 2] as usize, ends[n - 1] as usize),
        _ => return Err(13),
    };
    if place + k as usize + 1 > end - start {
        return Err(13);
    }
    Ok((sequence > 0, start + place))
}

/// The call for lengths.
pub fn lengths(k: u32, paths: u32, graph: &GraphMaxima, search: &SearchMaxima) -> Result<Told, Refusal> {
    limits::k(k)?;
    limits::paths(paths)?;
    limits::graph_maxima(graph)?;
    limits::search_maxima(search)?;
    let (k, paths, path_edges) = (k as usize, paths as usize, search.path_edges as usize);
    Ok(Told { edges: 6 * graph.edges as usize, nodes: 4 * graph.nodes as usize, paths, bases: paths * (k + path_edges), origins: paths * path_edges })
}
