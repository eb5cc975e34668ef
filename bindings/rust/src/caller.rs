//! The calls over buffers that are kept from one call to the next.
#![forbid(unsafe_code)]

use crate::ffi::{GraphCall, ListCall, PathRow, Settings};
use crate::graph::{Graph, EDGE, NODE};
use crate::list::List;
use crate::origin::part;
use crate::refusal::{accepted, Refusal};
use crate::sample::Sample;
use crate::settings::{graph_told, told};
use std::fmt;

/// Makes the calls, in buffers of its own.
///
/// A buffer grows to the length told when a call needs it, and is kept for the next: after the first call, calls with the same or lesser settings
/// allocate nothing. At the greatest maxima all buffers together have 14 MB, and by 01 they never have more than 256 MiB. What a call answers lies in
/// them and borrows them, so it is read before the next call. A `Caller` may be sent to another thread, and several threads may each have one.
///
/// # Refusals
///
/// They come from the library, in the order of 01's table, and nothing is added to them. Where lengths are refused, slices of no elements are lent,
/// and the call itself finds the first rule that is broken. Where there is no memory, the slices that could be had are lent, and the call is refused
/// by [`Refusal::ShortSlice`] if no rule before it is broken; it is refused so for no other reason. Nothing panics, whatever is handed in.
///
/// ```
/// use punelavoh::{column, Caller, Reads, Refusal, Settings};
///
/// let reads: Reads = [("CAAGTGG", [40; 7]), ("CAACTGG", [40; 7])].into_iter().collect();
/// let settings = Settings { k: 3, threshold: 5, ..Settings::default() };
/// let column = column(64);
/// let mut caller = Caller::new();
/// let list = caller.list(&settings, &reads.sample(b"CAACTGG"), &column)?;
/// let bases: Vec<&[u8]> = list.rows().map(|row| row.bases()).collect();
/// assert_eq!(bases, [b"CAAGTGG", b"CAACTGG"]);
///
/// // The next call is made in the same buffers.
/// assert_eq!(caller.list(&settings, &reads.sample(b"CA"), &column).err(), Some(Refusal::ReferenceLength));
/// # Ok::<(), Refusal>(())
/// ```
#[derive(Default)]
pub struct Caller {
    edges: Vec<u32>,
    nodes: Vec<u32>,
    rows: Vec<PathRow>,
    out_bases: Vec<u8>,
    sequences: Vec<u32>,
    places: Vec<u32>,
    w_vertices: Vec<u32>,
    w_edges: Vec<u32>,
    w_index: Vec<u32>,
    w_nodes: Vec<u32>,
    w_open: Vec<u32>,
    w_targets: Vec<u32>,
    w_paths: Vec<u32>,
    w_scores: Vec<f64>,
    w_active: Vec<u16>,
    w_queue: Vec<u32>,
    w_closed: Vec<u32>,
    w_order: Vec<u32>,
    w_marks: Vec<u32>,
    w_walks: Vec<u32>,
    row_scores: Vec<f64>,
    row_closings: Vec<u32>,
    row_edges: Vec<u32>,
}

/// As much of a buffer as is told, which grows for it; less where there is no memory.
fn lent<T: Copy + Default>(buffer: &mut Vec<T>, told: usize) -> &mut [T] {
    let more = told.saturating_sub(buffer.len());
    if buffer.try_reserve_exact(more).is_ok() {
        buffer.resize(buffer.len() + more, T::default());
    }
    let length = told.min(buffer.len());
    &mut buffer[..length]
}

impl Caller {
    /// Without buffers: the first call makes them.
    pub fn new() -> Self {
        Self::default()
    }

    /// Gives the memory of all buffers back.
    pub fn release(&mut self) {
        *self = Self::default();
    }

    /// The call for the list: the best paths of a sample, scored by a [`column`](crate::column) of logarithms.
    ///
    /// # Errors
    ///
    /// Any refusal but [`Refusal::Origin`].
    pub fn list(&mut self, settings: &Settings, sample: &Sample<'_>, column: &[f64]) -> Result<List<'_>, Refusal> {
        let answer = self.list_call(settings, sample, column).call();
        accepted(answer.refusal)?;
        Ok(List {
            k: settings.k as usize,
            path_edges: settings.search.path_edges as usize,
            rows: part(&self.rows, 0, answer.paths as usize),
            bases: &self.out_bases,
            sequences: &self.sequences,
            places: &self.places,
            pushes: answer.pushes,
            mark: answer.mark,
        })
    }

    /// The arguments of the call for the list, with slices of the lengths told.
    fn list_call<'a>(&'a mut self, settings: &Settings, sample: &Sample<'a>, column: &'a [f64]) -> ListCall<'a> {
        let told = told(settings);
        let work = told.workspace;
        ListCall {
            settings: *settings,
            reference: sample.reference,
            ends: sample.ends,
            bases: sample.bases,
            qualities: sample.qualities,
            column,
            rows: lent(&mut self.rows, told.paths),
            out_bases: lent(&mut self.out_bases, told.bases),
            sequences: lent(&mut self.sequences, told.origins),
            places: lent(&mut self.places, told.origins),
            w_vertices: lent(&mut self.w_vertices, work.vertices),
            w_edges: lent(&mut self.w_edges, work.edges),
            w_index: lent(&mut self.w_index, work.index),
            w_nodes: lent(&mut self.w_nodes, work.nodes),
            w_targets: lent(&mut self.w_targets, work.targets),
            w_paths: lent(&mut self.w_paths, work.paths),
            w_scores: lent(&mut self.w_scores, work.scores),
            w_active: lent(&mut self.w_active, work.active),
            w_queue: lent(&mut self.w_queue, work.queue),
            w_closed: lent(&mut self.w_closed, work.closed),
            w_order: lent(&mut self.w_order, work.order),
            w_marks: lent(&mut self.w_marks, work.marks),
            w_walks: lent(&mut self.w_walks, work.walks),
            row_scores: lent(&mut self.row_scores, work.columns),
            row_closings: lent(&mut self.row_closings, work.columns),
            row_edges: lent(&mut self.row_edges, work.columns),
        }
    }

    /// The call for edges and trees. Of the settings it is given k, the minimum quality and the maxima for the graph; the others are not looked at.
    ///
    /// ```
    /// use punelavoh::{Caller, Refusal, Sample, Settings};
    ///
    /// let mut caller = Caller::new();
    /// let sample = Sample { reference: b"ACGTA", ..Sample::default() };
    /// let graph = caller.graph(&Settings { k: 3, ..Settings::default() }, &sample)?;
    /// let ends: Vec<(u32, u32)> = graph.edges().map(|edge| (edge.from, edge.to)).collect();
    /// assert_eq!(ends, [(0, 1), (1, 2), (2, 3)]); // the last is the symbolic edge
    /// # Ok::<(), Refusal>(())
    /// ```
    ///
    /// # Errors
    ///
    /// [`Refusal::K`] to [`Refusal::Maximum`], [`Refusal::ShortSlice`], [`Refusal::GraphSize`] and [`Refusal::TreeNodes`].
    pub fn graph(&mut self, settings: &Settings, sample: &Sample<'_>) -> Result<Graph<'_>, Refusal> {
        let told = graph_told(settings);
        let work = told.workspace;
        let answer = GraphCall {
            k: settings.k,
            quality: settings.quality,
            reference: sample.reference,
            ends: sample.ends,
            bases: sample.bases,
            qualities: sample.qualities,
            maxima: settings.graph,
            edges: lent(&mut self.edges, told.edges),
            nodes: lent(&mut self.nodes, told.nodes),
            w_vertices: lent(&mut self.w_vertices, work.vertices),
            w_edges: lent(&mut self.w_edges, work.edges),
            w_index: lent(&mut self.w_index, work.index),
            w_nodes: lent(&mut self.w_nodes, work.nodes),
            w_open: lent(&mut self.w_open, work.open),
        }
        .call();
        accepted(answer.refusal)?;
        let (edges, nodes) = (answer.edges as usize, answer.nodes as usize);
        Ok(Graph { edges: part(&self.edges, 0, edges * EDGE), nodes: part(&self.nodes, 0, nodes * NODE) })
    }
}

impl fmt::Debug for Caller {
    /// Without the buffers, which are long.
    fn fmt(&self, f: &mut fmt::Formatter<'_>) -> fmt::Result {
        f.debug_struct("Caller").finish_non_exhaustive()
    }
}
