//! The list of paths, as rows.
#![forbid(unsafe_code)]

use crate::ffi::PathRow;
use crate::origin::{part, Origin};
use std::iter::FusedIterator;
use std::ops::Range;

/// The best paths, in falling order of score. It borrows the buffers of the [`Caller`](crate::Caller) that made it.
#[derive(Clone, Copy, Debug)]
pub struct List<'c> {
    pub(crate) k: usize,
    pub(crate) path_edges: usize,
    /// As many as are listed; the slices below may hold more.
    pub(crate) rows: &'c [PathRow],
    pub(crate) bases: &'c [u8],
    pub(crate) sequences: &'c [u32],
    pub(crate) places: &'c [u32],
    pub(crate) pushes: u32,
    pub(crate) mark: u32,
}

impl<'c> List<'c> {
    /// How many paths are listed.
    pub fn len(&self) -> usize {
        self.rows.len()
    }

    /// Whether none is.
    pub fn is_empty(&self) -> bool {
        self.rows.is_empty()
    }

    /// How many pushes the search made, the start path among them.
    pub fn pushes(&self) -> u32 {
        self.pushes
    }

    /// No less than the longest waiting list, no more than the pushes.
    pub fn waiting_mark(&self) -> u32 {
        self.mark
    }

    /// The row of a rank, from 0.
    pub fn row(&self, rank: usize) -> Option<Row<'c>> {
        let row = self.rows.get(rank)?;
        let edges = row.edges as usize;
        Some(Row {
            row,
            bases: part(self.bases, rank * (self.k + self.path_edges), self.k + edges),
            sequences: part(self.sequences, rank * self.path_edges, edges),
            places: part(self.places, rank * self.path_edges, edges),
        })
    }

    /// The rows, best first.
    pub fn rows(&self) -> Rows<'c> {
        Rows { list: *self, ranks: 0..self.len() }
    }
}

impl<'c> IntoIterator for &List<'c> {
    type Item = Row<'c>;
    type IntoIter = Rows<'c>;

    fn into_iter(self) -> Rows<'c> {
        self.rows()
    }
}

impl<'c> IntoIterator for List<'c> {
    type Item = Row<'c>;
    type IntoIter = Rows<'c>;

    fn into_iter(self) -> Rows<'c> {
        self.rows()
    }
}

/// The rows of a [`List`], best first.
#[derive(Clone, Debug)]
pub struct Rows<'c> {
    list: List<'c>,
    ranks: Range<usize>,
}

impl<'c> Iterator for Rows<'c> {
    type Item = Row<'c>;

    fn next(&mut self) -> Option<Row<'c>> {
        self.ranks.next().and_then(|rank| self.list.row(rank))
    }

    fn size_hint(&self) -> (usize, Option<usize>) {
        self.ranks.size_hint()
    }
}

impl DoubleEndedIterator for Rows<'_> {
    fn next_back(&mut self) -> Option<Self::Item> {
        self.ranks.next_back().and_then(|rank| self.list.row(rank))
    }
}

impl ExactSizeIterator for Rows<'_> {}

impl FusedIterator for Rows<'_> {}

/// A path of the list.
#[derive(Clone, Copy, Debug)]
pub struct Row<'c> {
    row: &'c PathRow,
    bases: &'c [u8],
    sequences: &'c [u32],
    places: &'c [u32],
}

impl<'c> Row<'c> {
    /// The sum of the penalties along the path: 0 or below, and the greatest is best.
    pub fn score(&self) -> f64 {
        self.row.score
    }

    /// The number of its closing, from 1: which of the paths it was that the search closed.
    pub fn closing(&self) -> u32 {
        self.row.closing
    }

    /// How many edges it has.
    pub fn edges(&self) -> usize {
        self.sequences.len()
    }

    /// The original's reference flag, which is always false.
    pub fn is_ref(&self) -> bool {
        self.row.is_ref.is_set()
    }

    /// Its bases, k more than it has edges; edge i spells those from i to i + k.
    pub fn bases(&self) -> &'c [u8] {
        self.bases
    }

    /// The origin of each edge, in their order.
    pub fn origins(&self) -> impl ExactSizeIterator<Item = Origin> + DoubleEndedIterator + Clone + 'c {
        self.sequences.iter().zip(self.places).map(|(&sequence, &place)| Origin { sequence, place })
    }
}
