//! "Threading": the usable stretches, the graph, the symbolic vertex and edge.

use crate::limits::is_base;
use crate::Sample;
use std::collections::{BTreeMap, BTreeSet, HashMap};
use std::ops::Range;

pub type Vertex = u32;
/// The vertex that an edge leaves and the one that it enters.
pub type Ends = (Vertex, Vertex);

/// 0 the reference, else the read, from 1; and the place in it.
pub type Origin = (u32, u32);

#[derive(Clone, Copy, Debug)]
pub struct Edge {
    pub support: u32,
    pub is_ref: bool,
    pub origin: Origin,
}

/// A stretch: its read, from 1, and its places in that read.
pub struct Stretch<'a> {
    pub read: u32,
    pub start: usize,
    pub bytes: &'a [u8],
}

#[derive(Default)]
pub struct Graph {
    /// The kmer of each vertex, but for the symbolic one.
    pub kmers: Vec<Vec<u8>>,
    number: HashMap<Vec<u8>, Vertex>,
    pub edges: BTreeMap<Ends, Edge>,
    outs: Vec<BTreeSet<Vertex>>,
    ins: Vec<BTreeSet<Vertex>>,
}

/// The usable stretches of all reads of at least k bases, in order.
pub fn stretches(s: &Sample) -> Vec<Stretch<'_>> {
    let mut found = Vec::new();
    for (i, read) in s.reads().into_iter().enumerate() {
        let (bases, qualities) = (&s.bases[read.clone()], &s.qualities[read]);
        for run in usable_runs(bases, qualities, s.quality) {
            if run.len() >= s.k as usize {
                found.push(Stretch { read: i as u32 + 1, start: run.start, bytes: &bases[run] });
            }
        }
    }
    found
}

/// Maximal runs of bytes that are A, C, G, T or N and whose quality is not below the minimum.
fn usable_runs(bases: &[u8], qualities: &[u8], minimum: u8) -> Vec<Range<usize>> {
    let usable = |i: usize| is_base(bases[i]) && qualities[i] >= minimum;
    let mut runs = Vec::new();
    let mut at = 0;
    while at < bases.len() {
        if !usable(at) {
            at += 1;
            continue;
        }
        let start = at;
        while at < bases.len() && usable(at) {
            at += 1;
        }
        runs.push(start..at);
    }
    runs
}

impl Graph {
    /// The graph as it is before the symbolic vertex: the reference, then the stretches of the reads.
    pub fn threaded(s: &Sample, stretches: &[Stretch]) -> Self {
        let mut graph = Self::default();
        graph.thread(s.k as usize, &s.reference, 0, 0, true);
        for stretch in stretches {
            graph.thread(s.k as usize, stretch.bytes, stretch.read, stretch.start as u32, false);
        }
        graph
    }

    /// Vertices that a vertex's out-edges reach, rising.
    pub fn outs(&self, v: Vertex) -> Vec<Vertex> {
        self.outs[v as usize].iter().copied().collect()
    }

    pub fn in_degree(&self, v: Vertex) -> usize {
        self.ins[v as usize].len()
    }

    pub fn vertex_of(&self, kmer: &[u8]) -> Vertex {
        self.number[kmer]
    }

    pub fn last_base(&self, v: Vertex) -> u8 {
        *self.kmers[v as usize].last().expect("a kmer is not empty")
    }

    /// The out-edge whose target ends in `base`.
    pub fn follow(&self, v: Vertex, base: u8) -> Option<Vertex> {
        self.outs[v as usize].iter().copied().find(|&to| self.last_base(to) == base)
    }

    /// The symbolic edge, support 0 and marked reference, from the sink to the vertex that it adds.
    pub fn add_symbolic(&mut self, sink: Vertex, place: u32) -> Ends {
        let symbolic = (sink, self.kmers.len() as Vertex);
        self.outs.push(BTreeSet::new());
        self.ins.push(BTreeSet::new());
        self.insert(symbolic, Edge { support: 0, is_ref: true, origin: (0, place) });
        symbolic
    }

    /// All vertices, the symbolic one counted once it is there.
    pub fn vertices(&self) -> usize {
        self.outs.len()
    }

    /// k bases of the first kmer, then the last base of each vertex reached.
    pub fn path_bases(&self, source: Vertex, edges: &[Ends]) -> Vec<u8> {
        let mut bases = self.kmers[source as usize].clone();
        bases.extend(edges.iter().map(|e| self.last_base(e.1)));
        bases
    }

    fn thread(&mut self, k: usize, bytes: &[u8], sequence: u32, start: u32, is_ref: bool) {
        let mut kmers = bytes.windows(k);
        let mut here = self.vertex(kmers.next().expect("at least k bytes"));
        self.count_backwards(here, k - 1);
        for (i, kmer) in kmers.enumerate() {
            let next = match self.follow(here, kmer[k - 1]) {
                Some(to) => to,
                None => self.vertex(kmer),
            };
            self.count((here, next), (sequence, start + i as u32), is_ref);
            here = next;
        }
    }

    /// "while a vertex has exactly one predecessor, that edge gains 1", the steps left falling by one.
    fn count_backwards(&mut self, v: Vertex, left: usize) {
        if left == 0 || self.in_degree(v) != 1 {
            return;
        }
        let from = *self.ins[v as usize].first().expect("one predecessor");
        self.edges.get_mut(&(from, v)).expect("an edge from each predecessor").support += 1;
        self.count_backwards(from, left - 1);
    }

    /// The vertex of a kmer, born here where it is new.
    fn vertex(&mut self, kmer: &[u8]) -> Vertex {
        if let Some(&v) = self.number.get(kmer) {
            return v;
        }
        let v = self.kmers.len() as Vertex;
        self.kmers.push(kmer.to_vec());
        self.number.insert(kmer.to_vec(), v);
        self.outs.push(BTreeSet::new());
        self.ins.push(BTreeSet::new());
        v
    }

    /// One support more for an edge, made here where it is new.
    fn count(&mut self, ends: Ends, origin: Origin, is_ref: bool) {
        match self.edges.get_mut(&ends) {
            Some(edge) => {
                edge.support += 1;
                edge.is_ref |= is_ref;
            }
            None => self.insert(ends, Edge { support: 1, is_ref, origin }),
        }
    }

    fn insert(&mut self, ends: Ends, edge: Edge) {
        self.edges.insert(ends, edge);
        self.outs[ends.0 as usize].insert(ends.1);
        self.ins[ends.1 as usize].insert(ends.0);
    }
}
