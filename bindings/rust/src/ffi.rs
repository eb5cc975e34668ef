//! The exported functions as C sees them, and each as a safe call over borrowed slices.
//!
//! This is for those who place every slice themselves; [`Caller`](crate::Caller) owns slices of the lengths told and hands the answers back as types.
//! All unsafe code of the crate stands here. Names, types and order are those of the Rattle sources (crates/punelavoh_c/src/lib.rt and the structs that
//! it uses), and a test holds them to these.
//!
//! A call takes its arguments as a struct, so that each is named where it is given:
//!
//! ```
//! use punelavoh::ffi::{GraphCall, LengthsCall};
//! use punelavoh::{GraphMaxima, SearchMaxima};
//!
//! let maxima = GraphMaxima { vertices: 16, edges: 16, nodes: 16 };
//! let told = LengthsCall { k: 3, paths: 0, graph: maxima, search: SearchMaxima::GREATEST }.call();
//! let numbers = |length: usize| vec![0_u32; length];
//! let mut edges = numbers(told.edges);
//! let answer = GraphCall {
//!     k: 3,
//!     quality: 10,
//!     reference: b"ACGTA",
//!     ends: &[],
//!     bases: b"",
//!     qualities: &[],
//!     maxima,
//!     edges: &mut edges,
//!     nodes: &mut numbers(told.nodes),
//!     w_vertices: &mut numbers(told.workspace.vertices),
//!     w_edges: &mut numbers(told.workspace.edges),
//!     w_index: &mut numbers(told.workspace.index),
//!     w_nodes: &mut numbers(told.workspace.nodes),
//!     w_open: &mut numbers(told.workspace.open),
//! }
//! .call();
//! assert_eq!((answer.refusal, answer.edges), (0, 3));
//! assert_eq!(edges[..6], [0, 1, 1, 1, 0, 0]); // from, to, support, mark, and the origin's sequence and place
//! ```
#![allow(unsafe_code)]

/// The caller's maxima for the graph and its trees; the symbolic vertex and edge count, and so do the roots.
#[repr(C)]
#[derive(Clone, Copy, Debug, PartialEq, Eq, Hash)]
pub struct GraphMaxima {
    /// 2 to 4,096.
    pub vertices: u32,
    /// 1 to 8,192.
    pub edges: u32,
    /// 1 to 16,384.
    pub nodes: u32,
}

/// The caller's maxima for the search.
#[repr(C)]
#[derive(Clone, Copy, Debug, PartialEq, Eq, Hash)]
pub struct SearchMaxima {
    /// Edges in a path, 1 to 4,096.
    pub path_edges: u32,
    /// Active trees in a path, 1 to 64.
    pub active: u32,
    /// Pushes, 1 to 32,768; the start path is one.
    pub pushes: u32,
}

/// What a run is asked for.
#[repr(C)]
#[derive(Clone, Copy, Debug, PartialEq, Eq, Hash)]
pub struct Settings {
    /// Bases of a kmer, 2 to 128.
    pub k: u32,
    /// The minimum quality of a read's base.
    pub quality: u8,
    /// How many paths are asked for, 0 to 128. The search ends with the closing of the last.
    pub asked: u32,
    /// The evidence threshold: a tree whose total reaches it decides a fork.
    pub threshold: i32,
    /// Whether paths are recovered over edges that no closed path has.
    pub recovery: bool,
    /// Maxima for the graph and its trees.
    pub graph: GraphMaxima,
    /// Maxima for the search.
    pub search: SearchMaxima,
}

/// How many elements each workspace slice needs.
///
/// These are numbers of 32 bits, but for `active`, of 16, and `scores`, of f64. The call for edges and trees is lent the first five; the call for the
/// list is lent all but `open`, and three slices of `columns`, the first of them f64.
#[allow(missing_docs)] // each is the length of the argument of that name
#[repr(C)]
#[derive(Clone, Copy, Debug, Default, PartialEq, Eq, Hash)]
pub struct Workspace {
    pub vertices: usize,
    pub edges: usize,
    pub index: usize,
    pub nodes: usize,
    pub open: usize,
    pub targets: usize,
    pub paths: usize,
    pub scores: usize,
    pub active: usize,
    pub queue: usize,
    pub closed: usize,
    pub order: usize,
    pub marks: usize,
    pub walks: usize,
    pub columns: usize,
}

/// The answer of [`LengthsCall`]: a refusal, or how many elements each slice needs.
#[repr(C)]
#[derive(Clone, Copy, Debug, Default, PartialEq, Eq, Hash)]
pub struct LengthsTold {
    /// A refusal's number, or 0.
    pub refusal: u32,
    /// Numbers for the edge rows, six a row.
    pub edges: usize,
    /// Numbers for the node rows, four a row.
    pub nodes: usize,
    /// Path rows.
    pub paths: usize,
    /// Bases of all paths at full length.
    pub bases: usize,
    /// Numbers for the origins of all paths at full length; there are two such slices, sequences and places.
    pub origins: usize,
    /// The workspace.
    pub workspace: Workspace,
}

/// The answer of [`OriginCall`]: a refusal, or a part of the reference or of the read bases.
#[repr(C)]
#[derive(Clone, Copy, Debug, Default, PartialEq, Eq, Hash)]
pub struct OriginAnswer {
    /// A refusal's number, or 0.
    pub refusal: u32,
    /// 1 where the part lies in the read bases, 0 where it lies in the reference.
    pub in_reads: u32,
    /// Where it starts.
    pub start: usize,
    /// How many bytes it has: k + 1.
    pub length: usize,
}

/// A `bool` in memory that is lent.
///
/// It can only be made of a `bool`, so that what is lent is 0 or 1; and what a call has written can be read whatever it is.
#[repr(transparent)]
#[derive(Clone, Copy, Debug, Default, PartialEq, Eq, Hash)]
pub struct Flag(u8);

impl Flag {
    /// Whether it is other than 0.
    pub const fn is_set(self) -> bool {
        self.0 != 0
    }

    /// The byte that stands there.
    pub const fn byte(self) -> u8 {
        self.0
    }
}

impl From<bool> for Flag {
    fn from(set: bool) -> Self {
        Self(u8::from(set))
    }
}

/// A path of the list.
#[repr(C)]
#[derive(Clone, Copy, Debug, Default, PartialEq)]
pub struct PathRow {
    /// The sum of the penalties along the path: 0 or below.
    pub score: f64,
    /// The number of its closing, from 1.
    pub closing: u32,
    /// How many edges it has.
    pub edges: u32,
    /// The original's reference flag, which is always false.
    pub is_ref: Flag,
    /// The bytes behind the flag, which belong to no field and which no proof speaks of: named so that they can be watched.
    pub padding: [u8; 7],
}

/// The answer of [`ListCall`]: a refusal, or what the list came to.
#[repr(C)]
#[derive(Clone, Copy, Debug, Default, PartialEq, Eq, Hash)]
pub struct ListAnswer {
    /// A refusal's number, or 0.
    pub refusal: u32,
    /// How many paths are listed.
    pub paths: u32,
    /// How many pushes were made.
    pub pushes: u32,
    /// The waiting mark: no less than the longest waiting list, no more than the pushes.
    pub mark: u32,
}

/// The answer of [`GraphCall`]: a refusal, or how many rows were written.
#[repr(C)]
#[derive(Clone, Copy, Debug, Default, PartialEq, Eq, Hash)]
pub struct GraphAnswer {
    /// A refusal's number, or 0.
    pub refusal: u32,
    /// Rows of edges, six numbers each.
    pub edges: u32,
    /// Rows of nodes, four numbers each.
    pub nodes: u32,
}

/// Of an exported function: the struct of its arguments, and the call. In C a slice is two arguments, a pointer and a number of elements; so each
/// argument is taken off the front and put down as a field, as it is declared in C, and as it is given.
macro_rules! exported {
    ($(#[$about:meta])* $call:ident $(<$life:lifetime>)? = $symbol:ident -> $answer:ident { $($arguments:tt)* }) => {
        exported! { [$(#[$about])* $call $(<$life>)? = $symbol -> $answer] [] [] [] [] $($arguments)* }
    };
    // a slice that is read
    ($head:tt [$($name:ident)*] [$($field:tt)*] [$($c:tt)*] [$($given:tt)*]
        $(#[$about:meta])* $argument:ident: &$life:lifetime [$of:ty], $($rest:tt)*) => {
        exported! { $head [$($name)* $argument]
            [$($field)* $(#[$about])* pub $argument: &$life [$of],]
            [$($c)* $argument: *const $of, _: usize,]
            [$($given)* $argument.as_ptr(), $argument.len(),]
            $($rest)* }
    };
    // a slice that is written to
    ($head:tt [$($name:ident)*] [$($field:tt)*] [$($c:tt)*] [$($given:tt)*]
        $(#[$about:meta])* $argument:ident: &$life:lifetime mut [$of:ty], $($rest:tt)*) => {
        exported! { $head [$($name)* $argument]
            [$($field)* $(#[$about])* pub $argument: &$life mut [$of],]
            [$($c)* $argument: *mut $of, _: usize,]
            [$($given)* $argument.as_mut_ptr(), $argument.len(),]
            $($rest)* }
    };
    // a number, or a struct of numbers
    ($head:tt [$($name:ident)*] [$($field:tt)*] [$($c:tt)*] [$($given:tt)*]
        $(#[$about:meta])* $argument:ident: $type:ident, $($rest:tt)*) => {
        exported! { $head [$($name)* $argument]
            [$($field)* $(#[$about])* pub $argument: $type,]
            [$($c)* $argument: $type,]
            [$($given)* $argument,]
            $($rest)* }
    };
    // no argument is left
    ([$(#[$about:meta])* $call:ident $(<$life:lifetime>)? = $symbol:ident -> $answer:ident]
        [$($name:ident)*] [$($field:tt)*] [$($c:tt)*] [$($given:tt)*]) => {
        $(#[$about])*
        pub struct $call $(<$life>)? { $($field)* }

        impl $(<$life>)? $call $(<$life>)? {
            /// Makes the call.
            #[must_use = "a refusal stands in the answer"]
            pub fn call(self) -> $answer {
                extern "C" {
                    fn $symbol($($c)*) -> $answer;
                }
                let Self { $($name),* } = self;
                // SAFETY: a pointer and its length are those of a whole slice, so the pointer is not null and is aligned, also where the slice is
                // empty. It is borrowed for the call, and alone where it is written to, so that it overlaps no other. All else is numbers, and bools
                // that are 0 or 1 by their types. The function asks nothing more of its caller: its contract has no `requires`, and slices that are
                // too short are refused. It keeps no pointer. That it is declared here as it is exported is held by tests/sources.rs.
                unsafe { $symbol($($given)*) }
            }
        }
    };
}

exported! {
    /// The call for lengths: tells how many elements each slice needs.
    LengthsCall = punelavoh_lengths -> LengthsTold {
        /// Bases of a kmer.
        k: u32,
        /// How many paths are asked for.
        paths: u32,
        /// Maxima for the graph and its trees.
        graph: GraphMaxima,
        /// Maxima for the search.
        search: SearchMaxima,
    }
}

exported! {
    /// The call for edges and trees.
    ///
    /// It writes edge rows of six numbers (from, to, support, reference mark, and the origin's sequence and place), rising by ends, and node rows of
    /// four (from, to, count, depth). The slices that begin with `w_` are its workspace; each must have the length told, [`Workspace`].
    GraphCall<'a> = punelavoh_graph -> GraphAnswer {
        /// Bases of a kmer.
        k: u32,
        /// The minimum quality.
        quality: u8,
        /// The reference.
        reference: &'a [u8],
        /// Where each read ends in `bases`, exclusive.
        ends: &'a [u32],
        /// The bases of all reads, one read behind the other.
        bases: &'a [u8],
        /// The qualities of those, as numbers.
        qualities: &'a [u8],
        /// Maxima for the graph and its trees.
        maxima: GraphMaxima,
        /// Edge rows.
        edges: &'a mut [u32],
        /// Node rows.
        nodes: &'a mut [u32],
        /// Workspace: vertices.
        w_vertices: &'a mut [u32],
        /// Workspace: edges.
        w_edges: &'a mut [u32],
        /// Workspace: the index by which a kmer's vertex is found.
        w_index: &'a mut [u32],
        /// Workspace: tree nodes.
        w_nodes: &'a mut [u32],
        /// Workspace: a walk's open trees.
        w_open: &'a mut [u32],
    }
}

exported! {
    /// The call for the bytes at an origin: tells which part of the reference or of the read bases it names.
    OriginCall<'a> = punelavoh_origin -> OriginAnswer {
        /// Bases of a kmer.
        k: u32,
        /// The reference.
        reference: &'a [u8],
        /// Where each read ends in `bases`, exclusive.
        ends: &'a [u32],
        /// The bases of all reads, one read behind the other.
        bases: &'a [u8],
        /// 0 for the reference, else the read, from 1.
        sequence: u32,
        /// The place in it, from 0.
        place: u32,
    }
}

exported! {
    /// The call for the list.
    ///
    /// Row r is `rows[r]`; its bases stand in `out_bases` from `r * (k + path_edges)`, and its edges' origins in `sequences` and `places` from
    /// `r * path_edges`. The slices that begin with `w_`, and the three columns in which rows are first made, are workspace; each must have the
    /// length told, [`Workspace`].
    ListCall<'a> = punelavoh_list -> ListAnswer {
        /// What the run is asked for.
        settings: Settings,
        /// The reference.
        reference: &'a [u8],
        /// Where each read ends in `bases`, exclusive.
        ends: &'a [u32],
        /// The bases of all reads, one read behind the other.
        bases: &'a [u8],
        /// The qualities of those, as numbers.
        qualities: &'a [u8],
        /// The logarithm column: place n holds log10 of n.
        column: &'a [f64],
        /// Path rows.
        rows: &'a mut [PathRow],
        /// The bases of the paths.
        out_bases: &'a mut [u8],
        /// The sequence of each edge's origin.
        sequences: &'a mut [u32],
        /// The place of each edge's origin.
        places: &'a mut [u32],
        /// Workspace: vertices.
        w_vertices: &'a mut [u32],
        /// Workspace: edges.
        w_edges: &'a mut [u32],
        /// Workspace: the index by which a kmer's vertex is found.
        w_index: &'a mut [u32],
        /// Workspace: tree nodes.
        w_nodes: &'a mut [u32],
        /// Workspace: where each edge leads.
        w_targets: &'a mut [u32],
        /// Workspace: records of the paths.
        w_paths: &'a mut [u32],
        /// Workspace: scores of the paths.
        w_scores: &'a mut [f64],
        /// Workspace: active trees of the paths.
        w_active: &'a mut [u16],
        /// Workspace: the waiting paths, as a heap.
        w_queue: &'a mut [u32],
        /// Workspace: the closed paths.
        w_closed: &'a mut [u32],
        /// Workspace: the pivotal edges in their order.
        w_order: &'a mut [u32],
        /// Workspace: marks of edges, for the pivotal ones.
        w_marks: &'a mut [u32],
        /// Workspace: open trees, edges to look at, a fork's offers, edges of the closed paths, one after the other.
        w_walks: &'a mut [u32],
        /// Workspace: scores of the rows.
        row_scores: &'a mut [f64],
        /// Workspace: closing numbers of the rows.
        row_closings: &'a mut [u32],
        /// Workspace: edge counts of the rows.
        row_edges: &'a mut [u32],
    }
}
