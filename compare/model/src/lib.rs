//! An independent reading of document 01, plain rather than fast: every call with its refusals, over `Vec`s.
//! It shares no code with the original and none with the library.

pub mod allowance;
pub mod calls;
pub mod graph;
pub mod input;
pub mod limits;
pub mod program;
pub mod search;
pub mod trees;

pub use calls::{effort, graph, lengths, list, origin, Effort, GraphRows, Least, Listed, Row, Told};
pub use input::{GraphMaxima, ListInput, Sample, SearchMaxima};

/// A number of the table "What the calls return instead".
pub type Refusal = u32;
