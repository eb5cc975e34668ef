//! Best haplotype paths in a kmer graph with junction trees, by a library every function of which is proved.
//!
//! A reference and reads are threaded into a graph of kmers, junction trees are gathered from the reads, and the graph is searched for its best
//! paths, each with an origin for every base. The library does this over lent memory; this crate owns the memory ([`Caller`]), hands the answers back
//! as types ([`List`], [`Graph`]), and has names for the refusals ([`Refusal`]). It needs the standard library only.
//!
//! ```
//! use punelavoh::{column, Caller, Reads, Refusal, Settings};
//!
//! let mut reads = Reads::new();
//! reads.push(b"CAAGTGG", &[40; 7]); // qualities are numbers, not characters
//! reads.push(b"CAACTGG", &[40; 7]);
//! let settings = Settings { k: 3, asked: 5, threshold: 5, ..Settings::default() };
//!
//! let mut caller = Caller::new();
//! let list = caller.list(&settings, &reads.sample(b"CAACTGG"), &column(64))?;
//! assert_eq!((list.len(), list.pushes()), (2, 7));
//! for row in &list {
//!     println!("{:.3} {} {:?}", row.score(), row.bases().escape_ascii(), row.origins().next());
//! }
//! # Ok::<(), Refusal>(())
//! ```
#![deny(unsafe_code)]
#![warn(missing_docs)]

mod caller;
mod column;
pub mod ffi;
mod graph;
mod list;
mod origin;
mod refusal;
mod sample;
mod settings;

pub use caller::Caller;
pub use column::column;
pub use ffi::{GraphMaxima, LengthsTold, SearchMaxima, Settings, Workspace};
pub use graph::{Edge, Graph, Node};
pub use list::{List, Row, Rows};
pub use origin::{origin, Origin};
pub use refusal::Refusal;
pub use sample::{Reads, Sample};
pub use settings::lengths;

/// The version of this crate, which is that of the library and of its C header.
pub const VERSION: &str = env!("CARGO_PKG_VERSION");

/// The example of the README, which is run like those of the items.
#[cfg(doctest)]
#[doc = include_str!("../README.md")]
struct Readme;
