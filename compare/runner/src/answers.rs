//! What a call answers and writes, in the form in which it is compared, and the verdict on it.

use model::{GraphRows, Listed, Refusal};

pub type Outcome<T> = Result<T, Refusal>;

/// Rows of the call for edges and trees.
#[derive(Clone, Debug, PartialEq)]
pub struct GraphWritten {
    pub edges: Vec<[u32; 6]>,
    pub nodes: Vec<[u32; 4]>,
}

/// A row of the list and what stands beside it; the score as its bits.
#[derive(Clone, Debug, PartialEq)]
pub struct PathWritten {
    pub score: u64,
    pub closing: u32,
    pub is_ref: bool,
    pub bases: Vec<u8>,
    pub origins: Vec<(u32, u32)>,
}

/// The list. A waiting mark lies between `longest` and `pushes`.
#[derive(Clone, Debug, PartialEq)]
pub struct ListWritten {
    pub rows: Vec<PathWritten>,
    pub pushes: u32,
    pub longest: u32,
}

impl From<GraphRows> for GraphWritten {
    fn from(rows: GraphRows) -> Self {
        Self { edges: rows.edges, nodes: rows.nodes }
    }
}

impl From<Listed> for ListWritten {
    fn from(listed: Listed) -> Self {
        let rows = listed.rows.into_iter().map(|row| PathWritten {
            score: row.score.to_bits(),
            closing: row.closing,
            is_ref: row.is_ref,
            bases: row.bases,
            origins: row.origins,
        });
        Self { rows: rows.collect(), pushes: listed.pushes, longest: listed.longest }
    }
}

/// A lent slice, by name. Those of the workspace are numbered in the call's order, those of scores last.
#[derive(Clone, Copy, Debug, PartialEq)]
pub enum Slice {
    Edges,
    Nodes,
    Paths,
    Bases,
    Sequences,
    Places,
    Workspace(usize),
}

/// How slices are lent: one of them one element short, the others longer than told by `extra`.
#[derive(Clone, Copy, Debug, Default)]
#[cfg_attr(not(feature = "library"), allow(dead_code))]
pub struct Lend {
    pub short: Option<Slice>,
    pub extra: usize,
    /// Of the pattern that fills them.
    pub seed: u32,
}

#[cfg_attr(not(feature = "library"), allow(dead_code))]
pub enum Verdict {
    Passed,
    Failed(String),
    /// The subject has no such call, or no such slice.
    Skipped,
}

impl Verdict {
    /// Passed where both are equal.
    pub fn equal<T: PartialEq + std::fmt::Debug>(found: &T, expected: &T) -> Self {
        if found == expected {
            return Self::Passed;
        }
        Self::Failed(format!("found    {}\nexpected {}", cut(found), cut(expected)))
    }
}

/// A value as text, cut where it is long.
pub fn cut<T: std::fmt::Debug>(value: &T) -> String {
    let text = format!("{value:?}");
    match text.char_indices().nth(2000) {
        Some((place, _)) => format!("{} ..", &text[..place]),
        None => text,
    }
}

/// Counts of verdicts; failures are printed as they come, the first few of them.
#[derive(Default)]
pub struct Tally {
    pub passed: usize,
    pub failed: usize,
    pub skipped: usize,
}

impl Tally {
    const PRINTED: usize = 20;

    pub fn add(&mut self, verdict: Verdict, place: impl FnOnce() -> String) {
        match verdict {
            Verdict::Passed => self.passed += 1,
            Verdict::Skipped => self.skipped += 1,
            Verdict::Failed(why) => {
                self.failed += 1;
                if self.failed <= Self::PRINTED {
                    println!("FAILED {}\n{}", place(), why);
                }
            }
        }
    }
}
