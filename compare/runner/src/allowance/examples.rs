//! Searches that pass formulas smaller than the allowance, so that none of its parts can be left out; the smallest that were found.

use super::{Case, Formula};
use model::input::log10_column;
use model::{GraphMaxima, ListInput, Sample, SearchMaxima};

/// Neither ways at a fork nor decisions.
pub const LINEAR: Formula = Formula { text: "(1+E)*(1+L)", of: |s| (1 + s.edges) * (1 + s.path_edges) };
/// The same, with the vertices.
const WITH_VERTICES: Formula = Formula { text: "(1+E)*(1+V)*(1+L)", of: |s| (1 + s.edges) * (1 + s.vertices) * (1 + s.path_edges) };
/// One decision, whatever the path-edge maximum.
const ONE_DECISION: Formula = Formula { text: "(1+E)*(1+5*L)", of: |s| (1 + s.edges) * (1 + 5 * s.path_edges) };
/// No decisions but those that trees guide.
const GUIDED_ONLY: Formula =
    Formula { text: "(1+E)*(1+L*5^min(L,3N))", of: |s| (1 + s.edges) * (1 + s.path_edges * power(s.path_edges.min(3 * s.nodes))) };
/// No recovered paths.
const ONE_START: Formula = Formula { text: "1+5+..+5^L", of: |s| (0..=s.path_edges).map(power).sum() };
/// No recovered paths, and no steps between decisions.
const DECISIONS_ONLY: Formula = Formula { text: "1+5^min(L,3N+6)", of: |s| 1 + power(s.path_edges.min(3 * s.nodes + 6)) };

fn power(n: u128) -> u128 {
    5u128.saturating_pow(n as u32)
}

struct Example {
    passes: Formula,
    k: u32,
    reference: &'static str,
    reads: &'static [&'static str],
    recover: bool,
    path_edges: u32,
    pushes: u32,
    /// Ended by 11, or else by a list.
    refused: bool,
}

#[rustfmt::skip]
const EXAMPLES: &[Example] = &[
    Example { passes: LINEAR, k: 2, reference: "CA", reads: &["AACACACAAAAAACC"], recover: false, path_edges: 6, pushes: 57, refused: true },
    Example { passes: LINEAR, k: 2, reference: "CCA", reads: &["CAACACCCCC"], recover: false, path_edges: 7, pushes: 74, refused: true },
    Example { passes: ONE_DECISION, k: 2, reference: "AA", recover: false, path_edges: 8, pushes: 411, refused: true,
        reads: &["AAAAAAAAAACCCAAAAAA", "CCAACAACAAACAAACCCA", "CCCCACC", "AAACCAAACACACCCA", "CAACACAACACCCCCCCAACC"] },
    Example { passes: GUIDED_ONLY, k: 2, reads: &[], recover: true, path_edges: 7, pushes: 193, refused: true,
        reference: "CGGAACAAGCACAAGCACCAGGACAGCGAGAGCCAGAACCAGCGCCAGGCGCGGCGAC" },
    Example { passes: GUIDED_ONLY, k: 2, reads: &[], recover: false, path_edges: 6, pushes: 207, refused: false,
        reference: "GCGCTACCTCGCATCATACTAGATCCGATCGACTCATAGACCGCTCACGCCAGACGCCTCCACGCGCAG" },
    Example { passes: DECISIONS_ONLY, k: 3, reference: "AACA", recover: true, path_edges: 2, pushes: 27, refused: false,
        reads: &["AACAA", "AACAC", "AACAG", "AACAT", "AACAN", "AACCA", "AACCC", "AACCG", "AACCT", "AACCN", "AACGA", "AACGC", "AACGG", "AACGT", "AACGN",
            "AACTA", "AACN"] },
    Example { passes: ONE_START, k: 3, reference: "AACA", recover: true, path_edges: 2, pushes: 32, refused: false,
        reads: &["AACAA", "AACAC", "AACAG", "AACAT", "AACAN", "AACCA", "AACCC", "AACCG", "AACCT", "AACCN", "AACGA", "AACGC", "AACGG", "AACGT", "AACGN",
            "AACTA", "AACTC", "AACTG", "AACTT", "AACTN", "AACNA"] },
];

/// All of them. A column of zeros makes every score 0, so that paths are taken in the order of their pushes.
pub fn cases() -> Vec<Case> {
    let equal = EXAMPLES.iter().map(|example| example.case(vec![0.0; 512]));
    equal.chain(SCORED.iter().map(|example| example.case(log10_column(512)))).collect()
}

/// Those whose scores differ.
#[rustfmt::skip]
const SCORED: &[Example] = &[
    Example { passes: LINEAR, k: 2, reference: "AA", recover: false, path_edges: 6, pushes: 64, refused: true,
        reads: &["CAACCAAACAAAAAACCAACAACCACAA", "CCAAAAACACC"] },
    Example { passes: WITH_VERTICES, k: 2, reference: "CACAGAGACAT", recover: false, path_edges: 30, pushes: 8091, refused: true,
        reads: &["CAAAACAAG", "CCCACCCAAA", "CCACCCCACCCCACC", "CAGGAAAGCAGCAGA"] },
];

impl Example {
    fn case(&self, column: Vec<f64>) -> Case {
        let mut sample = Sample::new(self.k, 10, self.reference.as_bytes());
        for read in self.reads {
            sample.push(read.as_bytes(), &vec![40; read.len()]);
        }
        let search = SearchMaxima { path_edges: self.path_edges, ..SearchMaxima::FULL };
        let input = ListInput { paths: 128, threshold: 1000, recover: self.recover, graph: GraphMaxima::FULL, search, column };
        let name = format!("passes {}", self.passes.text);
        Case { name, sample, input, pushes: Some(self.pushes), longest: None, refusal: self.refused.then_some(11), passes: Some((self.passes, true)) }
    }
}
