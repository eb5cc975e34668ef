//! Refusals 1 to 7, each as its own test. A call makes those of what it is given, in rising order.

use crate::{GraphMaxima, Refusal, Sample, SearchMaxima};

fn require(holds: bool, number: Refusal) -> Result<(), Refusal> {
    if holds {
        Ok(())
    } else {
        Err(number)
    }
}

/// A, C, G, T or N.
pub fn is_base(byte: u8) -> bool {
    b"ACGTN".contains(&byte)
}

/// 1: k 2 to 128.
pub fn k(k: u32) -> Result<(), Refusal> {
    require((2..=128).contains(&k), 1)
}

/// 2 and 3: reference k to 1,024 bases, of A, C, G, T or N.
pub fn reference(k: u32, reference: &[u8]) -> Result<(), Refusal> {
    require((k as usize..=1024).contains(&reference.len()), 2)?;
    require(reference.iter().all(|&b| is_base(b)), 3)
}

/// 4, without the qualities.
pub fn ends(ends: &[u32], bases: &[u8]) -> Result<(), Refusal> {
    require(ends.windows(2).all(|w| w[0] <= w[1]), 4)?;
    require(ends.last().copied().unwrap_or(0) as usize == bases.len(), 4)?;
    require(ends.len() <= 512 && bases.len() <= 32768, 4)
}

/// 1 to 4.
pub fn sample(s: &Sample) -> Result<(), Refusal> {
    k(s.k)?;
    reference(s.k, &s.reference)?;
    ends(&s.ends, &s.bases)?;
    require(s.qualities.len() == s.bases.len(), 4)
}

/// 5, the maxima of the graph.
pub fn graph_maxima(m: &GraphMaxima) -> Result<(), Refusal> {
    let fits = (2..=4096).contains(&m.vertices) && (1..=8192).contains(&m.edges) && (1..=16384).contains(&m.nodes);
    require(fits, 5)
}

/// 5, the maxima of the search.
pub fn search_maxima(m: &SearchMaxima) -> Result<(), Refusal> {
    let fits = (1..=4096).contains(&m.path_edges) && (1..=64).contains(&m.active) && (1..=32768).contains(&m.pushes);
    require(fits, 5)
}

/// 5, the paths asked.
pub fn paths(paths: u32) -> Result<(), Refusal> {
    require(paths <= 128, 5)
}

/// 6: 2 to 65,536 places; place 0 is not read, place 1 is zero; from there on finite, never falling, at most 16.
pub fn column(column: &[f64]) -> Result<(), Refusal> {
    require((2..=65536).contains(&column.len()), 6)?;
    require(column[1] == 0.0, 6)?;
    let entries = &column[1..];
    require(entries.iter().all(|x| x.is_finite() && *x <= 16.0), 6)?;
    require(entries.windows(2).all(|w| w[0] <= w[1]), 6)
}

/// 7: a lent slice shorter than told.
pub fn lent(short: bool) -> Result<(), Refusal> {
    require(!short, 7)
}
