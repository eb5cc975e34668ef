//! Bubbles in a row: each doubles the paths, and the search goes depth first, so that few of them ever wait.
//!
//! A bubble is one base of the reference that reads show otherwise. The reads that span it make its tree, so the variant costs nothing; the reference's own
//! base is offered by its support only. Those supports make its cost more than that of all the bubbles behind together, so what waits is taken last.

use crate::random::Random;
use model::Sample;
use std::collections::HashSet;

/// Large enough for the kmers of 13 bubbles to be all different.
const K: usize = 5;

/// What becomes of a path behind the last bubble.
#[derive(Clone, Copy, PartialEq)]
pub enum Ending {
    /// It closes at the sink.
    Closes,
    /// A read leaves the reference, whose edge on has support 1 and is left out, so that no number of closings ends the search.
    Leaves,
}

/// Bases at random, of which no kmer stands twice.
struct Bases {
    random: Random,
    kmers: HashSet<Vec<u8>>,
}

/// The bases of a bubble.
struct Bubble {
    /// The kmer of the reference that ends in its own base.
    reference: Vec<u8>,
    /// The variant with the k bases before and behind it.
    variant: Vec<u8>,
}

/// How many stretches support each side of a bubble.
struct Support {
    reference: u32,
    variant: u32,
}

/// The sample of a row of bubbles.
pub fn sample(bubbles: u32, ending: Ending) -> Sample {
    let mut reference = vec![b'A'; K];
    let mut bases = Bases { random: Random::for_input(1, 0), kmers: HashSet::from([reference.clone()]) };
    let row: Vec<Bubble> = (0..bubbles).map(|_| bubble(&mut reference, &mut bases)).collect();
    let mut leaving = last_kmer(&reference).to_vec();
    bases.grow(&mut [&mut reference]);
    bases.grow(&mut [&mut leaving]);
    let mut sample = Sample::new(K as u32, 10, &reference);
    for (bubble, support) in row.iter().zip(supports(bubbles)) {
        push(&mut sample, &bubble.variant, support.variant);
        // Threading the reference was the first.
        push(&mut sample, &bubble.reference, support.reference - 1);
    }
    if ending == Ending::Leaves {
        push(&mut sample, &leaving, 1);
    }
    sample
}

/// The path-edge maximum that suffices: a bubble is k + 1 edges long; then the last base and the symbolic edge.
pub fn path_edges(bubbles: u32) -> u32 {
    bubbles * (K as u32 + 1) + 2
}

/// The start; in each bubble a push for the reference's side, and two for the variant's, which has a tree where it ends; and one for each path at the end.
pub fn pushes(bubbles: u32) -> u32 {
    (1 << (bubbles + 2)) - 2
}

/// A bubble more behind the reference.
fn bubble(reference: &mut Vec<u8>, bases: &mut Bases) -> Bubble {
    let mut variant = last_kmer(reference).to_vec();
    bases.grow(&mut [reference]);
    bases.grow(&mut [&mut variant]);
    let kmer = last_kmer(reference).to_vec();
    for _ in 0..K {
        bases.grow(&mut [reference, &mut variant]);
    }
    Bubble { reference: kmer, variant }
}

impl Bases {
    /// A base behind all the sequences that gives each a kmer of its own.
    fn grow(&mut self, sequences: &mut [&mut Vec<u8>]) {
        let first = self.random.below(4);
        let kmer = |sequence: &[u8], base: u8| [&last_kmer(sequence)[1..], &[base]].concat();
        let is_new = |base: &u8| sequences.iter().all(|sequence| !self.kmers.contains(&kmer(sequence, *base)));
        let base = (first..first + 4).map(|i| b"ACGT"[i % 4]).find(is_new).expect("k is large enough for so many bubbles");
        for sequence in sequences {
            sequence.push(base);
            self.kmers.insert(last_kmer(sequence).to_vec());
        }
    }
}

fn last_kmer(sequence: &[u8]) -> &[u8] {
    &sequence[sequence.len() - K..]
}

/// From the last bubble to the first: of support r against v, the reference's side divides a score's product by 1 + v / r, more than all behind it together.
fn supports(bubbles: u32) -> Vec<Support> {
    let most = ((1 << bubbles) / 8).max(2);
    let mut behind = 1.0;
    let mut row = Vec::new();
    for _ in 0..bubbles {
        // Below 2 an edge of the reference is left out.
        let reference = ((1.0 / (behind - 1.0)) as u32).clamp(2, most);
        let variant = ((behind - 1.0) * f64::from(reference)) as u32 + 1;
        behind *= 1.0 + f64::from(variant) / f64::from(reference);
        row.push(Support { reference, variant });
    }
    row.reverse();
    row
}

/// One read that holds a stretch so many times, a byte that is no base between.
fn push(sample: &mut Sample, stretch: &[u8], times: u32) {
    let bases = vec![stretch; times as usize].join(&b'-');
    sample.push(&bases, &vec![40; bases.len()]);
}
