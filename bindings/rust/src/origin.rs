//! Where an edge comes from.
#![forbid(unsafe_code)]

use crate::ffi::OriginCall;
use crate::refusal::{accepted, Refusal};
use crate::sample::Sample;

/// The first sequence that made an edge, and the place of the edge's left kmer in it.
#[derive(Clone, Copy, Debug, Default, PartialEq, Eq, PartialOrd, Ord, Hash)]
pub struct Origin {
    /// 0 for the reference, else the read, from 1.
    pub sequence: u32,
    /// The place in it, from 0.
    pub place: u32,
}

/// The call for the k + 1 bytes at an origin: a part of the sample's reference or of its read bases.
///
/// For each edge of a listed path these are the bases that the edge spells.
///
/// ```
/// use punelavoh::{origin, Origin, Reads, Refusal};
///
/// let reads: Reads = [("CAAGTGG", [40; 7])].into_iter().collect();
/// let sample = reads.sample(b"CAACTGG");
/// assert_eq!(origin(3, &sample, Origin { sequence: 1, place: 2 })?, b"AGTG");
/// assert_eq!(origin(3, &sample, Origin { sequence: 0, place: 4 }), Err(Refusal::Origin)); // three bytes are left, the last kmer
/// # Ok::<(), Refusal>(())
/// ```
///
/// # Errors
///
/// [`Refusal::K`], [`Refusal::ReferenceLength`], [`Refusal::ReferenceByte`], [`Refusal::Reads`] and [`Refusal::Origin`]. Qualities are not looked at.
pub fn origin<'a>(k: u32, sample: &Sample<'a>, origin: Origin) -> Result<&'a [u8], Refusal> {
    let Sample { reference, ends, bases, .. } = *sample;
    let Origin { sequence, place } = origin;
    let answer = OriginCall { k, reference, ends, bases, sequence, place }.call();
    accepted(answer.refusal)?;
    let whole = if answer.in_reads == 0 { reference } else { bases };
    Ok(part(whole, answer.start, answer.length))
}

/// So many elements from a place on. They are there by the contract of the call that named them; if they were not, none would be handed back.
pub(crate) fn part<T>(whole: &[T], from: usize, length: usize) -> &[T] {
    whole.get(from..).and_then(|rest| rest.get(..length)).unwrap_or_default()
}
