//! What is threaded: a reference and reads.
#![forbid(unsafe_code)]

/// A reference and reads, borrowed as the calls take them.
///
/// Reads lie one behind the other in `bases`, with one quality for each base; read i ends, exclusive, at `ends[i]`, counted from the first base of
/// the first read. Whoever has reads in this form lends them without copying; [`Reads`] brings others into it.
///
/// ```
/// use punelavoh::{Reads, Sample};
///
/// let sample = Sample { reference: b"CAACTGG", ends: &[4, 7], bases: b"CAACTGG", qualities: &[40; 7] };
/// let mut reads = Reads::new();
/// reads.push(b"CAAC", &[40; 4]);
/// reads.push(b"TGG", &[40; 3]);
/// assert_eq!(reads.sample(b"CAACTGG"), sample);
/// ```
#[derive(Clone, Copy, Debug, Default, PartialEq, Eq, Hash)]
pub struct Sample<'a> {
    /// The reference: k to 1,024 bases of A, C, G, T or N.
    pub reference: &'a [u8],
    /// Where each read ends: up to 512 reads.
    pub ends: &'a [u32],
    /// The bases of all reads: up to 32,768.
    pub bases: &'a [u8],
    /// The quality of each base, as a number: that of a character in a FASTQ file is the character less 33.
    pub qualities: &'a [u8],
}

/// Reads, owned: each is put behind the last. Whether they are too many is for the call to say.
///
/// They are also made of an iterator over pairs of bases and qualities:
///
/// ```
/// use punelavoh::Reads;
///
/// let reads: Reads = [("CAAGTGG", [40; 7]), ("CAACTGG", [40; 7])].into_iter().collect();
/// assert_eq!(reads.len(), 2);
/// ```
#[derive(Clone, Debug, Default, PartialEq, Eq, Hash)]
pub struct Reads {
    ends: Vec<u32>,
    bases: Vec<u8>,
    qualities: Vec<u8>,
    /// A read had more bases than qualities, or fewer.
    uneven: bool,
}

impl Reads {
    /// No reads.
    pub const fn new() -> Self {
        Self { ends: Vec::new(), bases: Vec::new(), qualities: Vec::new(), uneven: false }
    }

    /// Adds a read. If it has not one quality for each base, every sample with these reads is refused by [`Refusal::Reads`](crate::Refusal::Reads).
    pub fn push(&mut self, bases: &[u8], qualities: &[u8]) {
        self.uneven |= bases.len() != qualities.len();
        self.bases.extend_from_slice(bases);
        self.qualities.extend_from_slice(qualities);
        // Where it does not fit, it is not the base count, and the call is refused.
        self.ends.push(u32::try_from(self.bases.len()).unwrap_or(u32::MAX));
    }

    /// Takes all reads out, and keeps their memory for the next.
    pub fn clear(&mut self) {
        self.ends.clear();
        self.bases.clear();
        self.qualities.clear();
        self.uneven = false;
    }

    /// How many reads there are.
    pub fn len(&self) -> usize {
        self.ends.len()
    }

    /// Whether there are none.
    pub fn is_empty(&self) -> bool {
        self.ends.is_empty()
    }

    /// These reads with a reference.
    pub fn sample<'a>(&'a self, reference: &'a [u8]) -> Sample<'a> {
        // Two uneven reads may come to as many qualities as bases, which no call could tell: so another number is handed on.
        let qualities = if self.uneven && !self.bases.is_empty() { &[] } else { &self.qualities[..] };
        Sample { reference, ends: &self.ends, bases: &self.bases, qualities }
    }
}

impl<B: AsRef<[u8]>, Q: AsRef<[u8]>> Extend<(B, Q)> for Reads {
    fn extend<I: IntoIterator<Item = (B, Q)>>(&mut self, reads: I) {
        for (bases, qualities) in reads {
            self.push(bases.as_ref(), qualities.as_ref());
        }
    }
}

impl<B: AsRef<[u8]>, Q: AsRef<[u8]>> FromIterator<(B, Q)> for Reads {
    fn from_iter<I: IntoIterator<Item = (B, Q)>>(reads: I) -> Self {
        let mut all = Self::new();
        all.extend(reads);
        all
    }
}
