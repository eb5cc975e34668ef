//! A buffer that lends a slice out of its middle and can tell what was changed, in it and around it.

use punelavoh::ffi::{Flag, PathRow};

/// Elements before and behind the lent slice.
const GUARD: usize = 64;

/// An element with a pattern: values that differ from place to place, none of them zero.
pub trait Element: Copy {
    fn pattern(place: usize, seed: u32) -> Self;
    fn same(self, other: Self) -> bool;
    fn is_zero(self) -> bool;
}

impl Element for u32 {
    fn pattern(place: usize, seed: u32) -> Self {
        (place as u32).wrapping_mul(0x9e37_79b1) ^ seed | 1
    }

    fn same(self, other: Self) -> bool {
        self == other
    }

    fn is_zero(self) -> bool {
        self == 0
    }
}

impl Element for u16 {
    fn pattern(place: usize, seed: u32) -> Self {
        (u32::pattern(place, seed) >> 16) as u16 | 1
    }

    fn same(self, other: Self) -> bool {
        self == other
    }

    fn is_zero(self) -> bool {
        self == 0
    }
}

impl Element for u8 {
    fn pattern(place: usize, seed: u32) -> Self {
        (u32::pattern(place, seed) >> 16) as u8 | 1
    }

    fn same(self, other: Self) -> bool {
        self == other
    }

    fn is_zero(self) -> bool {
        self == 0
    }
}

impl Element for f64 {
    /// Every other one is a NaN, quiet or signalling, with a payload of its own: proofs know one NaN, and its bits are watched here.
    fn pattern(place: usize, seed: u32) -> Self {
        let number = u32::pattern(place, seed);
        match place % 4 {
            1 => f64::from_bits(0x7ff8_0000_0000_0000 | u64::from(number)),
            3 => f64::from_bits(0xfff0_0000_0000_0000 | u64::from(number)),
            _ => f64::from(number),
        }
    }

    fn same(self, other: Self) -> bool {
        self.to_bits() == other.to_bits()
    }

    /// Zero of the plain kind, all bits clear.
    fn is_zero(self) -> bool {
        self.to_bits() == 0
    }
}

impl Element for PathRow {
    fn pattern(place: usize, seed: u32) -> Self {
        let number = u32::pattern(place, seed);
        let padding = std::array::from_fn(|i| u8::pattern(place + i, seed));
        Self { score: f64::pattern(place, seed), closing: number, edges: number ^ 0xffff, is_ref: Flag::from(true), padding }
    }

    fn same(self, other: Self) -> bool {
        let rest = |r: Self| (r.closing, r.edges, r.is_ref.byte(), r.padding);
        self.score.same(other.score) && rest(self) == rest(other)
    }

    fn is_zero(self) -> bool {
        self.score.is_zero() && (self.closing, self.edges, self.is_ref.byte(), self.padding) == (0, 0, 0, [0; 7])
    }
}

/// Guard elements, the lent slice, guard elements; all of the pattern at first.
pub struct Lent<T> {
    store: Vec<T>,
    seed: u32,
}

impl<T: Element> Lent<T> {
    /// A slice of the pattern.
    pub fn new(length: usize, seed: u32) -> Self {
        Self { store: (0..length + 2 * GUARD).map(|i| T::pattern(i, seed)).collect(), seed }
    }

    /// A slice that holds values.
    pub fn holding(values: &[T], seed: u32) -> Self {
        let mut lent = Self::new(values.len(), seed);
        lent.slice_mut().copy_from_slice(values);
        lent
    }

    pub fn len(&self) -> usize {
        self.store.len() - 2 * GUARD
    }

    pub fn is_empty(&self) -> bool {
        self.len() == 0
    }

    pub fn slice(&self) -> &[T] {
        &self.store[GUARD..GUARD + self.len()]
    }

    pub fn slice_mut(&mut self) -> &mut [T] {
        let length = self.len();
        &mut self.store[GUARD..GUARD + length]
    }

    /// Everything beyond the first `used` elements is as it was, and so is everything around the slice.
    pub fn untouched_from(&self, used: usize) -> bool {
        self.has_pattern(0, GUARD) && self.has_pattern(GUARD + used, self.store.len())
    }

    /// The first `told` elements are zero and all else is as it was.
    pub fn zero_up_to(&self, told: usize) -> bool {
        told <= self.len() && self.slice()[..told].iter().all(|x| x.is_zero()) && self.untouched_from(told)
    }

    /// The slice holds these values still, and all around it is as it was.
    pub fn still_holds(&self, values: &[T]) -> bool {
        self.len() == values.len() && self.slice().iter().zip(values).all(|(a, b)| a.same(*b)) && self.untouched_from(self.len())
    }

    /// What a slice of the pattern held at first.
    pub fn as_it_was(&self) -> Vec<T> {
        (GUARD..GUARD + self.len()).map(|i| T::pattern(i, self.seed)).collect()
    }

    fn has_pattern(&self, from: usize, to: usize) -> bool {
        self.store[from..to].iter().enumerate().all(|(i, x)| x.same(T::pattern(from + i, self.seed)))
    }
}
