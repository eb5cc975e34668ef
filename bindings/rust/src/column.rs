//! The logarithm column.
#![forbid(unsafe_code)]

/// A longer column is refused.
const LONGEST: usize = 65_536;

/// The logarithm column of so many places: place n holds log10 of n, and place 0, which is not read, holds 0.
///
/// A column is 2 to 65,536 places long. The longest, of 512 KB, may be made once for all calls; a call looks at every place, so one that is just long
/// enough for the counts saves time. Where a count has no place, the call is refused by [`Refusal::NoPlace`](crate::Refusal::NoPlace). Of a column
/// that would be too long one place too many is made, so that it is refused all the same.
///
/// ```
/// assert_eq!(punelavoh::column(101)[100], 2.0);
/// ```
pub fn column(places: usize) -> Vec<f64> {
    let places = places.min(LONGEST + 1);
    (0..places).map(|n| if n == 0 { 0.0 } else { (n as f64).log10() }).collect()
}
