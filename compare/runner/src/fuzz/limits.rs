//! Samples and columns at the borders of their limits, and just beyond.

use super::generate::{fair_qualities, mutated, part, sequence};
use crate::random::Random;
use model::Sample;

/// A healthy sample with one or two of its sizes at a border.
pub fn at_limits(random: &mut Random) -> Sample {
    let k = random.between(2, 12);
    let length = k + random.below(40);
    let reference = sequence(random, b"ACGT", length);
    let mut sample = Sample::new(k as u32, 10, &reference);
    for _ in 0..random.below(6) {
        let length = random.below(30);
        let bases = part(random, &reference, length);
        let bases = mutated(random, &bases, b"ACGT", 12);
        let qualities = fair_qualities(random, bases.len(), 50);
        sample.push(&bases, &qualities);
    }
    for _ in 0..random.pick(&[1, 1, 1, 2]) {
        to_border(random, &mut sample);
    }
    sample
}

fn to_border(random: &mut Random, s: &mut Sample) {
    match random.below(12) {
        0 => s.k = random.pick(&[0, 1, 2, 3, 127, 128, 129, 255, 256, 1 << 16, u32::MAX]),
        1 => {
            // Around the length of the reference.
            s.k = (s.reference.len() as u32).wrapping_add(random.pick(&[0, 1, u32::MAX]));
        }
        2 => {
            let length = random.pick(&[0, 1, 1023, 1024, 1025]);
            s.reference = sequence(random, b"ACGT", length);
        }
        3 => {
            if !s.reference.is_empty() {
                let at = random.below(s.reference.len());
                s.reference[at] = random.pick(&[b'a', b'n', b'B', 0, 255, b' ', b'U', b'-', b'N']);
            }
        }
        4 => {
            // Reads beyond the last, up to their greatest number and above.
            let reads = random.pick(&[511, 512, 513]);
            while s.ends.len() < reads {
                let length = random.below(5);
                let bases = sequence(random, b"AC", length);
                let qualities = vec![30; bases.len()];
                s.push(&bases, &qualities);
            }
        }
        5 => {
            // Read bases up to their greatest number and above; few of them are threaded, so that the graph stays small.
            let bases = random.pick(&[32767, 32768, 32769]);
            let rest = bases - s.bases.len().min(bases);
            let mut read = part(random, &s.reference.clone(), 20);
            read.resize(rest, b'A');
            let mut qualities = vec![40; read.len().min(20)];
            qualities.resize(rest, 0);
            s.push(&read, &qualities);
        }
        6 => {
            if let Some(last) = s.ends.last_mut() {
                *last = last.wrapping_add(random.pick(&[1, u32::MAX, 1 << 31]));
            } else {
                s.ends.push(random.pick(&[0, 1]));
            }
        }
        7 => {
            if !s.ends.is_empty() {
                let at = random.below(s.ends.len());
                s.ends[at] = random.pick(&[0, s.bases.len() as u32, s.bases.len() as u32 + 1, u32::MAX]);
            }
        }
        8 => {
            if random.once_in(2) {
                s.qualities.push(40);
            } else {
                s.qualities.pop();
            }
        }
        9 => s.ends.clear(),
        10 => {
            s.bases.clear();
            s.qualities.clear();
        }
        _ => s.ends.insert(0, 0),
    }
}

/// A column that keeps the rules and is not log10: many equal entries, small steps, large ones.
pub fn odd_column(random: &mut Random) -> Vec<f64> {
    let places = random.pick(&[2, 3, 5, 10, 40, 300, 300]);
    let steps: &[f64] = random.pick(&[&[0.0][..], &[0.0, 0.5], &[0.0, 0.0, 1.0], &[1e-17, 1e-9, 0.1], &[0.25], &[f64::MIN_POSITIVE, 5e-324]]);
    let mut column = vec![random.pick(&[0.0, f64::NAN, 17.0, -1.0, f64::INFINITY]), random.pick(&[0.0, 0.0, -0.0])];
    while column.len() < places {
        let last = column[column.len() - 1];
        column.push((last + random.pick(steps)).min(16.0));
    }
    column
}

/// A column with one entry, or its length, at a border or beyond.
pub fn broken_column(random: &mut Random, log10: &[f64]) -> Vec<f64> {
    let mut column = log10[..random.between(2, 300)].to_vec();
    match random.below(4) {
        0 => column.truncate(random.below(3)),
        1 => {
            column = log10.to_vec();
            column.resize(random.pick(&[65535, 65536, 65537]), log10[log10.len() - 1]);
        }
        _ => {
            let at = random.below(column.len());
            let entries = [f64::NAN, f64::INFINITY, f64::NEG_INFINITY, 16.0, 16.000000000000004, 17.0, -0.0, -5e-324, 0.0, 1.0];
            column[at] = random.pick(&entries);
            if random.once_in(2) {
                column.truncate((at + 1).max(2));
            }
        }
    }
    column
}
