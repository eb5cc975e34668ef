//! What is timed: files, and inputs at the limits.

use crate::random::Random;
use model::input::log10_column;
use model::{GraphMaxima, ListInput, Sample, SearchMaxima};
use std::path::Path;

pub struct Input {
    pub name: String,
    pub sample: Sample,
    pub paths: u32,
    pub threshold: i32,
    pub recover: bool,
}

/// The files of the repository's vectors/bench.
pub fn files() -> Result<Vec<String>, String> {
    let folder = concat!(env!("CARGO_MANIFEST_DIR"), "/../../vectors/bench");
    let entries = std::fs::read_dir(folder).map_err(|e| format!("{folder}: {e}"))?;
    let mut files: Vec<String> = entries.flatten().map(|e| e.path().display().to_string()).filter(|f| f.ends_with(".txt")).collect();
    files.sort();
    Ok(files)
}

/// `k minq paths threshold recover`, the reference, the number of reads, then two lines a read.
pub fn read(file: &str) -> Result<Input, String> {
    let text = std::fs::read_to_string(file).map_err(|e| format!("{file}: {e}"))?;
    parse(&text, file).ok_or_else(|| format!("{file}: not of this form"))
}

fn parse(text: &str, file: &str) -> Option<Input> {
    let mut lines = text.lines();
    let header: Vec<i64> = lines.next()?.split(' ').map(|w| w.parse().ok()).collect::<Option<_>>()?;
    let &[k, quality, paths, threshold, recover] = &header[..] else { return None };
    let mut sample = Sample::new(k.try_into().ok()?, quality.try_into().ok()?, lines.next()?.as_bytes());
    for _ in 0..lines.next()?.parse::<usize>().ok()? {
        let bases = lines.next()?.as_bytes();
        let qualities: Vec<u8> = lines.next()?.bytes().map(|q| q.checked_sub(33)).collect::<Option<_>>()?;
        sample.push(bases, &qualities);
    }
    let name = Path::new(file).file_name()?.to_string_lossy().into_owned();
    Some(Input { name, sample, paths: paths.try_into().ok()?, threshold: threshold.try_into().ok()?, recover: recover != 0 })
}

/// Inputs whose sizes are at their limits: reference, reads, read bases and k; then vertices, tree nodes. All are accepted at the greatest maxima.
pub fn at_limits() -> Vec<Input> {
    let mut made = vec![
        haplotypes("limit-512-reads-of-64", 25, (512, 64), 40, 300),
        haplotypes("limit-32-reads-of-1024", 25, (32, 1024), 150, 1500),
        haplotypes("limit-k-128", 128, (128, 256), 40, 1000),
        vertices(),
    ];
    made.extend(nodes());
    for input in &made {
        let settings = ListInput {
            paths: input.paths,
            threshold: input.threshold,
            recover: input.recover,
            graph: GraphMaxima::FULL,
            search: SearchMaxima::FULL,
            column: log10_column(65536),
        };
        let list = model::list(&input.sample, &settings, false);
        assert!(list.is_ok(), "{}: refused {:?}", input.name, list.err());
    }
    made
}

fn input(name: &str, sample: Sample) -> Input {
    Input { name: name.into(), sample, paths: 128, threshold: 3, recover: true }
}

/// Reads, so many of so many bases, of a reference of 1,024 bases and of a haplotype that differs from it about every `variants` bases; an error in
/// `errors` bases.
fn haplotypes(name: &str, k: u32, (reads, span): (usize, usize), variants: usize, errors: usize) -> Input {
    let mut random = Random::for_input(1, u64::from(k) + reads as u64);
    let reference: Vec<u8> = (0..1024).map(|_| random.pick(b"ACGT")).collect();
    let mut second = reference.clone();
    for base in &mut second {
        if random.once_in(variants) {
            *base = random.pick(b"ACGT");
        }
    }
    let mut sample = Sample::new(k, 10, &reference);
    for i in 0..reads {
        let from = if i % 2 == 0 { &reference } else { &second };
        let start = random.between(0, from.len() - span);
        let mut bases = from[start..start + span].to_vec();
        for base in &mut bases {
            if random.once_in(errors) {
                *base = random.pick(b"ACGT");
            }
        }
        sample.push(&bases, &vec![35; span]);
    }
    input(name, sample)
}

/// As many vertices as are allowed, nearly each born by a base of its own.
fn vertices() -> Input {
    let mut random = Random::for_input(2, 0);
    let mut bases = |n: usize| -> Vec<u8> { (0..n).map(|_| random.pick(b"ACGT")).collect() };
    let k = 25;
    let mut sample = Sample::new(k, 10, &bases(1024));
    // The symbolic vertex is the last one.
    let mut left = 4095 - (1024 - k as usize + 1);
    while left > 0 {
        let born = left.min(300);
        let read = bases(born + k as usize - 1);
        sample.push(&read, &vec![35; read.len()]);
        left -= born;
    }
    input("limit-vertices", sample)
}

/// About as many tree nodes as are allowed: reads of 200 bases over ever more forks, while the graph is accepted.
fn nodes() -> Option<Input> {
    let mut random = Random::for_input(3, 0);
    let reference: Vec<u8> = (0..1024).map(|_| random.pick(b"ACGT")).collect();
    let mut sample = Sample::new(12, 10, &reference);
    let mut largest = None;
    while sample.ends.len() < 160 {
        let start = random.below(1024 - 200);
        let mut bases = reference[start..start + 200].to_vec();
        for base in &mut bases {
            if random.once_in(50) {
                *base = random.pick(b"ACGT");
            }
        }
        sample.push(&bases, &[35; 200]);
        if model::graph(&sample, &GraphMaxima::FULL, false).is_err() {
            break;
        }
        largest = Some(sample.clone());
    }
    largest.map(|sample| input("limit-nodes", sample))
}
