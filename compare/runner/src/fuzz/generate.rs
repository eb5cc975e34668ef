//! Random inputs, of every kind: each kind makes a sample and settings; maxima and slices are chosen in `calls`.

use crate::random::Random;
use model::Sample;

/// What is asked of a sample, but for the maxima.
pub struct Input {
    pub kind: &'static str,
    pub sample: Sample,
    pub paths: u32,
    pub threshold: i32,
    pub recover: bool,
    pub column: Vec<f64>,
    /// The column is log10, so that the original's own logarithm can be compared.
    pub is_log10: bool,
}

type Make = fn(&mut Random) -> Sample;

/// Name, how often of all, how it is made.
const KINDS: &[(&str, usize, Make)] = &[
    ("tiny", 220, tiny),
    ("cycles", 140, cycles),
    ("other-bytes", 70, other_bytes),
    ("qualities", 70, qualities),
    ("ends-and-kmers", 90, around_k),
    ("isolated", 70, isolated),
    ("bushy", 80, bushy),
    ("unguided", 50, unguided),
    ("reference-only", 40, reference_only),
    ("variants", 100, variants),
    ("repeats", 30, repeats),
    ("realistic", 14, realistic),
    ("long-reads", 6, long_reads),
    ("window", 1, window),
    ("large", 2, large),
    ("limits", 60, super::limits::at_limits),
];

/// The names of all kinds.
pub fn kinds() -> Vec<&'static str> {
    KINDS.iter().map(|kind| kind.0).collect()
}

/// An input of a random kind.
pub fn input(random: &mut Random, log10: &[f64]) -> Input {
    let mut at = random.below(KINDS.iter().map(|kind| kind.1).sum());
    let mut chosen = &KINDS[0];
    for kind in KINDS {
        chosen = kind;
        if at < kind.1 {
            break;
        }
        at -= kind.1;
    }
    let sample = (chosen.2)(random);
    let paths = match random.below(20) {
        0 => 0,
        1 => 128,
        2..=5 => 1,
        6..=8 => 2,
        _ => random.between(3, 24) as u32,
    };
    let threshold = match random.below(24) {
        0 => i32::MIN,
        1 => i32::MAX,
        2 => -1,
        3 => 0,
        4 => 1000,
        _ => random.between(1, 8) as i32,
    };
    let (column, is_log10) = column(random, log10);
    Input { kind: chosen.0, sample, paths, threshold, recover: random.once_in(2), column, is_log10 }
}

/// Mostly log10, at times another column that keeps the rules, and rarely one that breaks them.
fn column(random: &mut Random, log10: &[f64]) -> (Vec<f64>, bool) {
    match random.below(40) {
        0 => (log10.to_vec(), true),
        1..=2 => (log10[..random.between(2, 40)].to_vec(), true),
        3..=7 => (super::limits::odd_column(random), false),
        8 => (super::limits::broken_column(random, log10), false),
        _ => (log10[..2048].to_vec(), true),
    }
}

pub fn sequence(random: &mut Random, alphabet: &[u8], length: usize) -> Vec<u8> {
    (0..length).map(|_| random.pick(alphabet)).collect()
}

/// A part of a sequence.
pub fn part(random: &mut Random, of: &[u8], length: usize) -> Vec<u8> {
    let length = length.min(of.len());
    let start = random.between(0, of.len() - length);
    of[start..start + length].to_vec()
}

/// Substitutions, and rarely insertions and deletions, about once in `rate` bases.
pub fn mutated(random: &mut Random, of: &[u8], alphabet: &[u8], rate: usize) -> Vec<u8> {
    let mut out = Vec::with_capacity(of.len() + 4);
    for &base in of {
        if !random.once_in(rate) {
            out.push(base);
            continue;
        }
        match random.below(6) {
            0 => {}
            1 => {
                out.push(base);
                out.push(random.pick(alphabet));
            }
            _ => out.push(random.pick(alphabet)),
        }
    }
    out
}

/// High qualities, here and there a low one.
pub fn fair_qualities(random: &mut Random, length: usize, rate: usize) -> Vec<u8> {
    (0..length).map(|_| if random.once_in(rate) { random.below(10) as u8 } else { random.between(10, 60) as u8 }).collect()
}

fn add(sample: &mut Sample, random: &mut Random, bases: &[u8], rate: usize) {
    let qualities = fair_qualities(random, bases.len(), rate);
    sample.push(bases, &qualities);
}

/// One to three letters, k 2 to 4, few and short reads.
fn tiny(random: &mut Random) -> Sample {
    let alphabet: &[u8] = random.pick(&[&b"A"[..], b"AC", b"AC", b"AC", b"ACG", b"NA"]);
    let k = random.between(2, 4);
    let length = k + random.below(14);
    let reference = sequence(random, alphabet, length);
    let mut sample = Sample::new(k as u32, 10, &reference);
    for _ in 0..random.below(7) {
        let length = random.below(18);
        let bases = if random.once_in(2) { sequence(random, alphabet, length) } else { part(random, &reference, length) };
        add(&mut sample, random, &bases, 40);
    }
    sample
}

/// A reference of few repeated pieces, reads that go round them.
fn cycles(random: &mut Random) -> Sample {
    let k = random.between(2, 5);
    let alphabet: &[u8] = random.pick(&[&b"AC"[..], b"ACG", b"ACGT"]);
    let pieces: Vec<Vec<u8>> = (0..random.between(1, 3))
        .map(|_| {
            let length = random.between(1, k + 4);
            sequence(random, alphabet, length)
        })
        .collect();
    let walk = |random: &mut Random, steps: usize| -> Vec<u8> { (0..steps).flat_map(|_| random.pick(&pieces)).collect() };
    let steps = random.between(2, 8);
    let mut reference = walk(random, steps);
    reference.truncate(60);
    while reference.len() < k {
        reference.push(random.pick(alphabet));
    }
    let mut sample = Sample::new(k as u32, 10, &reference);
    for _ in 0..random.below(6) {
        let steps = random.below(8);
        let mut bases = walk(random, steps);
        bases.truncate(50);
        if random.once_in(3) {
            bases = mutated(random, &bases, alphabet, 12);
        }
        add(&mut sample, random, &bases, 60);
    }
    sample
}

/// N in the reference, and bytes in reads that are no bases at all.
fn other_bytes(random: &mut Random) -> Sample {
    let k = random.between(2, 5);
    let length = k + random.below(20);
    let reference = sequence(random, b"ACGNN", length);
    let mut sample = Sample::new(k as u32, random.pick(&[0, 10]), &reference);
    for _ in 0..random.below(8) {
        let length = random.below(24);
        let mut bases = if random.once_in(3) { sequence(random, b"ACGTN", length) } else { part(random, &reference, length) };
        for base in &mut bases {
            if random.once_in(12) {
                *base = random.pick(&[b'a', b'n', b'@', b'-', b'.', b'U', 0, b'\n', 128, 255, b'B', b'M', b'O']);
            }
        }
        add(&mut sample, random, &bases, 30);
    }
    sample
}

/// Any minimum, qualities around it.
fn qualities(random: &mut Random) -> Sample {
    let k = random.between(2, 6);
    let length = k + random.below(30);
    let reference = sequence(random, b"ACGT", length);
    let minimum = random.pick(&[0u8, 1, 10, 33, 127, 128, 254, 255]);
    let mut sample = Sample::new(k as u32, minimum, &reference);
    for _ in 0..random.below(8) {
        let length = random.below(30);
        let bases = part(random, &reference, length);
        let bases = mutated(random, &bases, b"ACGT", 15);
        let often = random.between(2, 15);
        let qualities: Vec<u8> = bases
            .iter()
            .map(|_| if random.once_in(often) { minimum.wrapping_sub(1) } else { minimum.saturating_add(random.below(3) as u8) })
            .collect();
        sample.push(&bases, &qualities);
    }
    sample
}

/// Reads of no base, and of one less than k, k, and one more.
fn around_k(random: &mut Random) -> Sample {
    let k = random.between(2, 8);
    let length = k + random.below(16);
    let reference = sequence(random, b"ACG", length);
    let mut sample = Sample::new(k as u32, 10, &reference);
    for _ in 0..random.below(24) {
        let length = random.pick(&[0, 0, 1, k - 1, k, k + 1, k + 2]);
        let mut bases = part(random, &reference, length);
        if random.once_in(3) {
            bases = mutated(random, &bases, b"ACG", 4);
        }
        add(&mut sample, random, &bases, 80);
    }
    sample
}

/// Lone stretches of exactly k bases, so that a vertex has no edge, before and between longer reads.
fn isolated(random: &mut Random) -> Sample {
    let k = random.between(2, 5);
    let length = k + random.below(14);
    let reference = sequence(random, b"ACG", length);
    let mut sample = Sample::new(k as u32, 10, &reference);
    for _ in 0..random.between(1, 8) {
        let bases = if random.once_in(2) {
            sequence(random, b"ACGT", k)
        } else {
            let length = random.between(k, 2 * k + 10);
            let bases = part(random, &reference, length);
            mutated(random, &bases, b"ACG", 6)
        };
        add(&mut sample, random, &bases, 100);
    }
    sample
}

/// Many forks: random reads at a small k.
fn bushy(random: &mut Random) -> Sample {
    let k = random.between(2, 4);
    let length = k + random.below(40);
    let reference = sequence(random, b"ACGT", length);
    let mut sample = Sample::new(k as u32, 10, &reference);
    for _ in 0..random.between(2, 14) {
        let length = random.between(k, 30);
        let bases = if random.once_in(3) {
            sequence(random, b"ACGT", length)
        } else {
            let bases = part(random, &reference, length);
            mutated(random, &bases, b"ACGT", 6)
        };
        add(&mut sample, random, &bases, 100);
    }
    sample
}

/// Edges without trees: reads of k and k+1 bases only.
fn unguided(random: &mut Random) -> Sample {
    let k = random.between(3, 8);
    let length = random.between(k, 80);
    let reference = sequence(random, b"ACGT", length);
    let rate = random.between(4, 12);
    let other = mutated(random, &reference, b"ACGT", rate);
    let mut sample = Sample::new(k as u32, 10, &reference);
    let step = random.between(1, 2);
    for start in (0..other.len().saturating_sub(k)).step_by(step) {
        add(&mut sample, random, &other[start..start + k + 1], 200);
        if random.once_in(3) {
            add(&mut sample, random, &other[start..start + k + 1], 200);
        }
    }
    sample
}

/// No reads, or none that is usable.
fn reference_only(random: &mut Random) -> Sample {
    let k = random.between(2, 12);
    let alphabet: &[u8] = random.pick(&[&b"A"[..], b"AC", b"ACG", b"ACGTN"]);
    let most = if random.once_in(10) { 400 } else { 40 };
    let length = k + random.below(most);
    let reference = sequence(random, alphabet, length);
    let mut sample = Sample::new(k as u32, 10, &reference);
    if random.once_in(3) {
        for _ in 0..random.below(4) {
            let length = random.below(k);
            let bases = part(random, &reference, length);
            add(&mut sample, random, &bases, 10);
        }
    }
    sample
}

/// Reads of two haplotypes, in a reference of 40 to 200 bases.
fn variants(random: &mut Random) -> Sample {
    let (length, reads, span) = (random.between(40, 200), random.between(4, 40), random.between(20, 60));
    let k = random.between(4, 16);
    haplotypes(random, b"ACGT", k, length, reads, span)
}

/// The same over a reference that repeats itself.
fn repeats(random: &mut Random) -> Sample {
    let k = random.between(4, 10);
    let (length, reads, span) = (random.between(30, 120), random.between(4, 24), random.between(15, 60));
    haplotypes(random, b"AC", k, length, reads, span)
}

/// A window as a caller has it: hundreds of bases, dozens of reads.
fn realistic(random: &mut Random) -> Sample {
    let (length, reads, span) = (random.between(150, 400), random.between(20, 100), random.between(50, 100));
    let k = random.pick(&[10, 15, 20, 25]);
    haplotypes(random, b"ACGT", k, length, reads, span)
}

/// Few reads that span nearly all of the reference.
fn long_reads(random: &mut Random) -> Sample {
    let (length, reads) = (random.between(400, 1024), random.between(2, 12));
    let k = random.pick(&[12, 25, 64, 127, 128]);
    haplotypes(random, b"ACGT", k, length, reads, 3000)
}

/// A full window: a reference of up to 1,024 bases, up to 32,768 read bases.
fn window(random: &mut Random) -> Sample {
    let (reads, span) = random.pick(&[(300, 100), (512, 64), (218, 150), (128, 250)]);
    let k = random.pick(&[10, 25, 35]);
    let length = random.between(500, 1024);
    haplotypes(random, b"ACGT", k, length, reads, span)
}

/// Vertices, edges or tree nodes about as many as are ever allowed.
fn large(random: &mut Random) -> Sample {
    let (k, total, most) = match random.below(4) {
        // Vertices: nearly every base makes one.
        0 | 1 => {
            let k = random.between(14, 30);
            (k, 4094 + random.below(5), 5000)
        }
        // Edges: nearly all vertices of six bases, each with its four edges.
        2 => (6, random.between(10000, 30000), 2000),
        // Nodes: few reads with many forks.
        _ => (random.between(4, 6), random.between(300, 1500), 300),
    };
    let length = random.between(k, 1024);
    let reference = sequence(random, b"ACGT", length);
    let mut sample = Sample::new(k as u32, 10, &reference);
    let mut kmers = length - k + 1;
    while kmers < total && sample.bases.len() < 32768 {
        let length = (random.between(k, most)).min(total - kmers + k - 1).min(32768 - sample.bases.len());
        let bases = sequence(random, b"ACGT", length);
        let qualities = vec![30; length];
        sample.push(&bases, &qualities);
        kmers += (length + 1).saturating_sub(k);
    }
    sample
}

/// Reads of two haplotypes with errors, the second haplotype with variants.
fn haplotypes(random: &mut Random, alphabet: &[u8], k: usize, length: usize, reads: usize, span: usize) -> Sample {
    let reference = sequence(random, alphabet, length.max(k));
    let rate = random.pick(&[20, 50, 100]);
    let second = mutated(random, &reference, alphabet, rate);
    let errors = random.pick(&[50, 200, 1000]);
    let low = random.pick(&[30, 200, 1000]);
    let mut sample = Sample::new(k as u32, 10, &reference);
    for _ in 0..reads {
        let from = if random.once_in(2) { &reference } else { &second };
        let bases = part(random, from, span);
        let bases = mutated(random, &bases, alphabet, errors);
        if sample.bases.len() + bases.len() <= 32768 {
            add(&mut sample, random, &bases, low);
        }
    }
    sample
}
