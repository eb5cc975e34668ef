//! `paths-fuzz`: random and damaged input for the program `paths`, against the model's reading of the text form.

use super::{bytes_of, Folder, Program};
use crate::answers::Tally;
use crate::random::Random;
use model::input::log10_column;
use std::fs;
use std::path::{Path, PathBuf};

/// True where nothing failed.
pub fn run(program: &Program, inputs: u64, seed: u64) -> Result<bool, String> {
    let folder = Folder::new("paths-fuzz")?;
    let column = bytes_of(&log10_column(512));
    let mut tally = Tally::default();
    let mut answers: std::collections::BTreeMap<String, usize> = Default::default();
    for number in 0..inputs {
        let mut random = Random::for_input(seed, number);
        let text = text(&mut random);
        let column = if random.once_in(8) { damaged_column(&mut random, &column) } else { Some(column.clone()) };
        let expected = model::program::output(Some(&text), column.as_deref());
        let first = expected.lines().next().unwrap_or_default();
        *answers.entry(if first.starts_with("refused") { first.into() } else { "accepted".into() }).or_default() += 1;
        let input = store(&folder.0, &text, column.as_deref()).map_err(|e| e.to_string())?;
        tally.add(program.verdict(&folder.0, &input, expected.as_bytes()), || {
            format!("input {number} of seed {seed}\n{}", String::from_utf8_lossy(&text))
        });
    }
    for (answer, count) in answers {
        println!("{answer}: {count}");
    }
    println!("{} passed, {} failed", tally.passed, tally.failed);
    Ok(tally.failed == 0)
}

fn store(folder: &Path, text: &[u8], column: Option<&[u8]>) -> std::io::Result<PathBuf> {
    let path = folder.join("column.f64");
    match column {
        Some(bytes) => fs::write(path, bytes)?,
        None if path.exists() => fs::remove_file(path)?,
        None => {}
    }
    let input = folder.join("input");
    fs::write(&input, text)?;
    Ok(input)
}

/// Healthy text, or healthy text with some damage.
fn text(random: &mut Random) -> Vec<u8> {
    let mut lines = healthy(random);
    let damages = random.pick(&[0, 0, 0, 1, 1, 2, 3]);
    for _ in 0..damages {
        if random.once_in(2) {
            damage_lines(random, &mut lines);
        }
    }
    let mut text = lines.concat();
    for _ in 0..damages {
        if random.once_in(2) {
            damage_bytes(random, &mut text);
        }
    }
    text
}

/// How the reads of an input lie: how many, how long, how often wrong, and by which bytes.
#[derive(Clone)]
struct Shape {
    alphabets: &'static [&'static [u8]],
    k: (usize, usize),
    reference: usize,
    reads: usize,
    span: (usize, usize),
    errors: usize,
    wrong: &'static [u8],
}

const ANY: &[&[u8]] = &[b"AC", b"ACG", b"ACGT", b"ACGT", b"ACGT", b"ACGTN"];

const SHAPES: &[Shape] = &[
    Shape { alphabets: ANY, k: (2, 12), reference: 60, reads: 10, span: (0, 60), errors: 15, wrong: b"ACGTNacgt-.\r" },
    Shape { alphabets: ANY, k: (2, 12), reference: 60, reads: 10, span: (0, 60), errors: 15, wrong: b"ACGT" },
    Shape { alphabets: ANY, k: (6, 20), reference: 124, reads: 30, span: (10, 60), errors: 100, wrong: b"ACGT" },
    Shape { alphabets: ANY, k: (6, 20), reference: 180, reads: 10, span: (10, 60), errors: 200, wrong: b"ACGT" },
    // Short reads: many forks and little guidance, so that many paths wait.
    Shape { alphabets: ANY, k: (3, 5), reference: 50, reads: 40, span: (3, 8), errors: 8, wrong: b"ACGT" },
    Shape { alphabets: ANY, k: (2, 3), reference: 20, reads: 20, span: (3, 6), errors: 6, wrong: b"ACGT" },
    // One or two reads that fork at nearly every base: many trees at once.
    Shape { alphabets: &[b"AC", b"ACG"], k: (3, 4), reference: 32, reads: 3, span: (12, 30), errors: 60, wrong: b"AC" },
    // Few reads over nearly all of the reference.
    Shape { alphabets: ANY, k: (4, 8), reference: 110, reads: 4, span: (60, 110), errors: 12, wrong: b"ACGT" },
];

/// Lines with their line feeds.
fn healthy(random: &mut Random) -> Vec<Vec<u8>> {
    let shape = random.pick(SHAPES);
    let alphabet = random.pick(shape.alphabets);
    let k = random.between(shape.k.0, shape.k.1);
    let (reference, haplotype) = if random.once_in(3) { repeated(random, k, alphabet) } else { plain(random, k + shape.reference, k, alphabet) };
    let paths = random.pick(&[0, 1, 2, 5, 8, 8, 8]);
    let minimum = random.pick(&[0, 10, 10, 20]);
    let threshold = random.pick(&[-1, 0, 1, 2, 3, 4, 5, 1000]);
    let mut lines = vec![format!("{k} {minimum} {paths} {threshold} {}\n", random.below(2)).into_bytes()];
    lines.push([&reference[..], b"\n"].concat());
    for _ in 0..random.between(0, shape.reads) {
        let span = if haplotype.len() > reference.len() && random.once_in(4) { haplotype.len() } else { random.between(shape.span.0, shape.span.1) };
        let span = span.min(haplotype.len());
        let start = if random.once_in(3) { 0 } else { random.between(0, haplotype.len() - span) };
        let mut bases = haplotype[start..start + span].to_vec();
        for base in &mut bases {
            if random.once_in(shape.errors) {
                *base = random.pick(shape.wrong);
            }
        }
        let quality = |random: &mut Random| if random.once_in(40) { random.between(33, 126) as u8 } else { b'I' };
        let qualities: Vec<u8> = bases.iter().map(|_| quality(random)).collect();
        lines.push([&bases[..], b"\n"].concat());
        lines.push([&qualities[..], b"\n"].concat());
    }
    lines
}

/// A reference, and the same to take reads from.
fn plain(random: &mut Random, most: usize, k: usize, alphabet: &[u8]) -> (Vec<u8>, Vec<u8>) {
    let length = random.between(k, most);
    let reference: Vec<u8> = (0..length).map(|_| random.pick(alphabet)).collect();
    (reference.clone(), reference)
}

/// A reference with a piece twice, and a haplotype with that piece more often.
fn repeated(random: &mut Random, k: usize, alphabet: &[u8]) -> (Vec<u8>, Vec<u8>) {
    let mut bases = |n: usize| -> Vec<u8> { (0..n).map(|_| random.pick(alphabet)).collect() };
    let (front, back) = (bases(k), bases(k));
    let (length, times) = random.pick(&[(40, 3), (20, 6), (10, 20), (10, 40)]);
    let length = random.between(1, length);
    let piece: Vec<u8> = (0..length).map(|_| random.pick(alphabet)).collect();
    let times = random.between(2, times);
    let front = if random.once_in(2) { front } else { Vec::new() };
    ([&front[..], &piece.repeat(2), &back].concat(), [&front[..], &piece.repeat(times), &back].concat())
}

fn damage_lines(random: &mut Random, lines: &mut Vec<Vec<u8>>) {
    let at = random.below(lines.len());
    match random.below(8) {
        0..=2 => damage_header(random, &mut lines[0]),
        3 => {
            lines.remove(at);
            if lines.is_empty() {
                lines.push(Vec::new());
            }
        }
        4 => lines.insert(at, lines[at].clone()),
        5 => lines.insert(at, b"\n".to_vec()),
        6 => {
            // One longer or one shorter than its neighbour.
            if random.once_in(2) {
                lines[at].insert(0, random.pick(b"ACGTI"));
            } else if lines[at].len() > 1 {
                lines[at].remove(0);
            }
        }
        _ => {
            // Near the greatest length of all, with reads of one base or of many.
            let total: usize = lines.iter().map(Vec::len).sum();
            let wanted = random.between(8189, 8195);
            let piece = random.pick(&[1usize, 40, 3000]);
            let mut total = total;
            while total + 2 * (piece + 1) <= wanted {
                lines.push([&vec![b'A'; piece][..], b"\n"].concat());
                lines.push([&vec![b'I'; piece][..], b"\n"].concat());
                total += 2 * (piece + 1);
            }
            let rest = wanted.saturating_sub(total);
            if rest >= 2 {
                lines.push([&vec![b'C'; (rest - 2) / 2][..], b"\n"].concat());
                lines.push([&vec![b'I'; rest - 2 - (rest - 2) / 2][..], b"\n"].concat());
            }
        }
    }
}

fn damage_header(random: &mut Random, header: &mut Vec<u8>) {
    let text = String::from_utf8_lossy(header).trim_end_matches('\n').to_owned();
    let mut words: Vec<String> = text.split(' ').map(str::to_owned).collect();
    let at = random.below(words.len());
    const ODD: &[&str] = &[
        "",
        "-",
        "--1",
        "+1",
        "-0",
        "00",
        "007",
        "1",
        "2",
        "8",
        "9",
        "128",
        "129",
        "255",
        "256",
        "-1",
        "-2147483648",
        "-2147483649",
        "2147483647",
        "2147483648",
        "99999999999999999999",
        "000000000000000000000000000003",
        "0x3",
        "1.0",
        "3 ",
        " 3",
        "\t3",
        "3\r",
        "a",
        "1e3",
        "18446744073709551619",
        "4294967299",
    ];
    match random.below(6) {
        0 => drop(words.remove(at)),
        1 => words.insert(at, random.pick(&["0", "1", "3", ""]).to_string()),
        _ => words[at] = random.pick(ODD).to_string(),
    }
    *header = format!("{}\n", words.join(" ")).into_bytes();
}

fn damage_bytes(random: &mut Random, text: &mut Vec<u8>) {
    if text.is_empty() {
        return;
    }
    let at = random.below(text.len());
    let byte = random.pick(&[b'\n', b'\n', b'\r', b' ', b'A', b'n', b'-', b'0', 0, 9, 31, 32, 33, 126, 127, 128, 255]);
    match random.below(5) {
        0 => text[at] = byte,
        1 => text.insert(at, byte),
        2 => drop(text.remove(at)),
        3 => text.truncate(at),
        _ => drop(text.pop()),
    }
}

/// A column file that is missing, of another length, or with an entry that may break the rules.
fn damaged_column(random: &mut Random, column: &[u8]) -> Option<Vec<u8>> {
    let mut bytes = column.to_vec();
    match random.below(6) {
        0 => return None,
        1 => bytes.truncate(random.pick(&[0, 1, 7, 8, 9, 16, 17, 24, 32, 40, 4088, 4095])),
        2 => bytes.extend(vec![0; random.pick(&[1, 7, 8, 9, 16])]),
        3 => bytes.truncate(8 * random.between(2, 30)),
        _ => {
            let at = random.pick(&[0, 1, 1, 2, 3, 4, 5, 10, 511]);
            let odd = [f64::NAN, f64::INFINITY, f64::NEG_INFINITY, -0.0, 0.0, 1e-300, 15.9, 16.0, 16.000000000000004, 17.0, -1.0];
            bytes[8 * at..8 * at + 8].copy_from_slice(&random.pick(&odd).to_le_bytes());
            if random.once_in(2) {
                bytes.truncate(8 * (at + 1).max(2));
            }
        }
    }
    Some(bytes)
}
