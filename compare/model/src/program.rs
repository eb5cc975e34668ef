//! The program `paths`: its text form, and what it prints.

use crate::{limits, list, GraphMaxima, ListInput, Refusal, Sample, SearchMaxima};
use std::fmt::Write;

const MOST_INPUT: usize = 8192;
const MOST_COLUMN: usize = 512;
const MOST_PATHS: i32 = 8;
const GRAPH: GraphMaxima = GraphMaxima { vertices: 128, edges: 256, nodes: 256 };
const SEARCH: SearchMaxima = SearchMaxima { path_edges: 128, active: 8, pushes: 128 };

/// The text as it was read: numbers of the header and lines of the rest.
struct Text<'a> {
    k: i32,
    quality: u8,
    paths: i32,
    threshold: i32,
    recover: bool,
    reference: &'a [u8],
    reads: Vec<(&'a [u8], &'a [u8])>,
}

/// The whole output, for standard input and what `column.f64` holds; none is what could not be read whole, or a file that is missing.
pub fn output(input: Option<&[u8]>, column: Option<&[u8]>) -> String {
    match run(input, column) {
        Ok(text) => text,
        Err(number) => format!("refused {number}\n"),
    }
}

fn run(input: Option<&[u8]>, column: Option<&[u8]>) -> Result<String, Refusal> {
    let text = input.and_then(read).ok_or(14u32)?;
    let column = read_column(column).ok_or(14u32)?;
    let sample = sample(&text)?;
    if !(0..=MOST_PATHS).contains(&text.paths) {
        return Err(5);
    }
    let paths = text.paths as u32;
    let listed = list(&sample, &ListInput { paths, threshold: text.threshold, recover: text.recover, graph: GRAPH, search: SEARCH, column }, false)?;
    let mut out = format!("paths {} pushes {}\n", listed.rows.len(), listed.pushes);
    for (i, row) in listed.rows.iter().enumerate() {
        let bases = String::from_utf8_lossy(&row.bases);
        writeln!(out, "{} {:016x} {} {} {}", i + 1, row.score.to_bits(), row.closing, row.origins.len(), bases).expect("a string takes all");
    }
    Ok(out)
}

/// Refusals 1 to 4, 4 also where a read's two lines are of unequal length.
fn sample(text: &Text) -> Result<Sample, Refusal> {
    let k = u32::try_from(text.k).map_err(|_| 1u32)?;
    limits::k(k)?;
    limits::reference(k, text.reference)?;
    let mut sample = Sample::new(k, text.quality, text.reference);
    for (bases, qualities) in &text.reads {
        if bases.len() != qualities.len() {
            return Err(4);
        }
        let qualities: Vec<u8> = qualities.iter().map(|q| q - 33).collect();
        sample.push(bases, &qualities);
    }
    limits::sample(&sample)?;
    Ok(sample)
}

fn read(input: &[u8]) -> Option<Text<'_>> {
    if input.len() > MOST_INPUT {
        return None;
    }
    // "lines ended by line feeds": nothing stands behind the last one.
    let mut lines: Vec<&[u8]> = input.split(|&b| b == b'\n').collect();
    if lines.pop() != Some(&[]) || lines.len() < 2 || !lines.len().is_multiple_of(2) {
        return None;
    }
    let numbers: Option<Vec<i32>> = lines[0].split(|&b| b == b' ').map(number).collect();
    let &[k, quality, paths, threshold, recover] = &numbers?[..] else { return None };
    let reads: Vec<(&[u8], &[u8])> = lines[2..].chunks(2).map(|pair| (pair[0], pair[1])).collect();
    if reads.iter().any(|(_, qualities)| qualities.iter().any(|q| !(33..=126).contains(q))) {
        return None;
    }
    Some(Text {
        k,
        quality: u8::try_from(quality).ok()?,
        paths,
        threshold,
        recover: match recover {
            0 => false,
            1 => true,
            _ => return None,
        },
        reference: lines[1],
        reads,
    })
}

/// An optional `-` and digits, within i32.
fn number(text: &[u8]) -> Option<i32> {
    let (negative, digits) = match text {
        [b'-', rest @ ..] => (true, rest),
        _ => (false, text),
    };
    if digits.is_empty() {
        return None;
    }
    let mut value: i64 = 0;
    for &digit in digits {
        if !digit.is_ascii_digit() {
            return None;
        }
        value = (value * 10 + i64::from(digit - b'0')).min(1 << 40);
    }
    i32::try_from(if negative { -value } else { value }).ok()
}

fn read_column(bytes: Option<&[u8]>) -> Option<Vec<f64>> {
    let bytes = bytes?;
    if bytes.len() % 8 != 0 || bytes.len() > 8 * MOST_COLUMN {
        return None;
    }
    Some(bytes.chunks(8).map(|c| f64::from_le_bytes(c.try_into().expect("eight bytes"))).collect())
}
