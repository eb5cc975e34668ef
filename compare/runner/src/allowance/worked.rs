//! The worked cases of document 01 that have a list, and the inputs of vectors/bench.

use super::Case;
use crate::bench::inputs;
use model::input::log10_column;
use model::{GraphMaxima, ListInput, Sample, SearchMaxima};

const REFERENCE: &str = "CAACTGG";
const READ_A: (&str, &str) = ("CAAGTGG", "IIIIIII");
const READ_B: (&str, &str) = ("CAACTGG", "IIIIIII");
const LOW_READ_A: (&str, &str) = ("CAAGTGG", "III#III");

/// Number, reference, reads, threshold, recovery, pushes.
type Worked = (u32, &'static str, &'static [(&'static str, &'static str)], i32, bool, u32);

const WORKED: &[Worked] = &[
    (1, "ACGTA", &[], 5, false, 2),
    (2, "ACG", &[], 5, false, 2),
    (5, REFERENCE, &[READ_A], 2, false, 4),
    (6, REFERENCE, &[READ_A, READ_B], 5, false, 7),
    (7, REFERENCE, &[READ_A, READ_B], 4, false, 4),
    (8, REFERENCE, &[READ_A, READ_B], 4, true, 4),
    (12, REFERENCE, &[LOW_READ_A], 5, false, 2),
];

/// All of them; the worked cases under the path-edge maximum of `paths`, the others under the greatest.
pub fn cases() -> Result<Vec<Case>, String> {
    let mut cases: Vec<Case> = WORKED.iter().map(worked).collect();
    for file in inputs::files()? {
        cases.push(timed(inputs::read(&file)?));
    }
    Ok(cases)
}

fn worked(&(number, reference, reads, threshold, recover, pushes): &Worked) -> Case {
    let mut sample = Sample::new(3, 10, reference.as_bytes());
    for (bases, qualities) in reads {
        sample.push(bases.as_bytes(), &qualities.bytes().map(|q| q - 33).collect::<Vec<u8>>());
    }
    let search = SearchMaxima { path_edges: 128, ..SearchMaxima::FULL };
    let input = ListInput { paths: 5, threshold, recover, graph: GraphMaxima::FULL, search, column: vec![0.0, 0.0, 1.0, 1.5, 2.0] };
    Case { name: format!("case {number}"), sample, input, pushes: Some(pushes), longest: None, refusal: None, passes: None }
}

fn timed(input: inputs::Input) -> Case {
    let inputs::Input { name, sample, paths, threshold, recover } = input;
    let settings = ListInput { paths, threshold, recover, graph: GraphMaxima::FULL, search: SearchMaxima::FULL, column: log10_column(65536) };
    Case { name: format!("bench {name}"), sample, input: settings, pushes: None, longest: None, refusal: None, passes: None }
}
