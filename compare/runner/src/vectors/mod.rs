//! `vectors`: replays files of calls with their answers through a subject.

mod parse;

use crate::answers::{Lend, Outcome, Slice, Tally, Verdict};
use crate::subject::Subject;
use model::input::log10_column;
use model::{ListInput, Sample};
use parse::{Call, Column, Kind};

/// True where nothing failed.
pub fn run(subject: &mut dyn Subject, files: &[String]) -> Result<bool, String> {
    let log10 = log10_column(65536);
    let mut total = Tally::default();
    for file in files {
        let text = std::fs::read(file).map_err(|e| format!("{file}: {e}"))?;
        let cases = parse::parse(&text).map_err(|why| format!("{file}: {why}"))?;
        let mut tally = Tally::default();
        for case in &cases {
            for call in &case.calls {
                replay(subject, &case.sample, call, &log10, &mut tally, &format!("{file}:{} {}", call.line, case.name));
            }
        }
        println!("{file}: {} cases, {} passed, {} failed, {} skipped", cases.len(), tally.passed, tally.failed, tally.skipped);
        total.passed += tally.passed;
        total.failed += tally.failed;
        total.skipped += tally.skipped;
    }
    println!("{} passed, {} failed, {} skipped", total.passed, total.failed, total.skipped);
    Ok(total.failed == 0 && total.passed > 0)
}

fn replay(subject: &mut dyn Subject, sample: &Sample, call: &Call, log10: &[f64], tally: &mut Tally, place: &str) {
    let place = || place.to_owned();
    match &call.kind {
        Kind::Graph { maxima, short, expected } => {
            for lend in lends(short, call.line) {
                tally.add(subject.graph(sample, maxima, lend, expected), place);
            }
        }
        Kind::List { paths, threshold, recover, graph, search, column, short, expected } => {
            let column = match column {
                Column::Log10(places) => log10_of(log10, *places),
                Column::Bits(entries) => entries.clone(),
            };
            let input = ListInput { paths: *paths, threshold: *threshold, recover: *recover, graph: *graph, search: *search, column };
            for lend in lends(short, call.line) {
                tally.add(subject.list(sample, &input, lend, expected), place);
            }
        }
        Kind::Origin { origin, expected } => tally.add(origin_verdict(subject, sample, *origin, expected), place),
        Kind::Lengths { k, paths, graph, search, expected } => {
            tally.add(subject.lengths(*k, *paths, graph, search, expected), place);
        }
    }
}

/// One call for each slice that is to be short, or one of exact or greater lengths.
fn lends(short: &[Slice], line: usize) -> Vec<Lend> {
    let seed = line as u32;
    if short.is_empty() {
        return vec![Lend { short: None, extra: if line.is_multiple_of(2) { 0 } else { 5 }, seed }];
    }
    short.iter().map(|&slice| Lend { short: Some(slice), extra: 0, seed }).collect()
}

fn log10_of(log10: &[f64], places: usize) -> Vec<f64> {
    match log10.get(..places) {
        Some(column) => column.to_vec(),
        None => log10_column(places),
    }
}

fn origin_verdict(subject: &mut dyn Subject, sample: &Sample, origin: (u32, u32), expected: &Outcome<Vec<u8>>) -> Verdict {
    let answer = match subject.origin(sample, origin) {
        Ok(answer) => answer,
        Err(why) => return Verdict::Failed(why),
    };
    let bytes = answer.map(|(in_reads, start)| {
        let within = if in_reads { &sample.bases } else { &sample.reference };
        within.get(start..start + sample.k as usize + 1).map(<[u8]>::to_vec).unwrap_or_default()
    });
    Verdict::equal(&bytes, expected)
}
