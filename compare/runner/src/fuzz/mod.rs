//! `fuzz`: random inputs through the original, the model and, where there is one, the library.
//!
//! Each input's graph and list at the greatest maxima are compared between model and original (`against`); then the calls are made with maxima and
//! slices at their borders (`calls`), the model's answers being what the library's must be.

mod against;
mod allowance;
mod calls;
mod generate;
mod limits;

pub use against::reads_of;

use crate::answers::Tally;
use crate::answers::Verdict;
use crate::random::Random;
use crate::subject::Subject;
use model::input::log10_column;
use model::{GraphMaxima, ListInput, Sample, SearchMaxima};
use std::collections::BTreeMap;
use std::fmt::Write;
use std::panic::{catch_unwind, AssertUnwindSafe};

/// What was met, by name.
#[derive(Default)]
pub struct Counts {
    kinds: BTreeMap<&'static str, usize>,
    answers: BTreeMap<(&'static str, u32), usize>,
    compared: BTreeMap<&'static str, usize>,
}

impl Counts {
    /// An answer of a call: a refusal, or 0 for none.
    pub fn answer<T>(&mut self, call: &'static str, outcome: &Result<T, u32>) {
        *self.answers.entry((call, outcome.as_ref().err().copied().unwrap_or(0))).or_default() += 1;
    }

    pub fn compared(&mut self, what: &'static str) {
        *self.compared.entry(what).or_default() += 1;
    }

    fn print(&self) {
        for kind in generate::kinds() {
            println!("kind {kind}: {}", self.kinds.get(kind).copied().unwrap_or(0));
        }
        for ((call, refusal), count) in &self.answers {
            match refusal {
                0 => println!("{call} accepted: {count}"),
                _ => println!("{call} refused {refusal}: {count}"),
            }
        }
        for (what, count) in &self.compared {
            println!("compared {what}: {count}");
        }
    }
}

/// True where nothing failed. Without a subject the model is compared with the original only.
pub fn run(mut subject: Option<Box<dyn Subject>>, inputs: u64, seed: u64) -> Result<bool, String> {
    let log10 = log10_column(65536);
    let mut counts = Counts::default();
    let mut tally = Tally::default();
    for number in 0..inputs {
        let mut random = Random::for_input(seed, number);
        let input = generate::input(&mut random, &log10);
        *counts.kinds.entry(input.kind).or_default() += 1;
        let checked = catch_unwind(AssertUnwindSafe(|| check(&input, &mut subject, &mut random, &mut counts)));
        let verdict = match checked {
            Ok(Ok(())) => Verdict::Passed,
            Ok(Err(why)) => Verdict::Failed(why),
            Err(_) => Verdict::Failed("panicked".into()),
        };
        tally.add(verdict, || format!("input {number} of seed {seed}, {}\n{}", input.kind, described(&input)));
    }
    counts.print();
    println!("{} passed, {} failed", tally.passed, tally.failed);
    Ok(tally.failed == 0)
}

fn check(input: &generate::Input, subject: &mut Option<Box<dyn Subject>>, random: &mut Random, counts: &mut Counts) -> Result<(), String> {
    let sample = &input.sample;
    let graph = model::graph(sample, &GraphMaxima::FULL, false);
    let settings = ListInput {
        paths: input.paths,
        threshold: input.threshold,
        recover: input.recover,
        graph: GraphMaxima::FULL,
        search: SearchMaxima::FULL,
        column: input.column.clone(),
    };
    let list = model::list(sample, &settings, false);
    against::original(input, &graph, &list, counts)?;
    calls::graphs(sample, &graph, subject, random, counts)?;
    calls::lists(sample, &settings, &graph, &list, subject, random, counts)?;
    allowance::suffices(sample, &settings, &graph, subject, counts)?;
    calls::origins(sample, &graph, subject, random, counts)?;
    calls::lengths(sample, subject, random, counts)
}

/// The input, in the format of the vectors.
fn described(input: &generate::Input) -> String {
    let s: &Sample = &input.sample;
    let hex = |bytes: &[u8]| bytes.iter().fold(String::new(), |text, b| text + &format!("{b:02x}"));
    let mut text = format!("k {}\nminq {}\nrefx {}\n", s.k, s.quality, hex(&s.reference));
    let _ = writeln!(text, "rawbases {}\nrawquals {}\nrawends {:?}", hex(&s.bases), hex(&s.qualities), s.ends);
    let _ = write!(text, "paths {} threshold {} recover {} column of {}", input.paths, input.threshold, input.recover, input.column.len());
    text
}
