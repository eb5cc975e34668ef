//! What is tested: anything that answers the calls. Here the model; the library is in `library`.

use crate::answers::{GraphWritten, Lend, ListWritten, Outcome, Verdict};
use model::{GraphMaxima, ListInput, Sample, SearchMaxima, Told};

pub trait Subject {
    fn lengths(&mut self, k: u32, paths: u32, graph: &GraphMaxima, search: &SearchMaxima, expected: &Outcome<Told>) -> Verdict;

    fn graph(&mut self, sample: &Sample, maxima: &GraphMaxima, lend: Lend, expected: &Outcome<GraphWritten>) -> Verdict;

    fn list(&mut self, sample: &Sample, input: &ListInput, lend: Lend, expected: &Outcome<ListWritten>) -> Verdict;

    /// Whether the bytes lie in the read bases, and where; or what of the call's promise is broken.
    fn origin(&mut self, sample: &Sample, origin: (u32, u32)) -> Result<Outcome<(bool, usize)>, String>;
}

pub struct Model;

impl Subject for Model {
    fn lengths(&mut self, k: u32, paths: u32, graph: &GraphMaxima, search: &SearchMaxima, expected: &Outcome<Told>) -> Verdict {
        Verdict::equal(&model::lengths(k, paths, graph, search), expected)
    }

    fn graph(&mut self, sample: &Sample, maxima: &GraphMaxima, lend: Lend, expected: &Outcome<GraphWritten>) -> Verdict {
        Verdict::equal(&model::graph(sample, maxima, lend.short.is_some()).map(GraphWritten::from), expected)
    }

    fn list(&mut self, sample: &Sample, input: &ListInput, lend: Lend, expected: &Outcome<ListWritten>) -> Verdict {
        Verdict::equal(&model::list(sample, input, lend.short.is_some()).map(ListWritten::from), expected)
    }

    fn origin(&mut self, sample: &Sample, origin: (u32, u32)) -> Result<Outcome<(bool, usize)>, String> {
        Ok(model::origin(sample.k, &sample.reference, &sample.ends, &sample.bases, origin))
    }
}
