//! The allowance that always suffices: the pushes of no search pass it, and where it is the maximum of pushes, 12 is never the answer.

use super::calls::{least_graph, passed, Tested};
use super::Counts;
use crate::answers::{Lend, ListWritten, Outcome};
use model::allowance::enough;
use model::{GraphRows, ListInput, Listed, Refusal, Sample, SearchMaxima};

/// The pushes that a list tells, or that were made before 11 or 12, against the formula; and where the maxima reach it, the answer against 12.
pub fn holds(sample: &Sample, input: &ListInput, graph: &Outcome<GraphRows>, list: &Outcome<Listed>, counts: &mut Counts) -> Result<(), String> {
    if let (Ok(rows), Some(pushes)) = (graph, pushes_of(sample, input, list)) {
        let allowed = enough(rows.edges.len() as u32, rows.nodes.len() as u32, input.search.path_edges);
        if u128::from(pushes) > allowed {
            return Err(format!("list {:?}: {pushes} pushes, but {allowed} should be enough", input.search));
        }
        counts.compared("pushes with the allowance");
    }
    if of_maxima(input) <= u128::from(input.search.pushes) {
        not_full(list.as_ref().err().copied())?;
        counts.compared("maxima of pushes that always suffice");
    }
    Ok(())
}

/// One call more, at the greatest path-edge maximum whose allowance is within the limit of pushes.
pub fn suffices(sample: &Sample, settings: &ListInput, graph: &Outcome<GraphRows>, subject: &mut Tested, counts: &mut Counts) -> Result<(), String> {
    let Ok(rows) = graph else { return Ok(()) };
    let at = |path_edges| {
        let search = SearchMaxima { path_edges, ..SearchMaxima::FULL };
        let input = ListInput { graph: least_graph(rows), search, ..settings.clone() };
        let pushes = u32::try_from(of_maxima(&input)).ok().filter(|&pushes| pushes <= SearchMaxima::FULL.pushes)?;
        Some(ListInput { search: SearchMaxima { pushes, ..search }, ..input })
    };
    let Some(input) = (1..).map_while(at).last() else { return Ok(()) };
    let expected = model::list(sample, &input, false).map(ListWritten::from);
    not_full(expected.as_ref().err().copied())?;
    counts.compared("maxima of pushes that always suffice");
    match subject {
        Some(subject) => passed(subject.list(sample, &input, Lend::default(), &expected), "list at the allowance"),
        None => Ok(()),
    }
}

fn of_maxima(input: &ListInput) -> u128 {
    enough(input.graph.edges, input.graph.nodes, input.search.path_edges)
}

fn not_full(refusal: Option<Refusal>) -> Result<(), String> {
    match refusal {
        Some(12) => Err("list: 12, though the maximum of pushes always suffices".into()),
        _ => Ok(()),
    }
}

fn pushes_of(sample: &Sample, input: &ListInput, list: &Outcome<Listed>) -> Option<u32> {
    match list {
        Ok(listed) => Some(listed.pushes),
        Err(11 | 12) => model::effort(sample, input).ok().map(|effort| effort.pushes),
        Err(_) => None,
    }
}
