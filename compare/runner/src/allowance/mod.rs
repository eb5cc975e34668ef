//! `allowance`: the pushes of searches beside the formula that they can never pass, and beside smaller ones that they do pass.
//!
//! Each search is made by the model without a maximum of pushes, and by the original where it ends in a list; then by the subject, with the pushes made
//! as maximum, with one less, and, where it is within its limit, with the formula as maximum.

mod bubbles;
mod examples;
mod worked;

use crate::answers::{Lend, ListWritten, Tally, Verdict};
use crate::fuzz::reads_of;
use crate::subject::Subject;
use bubbles::Ending;
use model::allowance::{enough, enough_log10};
use model::input::log10_column;
use model::{Effort, GraphMaxima, ListInput, Refusal, Sample, SearchMaxima};

/// What a formula may be reckoned from.
struct Sizes {
    vertices: u128,
    edges: u128,
    nodes: u128,
    path_edges: u128,
}

/// A number of pushes from these.
#[derive(Clone, Copy)]
struct Formula {
    text: &'static str,
    of: fn(&Sizes) -> u128,
}

/// A search and what is known of it.
struct Case {
    name: String,
    sample: Sample,
    /// With the greatest maximum of pushes.
    input: ListInput,
    pushes: Option<u32>,
    /// The longest waiting list.
    longest: Option<u32>,
    refusal: Option<Refusal>,
    /// A smaller formula, and whether the pushes pass it.
    passes: Option<(Formula, bool)>,
}

/// Bubbles from here on make more pushes than (1+E)*(1+L).
const PASSING_BUBBLES: u32 = 12;
/// With one more, the pushes are above their limit.
const MOST_BUBBLES: u32 = 13;
/// Up to here the list has room for each path that bubbles make.
const MOST_CLOSING_BUBBLES: u32 = 7;

/// True where nothing failed.
pub fn run(subject: &mut dyn Subject) -> Result<bool, String> {
    let mut tally = Tally::default();
    println!("| search | V | E | N | longest path | formula of it | L | formula of L | pushes | waiting | ended |");
    println!("|---|---|---|---|---|---|---|---|---|---|---|");
    for case in cases()? {
        let verdict = match check(&case, subject) {
            Ok(()) => Verdict::Passed,
            Err(why) => Verdict::Failed(why),
        };
        tally.add(verdict, || case.name.clone());
    }
    println!("{} passed, {} failed", tally.passed, tally.failed);
    Ok(tally.failed == 0)
}

fn cases() -> Result<Vec<Case>, String> {
    let mut cases = worked::cases()?;
    cases.extend(examples::cases());
    cases.extend((1..=MOST_BUBBLES).map(|m| row_of_bubbles(m, Ending::Leaves)));
    cases.extend((1..=MOST_CLOSING_BUBBLES).map(|m| row_of_bubbles(m, Ending::Closes)));
    Ok(cases)
}

fn row_of_bubbles(bubbles: u32, ending: Ending) -> Case {
    let search = SearchMaxima { path_edges: bubbles::path_edges(bubbles), ..SearchMaxima::FULL };
    let input = ListInput { paths: 128, threshold: i32::MAX, recover: false, graph: GraphMaxima::FULL, search, column: log10_column(4096) };
    let name = match ending {
        Ending::Leaves => format!("bubbles {bubbles}"),
        Ending::Closes => format!("bubbles {bubbles}, all listed"),
    };
    Case {
        name,
        sample: bubbles::sample(bubbles, ending),
        input,
        pushes: Some(bubbles::pushes(bubbles)),
        longest: Some(bubbles + 1),
        refusal: None,
        passes: Some((examples::LINEAR, bubbles >= PASSING_BUBBLES)),
    }
}

/// What is known of a case, of the model; then the subject at the maxima of pushes that matter.
fn check(case: &Case, subject: &mut dyn Subject) -> Result<(), String> {
    let boundless = SearchMaxima { active: u32::MAX, pushes: u32::MAX, ..case.input.search };
    let effort = model::effort(&case.sample, &ListInput { search: boundless, ..case.input.clone() }).map_err(|n| format!("no search: {n}"))?;
    print_row(&case.name, &effort, case.input.search.path_edges);
    as_known(case, &effort)?;
    as_original(case, &effort)?;
    let allowed = sufficient(&effort, case.input.search.path_edges);
    require(u128::from(effort.pushes) <= allowed, || format!("{} pushes, but {allowed} should be enough", effort.pushes))?;
    at_maximum(case, subject, effort.pushes, effort.refusal)?;
    if effort.pushes > 1 {
        at_maximum(case, subject, effort.pushes - 1, Some(12))?;
    }
    match u32::try_from(allowed) {
        Ok(allowed) if allowed <= SearchMaxima::FULL.pushes => at_maximum(case, subject, allowed, effort.refusal),
        _ => Ok(()),
    }
}

fn sufficient(effort: &Effort, path_edges: u32) -> u128 {
    enough(effort.edges, effort.nodes, path_edges)
}

fn as_known(case: &Case, effort: &Effort) -> Result<(), String> {
    let known = (case.pushes.unwrap_or(effort.pushes), case.longest.unwrap_or(effort.longest));
    let found = (effort.pushes, effort.longest);
    require(found == known, || format!("pushes and longest waiting list {found:?}, expected {known:?}"))?;
    require(effort.refusal == case.refusal, || format!("refused {:?}, expected {:?}", effort.refusal, case.refusal))?;
    let Some((smaller, passes)) = case.passes else { return Ok(()) };
    let path_edges = case.input.search.path_edges.into();
    let most = (smaller.of)(&Sizes { vertices: effort.vertices.into(), edges: effort.edges.into(), nodes: effort.nodes.into(), path_edges });
    require((u128::from(effort.pushes) > most) == passes, || format!("{} pushes, {} is {most}, passed: {passes}", effort.pushes, smaller.text))
}

/// The original has no maxima, so that only a search without a refusal can be compared.
fn as_original(case: &Case, effort: &Effort) -> Result<(), String> {
    if effort.refusal.is_some() {
        return Ok(());
    }
    let (s, input) = (&case.sample, &case.input);
    let graph = original::patched::build(s.k as usize, s.quality, &s.reference, &reads_of(s));
    let pushes = graph.list(input.paths as usize, input.threshold, input.recover, &input.column).pushes;
    require(pushes == effort.pushes as usize, || format!("{} pushes, but {pushes} of the original", effort.pushes))
}

/// The call for the list at a maximum of pushes: the model's answer is a list or the refusal told, and is the subject's too.
fn at_maximum(case: &Case, subject: &mut dyn Subject, pushes: u32, refusal: Option<Refusal>) -> Result<(), String> {
    let search = SearchMaxima { pushes, ..case.input.search };
    let input = ListInput { search, ..case.input.clone() };
    let expected = model::list(&case.sample, &input, false).map(ListWritten::from);
    require(expected.as_ref().err().copied() == refusal, || format!("at {pushes} pushes {:?}, expected {refusal:?}", expected.as_ref().err()))?;
    match subject.list(&case.sample, &input, Lend { seed: pushes, ..Lend::default() }, &expected) {
        Verdict::Failed(why) => Err(format!("at {pushes} pushes: {why}")),
        _ => Ok(()),
    }
}

fn require(holds: bool, why: impl FnOnce() -> String) -> Result<(), String> {
    if holds {
        Ok(())
    } else {
        Err(why())
    }
}

/// A row for docs/ALLOWANCE.md. The path-edge maximum just large enough is the longest path, unless a path is refused.
fn print_row(name: &str, effort: &Effort, path_edges: u32) {
    let Effort { vertices, edges, nodes, pushes, longest, closed, .. } = effort;
    let least = effort.path_edges.max(1);
    let (least, of_least, ended) = match effort.refusal {
        None => (least.to_string(), number(effort, least), format!("list of {closed}")),
        Some(refusal) => ("-".into(), "-".into(), refusal.to_string()),
    };
    let of_maximum = number(effort, path_edges);
    println!("| {name} | {vertices} | {edges} | {nodes} | {least} | {of_least} | {path_edges} | {of_maximum} | {pushes} | {longest} | {ended} |");
}

/// The formula, as a power of ten from 10^9 on.
fn number(effort: &Effort, path_edges: u32) -> String {
    match sufficient(effort, path_edges) {
        exact if exact < 1_000_000_000 => exact.to_string(),
        _ => format!("10^{:.1}", enough_log10(effort.edges, effort.nodes, path_edges)),
    }
}
