//! The calls with maxima and slices at their borders. The model's answer is checked for what the borders say of it, and is what a subject must answer.

use super::{allowance, Counts};
use crate::answers::{GraphWritten, Lend, ListWritten, Outcome, Slice, Verdict};
use crate::random::Random;
use crate::subject::Subject;
use model::{GraphMaxima, GraphRows, ListInput, Listed, Refusal, Sample, SearchMaxima};

pub type Tested = Option<Box<dyn Subject>>;

pub fn passed(verdict: Verdict, call: &str) -> Result<(), String> {
    match verdict {
        Verdict::Failed(why) => Err(format!("{call}: {why}")),
        _ => Ok(()),
    }
}

/// What a call at a border must answer, where the border says so.
fn as_told<T>(call: &str, told: Option<Refusal>, outcome: &Result<T, Refusal>) -> Result<(), String> {
    match told {
        Some(0) if outcome.is_err() => Err(format!("{call}: refused {:?} at maxima that suffice", outcome.as_ref().err())),
        Some(number) if number > 0 && outcome.as_ref().err() != Some(&number) => {
            Err(format!("{call}: {:?}, but {number} is what the maxima say", outcome.as_ref().err()))
        }
        _ => Ok(()),
    }
}

fn lend(random: &mut Random, short: Option<Slice>) -> Lend {
    Lend { short, extra: random.pick(&[0, 0, 1, 7]), seed: random.next() as u32 }
}

/// A maximum outside of its limits, or at one.
fn odd_maximum(random: &mut Random, least: u32, most: u32) -> u32 {
    random.pick(&[0, 1, least, least.wrapping_sub(1), most + 1, most + 1, u32::MAX, 1 << 31])
}

/// With one of the maxima of the graph outside of its limits, or at one.
fn odd_graph_maxima(random: &mut Random, mut m: GraphMaxima) -> GraphMaxima {
    match random.below(3) {
        0 => m.vertices = odd_maximum(random, 2, 4096),
        1 => m.edges = odd_maximum(random, 1, 8192),
        _ => m.nodes = odd_maximum(random, 1, 16384),
    }
    m
}

pub fn least_graph(rows: &GraphRows) -> GraphMaxima {
    GraphMaxima { vertices: rows.vertices, edges: rows.edges.len() as u32, nodes: (rows.nodes.len() as u32).max(1) }
}

/// A maximum that is more than enough, now and then the greatest.
fn roomy(random: &mut Random, least: u32, most: u32) -> u32 {
    if random.once_in(200) {
        most
    } else {
        (least + random.below(20) as u32).min(most)
    }
}

fn roomy_graph(random: &mut Random, least: &GraphMaxima) -> GraphMaxima {
    GraphMaxima { vertices: roomy(random, least.vertices, 4096), edges: roomy(random, least.edges, 8192), nodes: roomy(random, least.nodes, 16384) }
}

/// The call for edges and trees. `full` is the model's answer at the greatest maxima.
pub fn graphs(sample: &Sample, full: &Outcome<GraphRows>, subject: &mut Tested, random: &mut Random, counts: &mut Counts) -> Result<(), String> {
    let mut made: Vec<(GraphMaxima, Option<Slice>, Option<Refusal>)> = Vec::new();
    match full {
        Ok(rows) => {
            let least = least_graph(rows);
            made.push((least, None, Some(0)));
            made.push((roomy_graph(random, &least), None, Some(0)));
            match random.below(4) {
                0 if least.vertices > 2 => made.push((GraphMaxima { vertices: least.vertices - 1, ..least }, None, Some(8))),
                1 if least.edges > 1 => made.push((GraphMaxima { edges: least.edges - 1, ..least }, None, Some(8))),
                2 if least.nodes > 1 => made.push((GraphMaxima { nodes: least.nodes - 1, ..least }, None, Some(9))),
                _ => made.push((GraphMaxima { vertices: least.vertices.max(3) - 1, edges: least.edges.max(2) - 1, nodes: 1 }, None, None)),
            }
            if random.once_in(4) {
                let workspace = Slice::Workspace(random.below(5 /* the slices of its workspace */));
                let slice = random.pick(&[Slice::Edges, Slice::Nodes, workspace, workspace]);
                made.push((roomy_graph(random, &least), Some(slice), Some(7)));
            }
            if random.once_in(8) {
                made.push((odd_graph_maxima(random, least), None, None));
            }
        }
        Err(number @ (8 | 9)) => made.push((GraphMaxima::FULL, None, Some(*number))),
        Err(number) => {
            let small = GraphMaxima { vertices: 20, edges: 30, nodes: 40 };
            made.push((small, None, Some(*number)));
            made.push((small, Some(Slice::Edges), Some(*number)));
            made.push((odd_graph_maxima(random, small), None, Some(*number)));
        }
    }
    for (maxima, short, told) in made {
        let outcome = model::graph(sample, &maxima, short.is_some());
        as_told("graph", told, &outcome)?;
        counts.answer("graph", &outcome);
        let expected = outcome.map(GraphWritten::from);
        if told == Some(0) && expected.as_ref().ok() != full.clone().map(GraphWritten::from).as_ref().ok() {
            return Err("graph: another answer at maxima that suffice".into());
        }
        if let Some(subject) = subject {
            let call = format!("graph {maxima:?} short {short:?}");
            passed(subject.graph(sample, &maxima, lend(random, short), &expected), &call)?;
        }
    }
    Ok(())
}

fn least_search(random: &mut Random, least: &SearchMaxima, exact: bool) -> SearchMaxima {
    if exact {
        return *least;
    }
    SearchMaxima {
        path_edges: roomy(random, least.path_edges, 4096),
        active: roomy(random, least.active, 64),
        pushes: roomy(random, least.pushes, 32768),
    }
}

/// The call for the list. `full` and `graph` are the model's answers at the greatest maxima.
pub fn lists(
    sample: &Sample,
    settings: &ListInput,
    graph: &Outcome<GraphRows>,
    full: &Outcome<Listed>,
    subject: &mut Tested,
    random: &mut Random,
    counts: &mut Counts,
) -> Result<(), String> {
    let mut made: Vec<(ListInput, Option<Slice>, Option<Refusal>)> = Vec::new();
    match (graph, full) {
        (Ok(rows), Ok(listed)) => {
            let tight = ListInput { graph: least_graph(rows), search: least_search(random, &listed.least.search, true), ..settings.clone() };
            let room =
                ListInput { graph: roomy_graph(random, &tight.graph), search: least_search(random, &listed.least.search, false), ..settings.clone() };
            let mut least_column = tight.clone();
            least_column.column.truncate(listed.least.column as usize);
            if settings.paths > 0 {
                let mut one_less = least_column.clone();
                let told = match random.below(4) {
                    0 if tight.search.path_edges > 1 => {
                        one_less.search.path_edges -= 1;
                        Some(11)
                    }
                    1 if tight.search.active > 1 => {
                        one_less.search.active -= 1;
                        Some(11)
                    }
                    2 if tight.search.pushes > 1 => {
                        one_less.search.pushes -= 1;
                        Some(12)
                    }
                    _ if listed.least.column > 2 => {
                        one_less.column.pop();
                        Some(10)
                    }
                    _ => Some(0),
                };
                made.push((one_less, None, told));
                let mut several = room.clone();
                several.search = SearchMaxima {
                    path_edges: random.between(1, listed.least.search.path_edges as usize) as u32,
                    active: random.between(1, listed.least.search.active as usize) as u32,
                    pushes: random.between(1, listed.least.search.pushes as usize) as u32,
                };
                several.column.truncate(random.between(2, listed.least.column as usize));
                made.push((several, None, None));
            }
            let mut smaller = least_column.clone();
            match random.below(12) {
                0 if tight.graph.vertices > 2 => {
                    smaller.graph.vertices -= 1;
                    made.push((smaller, None, Some(8)));
                }
                1 if tight.graph.edges > 1 => {
                    smaller.graph.edges -= 1;
                    made.push((smaller, None, Some(8)));
                }
                2 if tight.graph.nodes > 1 => {
                    smaller.graph.nodes -= 1;
                    made.push((smaller, None, Some(9)));
                }
                _ => {}
            }
            made.push((least_column, None, Some(0)));
            if random.once_in(4) {
                let workspace = Slice::Workspace(random.below(16));
                let slice = random.pick(&[Slice::Paths, Slice::Bases, Slice::Sequences, Slice::Places, workspace]);
                if settings.paths > 0 || slice == workspace {
                    made.push((room.clone(), Some(slice), Some(7)));
                }
            }
            if random.once_in(8) {
                made.push((odd_settings(random, room.clone()), None, None));
            }
            made.push((room, None, Some(0)));
        }
        (Ok(rows), Err(number)) => {
            let mut tight = settings.clone();
            tight.graph = least_graph(rows);
            if matches!(number, 6) {
                tight.search = SearchMaxima { path_edges: 9, active: 3, pushes: 20 };
            }
            made.push((odd_settings(random, tight.clone()), None, None));
            made.push((tight, None, Some(*number)));
        }
        (Err(number), _) => {
            let mut small = settings.clone();
            if *number < 8 {
                small.graph = GraphMaxima { vertices: 20, edges: 30, nodes: 40 };
            }
            small.search = SearchMaxima { path_edges: 9, active: 3, pushes: 20 };
            let told = if *number < 5 || full.as_ref().err() == Some(number) { Some(*number) } else { None };
            made.push((odd_settings(random, small.clone()), None, None));
            made.push((small, None, told));
        }
    }
    for (input, short, told) in made {
        let outcome = model::list(sample, &input, short.is_some());
        as_told("list", told, &outcome)?;
        counts.answer("list", &outcome);
        allowance::holds(sample, &input, graph, &outcome, counts)?;
        let expected = outcome.map(ListWritten::from);
        if told == Some(0) && expected.as_ref().ok() != full.clone().map(ListWritten::from).as_ref().ok() {
            return Err("list: another answer at maxima that suffice".into());
        }
        if let Some(subject) = subject {
            let call = format!("list {:?} {:?} column of {} short {short:?}", input.graph, input.search, input.column.len());
            passed(subject.list(sample, &input, lend(random, short), &expected), &call)?;
        }
    }
    Ok(())
}

/// With the paths asked or a maximum outside of its limits, or at one.
fn odd_settings(random: &mut Random, mut input: ListInput) -> ListInput {
    match random.below(5) {
        0 => input.paths = random.pick(&[0, 128, 129, u32::MAX]),
        1 => input.search.path_edges = odd_maximum(random, 1, 4096),
        2 => input.search.active = odd_maximum(random, 1, 64),
        3 => input.search.pushes = odd_maximum(random, 1, 32768),
        _ => input.graph = odd_graph_maxima(random, input.graph),
    }
    input
}

/// The call for the bytes at an origin: those of edges, at the ends of sequences and beyond, and of no sequence.
pub fn origins(sample: &Sample, graph: &Outcome<GraphRows>, subject: &mut Tested, random: &mut Random, counts: &mut Counts) -> Result<(), String> {
    let mut asked: Vec<(u32, u32)> = Vec::new();
    if let Ok(rows) = graph {
        for _ in 0..4 {
            let edge = random.pick(&rows.edges);
            let origin = (edge[4], edge[5]);
            let answer = model::origin(sample.k, &sample.reference, &sample.ends, &sample.bases, origin);
            let wanted = if edge[1] == rows.vertices - 1 { Some(13) } else { Some(0) };
            as_told("origin of an edge", wanted, &answer)?;
            asked.push(origin);
        }
    }
    let k = i64::from(sample.k);
    for _ in 0..3 {
        let reads = sample.ends.len() as u32;
        let any = random.below(sample.ends.len() + 2) as u32;
        let sequence = random.pick(&[0, 1, any, reads, reads + 1, u32::MAX]);
        let length = if sequence == 0 { sample.reference.len() } else { random.below(40) } as i64;
        let place = random.pick(&[0, 1, length - k - 1, length - k, length, i64::from(u32::MAX), i64::from(u32::MAX) - k]);
        asked.push((sequence, place.clamp(0, i64::from(u32::MAX)) as u32));
    }
    for origin in asked {
        let expected = model::origin(sample.k, &sample.reference, &sample.ends, &sample.bases, origin);
        counts.answer("origin", &expected);
        if let Some(subject) = subject {
            let found = subject.origin(sample, origin).map_err(|why| format!("origin {origin:?}: {why}"))?;
            passed(Verdict::equal(&found, &expected), &format!("origin {origin:?}"))?;
        }
    }
    Ok(())
}

/// The call for lengths.
pub fn lengths(sample: &Sample, subject: &mut Tested, random: &mut Random, counts: &mut Counts) -> Result<(), String> {
    let graph = roomy_graph(random, &GraphMaxima { vertices: 2, edges: 1, nodes: 1 });
    let search = least_search(random, &SearchMaxima { path_edges: 1, active: 1, pushes: 1 }, false);
    let mut input = ListInput { paths: random.below(129) as u32, threshold: 0, recover: false, graph, search, column: Vec::new() };
    let any = random.between(0, 130) as u32;
    let k = random.pick(&[sample.k, 2, 128, any]);
    if random.once_in(3) {
        input = odd_settings(random, input);
    }
    let expected = model::lengths(k, input.paths, &input.graph, &input.search);
    counts.answer("lengths", &expected);
    match subject {
        Some(subject) => passed(subject.lengths(k, input.paths, &input.graph, &input.search, &expected), "lengths"),
        None => Ok(()),
    }
}
