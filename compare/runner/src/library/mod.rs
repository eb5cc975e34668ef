//! The library as a subject: each call over watched buffers, its answer, its rows and every other byte that it was lent; and once more through the
//! safe calls of bindings/rust, all of them in the buffers of one caller (`kept`).

mod kept;
mod list;

use crate::answers::{cut, GraphWritten, Lend, ListWritten, Outcome, Slice, Verdict};
use crate::subject::Subject;
use guarded::buffers::{graph_workspace, GraphBuffers, SampleBuffers, GRAPH_WORKSPACE};
use guarded::lent::{Element, Lent};
use model::{GraphMaxima, ListInput, Sample, SearchMaxima, Told};
use punelavoh::ffi::{GraphAnswer, LengthsCall, LengthsTold, PathRow, Workspace};
use punelavoh::{Caller, Settings};

/// All slices together are never above this.
const MOST_BYTES: usize = 256 << 20;

/// Lent where no length is told, since k or a maximum is outside its limits: the call is refused before it looks at lengths.
const UNTOLD: usize = 3;

type Checked<T> = Result<T, String>;

#[derive(Default)]
pub struct Library {
    caller: Caller,
}

fn graph_maxima(m: &GraphMaxima) -> punelavoh::GraphMaxima {
    punelavoh::GraphMaxima { vertices: m.vertices, edges: m.edges, nodes: m.nodes }
}

fn search_maxima(m: &SearchMaxima) -> punelavoh::SearchMaxima {
    punelavoh::SearchMaxima { path_edges: m.path_edges, active: m.active, pushes: m.pushes }
}

fn borrowed(s: &Sample) -> punelavoh::Sample<'_> {
    punelavoh::Sample { reference: &s.reference, ends: &s.ends, bases: &s.bases, qualities: &s.qualities }
}

/// The settings of the call for edges and trees; it is given no others.
fn graph_settings(s: &Sample, maxima: &GraphMaxima) -> Settings {
    Settings { k: s.k, quality: s.quality, graph: graph_maxima(maxima), ..Settings::default() }
}

fn require(holds: bool, why: impl FnOnce() -> String) -> Checked<()> {
    if holds {
        Ok(())
    } else {
        Err(why())
    }
}

/// Lengths to lend of slices of which `told` are told, numbered as `slices` says; none where the one to be short is told to be empty.
fn lent_lengths<const N: usize>(told: [usize; N], slices: [Slice; N], lend: Lend) -> Option<[usize; N]> {
    let mut lengths = told;
    for (length, slice) in lengths.iter_mut().zip(slices) {
        *length = if lend.short == Some(slice) { length.checked_sub(1)? } else { *length + lend.extra };
    }
    Some(lengths)
}

/// "Workspace after": unchanged after 1 to 7, else zero over the length told; what is beyond is never touched.
fn check_workspace<T: Element>(slice: &Lent<T>, told: usize, refusal: u32, name: &str) -> Checked<()> {
    if (1..=7).contains(&refusal) {
        require(slice.untouched_from(0), || format!("workspace {name}: changed, though refused {refusal}"))
    } else {
        require(slice.zero_up_to(told), || format!("workspace {name}: not zero over {told} elements, or touched beyond"))
    }
}

/// The used rows, one behind the other, and nothing else changed.
fn check_rows<const N: usize>(slice: &Lent<u32>, rows: &[[u32; N]], name: &str) -> Checked<()> {
    let flat = rows.as_flattened();
    let found = slice.slice().get(..flat.len()).unwrap_or_default();
    require(found == flat, || {
        let place = found.iter().zip(flat).position(|(a, b)| a != b).unwrap_or(found.len()) / N;
        let row = found.get(place * N..place * N + N).unwrap_or_default();
        format!("{name}: row {place} is {row:?}, expected {:?}", rows.get(place))
    })?;
    require(slice.untouched_from(flat.len()), || format!("{name}: touched beyond the rows or around the slice"))
}

fn verdict(checked: Checked<()>) -> Verdict {
    match checked {
        Ok(()) => Verdict::Passed,
        Err(why) => Verdict::Failed(why),
    }
}

/// Lengths told for a graph alone: those for no paths and the least search.
fn graph_told(k: u32, maxima: &GraphMaxima) -> LengthsTold {
    LengthsCall { k, paths: 0, graph: graph_maxima(maxima), search: punelavoh::SearchMaxima { path_edges: 1, active: 1, pushes: 1 } }.call()
}

/// Bytes of all slices told.
fn bytes_told(l: &LengthsTold) -> usize {
    let w = &l.workspace;
    let graph = w.vertices + w.edges + w.index + w.nodes + w.open;
    let search = w.targets + w.paths + w.queue + w.closed + w.order + w.marks + w.walks + 2 * w.columns;
    4 * (l.edges + l.nodes + 2 * l.origins + graph + search) + 2 * w.active + 8 * (w.scores + w.columns) + l.bases + l.paths * size_of::<PathRow>()
}

fn check_lengths(k: u32, paths: u32, graph: &GraphMaxima, search: &SearchMaxima, expected: &Outcome<Told>) -> Checked<()> {
    let found = LengthsCall { k, paths, graph: graph_maxima(graph), search: search_maxima(search) }.call();
    match expected {
        Err(number) => {
            let refused = LengthsTold { refusal: *number, ..LengthsTold::default() };
            require(found == refused, || format!("found {found:?}, expected refusal {number} and 0 in every other field"))
        }
        Ok(t) => {
            let told = LengthsTold {
                refusal: 0,
                edges: t.edges,
                nodes: t.nodes,
                paths: t.paths,
                bases: t.bases,
                origins: t.origins,
                workspace: found.workspace,
            };
            require(found == told, || format!("found {found:?}, expected {t:?}"))?;
            require(bytes_told(&found) <= MOST_BYTES, || format!("more than 256 MiB: {found:?}"))?;
            let alone = graph_told(k, graph);
            require(graph_workspace(&found.workspace) == graph_workspace(&alone.workspace), || {
                format!("workspace of the graph depends on the search: {:?} and {:?}", found.workspace, alone.workspace)
            })
        }
    }
}

fn check_graph(sample: &Sample, maxima: &GraphMaxima, lend: Lend, expected: &Outcome<GraphWritten>) -> Option<Checked<()>> {
    let mut told = graph_told(sample.k, maxima);
    if told.refusal != 0 {
        let w = UNTOLD;
        told = LengthsTold {
            edges: w,
            nodes: w,
            workspace: Workspace { vertices: w, edges: w, index: w, nodes: w, open: w, ..Workspace::default() },
            ..told
        };
    }
    let work = graph_workspace(&told.workspace);
    let [edges, nodes] = lent_lengths([told.edges, told.nodes], [Slice::Edges, Slice::Nodes], lend)?;
    let lent_work = lent_lengths(work, std::array::from_fn(Slice::Workspace), lend)?;
    let handed = SampleBuffers::new(&borrowed(sample), lend.seed);
    let mut buffers = GraphBuffers::new(edges, nodes, lent_work, lend.seed);
    let none = GraphWritten { edges: Vec::new(), nodes: Vec::new() };
    let (refusal, written) = match expected {
        Ok(written) => (0, written),
        Err(number) => (*number, &none),
    };
    let wanted = GraphAnswer { refusal, edges: written.edges.len() as u32, nodes: written.nodes.len() as u32 };
    let mut call_and_check = || {
        let answer = buffers.call(&graph_settings(sample, maxima), handed.sample());
        require(answer == wanted, || format!("found {answer:?}, expected {wanted:?}"))?;
        check_rows(&buffers.edges, &written.edges, "edges")?;
        check_rows(&buffers.nodes, &written.nodes, "nodes")?;
        for ((slice, told), name) in buffers.workspace.iter().zip(work).zip(GRAPH_WORKSPACE) {
            check_workspace(slice, told, refusal, name)?;
        }
        require(handed.still_holds(&borrowed(sample)), || "what was handed in has changed".into())
    };
    // Twice: over the pattern, then in the same buffers as the first call left them.
    Some(call_and_check().and_then(|()| call_and_check().map_err(|why| format!("{why}; in the same buffers once more"))))
}

impl Subject for Library {
    fn lengths(&mut self, k: u32, paths: u32, graph: &GraphMaxima, search: &SearchMaxima, expected: &Outcome<Told>) -> Verdict {
        verdict(check_lengths(k, paths, graph, search, expected))
    }

    fn graph(&mut self, sample: &Sample, maxima: &GraphMaxima, lend: Lend, expected: &Outcome<GraphWritten>) -> Verdict {
        let Some(mut checked) = check_graph(sample, maxima, lend, expected) else { return Verdict::Skipped };
        // A caller lends what is told: none of its slices can be short.
        if lend.short.is_none() {
            checked = checked.and_then(|()| kept::check_graph(&mut self.caller, sample, maxima, expected));
        }
        verdict(checked)
    }

    fn list(&mut self, sample: &Sample, input: &ListInput, lend: Lend, expected: &Outcome<ListWritten>) -> Verdict {
        let Some(mut checked) = list::check_list(sample, input, lend, expected) else { return Verdict::Skipped };
        if lend.short.is_none() {
            checked = checked.and_then(|()| kept::check_list(&mut self.caller, sample, input, expected));
        }
        verdict(checked)
    }

    fn origin(&mut self, sample: &Sample, origin: (u32, u32)) -> Result<Outcome<(bool, usize)>, String> {
        let handed = SampleBuffers::new(&borrowed(sample), origin.1);
        let answer = handed.origin(sample.k, origin.0, origin.1);
        require(handed.still_holds(&borrowed(sample)), || "what was handed in has changed".into())?;
        if answer.refusal != 0 {
            let others = (answer.in_reads, answer.start, answer.length);
            require(others == (0, 0, 0), || format!("refused, but not 0 in every other field: {answer:?}"))?;
            kept::check_origin(sample, origin, Err(answer.refusal))?;
            return Ok(Err(answer.refusal));
        }
        let whole = if answer.in_reads == 0 { &sample.reference } else { &sample.bases };
        let fits = answer.in_reads <= 1
            && answer.length == sample.k as usize + 1
            && answer.start.checked_add(answer.length).is_some_and(|end| end <= whole.len());
        require(fits, || format!("not k+1 bytes of what it lies in: {}", cut(&answer)))?;
        kept::check_origin(sample, origin, Ok(&whole[answer.start..answer.start + answer.length]))?;
        Ok(Ok((answer.in_reads == 1, answer.start)))
    }
}
