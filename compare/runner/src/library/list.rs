//! The call for the list.

use super::*;
use crate::answers::PathWritten;
use guarded::buffers::{list_scores, list_workspace, ListBuffers, LIST_WORKSPACE};
use punelavoh::ffi::Flag;

/// The number slices of the workspace as `Slice` numbers them, behind them the active nodes and the two of scores.
const ACTIVE: usize = LIST_WORKSPACE.len();
const SCORES: usize = ACTIVE + 1;

/// What the call is asked for.
pub fn list_settings(sample: &Sample, input: &ListInput) -> Settings {
    Settings {
        k: sample.k,
        quality: sample.quality,
        asked: input.paths,
        threshold: input.threshold,
        recovery: input.recover,
        graph: graph_maxima(&input.graph),
        search: search_maxima(&input.search),
    }
}

pub fn check_list(sample: &Sample, input: &ListInput, lend: Lend, expected: &Outcome<ListWritten>) -> Option<Checked<()>> {
    let settings = list_settings(sample, input);
    let mut told = LengthsCall { k: sample.k, paths: input.paths, graph: settings.graph, search: settings.search }.call();
    if told.refusal != 0 {
        told = LengthsTold { paths: UNTOLD, bases: UNTOLD, origins: UNTOLD, ..told };
    }
    let work = list_workspace(&told.workspace);
    let outputs = [told.paths, told.bases, told.origins, told.origins];
    let lent = lent_lengths(outputs, [Slice::Paths, Slice::Bases, Slice::Sequences, Slice::Places], lend)?;
    let lent_work = lent_lengths(work, std::array::from_fn(Slice::Workspace), lend)?;
    let [lent_active] = lent_lengths([told.workspace.active], [Slice::Workspace(ACTIVE)], lend)?;
    let scores = list_scores(&told.workspace);
    let lent_scores = lent_lengths(scores, [Slice::Workspace(SCORES), Slice::Workspace(SCORES + 1)], lend)?;
    let handed = SampleBuffers::new(&borrowed(sample), lend.seed);
    let column = Lent::holding(&input.column, lend.seed);
    let mut buffers = ListBuffers::new(lent, lent_work, lent_active, lent_scores, lend.seed);
    let none = ListWritten { rows: Vec::new(), pushes: 0, longest: 0 };
    let (refusal, written) = match expected {
        Ok(written) => (0, written),
        Err(number) => (*number, &none),
    };
    let stride = input.search.path_edges as usize;
    let mut call_and_check = || {
        let answer = buffers.call(&settings, handed.sample(), column.slice());
        let fields = (answer.refusal, answer.paths, answer.pushes);
        let wanted = (refusal, written.rows.len() as u32, written.pushes);
        let mark = (written.longest..=written.pushes).contains(&answer.mark);
        require(fields == wanted && mark, || format!("found {answer:?}, expected {wanted:?}, mark from {}", written.longest))?;
        check_path_rows(&buffers.rows, &written.rows)?;
        check_strided(&buffers.bases, sample.k as usize + stride, &written.rows, |row| row.bases.clone(), "bases")?;
        check_strided(&buffers.sequences, stride, &written.rows, |row| row.origins.iter().map(|o| o.0).collect(), "sequences")?;
        check_strided(&buffers.places, stride, &written.rows, |row| row.origins.iter().map(|o| o.1).collect(), "places")?;
        for ((slice, told), name) in buffers.workspace.iter().zip(work).zip(LIST_WORKSPACE) {
            check_workspace(slice, told, refusal, name)?;
        }
        check_workspace(&buffers.active, told.workspace.active, refusal, "active")?;
        for ((slice, told), name) in buffers.scores.iter().zip(scores).zip(["scores", "row scores"]) {
            check_workspace(slice, told, refusal, name)?;
        }
        require(column.still_holds(&input.column), || "the column has changed".into())?;
        require(handed.still_holds(&borrowed(sample)), || "what was handed in has changed".into())
    };
    Some(call_and_check().and_then(|()| call_and_check().map_err(|why| format!("{why}; in the same buffers once more"))))
}

/// The rows, with the bytes between them as they were, and nothing else changed.
fn check_path_rows(slice: &Lent<PathRow>, rows: &[PathWritten]) -> Checked<()> {
    let before = slice.as_it_was();
    for (i, row) in rows.iter().enumerate() {
        let wanted = PathRow {
            score: f64::from_bits(row.score),
            closing: row.closing,
            edges: row.origins.len() as u32,
            is_ref: Flag::from(row.is_ref),
            padding: before[i].padding,
        };
        let found = slice.slice()[i];
        require(found.same(wanted), || format!("path row {i} is {found:?}, expected {wanted:?}"))?;
    }
    require(slice.untouched_from(rows.len()), || "path rows: touched beyond the rows or around the slice".into())
}

/// Each row's elements from its place on, and nothing else changed.
fn check_strided<T: Element + PartialEq>(
    slice: &Lent<T>,
    stride: usize,
    rows: &[PathWritten],
    elements: impl Fn(&PathWritten) -> Vec<T>,
    name: &str,
) -> Checked<()> {
    let mut wanted = slice.as_it_was();
    for (i, row) in rows.iter().enumerate() {
        let elements = elements(row);
        wanted[i * stride..i * stride + elements.len()].copy_from_slice(&elements);
    }
    require(slice.still_holds(&wanted), || format!("{name}: not as expected, or touched beyond or around"))
}
