//! The safe calls of bindings/rust, over the buffers that a caller keeps: their answers are those of the calls over watched buffers.

use super::list::list_settings;
use super::*;
use crate::answers::PathWritten;
use punelavoh::{Edge, Node, Origin, Row};

/// An answer is as expected; a refusal is compared by its number.
fn same<T: PartialEq + std::fmt::Debug>(call: &str, found: Outcome<T>, expected: Outcome<T>) -> Checked<()> {
    require(found == expected, || format!("{call}, safe: found {}, expected {}", cut(&found), cut(&expected)))
}

pub fn check_graph(caller: &mut Caller, sample: &Sample, maxima: &GraphMaxima, expected: &Outcome<GraphWritten>) -> Checked<()> {
    let edge = |e: Edge| [e.from, e.to, e.support, u32::from(e.is_ref), e.origin.sequence, e.origin.place];
    let node = |n: Node| [n.from, n.to, n.count, n.depth];
    let found = caller.graph(&graph_settings(sample, maxima), &borrowed(sample));
    let found = found.map(|graph| GraphWritten { edges: graph.edges().map(edge).collect(), nodes: graph.nodes().map(node).collect() });
    same("graph", found.map_err(|refusal| refusal.number()), expected.clone())
}

fn path(row: Row) -> PathWritten {
    let origins = row.origins().map(|o| (o.sequence, o.place)).collect();
    PathWritten { score: row.score().to_bits(), closing: row.closing(), is_ref: row.is_ref(), bases: row.bases().to_vec(), origins }
}

pub fn check_list(caller: &mut Caller, sample: &Sample, input: &ListInput, expected: &Outcome<ListWritten>) -> Checked<()> {
    let found = caller.list(&list_settings(sample, input), &borrowed(sample), &input.column);
    if let (Ok(list), Ok(written)) = (&found, expected) {
        let mark = (written.longest..=written.pushes).contains(&list.waiting_mark());
        require(mark, || format!("list, safe: the waiting mark is {}", list.waiting_mark()))?;
    }
    let found = found.map(|list| (list.rows().map(path).collect::<Vec<_>>(), list.pushes())).map_err(|refusal| refusal.number());
    same("list", found, expected.clone().map(|written| (written.rows, written.pushes)))
}

pub fn check_origin(sample: &Sample, (sequence, place): (u32, u32), expected: Outcome<&[u8]>) -> Checked<()> {
    let found = punelavoh::origin(sample.k, &borrowed(sample), Origin { sequence, place });
    same("origin", found.map_err(|refusal| refusal.number()), expected)
}
