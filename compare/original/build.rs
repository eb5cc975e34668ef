//! Takes the original's files from docs/src with their bodies unchanged, and makes the patched copies.
//!
//! Unchanged: leading `//!` lines are dropped, since the files become modules, and `harness.rs` is put behind the graph's file, so that `finish` can be
//! called. Patched: the graph without the renumbering of its vertices, the search also telling pushes, closing order and longest waiting list, and
//! the penalty read off a handed column. Each patch names a text that must stand in the file exactly once.

use std::path::{Path, PathBuf};
use std::{env, fs};

fn without_inner_docs(text: &str) -> String {
    text.split_inclusive('\n').skip_while(|line| line.starts_with("//!") || line.trim().is_empty()).collect()
}

fn patched(text: &str, old: &str, new: &str) -> String {
    assert_eq!(text.matches(old).count(), 1, "a patched text must stand exactly once: {old}");
    text.replacen(old, new, 1)
}

fn main() {
    let here = PathBuf::from(env::var_os("CARGO_MANIFEST_DIR").expect("set by cargo"));
    let out = PathBuf::from(env::var_os("OUT_DIR").expect("set by cargo"));
    let sources = here.join("../../docs/src");
    let read = |path: &Path| {
        println!("cargo:rerun-if-changed={}", path.display());
        fs::read_to_string(path).unwrap_or_else(|e| panic!("{}: {e}", path.display()))
    };
    let source = |name: &str| without_inner_docs(&read(&sources.join(format!("{name}.rs"))));
    let write = |name: &str, text: &str| fs::write(out.join(format!("{name}.rs")), text).expect("OUT_DIR can be written");
    println!("cargo:rerun-if-changed=build.rs");

    for name in ["assembly", "kbest_haplotype", "bio_ids", "junction_kbest"] {
        write(name, &source(name));
    }
    let harness = read(&here.join("harness.rs"));
    let graph = source("junction_tree_graph");
    write("junction_tree_graph", &format!("{graph}{harness}"));

    let graph = patched(&graph, "        graph.cleanup_isolated_nodes();\n", "");
    write("junction_tree_graph_patched", &format!("{graph}{harness}"));

    let mut search = source("junction_kbest");
    for (old, new) in SEARCH_PATCHES {
        search = patched(&search, old, new);
    }
    write("junction_kbest_patched", &search);
}

const SEARCH_PATCHES: &[(&str, &str)] = &[
    ("use crate::junction_tree_graph::", "use crate::junction_tree_graph_patched::"),
    ("use crate::kbest_haplotype::log_penalty;\n", "use crate::notes::column_penalty as log_penalty;\n"),
    (
        "    recover_edges: bool,\n) -> GatkResult<Vec<JunctionKBestPath>> {\n    if max_haplotypes == 0 {\n        return Ok(Vec::new());\n    }\n",
        "    recover_edges: bool,\n) -> GatkResult<(Vec<JunctionKBestPath>, Vec<JunctionKBestPath>, usize)> {\n    if max_haplotypes == 0 {\n        return Ok((Vec::new(), Vec::new(), 0));\n    }\n    crate::notes::waiting(1);\n",
    ),
    ("    out.sort_by(|a, b| {\n", "    let closing_order = out.clone();\n    out.sort_by(|a, b| {\n"),
    ("    Ok(out)\n}", "    Ok((out, closing_order, tie_counter))\n}"),
    (
        "    heap.push(HeapItem {\n        score: path.score,\n        tie,\n        path,\n    });\n",
        "    heap.push(HeapItem {\n        score: path.score,\n        tie,\n        path,\n    });\n    crate::notes::waiting(heap.len());\n",
    ),
];
