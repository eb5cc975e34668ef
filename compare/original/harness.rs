
// ---- put behind the original's own text; nothing above is touched ----

/// The graph that `finish` makes of a reference and reads.
#[allow(dead_code)]
pub fn harness_build(
    kmer_size: usize,
    min_base_quality: u8,
    reference: &[u8],
    reads: &[AssemblyRead],
) -> JunctionTreeLinkedGraph {
    let mut b = JunctionTreeGraphBuilder {
        kmer_size,
        min_base_quality,
        pending: Vec::new(),
        kmer_to_vertex: BTreeMap::new(),
        nodes: Vec::new(),
        edges: HashMap::new(),
        edge_is_ref: HashSet::new(),
        ref_nodes: HashSet::new(),
        ref_source_kmer: None,
        reference_path: Vec::new(),
        outgoing: HashMap::new(),
        incoming: HashMap::new(),
        junction_trees: HashMap::new(),
        symbolic_end_vertex: None,
        symbolic_end_edge: None,
        built: false,
    };
    b.pending.push(SequenceForKmers {
        bases: reference.to_vec(),
        start: 0,
        stop: reference.len(),
        count: 1,
        is_ref: true,
    });
    for r in reads {
        b.pending.extend(JunctionTreeGraphBuilder::sequences_from_read(r, kmer_size, min_base_quality));
    }
    b.finish()
}

/// The vertices that have a tree, rising.
#[allow(dead_code)]
pub fn harness_tree_roots(g: &JunctionTreeLinkedGraph) -> Vec<usize> {
    let mut v: Vec<usize> = g.junction_trees.keys().copied().collect();
    v.sort();
    v
}
