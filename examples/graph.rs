//! Case 5 of document 01: the graph of CAACTGG with the read CAAGTGG, and the bytes at each edge's origin.
use punelavoh::{origin, Caller, GraphMaxima, Reads, Refusal, Settings};

fn main() -> Result<(), Refusal> {
    let mut reads = Reads::new();
    reads.push(b"CAAGTGG", &[40; 7]);
    let sample = reads.sample(b"CAACTGG");
    let settings = Settings { k: 3, graph: GraphMaxima { vertices: 128, edges: 256, nodes: 256 }, ..Settings::default() };
    let mut caller = Caller::new();
    let graph = caller.graph(&settings, &sample)?;
    println!("refusal 0 edges {} nodes {}", graph.edges().len(), graph.nodes().len());
    for edge in graph.edges() {
        let at = edge.origin;
        // The symbolic edge is the one whose origin names no bytes.
        let bytes = origin(settings.k, &sample, at).unwrap_or_default().escape_ascii();
        let (from, to, support, mark) = (edge.from, edge.to, edge.support, u8::from(edge.is_ref));
        println!("{from} {to} support {support} mark {mark} origin {}:{} {bytes}", at.sequence, at.place);
    }
    for node in graph.nodes() {
        println!("node {} {} count {} depth {}", node.from, node.to, node.count, node.depth);
    }
    Ok(())
}
