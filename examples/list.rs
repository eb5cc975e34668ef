//! The list of CAACTGG with the reads CAAGTGG, CAACTGG and CAACTGG, two paths asked: score, bases, and each edge's origin with the bytes there.
use punelavoh::{column, origin, Caller, GraphMaxima, Reads, Refusal, SearchMaxima, Settings};

fn main() -> Result<(), Refusal> {
    let reads: Reads = ["CAAGTGG", "CAACTGG", "CAACTGG"].iter().map(|bases| (bases, [40; 7])).collect();
    let sample = reads.sample(b"CAACTGG");
    let settings = Settings {
        k: 3,
        asked: 2,
        threshold: 9,
        graph: GraphMaxima { vertices: 128, edges: 256, nodes: 256 },
        search: SearchMaxima { path_edges: 16, active: 8, pushes: 64 },
        ..Settings::default()
    };
    let mut caller = Caller::new();
    let list = caller.list(&settings, &sample, &column(64))?;
    println!("refusal 0 paths {} pushes {}", list.len(), list.pushes());
    for row in list.rows() {
        print!("{:.6} {}", row.score(), row.bases().escape_ascii());
        for at in row.origins() {
            print!(" {}:{}={}", at.sequence, at.place, origin(settings.k, &sample, at)?.escape_ascii());
        }
        println!();
    }
    Ok(())
}
