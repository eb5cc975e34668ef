//! Every refusal that the calls can return, each at its border: accepted just within, refused just beyond. 7 is had from `ffi`, since a `Caller`
//! lends what is told; tests/memory.rs has the one way to have it from a `Caller`.

mod common;

use common::{drawn, listed};
use punelavoh::ffi::{GraphCall, LengthsCall, OriginCall};
use punelavoh::{column, lengths, origin, Caller, GraphMaxima, Origin, Reads, Refusal, Sample, SearchMaxima, Settings};

/// Case 6 of 01 at maxima that just suffice, with a column that does.
fn settings() -> Settings {
    let graph = GraphMaxima { vertices: 9, edges: 9, nodes: 9 };
    Settings { k: 3, asked: 5, threshold: 5, graph, search: SearchMaxima { path_edges: 5, active: 2, pushes: 7 }, ..Settings::default() }
}

const REFERENCE: &[u8] = b"CAACTGG";

fn reads() -> Reads {
    [("CAAGTGG", [40; 7]), ("CAACTGG", [40; 7])].into_iter().collect()
}

fn log10() -> Vec<f64> {
    column(5)
}

/// What the call for the list answers: none, or its refusal.
fn refused(settings: Settings, sample: &Sample, column: &[f64]) -> Option<Refusal> {
    listed(&mut Caller::new(), &settings, sample, column).err().and_then(Refusal::from_number)
}

fn refused_graph(settings: Settings, sample: &Sample) -> Option<Refusal> {
    drawn(&mut Caller::new(), &settings, sample).err().and_then(Refusal::from_number)
}

#[test]
fn accepted_at_the_borders() {
    assert_eq!(refused(settings(), &reads().sample(REFERENCE), &log10()), None);
    assert_eq!(refused_graph(settings(), &reads().sample(REFERENCE)), None);
}

#[test]
fn one_k() {
    let whole = vec![b'A'; 200];
    let at = |k: u32| refused(Settings { k, ..settings() }, &Reads::new().sample(&whole), &column(256));
    assert_eq!([1, 2, 128, 129].map(|k| at(k) == Some(Refusal::K)), [true, false, false, true]);
    assert_eq!([0, u32::MAX].map(at), [Some(Refusal::K); 2]);
    assert_eq!(refused_graph(Settings { k: 1, ..settings() }, &reads().sample(REFERENCE)), Some(Refusal::K));
    assert_eq!(lengths(&Settings { k: 129, ..settings() }), Err(Refusal::K));
}

#[test]
fn two_and_three_reference() {
    let settings = Settings { search: SearchMaxima { pushes: 1, ..settings().search }, ..settings() };
    let settings = Settings { graph: GraphMaxima { vertices: 4096, ..settings.graph }, ..settings };
    let at = |length: usize| refused(settings, &Reads::new().sample(&vec![b'A'; length]), &log10());
    assert_eq!([2, 3, 1024, 1025].map(|n| at(n) == Some(Refusal::ReferenceLength)), [true, false, false, true]);
    let of = |letters: &[u8]| refused(settings, &Reads::new().sample(letters), &log10());
    assert_ne!(of(b"ACGTN"), Some(Refusal::ReferenceByte));
    assert_eq!(of(b"ACGTn"), Some(Refusal::ReferenceByte));
}

#[test]
fn four_reads() {
    let good = reads();
    let sample = good.sample(REFERENCE);
    let four = |sample: Sample| refused(settings(), &sample, &log10()) == Some(Refusal::Reads);
    assert!(!four(sample));
    assert!(four(Sample { ends: &[7, 13], ..sample }) && four(Sample { ends: &[14, 7], ..sample }) && four(Sample { ends: &[], ..sample }));
    assert!(four(Sample { qualities: &[40; 13], ..sample }));
    let many = |reads: usize| (0..reads).map(|_| ("", "")).collect::<Reads>();
    assert!(!four(many(512).sample(REFERENCE)) && four(many(513).sample(REFERENCE)));
    let long = |bases: usize| [(vec![b'.'; bases], vec![0; bases])].into_iter().collect::<Reads>();
    assert!(!four(long(32_768).sample(REFERENCE)) && four(long(32_769).sample(REFERENCE)));
    // As many qualities as bases, but not read by read.
    let uneven: Reads = [("CAAG", &[40; 3][..]), ("CAA", &[40; 4])].into_iter().collect();
    let behind: Reads = [("", &[40; 1][..])].into_iter().collect();
    assert!(four(uneven.sample(REFERENCE)) && four(behind.sample(REFERENCE)));
}

#[test]
fn five_maxima() {
    let base = Settings { asked: 0, ..settings() };
    let five = |settings: Settings| refused(settings, &Reads::new().sample(b"CAA"), &log10()) == Some(Refusal::Maximum);
    let search = |search: SearchMaxima| five(Settings { search, ..base });
    let graph = |graph: GraphMaxima| five(Settings { graph, ..base });
    let (g, s) = (base.graph, base.search);
    let borders = |least: u32, greatest: u32| [least - 1, least, greatest, greatest + 1];
    let (most, far) = (GraphMaxima::GREATEST, SearchMaxima::GREATEST);
    assert_eq!([0, 128, 129].map(|asked| five(Settings { asked, ..base })), [false, false, true]);
    let within = [true, false, false, true];
    assert_eq!(borders(2, most.vertices).map(|vertices| graph(GraphMaxima { vertices, ..g })), within);
    assert_eq!(borders(1, most.edges).map(|edges| graph(GraphMaxima { edges, ..g })), within);
    assert_eq!(borders(1, most.nodes).map(|nodes| graph(GraphMaxima { nodes, ..g })), within);
    assert_eq!(borders(1, far.path_edges).map(|path_edges| search(SearchMaxima { path_edges, ..s })), within);
    assert_eq!(borders(1, far.active).map(|active| search(SearchMaxima { active, ..s })), within);
    assert_eq!(borders(1, far.pushes).map(|pushes| search(SearchMaxima { pushes, ..s })), within);
    assert!(!five(Settings::default()) && Settings::default().asked == 128);
    // The call for edges and trees is given the maxima of the graph, and no others.
    let none = SearchMaxima { path_edges: 0, active: 0, pushes: 0 };
    assert_eq!(refused_graph(Settings { asked: 999, search: none, ..settings() }, &reads().sample(REFERENCE)), None);
    let few = GraphMaxima { vertices: 1, ..g };
    assert_eq!(refused_graph(Settings { graph: few, ..settings() }, &reads().sample(REFERENCE)), Some(Refusal::Maximum));
}

#[test]
fn six_column() {
    let six = |column: &[f64]| refused(Settings { asked: 0, ..settings() }, &Reads::new().sample(b"CAA"), column) == Some(Refusal::Column);
    assert_eq!([1, 2, 65_536, 65_537, usize::MAX].map(|places| six(&column(places))), [true, false, false, true, true]);
    assert!(!six(&[f64::NAN, -0.0, 16.0]));
    assert!([[0.0, 1.0, 1.0], [0.0, 0.0, 16.1], [0.0, 0.0, -1.0], [0.0, 0.0, f64::NAN]].iter().all(|column| six(column)));
}

/// Rules 1 to 7 are looked at in the order of the table, also where lengths are refused.
#[test]
fn the_first_broken_rule() {
    let broken = Settings { k: 3, asked: 999, ..settings() };
    let bad = Sample { reference: b"CAx", ends: &[1], bases: b"", qualities: b"" };
    assert_eq!(refused(Settings { k: 1, ..broken }, &bad, &[]), Some(Refusal::K));
    assert_eq!(refused(Settings { k: 4, ..broken }, &bad, &[]), Some(Refusal::ReferenceLength));
    assert_eq!(refused(broken, &bad, &[]), Some(Refusal::ReferenceByte));
    assert_eq!(refused(broken, &Sample { reference: b"CAA", ..bad }, &[]), Some(Refusal::Reads));
    assert_eq!(refused(broken, &Reads::new().sample(b"CAA"), &[]), Some(Refusal::Maximum));
    assert_eq!(refused(settings(), &Reads::new().sample(b"CAA"), &[]), Some(Refusal::Column));
}

#[test]
fn eight_to_twelve() {
    let reads = reads();
    let with = |graph: GraphMaxima, search: SearchMaxima, places: usize| {
        refused(Settings { graph, search, ..settings() }, &reads.sample(REFERENCE), &column(places))
    };
    let (g, s) = (settings().graph, settings().search);
    assert_eq!(with(GraphMaxima { vertices: g.vertices - 1, ..g }, s, 5), Some(Refusal::GraphSize));
    assert_eq!(with(GraphMaxima { edges: g.edges - 1, ..g }, s, 5), Some(Refusal::GraphSize));
    assert_eq!(with(GraphMaxima { nodes: g.nodes - 1, ..g }, s, 5), Some(Refusal::TreeNodes));
    assert_eq!(with(g, s, 4), Some(Refusal::NoPlace));
    assert_eq!(with(g, SearchMaxima { path_edges: s.path_edges - 1, ..s }, 5), Some(Refusal::PathSize));
    assert_eq!(with(g, SearchMaxima { active: s.active - 1, ..s }, 5), Some(Refusal::PathSize));
    assert_eq!(with(g, SearchMaxima { pushes: s.pushes - 1, ..s }, 5), Some(Refusal::Pushes));
    let few = Settings { graph: GraphMaxima { nodes: g.nodes - 1, ..g }, ..settings() };
    assert_eq!(refused_graph(few, &reads.sample(REFERENCE)), Some(Refusal::TreeNodes));
}

#[test]
fn thirteen_origin() {
    let reads = reads();
    let sample = reads.sample(REFERENCE);
    let at = |sequence: u32, place: u32| origin(3, &sample, Origin { sequence, place });
    assert_eq!((at(0, 3), at(1, 0), at(2, 3)), (Ok(&b"CTGG"[..]), Ok(&b"CAAG"[..]), Ok(&b"CTGG"[..])));
    assert_eq!([at(0, 4), at(1, 4), at(3, 0), at(u32::MAX, 0), at(0, u32::MAX)], [Err(Refusal::Origin); 5]);
    assert_eq!(origin(1, &sample, Origin::default()), Err(Refusal::K));
    assert_eq!(origin(8, &sample, Origin::default()), Err(Refusal::ReferenceLength));
    assert_eq!(origin(3, &Sample { reference: b"CAx", ..sample }, Origin::default()), Err(Refusal::ReferenceByte));
    assert_eq!(origin(3, &Sample { ends: &[], ..sample }, Origin::default()), Err(Refusal::Reads));
}

/// One element less than told, of one slice.
#[test]
fn seven_lent() {
    let settings = settings();
    let told = lengths(&settings).expect("within limits");
    let work = told.workspace;
    let call = |edges: usize| {
        let numbers = |length: usize| vec![0; length];
        let call = GraphCall {
            k: settings.k,
            quality: settings.quality,
            reference: REFERENCE,
            ends: &[],
            bases: b"",
            qualities: b"",
            maxima: settings.graph,
            edges: &mut numbers(edges),
            nodes: &mut numbers(told.nodes),
            w_vertices: &mut numbers(work.vertices),
            w_edges: &mut numbers(work.edges),
            w_index: &mut numbers(work.index),
            w_nodes: &mut numbers(work.nodes),
            w_open: &mut numbers(work.open),
        };
        Refusal::from_number(call.call().refusal)
    };
    assert_eq!((call(told.edges), call(told.edges - 1)), (None, Some(Refusal::ShortSlice)));
}

/// A refused answer of `ffi` holds 0 in every other field.
#[test]
fn refused_answers() {
    let search = SearchMaxima { pushes: 0, ..SearchMaxima::GREATEST };
    let told = LengthsCall { k: 3, paths: 1, graph: GraphMaxima::GREATEST, search }.call();
    assert_eq!(told, punelavoh::LengthsTold { refusal: 5, ..Default::default() });
    let answer = OriginCall { k: 3, reference: b"CAAC", ends: &[], bases: b"", sequence: 1, place: 0 }.call();
    assert_eq!(answer, punelavoh::ffi::OriginAnswer { refusal: 13, ..Default::default() });
}

#[test]
fn names_and_numbers() {
    for (refusal, number) in Refusal::NAMED.iter().zip(1..) {
        assert_eq!((refusal.number(), Refusal::from_number(number)), (number, Some(*refusal)));
    }
    assert_eq!(Refusal::from_number(0), None);
    let other = Refusal::from_number(4_000_000_000).expect("not 0");
    assert_eq!((other, other.number()), (Refusal::Other(4_000_000_000), 4_000_000_000));
    assert_eq!(other.to_string(), "refused by number 4000000000");
}
