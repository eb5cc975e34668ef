//! The answers of a `Caller`: those of the calls of `ffi` over slices of their own, in buffers new and used; and no panic.

mod common;

use common::random::{Input, Random};
use common::{drawn, fresh_graph, fresh_list, listed};
use punelavoh::{column, lengths, origin, Caller, GraphMaxima, Reads, SearchMaxima, Settings};

/// Case 6 of 01, with its own column.
#[test]
fn case_six() {
    let reads: Reads = [("CAAGTGG", [40; 7]), ("CAACTGG", [40; 7])].into_iter().collect();
    let settings = Settings { k: 3, asked: 5, threshold: 5, ..Settings::default() };
    let mut caller = Caller::new();
    let list = caller.list(&settings, &reads.sample(b"CAACTGG"), &[0.0, 0.0, 1.0, 1.5, 2.0]).expect("01 lists two paths");
    assert_eq!((list.len(), list.pushes()), (2, 7));
    assert!(list.waiting_mark() <= 7);
    let rows: Vec<_> = list.rows().map(|r| (r.score(), r.closing(), r.edges(), r.is_ref(), r.bases())).collect();
    assert_eq!(rows, [(-1.0, 2, 4, false, &b"CAAGTGG"[..]), (-1.0, 1, 4, false, b"CAACTGG")]);
    let backwards: Vec<_> = list.rows().rev().map(|r| r.bases()).collect();
    assert_eq!(backwards, [b"CAACTGG", b"CAAGTGG"]);
    assert_eq!((list.rows().len(), list.into_iter().count(), (&list).into_iter().count()), (2, 2, 2));
    assert!(list.row(2).is_none());
}

/// Random inputs, good and broken, through one caller: what the calls of `ffi` answer over fresh slices, and every origin spells its edge.
#[test]
fn as_over_fresh_slices() {
    let mut caller = Caller::new();
    let mut met = [0_usize; 14];
    for seed in 0..20_000 {
        let mut random = Random(seed);
        let mut input = Input::healthy(&mut random);
        for _ in 0..random.below(3) {
            input = input.broken(&mut random);
        }
        let (sample, settings) = (input.sample(), &input.settings);
        let list = listed(&mut caller, settings, &sample, &input.column);
        assert_eq!(list, fresh_list(settings, &sample, &input.column), "list, seed {seed}");
        let graph = drawn(&mut caller, settings, &sample);
        assert_eq!(graph, fresh_graph(settings, &sample), "graph, seed {seed}");
        met[list.as_ref().map_or_else(|&number| number as usize, |_| 0)] += 1;
        for (_, _, _, bases, origins) in list.iter().flat_map(|(paths, _, _)| paths) {
            for (i, at) in origins.iter().enumerate() {
                assert_eq!(origin(settings.k, &sample, *at), Ok(&bases[i..=i + settings.k as usize]), "origin, seed {seed}");
            }
        }
    }
    // Every refusal of the call for the list but 7, which is never met where there is memory; most inputs are accepted.
    assert!(met[0] > 5_000, "{met:?}");
    assert_eq!(met[7], 0);
    assert!((1..=12).filter(|&number| number != 7).all(|number| met[number] > 50), "{met:?}");
}

/// Reads that are broken in every way that `Reads` can be: no panic, and 4 just where a read is uneven.
#[test]
fn reads_never_panic() {
    let mut caller = Caller::new();
    let settings = Settings { k: 2, search: SearchMaxima { path_edges: 64, active: 4, pushes: 64 }, ..Settings::default() };
    let settings = Settings { asked: 4, graph: GraphMaxima { vertices: 64, edges: 64, nodes: 64 }, ..settings };
    let log10 = column(64);
    let mut reads = Reads::new();
    for seed in 0..2_000 {
        let mut random = Random(seed);
        reads.clear();
        let mut even = true;
        for _ in 0..random.below(4) {
            let bases: Vec<u8> = (0..random.below(5)).map(|_| random.next() as u8).collect();
            let qualities = vec![40; if random.once_in(3) { random.below(5) as usize } else { bases.len() }];
            even &= bases.len() == qualities.len();
            reads.push(&bases, &qualities);
        }
        let refusal = caller.list(&settings, &reads.sample(b"ACGTA"), &log10).err().map(|r| r.number());
        assert_eq!(refusal == Some(4), !even, "seed {seed}");
    }
}

/// A large call, small ones, and the large one again: each as in new buffers, and the buffers are the same ones.
#[test]
fn buffers_are_kept() {
    let log10 = column(256);
    let mut random = Random(7);
    let reference: Vec<u8> = (0..300).map(|_| b"ACGT"[random.below(4) as usize]).collect();
    let mut other = reference.clone();
    other[100] = if other[100] == b'A' { b'C' } else { b'A' };
    let reads: Reads = [(&reference, [40; 300]), (&other, [40; 300])].into_iter().collect();
    let large = Settings { asked: 8, threshold: 9, ..Settings::default() };
    let small = Settings {
        k: 3,
        asked: 2,
        graph: GraphMaxima { vertices: 9, edges: 9, nodes: 9 },
        search: SearchMaxima { path_edges: 9, active: 2, pushes: 9 },
        ..large
    };
    let mut caller = Caller::new();
    let mut places = Vec::new();
    for (settings, sample) in [(large, reads.sample(&reference)), (small, Reads::new().sample(b"ACGTACC")), (large, reads.sample(&reference))] {
        let list = caller.list(&settings, &sample, &log10).expect("within the maxima");
        places.push(list.row(0).expect("a path").bases().as_ptr());
        assert_eq!(listed(&mut caller, &settings, &sample, &log10), fresh_list(&settings, &sample, &log10));
        assert_eq!(drawn(&mut caller, &settings, &sample), fresh_graph(&settings, &sample));
    }
    assert!(places.iter().all(|place| *place == places[0]), "a buffer was made anew");
    caller.release();
    assert_eq!(listed(&mut caller, &small, &Reads::new().sample(b"ACGTACC"), &log10).map(|(paths, _, _)| paths.len()), Ok(1));
}

/// A caller is for one thread at a time, and several threads may have one each.
#[test]
fn threads() {
    fn sent<T: Send + Sync + 'static>(_: &T) {}
    let mut caller = Caller::new();
    sent(&caller);
    let settings = Settings { k: 3, ..Settings::default() };
    let here = listed(&mut caller, &settings, &Reads::new().sample(b"ACGTA"), &column(64));
    let there = std::thread::spawn(move || listed(&mut caller, &settings, &Reads::new().sample(b"ACGTA"), &column(64)));
    assert_eq!(there.join().expect("no panic"), here);
    assert!(here.is_ok() && lengths(&settings).is_ok());
}
