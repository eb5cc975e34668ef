//! `bench`: times of the library and of the original, on the same input, one after the other in turn.
//!
//! `build` is the call for edges and trees at the greatest maxima against `finish`; `whole` is the call for the list against `finish` and the search;
//! `search` is what is left of each without its `build`; and `fitted` is `whole` with maxima and a column just large enough.

mod clock;
pub mod inputs;

use clock::now;
use inputs::Input;
use original::{unchanged, AssemblyRead};
use std::hint::black_box;
use std::time::{Duration, Instant};

const LEAST_ROUNDS: usize = 11;
const MOST_ROUNDS: usize = 401;
/// For one input, all rounds together.
const MOST_TIME: Duration = Duration::from_secs(4);

/// Nanoseconds of each round.
#[derive(Default)]
struct Times(Vec<u64>);

impl Times {
    fn add(&mut self, start: Duration) {
        self.0.push((now() - start).as_nanos() as u64);
    }

    fn minimum(&self) -> u64 {
        self.0.iter().copied().min().unwrap_or(0).max(1)
    }

    fn median(&self) -> u64 {
        let mut sorted = self.0.clone();
        sorted.sort_unstable();
        sorted.get(sorted.len() / 2).copied().unwrap_or(0).max(1)
    }
}

/// The original's side: an input as it takes it, and its times.
struct Rust<'a> {
    input: &'a Input,
    reads: Vec<AssemblyRead>,
    build: Times,
    search: Times,
}

impl<'a> Rust<'a> {
    fn new(input: &'a Input) -> Self {
        let s = &input.sample;
        let read = |r: std::ops::Range<usize>| AssemblyRead { bases: s.bases[r.clone()].to_vec(), base_quals: s.qualities[r].to_vec() };
        Self { input, reads: s.reads().into_iter().map(read).collect(), build: Times::default(), search: Times::default() }
    }

    fn round(&mut self) {
        let s = &self.input.sample;
        let start = now();
        let graph = unchanged::build(s.k as usize, s.quality, &s.reference, black_box(&self.reads));
        self.build.add(start);
        let start = now();
        let list = graph.search(self.input.paths as usize, self.input.threshold, self.input.recover);
        self.search.add(start);
        black_box((graph, list));
    }
}

/// Calls `round` as often as time allows.
fn rounds(mut round: impl FnMut()) {
    let start = Instant::now();
    for done in 0..MOST_ROUNDS {
        if done >= LEAST_ROUNDS && start.elapsed() > MOST_TIME {
            break;
        }
        round();
    }
}

fn all(files: &[String]) -> Result<Vec<Input>, String> {
    if !files.is_empty() {
        return files.iter().map(|file| inputs::read(file)).collect();
    }
    let mut all: Vec<Input> = inputs::files()?.iter().map(|file| inputs::read(file)).collect::<Result<_, _>>()?;
    all.extend(inputs::at_limits());
    Ok(all)
}

/// A line of what an input comes to.
fn print_size(input: &Input) {
    let graph = model::graph(&input.sample, &model::GraphMaxima::FULL, false);
    let settings = model::ListInput {
        paths: input.paths,
        threshold: input.threshold,
        recover: input.recover,
        graph: model::GraphMaxima::FULL,
        search: model::SearchMaxima::FULL,
        column: model::input::log10_column(65536),
    };
    let list = model::list(&input.sample, &settings, false);
    let s = &input.sample;
    print!("size {} k {} reference {} reads {} bases {}", input.name, s.k, s.reference.len(), s.ends.len(), s.bases.len());
    if let Ok(rows) = graph {
        print!(" vertices {} edges {} nodes {}", rows.vertices, rows.edges.len(), rows.nodes.len());
    }
    if let Ok(listed) = list {
        print!(" paths {} pushes {}", listed.rows.len(), listed.pushes);
    }
    println!();
}

/// The original alone.
pub fn original(files: &[String]) -> Result<bool, String> {
    for input in all(files)? {
        print_size(&input);
        let mut rust = Rust::new(&input);
        rounds(|| rust.round());
        for (part, times) in [("build", &rust.build), ("search", &rust.search)] {
            println!("bench {} {part} rust {} median {} rounds {}", input.name, times.minimum(), times.median(), times.0.len());
        }
    }
    Ok(true)
}

#[cfg(not(feature = "library"))]
pub fn both(_: &[String]) -> Result<bool, String> {
    Err("built without the library".into())
}

#[cfg(feature = "library")]
pub use library::both;

/// Both sides.
#[cfg(feature = "library")]
mod library {
    use super::*;
    use guarded::buffers::{GraphBuffers, ListBuffers};
    use punelavoh::ffi::{LengthsCall, ListAnswer};
    use punelavoh::{GraphMaxima, SearchMaxima, Settings};

    pub fn both(files: &[String]) -> Result<bool, String> {
        println!("nanoseconds that the thread ran: the least, then the median of all rounds; ratio: rust over ours");
        println!("ours: at the greatest maxima; buffers made once and not cleared before a call, which leaves its workspace zero itself");
        println!("rust: allocates in each call; what it hands back is dropped outside of the time");
        for input in all(files)? {
            print_size(&input);
            let mut rust = Rust::new(&input);
            let mut ours = Ours::new(&input)?;
            rounds(|| {
                ours.round();
                rust.round();
            });
            line(&input.name, "build", [ours.build.minimum(), ours.build.median()], [rust.build.minimum(), rust.build.median()]);
            ours.print_list(&input.name, &rust);
        }
        Ok(true)
    }

    /// A line of minima, then medians.
    fn line(name: &str, part: &str, ours: [u64; 2], rust: [u64; 2]) {
        let ratio = |i: usize| rust[i] as f64 / ours[i] as f64;
        println!(
            "bench {name} {part} ours {} rust {} ratio {:.2} median ours {} rust {} ratio {:.2}",
            ours[0],
            rust[0],
            ratio(0),
            ours[1],
            rust[1],
            ratio(1)
        );
    }

    fn borrowed(s: &model::Sample) -> punelavoh::Sample<'_> {
        punelavoh::Sample { reference: &s.reference, ends: &s.ends, bases: &s.bases, qualities: &s.qualities }
    }

    /// What the library is asked for, at maxima that a caller sets.
    fn settings(input: &Input, graph: GraphMaxima, search: SearchMaxima) -> Settings {
        let Input { paths: asked, threshold, recover: recovery, .. } = *input;
        Settings { k: input.sample.k, quality: input.sample.quality, asked, threshold, recovery, graph, search }
    }

    fn told(s: &Settings) -> punelavoh::LengthsTold {
        LengthsCall { k: s.k, paths: s.asked, graph: s.graph, search: s.search }.call()
    }

    /// The library's side.
    struct Ours<'a> {
        input: &'a Input,
        greatest: Settings,
        graph: GraphBuffers,
        build: Times,
        list: List,
        fitted: List,
    }

    impl<'a> Ours<'a> {
        fn new(input: &'a Input) -> Result<Self, String> {
            let greatest = settings(input, GraphMaxima::GREATEST, SearchMaxima::GREATEST);
            let mut ours = Self {
                input,
                greatest,
                graph: GraphBuffers::told(&told(&greatest)),
                build: Times::default(),
                list: List::new(input, Maxima::GREATEST),
                fitted: List::fitted(input)?,
            };
            // Both sides do the same work, and buffers are in memory before the first round.
            let answer = ours.graph.call(&greatest, borrowed(&input.sample));
            let rows = Rust::new(input).rows();
            if (answer.refusal, answer.edges as usize, answer.nodes as usize) != (0, rows.edges.len(), rows.nodes.len()) {
                return Err(format!("{}: the library answers {answer:?}", input.name));
            }
            ours.list.accepted(input)?;
            Ok(ours)
        }

        fn round(&mut self) {
            let sample = borrowed(&self.input.sample);
            let start = now();
            black_box(self.graph.call(&self.greatest, black_box(sample)));
            self.build.add(start);
            self.list.round(self.input);
            self.fitted.round(self.input);
        }

        fn print_list(&self, name: &str, rust: &Rust) {
            let whole = Times(rust.build.0.iter().zip(&rust.search.0).map(|(b, s)| b + s).collect());
            line(name, "whole", [self.list.whole.minimum(), self.list.whole.median()], [whole.minimum(), whole.median()]);
            let less = |whole: u64, build: u64| whole.saturating_sub(build).max(1);
            let ours = [less(self.list.whole.minimum(), self.build.minimum()), less(self.list.whole.median(), self.build.median())];
            line(name, "search", ours, [rust.search.minimum(), rust.search.median()]);
            line(name, "fitted", [self.fitted.whole.minimum(), self.fitted.whole.median()], [whole.minimum(), whole.median()]);
        }
    }

    impl Rust<'_> {
        fn rows(&self) -> original::Rows {
            let s = &self.input.sample;
            unchanged::build(s.k as usize, s.quality, &s.reference, &self.reads).rows()
        }
    }

    /// What a caller sets for the call for the list: maxima, and how long a column is lent.
    #[derive(Clone, Copy)]
    struct Maxima {
        graph: GraphMaxima,
        search: SearchMaxima,
        column: usize,
    }

    impl Maxima {
        const GREATEST: Self = Self { graph: GraphMaxima::GREATEST, search: SearchMaxima::GREATEST, column: 65536 };
    }

    /// The call for the list.
    struct List {
        buffers: ListBuffers,
        maxima: Maxima,
        column: Vec<f64>,
        whole: Times,
    }

    impl List {
        fn new(input: &Input, maxima: Maxima) -> Self {
            let buffers = ListBuffers::told(&told(&settings(input, maxima.graph, maxima.search)));
            Self { buffers, maxima, column: model::input::log10_column(maxima.column), whole: Times::default() }
        }

        /// With the sizes that the input comes to; path edges, active trees and the column are doubled until the call is accepted.
        fn fitted(input: &Input) -> Result<Self, String> {
            let rows = Rust::new(input).rows();
            let pushes = Self::new(input, Maxima::GREATEST).accepted(input)?.pushes;
            let graph = GraphMaxima { vertices: rows.vertices as u32, edges: rows.edges.len() as u32, nodes: (rows.nodes.len() as u32).max(1) };
            let mut maxima = Maxima { graph, search: SearchMaxima { path_edges: 64, active: 1, pushes: pushes.max(1) }, column: 64 };
            loop {
                let mut list = Self::new(input, maxima);
                match list.call(input).refusal {
                    0 => return Ok(list),
                    10 => maxima.column *= 2,
                    11 if maxima.search.path_edges < 4096 && list.with_more_trees(input) == 11 => maxima.search.path_edges *= 2,
                    11 => maxima.search.active *= 2,
                    n => return Err(format!("{}: refused {n} at fitted maxima", input.name)),
                }
            }
        }

        /// The refusal with as many active trees as can be: 11 is then for a path's edges.
        fn with_more_trees(&self, input: &Input) -> u32 {
            let search = SearchMaxima { active: 64, ..self.maxima.search };
            Self::new(input, Maxima { search, ..self.maxima }).call(input).refusal
        }

        fn call(&mut self, input: &Input) -> ListAnswer {
            let settings = settings(input, self.maxima.graph, self.maxima.search);
            black_box(self.buffers.call(&settings, black_box(borrowed(&input.sample)), &self.column))
        }

        fn accepted(&mut self, input: &Input) -> Result<ListAnswer, String> {
            let answer = self.call(input);
            if answer.refusal != 0 {
                return Err(format!("{}: the library answers {answer:?}", input.name));
            }
            Ok(answer)
        }

        fn round(&mut self, input: &Input) {
            let start = now();
            self.call(input);
            self.whole.add(start);
        }
    }
}
