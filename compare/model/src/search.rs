//! "Search": the best paths, with the maxima that end it in refusals 10 to 12.

use crate::graph::{Edge, Ends, Graph, Vertex};
use crate::trees::{NodeId, Trees};
use crate::{ListInput, Refusal};
use std::cmp::Ordering;
use std::collections::{BTreeSet, HashMap};
use std::rc::Rc;

/// A path from the source.
#[derive(Clone)]
struct Path {
    edges: Vec<Ends>,
    score: f64,
    /// Where it stands in the trees that it is guided by, in the order they joined.
    active: Vec<NodeId>,
    /// Vertices whose trees have joined.
    visited: Vec<Vertex>,
    /// Decisions since guidance.
    since: u32,
}

/// A closed path; its closing number is its place, from 1.
pub struct Closed {
    pub edges: Vec<Ends>,
    pub score: f64,
}

/// What a search met on its way, so that the least maxima that allow it are known.
#[derive(Clone, Copy, Debug, Default, PartialEq)]
pub struct Met {
    pub path_edges: u32,
    pub active: u32,
    /// The greatest place of the column that was read.
    pub place: u32,
}

/// What a search had made when it ended, or when it met a refusal of 10 to 12.
pub struct Found {
    pub refusal: Option<Refusal>,
    pub closed: Vec<Closed>,
    pub pushes: u32,
    pub longest: u32,
    pub met: Met,
}

/// An edge that a fork offers, with what its penalty is made of, and whether a tree offers it.
struct Offer {
    edge: Ends,
    count: u32,
    total: u32,
    guided: bool,
}

/// What kind of step an extension's last edge is.
#[derive(Clone, Copy, PartialEq)]
enum Step {
    /// A decision that a tree offers.
    Guided,
    /// A decision scored by support.
    Unguided,
    /// The only way on.
    Free,
}

struct Search<'a> {
    graph: &'a Graph,
    trees: &'a Trees,
    input: &'a ListInput,
    source: Vertex,
    sink: Vertex,
    symbolic: Ends,
    chains: HashMap<Vertex, Rc<Vec<Ends>>>,
    waiting: Waiting,
    closed: Vec<Closed>,
    pivotal: Vec<Ends>,
    met: Met,
}

/// The waiting paths: the best last, and of equals the earlier push.
#[derive(Default)]
struct Waiting {
    paths: Vec<(f64, u32, Box<Path>)>,
    pushes: u32,
    longest: u32,
}

impl Waiting {
    fn push(&mut self, path: Path) {
        let place = self.paths.partition_point(|(score, _, _)| *score < path.score);
        self.paths.insert(place, (path.score, self.pushes, Box::new(path)));
        self.pushes += 1;
        self.longest = self.longest.max(self.paths.len() as u32);
    }

    fn take(&mut self) -> Option<Path> {
        self.paths.pop().map(|(_, _, path)| *path)
    }
}

/// The search over a graph with its symbolic edge. At least one path is asked for.
pub fn search(graph: &Graph, trees: &Trees, sink: Vertex, symbolic: Ends, input: &ListInput) -> Found {
    let source = 0;
    let mut search = Search {
        graph,
        trees,
        input,
        source,
        sink,
        symbolic,
        chains: HashMap::new(),
        waiting: Waiting::default(),
        closed: Vec::new(),
        pivotal: if input.recover { pivotal_edges(graph, source) } else { Vec::new() },
        met: Met::default(),
    };
    let start = Path { edges: Vec::new(), score: 0.0, active: Vec::new(), visited: Vec::new(), since: 0 };
    let refusal = search.push(start).and_then(|()| search.run()).err();
    Found { refusal, closed: search.closed, pushes: search.waiting.pushes, longest: search.waiting.longest, met: search.met }
}

impl Search<'_> {
    fn run(&mut self) -> Result<(), Refusal> {
        while self.closed.len() < self.input.paths as usize {
            let most = if self.closed.is_empty() { 1000 } else { 10000 };
            if self.waiting.paths.len() > most {
                break;
            }
            if let Some(path) = self.waiting.take() {
                self.take(path)?;
            } else if !self.pivotal.is_empty() {
                let edge = self.pivotal.remove(0);
                self.recover(edge)?;
            } else {
                break;
            }
        }
        Ok(())
    }

    /// A taken path: along its chain, then the tree there joins, then it may close, then it is extended.
    fn take(&mut self, mut path: Path) -> Result<(), Refusal> {
        if path.since > 5 {
            return Ok(());
        }
        let chain = self.chain(self.last(&path.edges));
        let fork = chain.last().map_or(self.last(&path.edges), |e| e.1);
        self.join(&mut path, fork)?;
        if fork == self.sink {
            self.close(&path, &chain)?;
        }
        let outs = self.graph.outs(fork);
        match outs.len() {
            0 => Ok(()),
            1 => self.go_on(&path, &chain, (fork, outs[0])),
            _ => self.fork(&path, &chain, fork, &outs),
        }
    }

    /// The single edges from a vertex: on until a fork, a dead end, a tree or the sink.
    fn chain(&mut self, from: Vertex) -> Rc<Vec<Ends>> {
        if let Some(chain) = self.chains.get(&from) {
            return chain.clone();
        }
        let mut chain: Vec<Ends> = Vec::new();
        let mut here = from;
        while here != self.sink && self.trees.root(here).is_none() {
            let outs = self.graph.outs(here);
            if outs.len() != 1 || chain.contains(&(here, outs[0])) {
                break;
            }
            chain.push((here, outs[0]));
            here = outs[0];
        }
        let chain = Rc::new(chain);
        self.chains.insert(from, chain.clone());
        chain
    }

    /// The tree at a vertex joins, unless it has joined before or has no branch.
    fn join(&mut self, path: &mut Path, v: Vertex) -> Result<(), Refusal> {
        let Some(root) = self.trees.root(v) else { return Ok(()) };
        if path.visited.contains(&v) || !self.trees.has_branch(root) {
            return Ok(());
        }
        path.visited.push(v);
        path.active.push(root);
        path.since = 0;
        self.met.active = self.met.active.max(path.active.len() as u32);
        if path.active.len() > self.input.search.active as usize {
            return Err(11);
        }
        Ok(())
    }

    /// At the sink: the path closes, unless an active tree at the threshold comes before any that offers the symbolic edge.
    /// Closed or not, its edges before the chain are no longer pivotal.
    fn close(&mut self, path: &Path, chain: &[Ends]) -> Result<(), Refusal> {
        let mut closes = true;
        for &node in &path.active {
            if self.trees.child(node, self.symbolic).is_some() {
                break;
            }
            if self.reaches(node) {
                closes = false;
                break;
            }
        }
        if closes {
            let edges = [&path.edges[..], chain].concat();
            self.made(&edges)?;
            self.closed.push(Closed { edges, score: path.score });
        }
        for edge in &path.edges {
            if let Some(place) = self.pivotal.iter().position(|p| p == edge) {
                self.pivotal.remove(place);
            }
        }
        Ok(())
    }

    /// The only edge on; the repeat rule comes before the extension is made.
    fn go_on(&mut self, path: &Path, chain: &[Ends], edge: Ends) -> Result<(), Refusal> {
        if path.active.is_empty() && self.times(&path.edges, edge.0) > 1 {
            return Ok(());
        }
        let extended = self.extended(path, chain, edge, 0.0, Step::Free)?;
        self.push(extended)
    }

    /// All extensions of a fork are made, then those that repeat a vertex without guidance are dropped, then the others are pushed.
    fn fork(&mut self, path: &Path, chain: &[Ends], fork: Vertex, outs: &[Vertex]) -> Result<(), Refusal> {
        let mut made = Vec::new();
        for offer in self.offers(path, fork, outs) {
            let penalty = self.penalty(offer.count, offer.total)?;
            let step = if offer.guided { Step::Guided } else { Step::Unguided };
            made.push(self.extended(path, chain, offer.edge, penalty, step)?);
        }
        for extended in made {
            let last = self.last(&extended.edges);
            if extended.since == 0 || !extended.active.is_empty() || self.times(&extended.edges, last) <= 1 {
                self.push(extended)?;
            }
        }
        Ok(())
    }

    fn offers(&self, path: &Path, fork: Vertex, outs: &[Vertex]) -> Vec<Offer> {
        let mut offers: Vec<Offer> = Vec::new();
        for &node in &path.active {
            let total = self.trees.total(node);
            let real = |e: Ends| e.0 == fork && outs.contains(&e.1) && e != self.symbolic;
            let mut branches: Vec<(Ends, u32)> = self.trees.branches(node).into_iter().filter(|b| real(b.0)).collect();
            let at_threshold = self.reaches(node);
            if at_threshold {
                // The greatest count; of equals the larger edge.
                branches.sort_by_key(|&(edge, count)| (count, edge));
                branches = branches.last().copied().into_iter().collect();
            }
            for (edge, count) in branches {
                if offers.iter().all(|o| o.edge != edge) {
                    offers.push(Offer { edge, count, total, guided: true });
                }
            }
            if at_threshold {
                return offers;
            }
        }
        let edges: Vec<(Ends, Edge)> = outs.iter().map(|&to| ((fork, to), self.graph.edges[&(fork, to)])).collect();
        let total = edges.iter().map(|(_, e)| e.support).sum();
        for (ends, edge) in edges {
            if offers.iter().any(|o| o.edge == ends) || edge.support == 0 || is_ref_only(&edge) {
                continue;
            }
            offers.push(Offer { edge: ends, count: edge.support, total, guided: false });
        }
        offers
    }

    /// The path with its chain and one edge more. Every extension walks the active trees by its last edge.
    fn extended(&mut self, path: &Path, chain: &[Ends], edge: Ends, penalty: f64, step: Step) -> Result<Path, Refusal> {
        let edges = [&path.edges[..], chain, &[edge]].concat();
        self.made(&edges)?;
        let active: Vec<NodeId> = path.active.iter().filter_map(|&n| self.trees.child(n, edge)).filter(|&n| self.trees.has_branch(n)).collect();
        let since = if !active.is_empty() || step == Step::Guided {
            0
        } else if step == Step::Free {
            path.since
        } else {
            path.since + 1
        };
        Ok(Path { edges, score: path.score + penalty, active, visited: path.visited.clone(), since })
    }

    /// The path that a pivotal edge is recovered by: split from the best closed path through its vertex, whose score it keeps.
    fn recover(&mut self, edge: Ends) -> Result<(), Refusal> {
        let mut best: Option<&Closed> = None;
        for closed in &self.closed {
            let passes = edge.0 == self.source || closed.edges.iter().any(|e| e.1 == edge.0);
            if passes && best.is_none_or(|b| b.score <= closed.score) {
                best = Some(closed);
            }
        }
        let Some(best) = best else { return Ok(()) };
        let Some(entering) = best.edges.iter().rev().find(|e| e.1 == edge.0) else { return Ok(()) };
        let cut = best.edges.iter().position(|e| e == entering).expect("found above") + 1;
        let edges = [&best.edges[..cut], &[edge]].concat();
        let score = best.score;
        self.made(&edges)?;
        let mut visited = vec![self.source];
        visited.extend(edges.iter().map(|e| e.1));
        visited.retain(|&v| self.trees.root(v).is_some());
        self.push(Path { edges, score, active: Vec::new(), visited, since: 0 })
    }

    /// 11, where a path that is made has too many edges.
    fn made(&mut self, edges: &[Ends]) -> Result<(), Refusal> {
        self.met.path_edges = self.met.path_edges.max(edges.len() as u32);
        if edges.len() > self.input.search.path_edges as usize {
            return Err(11);
        }
        Ok(())
    }

    /// 12, where a push is beyond the maximum.
    fn push(&mut self, path: Path) -> Result<(), Refusal> {
        if self.waiting.pushes >= self.input.search.pushes {
            return Err(12);
        }
        self.waiting.push(path);
        Ok(())
    }

    /// The logarithm of the count less that of the total, each raised to at least 1; 10, where one has no place in the column.
    fn penalty(&mut self, count: u32, total: u32) -> Result<f64, Refusal> {
        if total == 0 {
            return Ok(0.0);
        }
        let column = &self.input.column;
        let (count, total) = (count.max(1), total.max(1));
        self.met.place = self.met.place.max(count).max(total);
        match (column.get(count as usize), column.get(total as usize)) {
            (Some(c), Some(t)) => Ok(c - t),
            _ => Err(10),
        }
    }

    fn reaches(&self, node: NodeId) -> bool {
        i64::from(self.trees.total(node)) >= i64::from(self.input.threshold)
    }

    fn last(&self, edges: &[Ends]) -> Vertex {
        edges.last().map_or(self.source, |e| e.1)
    }

    /// How often a vertex stands in a path.
    fn times(&self, edges: &[Ends], v: Vertex) -> usize {
        usize::from(v == self.source) + edges.iter().filter(|e| e.1 == v).count()
    }
}

fn is_ref_only(edge: &Edge) -> bool {
    edge.is_ref && edge.support == 1
}

/// The edges of forks but for reference edges of support 1, in the order in which a search by distance from the source, then by edge, meets them.
fn pivotal_edges(graph: &Graph, source: Vertex) -> Vec<Ends> {
    let mut pivotal = Vec::new();
    let mut seen: BTreeSet<Ends> = BTreeSet::new();
    let mut queue: BTreeSet<(u32, Ends)> = graph.outs(source).into_iter().map(|to| (0, (source, to))).collect();
    while let Some((distance, (_, v))) = queue.pop_first() {
        let outs = graph.outs(v);
        for &to in &outs {
            let edge = (v, to);
            if !seen.insert(edge) {
                continue;
            }
            if outs.len() > 1 && !is_ref_only(&graph.edges[&edge]) {
                pivotal.push(edge);
            }
            queue.insert((distance + 1, edge));
        }
    }
    pivotal
}

/// The list's order: falling score, then falling bases, then earlier closing.
pub fn list_order(a: (f64, &[u8], u32), b: (f64, &[u8], u32)) -> Ordering {
    b.0.partial_cmp(&a.0).expect("scores are numbers").then_with(|| b.1.cmp(a.1)).then_with(|| a.2.cmp(&b.2))
}
