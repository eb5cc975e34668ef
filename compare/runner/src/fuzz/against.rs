//! The model against the original: edges, supports, marks, trees, list; pushes, closing numbers and longest waiting list against the patched copies.

use super::generate::Input;
use super::Counts;
use crate::answers::cut;
use model::{GraphRows, Listed, Refusal, Sample};
use original::{patched, unchanged, AssemblyRead, Rows, Told};

/// Above this many read bases, a sample refused for its size is left to the model: the original's walks over large trees are cubic.
const MOST_BASES_OF_LARGE_GRAPHS: usize = 6000;
const MOST_BASES_OF_LARGE_TREES: usize = 1500;

/// Up to this many bases, each origin is looked for in all sequences.
const MOST_BASES_SEARCHED: usize = 600;

fn equal<T: PartialEq + std::fmt::Debug>(what: &str, model: &T, original: &T) -> Result<(), String> {
    if model == original {
        return Ok(());
    }
    Err(format!("{what}\nmodel    {}\noriginal {}", cut(model), cut(original)))
}

pub fn reads_of(s: &Sample) -> Vec<AssemblyRead> {
    let read = |r: std::ops::Range<usize>| AssemblyRead { bases: s.bases[r.clone()].to_vec(), base_quals: s.qualities[r].to_vec() };
    s.reads().into_iter().map(read).collect()
}

/// `graph` and `list` are the model's at the greatest maxima.
pub fn original(input: &Input, graph: &Result<GraphRows, Refusal>, list: &Result<Listed, Refusal>, counts: &mut Counts) -> Result<(), String> {
    let s = &input.sample;
    let too_large = match graph {
        Ok(_) => false,
        Err(8) => s.bases.len() > MOST_BASES_OF_LARGE_GRAPHS,
        Err(9) => s.bases.len() > MOST_BASES_OF_LARGE_TREES,
        Err(_) => return Ok(()),
    };
    if too_large {
        counts.compared("not: sizes far beyond the limits");
        return Ok(());
    }
    let reads = reads_of(s);
    let copy = patched::build(s.k as usize, s.quality, &s.reference, &reads);
    let rows = copy.rows();
    let rows = match graph {
        Ok(model) => {
            same_rows(model, &rows)?;
            model
        }
        Err(number) => {
            let beyond = rows.vertices > 4096 || rows.edges.len() > 8192;
            equal("8 or 9 at the greatest maxima", number, if beyond { &8 } else { &9 })?;
            counts.compared("sizes beyond the limits");
            return equal("nodes beyond their limit", &true, &(beyond || rows.nodes.len() > 16384));
        }
    };
    if s.bases.len() + s.reference.len() <= MOST_BASES_SEARCHED {
        first_origins(s, rows, &copy.kmers())?;
        counts.compared("origins searched for");
    }

    let kept = unchanged::build(s.k as usize, s.quality, &s.reference, &reads);
    let all_have_edges = every_vertex_has_an_edge(rows);
    if all_have_edges {
        same_rows(rows, &kept.rows())?;
        counts.compared("graphs with the original");
    } else {
        counts.compared("graphs with the copy without renumbering");
    }
    // Paths or a column outside their limits; a search beyond the limits, which the original would go on with.
    let (paths, threshold, recover) = (input.paths as usize, input.threshold, input.recover);
    match list {
        Err(11 | 12) => {
            counts.compared("not: searches beyond the limits");
            Ok(())
        }
        Err(10) => {
            counts.compared("places missing in the column");
            equal("a place is missing", &true, &copy.list(paths, threshold, recover, &input.column).place_missing)
        }
        Err(_) => Ok(()),
        Ok(listed) => {
            let told = copy.list(paths, threshold, recover, &input.column);
            same_list(listed, &told)?;
            if all_have_edges && input.is_log10 {
                counts.compared("lists with the original");
                equal("the list of the original", &told.paths, &kept.list(paths, threshold, recover))
            } else {
                counts.compared("lists with the copy only");
                Ok(())
            }
        }
    }
}

fn same_rows(model: &GraphRows, original: &Rows) -> Result<(), String> {
    let edges: Vec<[u32; 4]> = model.edges.iter().map(|e| [e[0], e[1], e[2], e[3]]).collect();
    equal("vertices", &(model.vertices as usize), &original.vertices)?;
    equal("edges", &edges, &original.edges)?;
    equal("nodes", &model.nodes, &original.nodes)
}

fn every_vertex_has_an_edge(rows: &GraphRows) -> bool {
    let mut has = vec![false; rows.vertices as usize];
    for edge in &rows.edges {
        has[edge[0] as usize] = true;
        has[edge[1] as usize] = true;
    }
    has.iter().all(|&h| h)
}

fn same_list(model: &Listed, told: &Told) -> Result<(), String> {
    type PathTold = (u64, Vec<(usize, usize)>, Vec<u8>, bool, usize);
    let ends = |ends: &[(u32, u32)]| ends.iter().map(|e| (e.0 as usize, e.1 as usize)).collect();
    let ours: Vec<PathTold> = model.rows.iter().map(|r| (r.score.to_bits(), ends(&r.ends), r.bases.clone(), r.is_ref, r.closing as usize)).collect();
    let theirs: Vec<PathTold> =
        told.paths.iter().zip(&told.closings).map(|(p, &c)| (p.score, p.edges.clone(), p.bases.clone(), p.is_ref, c)).collect();
    equal("a place is missing", &false, &told.place_missing)?;
    equal("the list", &ours, &theirs)?;
    equal("pushes", &(model.pushes as usize), &told.pushes)?;
    equal("longest", &(model.longest as usize), &told.longest)
}

/// Each edge's origin is the first place, in the reference and then in the reads, where its k+1 bytes stand within a usable stretch.
fn first_origins(s: &Sample, rows: &GraphRows, kmers: &[Vec<u8>]) -> Result<(), String> {
    let k = s.k as usize;
    let usable = |i: usize| b"ACGTN".contains(&s.bases[i]) && s.qualities[i] >= s.quality;
    let mut sequences: Vec<(&[u8], Vec<bool>)> = vec![(&s.reference, vec![true; s.reference.len()])];
    for read in s.reads() {
        sequences.push((&s.bases[read.clone()], read.map(usable).collect()));
    }
    let symbolic = rows.vertices - 1;
    for edge in &rows.edges {
        let found = if edge[1] == symbolic {
            (0, s.reference.len() - k)
        } else {
            let mut bytes = kmers[edge[0] as usize].clone();
            bytes.push(*kmers[edge[1] as usize].last().expect("a kmer is not empty"));
            let stands = |sequence: &[u8], usable: &[bool]| {
                (0..(sequence.len() + 1).saturating_sub(k + 1)).find(|&i| sequence[i..=i + k] == bytes[..] && usable[i..=i + k].iter().all(|&u| u))
            };
            let mut places = sequences.iter().enumerate().filter_map(|(n, (sequence, usable))| stands(sequence, usable).map(|place| (n, place)));
            places.next().ok_or_else(|| format!("the edge {edge:?} stands nowhere"))?
        };
        equal("the origin of an edge", &(edge[4] as usize, edge[5] as usize), &found)?;
    }
    Ok(())
}
