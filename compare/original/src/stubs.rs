//! Names that the original's files mention beyond themselves. Nothing here is reached.

/// Of `gatk_common`: the constructors that the files name.
#[derive(Debug, Clone)]
pub struct GatkError(pub String);

pub type GatkResult<T> = Result<T, GatkError>;

impl GatkError {
    pub fn algorithm(text: impl Into<String>) -> Self {
        Self(text.into())
    }

    pub fn memory(text: impl Into<String>) -> Self {
        Self(text.into())
    }

    pub fn invalid_argument(name: impl Into<String>, text: impl Into<String>) -> Self {
        Self(format!("{}: {}", name.into(), text.into()))
    }
}

/// Of `gatk_core`.
#[derive(Debug, Clone, Copy, PartialEq, Eq)]
pub struct MappingQuality(pub u8);

pub mod cigar {
    #[derive(Debug, Clone, Default)]
    pub struct Cigar;
}

pub mod genome_loc {
    #[derive(Debug, Clone, Copy, PartialEq, Eq)]
    pub struct GenomePosition(pub u64);
}

pub mod read_threading_graph {
    use super::GatkResult;
    use crate::assembly::{AssemblyGraph, AssemblyGraphParams, AssemblyRead};

    pub fn assembly_graph_from_reads_threading(_: &[AssemblyRead], _: &AssemblyGraphParams) -> GatkResult<AssemblyGraph> {
        unreachable!()
    }
}

pub mod assembly_pruning {
    use crate::assembly::{AssemblyGraph, AssemblyGraphPruningParams};

    pub fn apply_gatk_pruning(_: &mut AssemblyGraph, _: &AssemblyGraphPruningParams) -> u32 {
        unreachable!()
    }
}

pub mod read_threading_assembler {
    use super::GatkResult;
    use crate::assembly::AssemblyRead;

    #[derive(Default)]
    pub struct ReadThreadingAssemblerArgs {
        pub kmer_sizes: Vec<usize>,
        pub min_base_quality: u8,
        pub min_prune_factor: u32,
        pub num_best_haplotypes_per_graph: usize,
    }

    pub struct Haplotype {
        pub bases: Vec<u8>,
        pub score: f64,
    }

    pub struct Assembled {
        pub haplotypes: Vec<Haplotype>,
    }

    pub fn assemble_from_ref_and_reads(_: &AssemblyRead, _: &[AssemblyRead], _: &ReadThreadingAssemblerArgs) -> GatkResult<Assembled> {
        unreachable!()
    }
}

pub mod runtime_config {
    pub fn rss_trace_checkpoint(_: &str, _: &str) {
        unreachable!()
    }

    pub fn hc_rss_abort_triggered() -> bool {
        unreachable!()
    }

    pub fn hc_rss_limit_exceeded_message() -> String {
        unreachable!()
    }
}
