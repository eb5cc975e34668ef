//! The allowance of pushes that always suffices.

/// No search over so many edges and tree nodes, under this maximum of path edges, pushes more. The greatest u128 where it does not fit one.
pub fn enough(edges: u32, nodes: u32, path_edges: u32) -> u128 {
    let decisions = path_edges.min(nodes.saturating_mul(3).saturating_add(6));
    let ways = 5u128.saturating_pow(decisions);
    let from_one_start = u128::from(path_edges).saturating_mul(ways).saturating_add(1);
    (1 + u128::from(edges)).saturating_mul(from_one_start)
}

/// Its logarithm to base 10, for those that do not fit.
pub fn enough_log10(edges: u32, nodes: u32, path_edges: u32) -> f64 {
    let decisions = f64::from(path_edges).min(3.0 * f64::from(nodes) + 6.0);
    (1.0 + f64::from(edges)).log10() + f64::from(path_edges).log10() + decisions * 5f64.log10()
}
